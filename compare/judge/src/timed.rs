//! How long the supplied `parse_sub_key_list` takes for the root of a hive, called again and again in this process.
use crate::cell_key_node::CellKeyNode;
use crate::file_info::FileInfo;
use crate::state::State;
use std::hint::black_box;
use std::time::Instant;

/// Prints the offsets' number and their sum, then the least time and the median in nanoseconds.
pub fn list(hive: &str, turns: usize) {
    let file = FileInfo { hbin_offset_absolute: 4096, buffer: std::fs::read(hive).unwrap() };
    let word = |at: usize| u32::from_le_bytes(file.buffer[at..at + 4].try_into().unwrap());
    let list = word(word(36) as usize + 4096 + 32);
    let (mut state, mut told, mut times) = (State::default(), vec![], vec![]);
    for _ in 0..turns {
        let t = Instant::now();
        told = CellKeyNode::parse_sub_key_list(black_box(&file), &mut state, black_box(list)).unwrap();
        times.push(t.elapsed().as_nanos());
    }
    times.sort();
    println!("{} {} {} {}", told.len(), told.iter().map(|&x| x as u64).sum::<u64>(), times[0], times[turns / 2]);
}
