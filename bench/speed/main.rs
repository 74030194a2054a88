//! Times the checksum and the walk in Rattle (linked from libspeed.a) and in plain Rust, over the same slices, in one process.
mod cases;
mod plain;
mod sums;
mod variants;

use cases::{random_case, wide_case, Case, Random, Row};
use std::hint::black_box;
use std::time::Instant;

type Walk = unsafe extern "C" fn(*const u8, usize, u32, u32, u32, u32, *mut u32, usize, *mut [u64; 5]) -> u32;
type Sum = unsafe extern "C" fn(*const u8, usize) -> u32;

extern "C" {
    fn speed_checksum(bytes: *const u8, len: usize) -> u32;
    fn speed_walk(image: *const u8, len: usize, base: u32, count: u32, list: u32, budget: u32, out: *mut u32, places: usize, told: *mut [u64; 5]) -> u32;
}

/// A walk in Rust behind the same signature as the one in Rattle, so that both are called alike.
macro_rules! exported {
    ($name:ident, $walk:path) => {
        unsafe extern "C" fn $name(image: *const u8, len: usize, base: u32, count: u32, list: u32, budget: u32, out: *mut u32, places: usize, told: *mut [u64; 5]) -> u32 {
            let (image, out) = unsafe { (std::slice::from_raw_parts(image, len), std::slice::from_raw_parts_mut(out, places)) };
            let told = unsafe { &mut *told };
            match $walk(image, base, count, list, budget, out) {
                Ok(c) => {
                    *told = [0, c.lists as u64, c.entries as u64, c.kept as u64, (c.entries - c.kept) as u64];
                    0
                }
                Err(r) => {
                    *told = [r.position as u64, r.lists as u64, r.entries as u64, r.places as u64, (r.entries - r.places) as u64];
                    r.number
                }
            }
        }
    };
}

exported!(plain_walk, plain::sub_keys);
exported!(direct, variants::direct);
exported!(by_leaf, variants::by_leaf);
exported!(sixteen, variants::sixteen);
exported!(recursive, variants::recursive);
exported!(two_walks, variants::two_walks);

/// A checksum in Rust behind the same signature as the one in Rattle: 0 for a refusal.
macro_rules! exported_sum {
    ($name:ident, $sum:path) => {
        unsafe extern "C" fn $name(bytes: *const u8, len: usize) -> u32 {
            $sum(unsafe { std::slice::from_raw_parts(bytes, len) }).unwrap_or(0)
        }
    };
}

exported_sum!(plain_checksum, plain::checksum);
exported_sum!(four_loops, sums::four_loops);
exported_sum!(sum_rows, sums::rows);
exported_sum!(lines_of_16, sums::lines_of_16);
exported_sum!(lines_of_64, sums::lines_of_64);
exported_sum!(sheet, sums::sheet);

const VARIANTS: [(&str, Walk); 5] =
    [("direct", direct), ("by leaf", by_leaf), ("sixteen", sixteen), ("recursive", recursive), ("two walks", two_walks)];
const SUMS: [(&str, Sum); 7] = [
    ("Rattle", speed_checksum),
    ("plain", plain_checksum),
    ("four loops", four_loops),
    ("rows", sum_rows),
    ("lines of 16", lines_of_16),
    ("lines of 64", lines_of_64),
    ("sheet", sheet),
];

impl Case {
    fn call(&self, walk: Walk, out: &mut [u32], told: &mut [u64; 5]) -> u32 {
        let (image, out) = (black_box(&self.image[..]), black_box(out));
        unsafe { walk(image.as_ptr(), image.len(), self.base, self.count, self.list, self.budget, out.as_mut_ptr(), out.len(), told) }
    }

    /// The answers of Rattle and of every walk in Rust are the same, and so are the buffers after them. Gives the number.
    fn compare(&self, places: usize, old: u32) -> (u32, [u64; 5]) {
        let (mut first, mut second) = (vec![old; places], vec![old; places]);
        let mut told = [u64::MAX; 5];
        let number = self.call(speed_walk, &mut first, &mut told);
        for (name, walk) in VARIANTS.iter().chain(&[("plain", plain_walk as Walk)]) {
            let mut also = [u64::MAX; 5];
            second.fill(old);
            let n = self.call(*walk, &mut second, &mut also);
            assert_eq!((number, told), (n, also), "answers differ: {name}");
            assert!(first == second, "buffers differ: {name}");
        }
        assert!(number == 0 || first.iter().all(|x| *x == old), "a refusal wrote");
        (number, told)
    }
}

/// A row, with the places that its answer takes, and the times of each walk.
struct Timed {
    row: Row,
    places: usize,
    turns: usize,
    times: Vec<Vec<f64>>,
}

impl Timed {
    fn new(row: Row, turns: usize) -> Timed {
        let places = row.case.compare(0, 7).1[3] as usize;
        let (number, told) = row.case.compare(places + 3, 5);
        assert_eq!((number, told[3] as usize), (0, places), "{}", row.name);
        let turns = if places > 1_000_000 { many(turns) } else { turns };
        Timed { row, places, turns, times: Vec::new() }
    }
}

/// The turns of a row with over 1,000,000 entries.
fn many(turns: usize) -> usize {
    (turns / 8).max(3).div_ceil(10) * 10
}

fn compare_random(rounds: usize) {
    let mut r = Random(20_240_229);
    let mut seen = [0usize; 16];
    let mut dropped = 0;
    for _ in 0..rounds {
        let (case, places) = random_case(&mut r);
        let (number, told) = case.compare(places, 0xdead_beef);
        seen[number as usize] += 1;
        dropped += (number == 0 && told[4] > 0) as usize;
    }
    let mut wide = [0usize; 3];
    for _ in 0..rounds / 10 {
        let (case, places) = wide_case(&mut r);
        let (number, told) = case.compare(places, 0xdead_beef);
        wide[match number { 0 => (told[4] > 0) as usize, _ => 2 }] += 1;
    }
    let mut sums = [0usize; 4];
    for i in 0..rounds {
        let mut bytes: Vec<u8> = (0..500 + r.below(20)).map(|_| r.0 as u8 ^ r.below(256) as u8).collect();
        if i % 4 == 0 && bytes.len() >= 508 {
            // the last word is made such that the sum is 0, or FFFFFFFF
            let x = bytes[..504].chunks(4).fold(0, |x, w| x ^ u32::from_le_bytes(w.try_into().unwrap()));
            bytes[504..508].copy_from_slice(&(if i % 8 == 0 { x } else { !x }).to_le_bytes());
        }
        let all = SUMS.map(|(_, sum)| unsafe { sum(bytes.as_ptr(), bytes.len()) });
        assert_eq!(all, [all[0]; SUMS.len()], "checksums differ");
        sums[match all[0] { 0 => 0, 1 => 1, 0xffff_fffe => 2, _ => 3 }] += 1;
    }
    let told: Vec<String> = [2, 4, 7, 8, 9, 13, 14, 15].iter().map(|n| format!("{n}: {}", seen[*n])).collect();
    println!("Answers and buffers alike on {rounds} small images: {} successes, {dropped} of them with entries dropped; refusals {}.", seen[0], told.join(", "));
    println!("Alike on {} with long lists: {} with no entry dropped, {} with some, {} refused.", rounds / 10, wide[0], wide[1], wide[2]);
    println!("Checksums alike on {rounds} slices: refused {}, mended to 1 {}, to FFFFFFFE {}, others {}.", sums[0], sums[1], sums[2], sums[3]);
    assert!([0, 2, 4, 7, 8, 9, 13, 14, 15].iter().all(|n| seen[*n] > 20) && dropped > 20 && sums.iter().chain(&wide).all(|n| *n > 20), "not all is reached");
}

/// Who is the k-th in a turn: another is the first every second turn, and every other turn goes backwards, so that each comes behind each alike.
fn turn_of(k: usize, turn: usize, many: usize) -> usize {
    let at = (k + turn / 2) % many;
    if turn % 2 == 0 { at } else { many - 1 - at }
}

fn time_row(row: &mut Timed, walks: &[Walk], turns: usize, buffer: &mut [u32]) {
    // a small row is called many times in one timing, each call with places of its own
    let calls = (4096 / row.places.max(1)).clamp(1, 256);
    row.times.resize(walks.len(), Vec::new());
    let mut told = [0; 5];
    // the first turn finds the image in no cache and is not counted
    for turn in 0..=turns {
        for k in 0..walks.len() {
            let who = turn_of(k, turn, walks.len());
            let out = black_box(&mut buffer[..calls * row.places]);
            out.fill(0);
            let t = Instant::now();
            for part in out.chunks_exact_mut(row.places) {
                black_box(row.row.case.call(walks[who], part, &mut told));
            }
            let time = t.elapsed().as_secs_f64() * 1e9 / calls as f64;
            if turn > 0 {
                row.times[who].push(time);
            }
        }
    }
}

fn time_sum(times: &mut [Vec<f64>], sums: &[Sum], turns: usize, image: &[u8]) {
    for turn in 0..turns {
        for k in 0..sums.len() {
            let who = turn_of(k, turn, sums.len());
            let t = Instant::now();
            for _ in 0..256 {
                let b = black_box(image);
                black_box(unsafe { sums[who](b.as_ptr(), b.len()) });
            }
            times[who].push(t.elapsed().as_secs_f64() * 1e9 / 256.0);
        }
    }
}

/// The least and the median.
fn two(times: &mut [f64]) -> (f64, f64) {
    times.sort_by(f64::total_cmp);
    (times[0], times[times.len() / 2])
}

fn show(ns: f64) -> String {
    match ns {
        x if x < 1e3 => format!("{x:.1} ns"),
        x if x < 1e6 => format!("{:.2} us", x / 1e3),
        x => format!("{:.2} ms", x / 1e6),
    }
}

/// Rattle, the Rust of `plain.rs`, and the direct Rust where there is one.
fn line(name: &str, times: &mut [Vec<f64>]) {
    let all: Vec<(f64, f64)> = times.iter_mut().map(|t| two(t)).collect();
    let (rattle, rust) = (all[0], all[1]);
    print!(
        "| {name} | {} / {} | {} / {} | {:.2} | {:.2} |",
        show(rattle.0), show(rattle.1), show(rust.0), show(rust.1), rattle.0 / rust.0, rattle.1 / rust.1
    );
    match all.get(2) {
        Some(direct) => println!(" {} / {} | {:.2} |", show(direct.0), show(direct.1), rattle.0 / direct.0),
        None => println!(" | |"),
    }
}

fn sum_image() -> Vec<u8> {
    (0..4096u32).map(|i| (i * 167 >> 3) as u8).collect()
}

unsafe extern "C" fn no_walk(_: *const u8, _: usize, _: u32, _: u32, _: u32, _: u32, _: *mut u32, _: usize, _: *mut [u64; 5]) -> u32 {
    0
}

unsafe extern "C" fn no_sum(_: *const u8, _: usize) -> u32 {
    0
}

/// Instructions a call, under the emulator: its plugin writes how many have been executed to a file whenever the process asks for its
/// own number. What a call of a function that does nothing takes is taken off.
fn count(rows: &[Timed], file: &str) {
    const CALLS: u64 = 4;
    let now = || {
        let _ = std::process::id();
        u64::from_le_bytes(std::fs::read(file).unwrap().try_into().unwrap())
    };
    let each = |call: &mut dyn FnMut()| {
        call();
        let before = now();
        for _ in 0..CALLS {
            call();
        }
        now() - before
    };
    each(&mut || ()); // what is done once in a process is done
    let show = |name: &str, all: &[u64]| {
        assert!(all.iter().all(|x| (x - all[0]) % CALLS == 0), "{name}: not every call takes the same");
        let n: Vec<u64> = all[1..].iter().map(|x| (x - all[0]) / CALLS).collect();
        let direct = n.get(2).map_or(String::from(" |"), |d| format!("{d} | {:.2}", n[0] as f64 / *d as f64));
        println!("| {name} | {} | {} | {:.2} | {direct} |", n[0], n[1], n[0] as f64 / n[1] as f64);
    };
    println!("x86-64 instructions a call.\n\n| row | Rattle | Rust | ratio | direct Rust | ratio |\n|---|---|---|---|---|---|");
    let image = sum_image();
    let sums = [no_sum as Sum, speed_checksum, plain_checksum].map(|sum| {
        each(&mut || {
            let (sum, b) = (black_box(sum), black_box(&image[..]));
            black_box(unsafe { sum(b.as_ptr(), b.len()) });
        })
    });
    show("checksum of 508 bytes", &sums);
    for row in rows.iter().filter(|r| r.places < 100_000) {
        let (mut out, mut told) = (vec![0; row.places], [0; 5]);
        let all = [no_walk as Walk, speed_walk, plain_walk, direct].map(|walk| {
            each(&mut || {
                black_box(row.row.case.call(black_box(walk), &mut out, &mut told));
            })
        });
        show(&row.row.name, &all);
    }
}

fn main() {
    let words: Vec<String> = std::env::args().skip(1).collect();
    let turns: usize = words.iter().find_map(|w| w.parse().ok()).unwrap_or(400);
    let files: Vec<String> = words.iter().filter(|w| w.ends_with(".hive")).cloned().collect();
    compare_random(20_000);
    let mut rows: Vec<Timed> = cases::rows().into_iter().chain(cases::hives(&files)).map(|row| Timed::new(row, turns)).collect();
    println!("Answers and buffers alike in every row.\n");
    if let Some(file) = words.iter().find_map(|w| w.strip_prefix("counts=")) {
        return count(&rows, file);
    }
    let variants = words.iter().any(|w| w == "variants");
    let walks: Vec<Walk> = if variants {
        [plain_walk as Walk].into_iter().chain(VARIANTS.iter().map(|v| v.1)).collect()
    } else {
        vec![speed_walk, plain_walk, direct]
    };
    let mut buffer = vec![0u32; rows.iter().map(|r| r.places).max().unwrap().max(4096)];
    let which: Vec<Sum> = SUMS.iter().take(if variants { SUMS.len() } else { 2 }).map(|s| s.1).collect();
    let mut sums = vec![Vec::new(); which.len()];
    let image = sum_image();
    // the rows take turns in ten rounds, so that a moment in which the machine is busy falls on all of them alike
    for _ in 0..10 {
        time_sum(&mut sums, &which, turns.div_ceil(10), &image);
        for row in rows.iter_mut() {
            let n = row.turns.div_ceil(10);
            time_row(row, &walks, n, &mut buffer);
        }
    }
    if variants {
        let least: Vec<String> = sums.iter_mut().map(|t| show(two(t).0)).collect();
        println!("Least times.\n\n| row | {} |\n|---|{}", SUMS.map(|s| s.0).join(" | "), "---|".repeat(SUMS.len()));
        println!("| checksum of 508 bytes | {} |\n", least.join(" | "));
        let names: Vec<&str> = ["plain"].into_iter().chain(VARIANTS.iter().map(|v| v.0)).collect();
        println!("| row | {} |\n|---|{}", names.join(" | "), "---|".repeat(names.len()));
        for row in rows.iter_mut() {
            let least: Vec<String> = row.times.iter_mut().map(|t| show(two(t).0)).collect();
            println!("| {} | {} |", row.row.name, least.join(" | "));
        }
        return;
    }
    println!("Least / median of {turns} turns, of {} in the rows with over 1,000,000 entries.\n", many(turns));
    println!("| row | Rattle | Rust | ratio of least | of medians | direct Rust | ratio of least |\n|---|---|---|---|---|---|---|");
    line("checksum of 508 bytes", &mut sums);
    for row in rows.iter_mut() {
        line(&row.row.name, &mut row.times);
    }
    println!("\nGrowth, in ns an entry at the least:\n\n| row | Rattle | Rust | direct Rust |\n|---|---|---|---|");
    for row in rows.iter_mut().filter(|r| r.row.growth) {
        let each: Vec<String> = row.times.iter_mut().map(|t| format!("{:.2}", two(t).0 / row.places as f64)).collect();
        println!("| {} | {} |", row.row.name, each.join(" | "));
    }
}
