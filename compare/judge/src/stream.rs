//! The stream of cases (compare/README.md): a tag, a mask, the words that are new, a name, an image.
use crate::file_info::FileInfo;
use std::io::{BufReader, Read};

pub const IMAGE_MOST: usize = 524_288;
pub const NAME_MOST: usize = 65_536;
pub const ROOM_MOST: usize = 262_144;
pub const DATA_MOST: usize = 65_536;
pub const WIDE_MOST: usize = 8_192;
pub const CELL_MOST: usize = 524_288;
const PATCH: u8 = 100;
const LENGTH: u8 = 101;

pub struct Case { pub tag: u8, pub a: u32, pub b: u32, pub c: u32, pub d: u32, pub e: u32, pub name: Vec<u8> }

/// Reads the cases one by one. The image of the case at hand is `file.buffer`; what stood behind it is kept, since a
/// later case may set a greater length.
pub struct Cases<R: Read> { input: BufReader<R>, words: [u32; 5], name: Vec<u8>, behind: Vec<u8>, pub file: FileInfo }

fn bad(why: &str) -> ! {
    eprintln!("a bad case in the stream: {why}");
    std::process::exit(2)
}

impl<R: Read> Cases<R> {
    pub fn new(input: R) -> Self {
        let file = FileInfo { hbin_offset_absolute: 0, buffer: Vec::with_capacity(IMAGE_MOST) };
        Self { input: BufReader::with_capacity(1 << 16, input), words: [0; 5], name: vec![], behind: vec![0; IMAGE_MOST], file }
    }

    fn bytes(&mut self, n: usize) -> Vec<u8> {
        let mut v = vec![0; n];
        if self.input.read_exact(&mut v).is_err() { bad("it is cut short"); }
        v
    }

    fn word(&mut self) -> u32 { u32::from_le_bytes(self.bytes(4).try_into().unwrap()) }

    /// Bytes over the image, and over what is kept behind it.
    fn put(&mut self, at: usize, v: &[u8]) {
        if at + v.len() > IMAGE_MOST { bad("a patch past the end"); }
        self.behind[at..at + v.len()].copy_from_slice(v);
        let n = self.file.buffer.len();
        if at < n {
            let m = v.len().min(n - at);
            self.file.buffer[at..at + m].copy_from_slice(&v[..m]);
        }
    }

    fn length(&mut self, n: usize) {
        if n > IMAGE_MOST { bad("an image too long"); }
        self.file.buffer.clear();
        self.file.buffer.extend_from_slice(&self.behind[..n]);
    }

    pub fn next(&mut self) -> Option<Case> {
        loop {
            let mut tag = [0u8; 1];
            if self.input.read(&mut tag).expect("standard input") == 0 { return None; }
            let mask = self.bytes(1)[0];
            if mask > 127 { bad("a mask"); }
            for i in 0..5 { if mask >> i & 1 == 1 { self.words[i] = self.word(); } }
            let m = if mask & 32 != 0 { Some(self.word() as usize) } else { None };
            let n = if mask & 64 != 0 { Some(self.word() as usize) } else { None };
            if let Some(m) = m {
                if m > NAME_MOST { bad("a name too long"); }
                self.name = self.bytes(m);
            }
            if let Some(n) = n {
                if n > IMAGE_MOST { bad("an image too long"); }
                let image = self.bytes(n);
                self.put(0, &image);
                self.length(n);
            }
            let [a, b, c, d, e] = self.words;
            match tag[0] {
                PATCH => { let v = self.name.clone(); self.put(a as usize, &v) }
                LENGTH => self.length(a as usize),
                tag => {
                    if matches!(tag, 4 | 13) && d as usize > ROOM_MOST || matches!(tag, 5 | 14 | 16 | 30..=32 | 38) && e as usize > ROOM_MOST
                        || matches!(tag, 21 | 22) && e as usize > DATA_MOST || tag == 24 && e as usize > WIDE_MOST
                        || matches!(tag, 35..=37 | 41 | 42) && e as usize > CELL_MOST { bad("room"); }
                    return Some(Case { tag, a, b, c, d, e, name: if tag == 8 { self.name.clone() } else { vec![] } });
                }
            }
        }
    }
}
