//! Writes a stream of cases (compare/README.md):
//!   cases fixed > CASES                 boundaries, and short inputs exhaustively
//!   cases hives SEED FILE.. > CASES     hives: all their records and lists, cuts and damaged copies
//!   cases stored SEED FILE.. > CASES    a share of all of these, to be kept in the repository
//!   cases stored-parts SEED FILE.. > CASES   the same of bins as they arrive, with each stored case of the whole check cut in parts, of
//!                                       the strict profile, of lists written anew, of totals beside the keys, and of records that know their place
//!   cases stored-listings SEED FILE.. > CASES   the same of listings of a key's subkeys
//!   cases stored-rust SEED MARKS FILE.. > CASES   the same of what the Rust has; MARKS: a file with a 1 for each case to keep, 0
//!                                       for each other, or `-` to keep all
//!   cases SEED ROUNDS > CASES           random images rich in plausible lists and records, and damaged ones
//!   cases strict SEED ROUNDS > CASES    of the fixed and of the random ones those about the strict profile alone
//!   cases conversion SEED ROUNDS > CASES   the same of those about lists written anew
//!   cases place SEED ROUNDS > CASES     the same of those about totals beside the keys and about records that know their place
//!   cases listing SEED ROUNDS > CASES   the same of those about listings
//! Same words, same bytes. Uses nothing of the Rust that is tested, and no reading of the paper, but that it goes through lists plainly to make listings
//! that are right; no answer is judged by that.
use std::io::{BufWriter, Write};

// ---- numbers from a seed

struct Rng(u64);
impl Rng {
    fn next(&mut self) -> u64 {
        self.0 = self.0.wrapping_add(0x9e3779b97f4a7c15);
        let mut z = self.0;
        z = (z ^ (z >> 30)).wrapping_mul(0xbf58476d1ce4e5b9);
        z = (z ^ (z >> 27)).wrapping_mul(0x94d049bb133111eb);
        z ^ (z >> 31)
    }
    fn below(&mut self, n: u64) -> u64 { self.next() % n }
    fn range(&mut self, a: usize, b: usize) -> usize { a + self.below((b - a + 1) as u64) as usize }
    fn pick<T: Copy>(&mut self, v: &[T]) -> T { v[self.below(v.len() as u64) as usize] }
    fn chance(&mut self, of: u64) -> bool { self.below(of) == 0 }
    fn bytes(&mut self, n: usize) -> Vec<u8> { (0..n).map(|_| self.next() as u8).collect() }
    fn word(&mut self) -> u32 {
        match self.below(6) {
            0 => self.pick(&[0, 1, 2, 7, 8, 0x7fffffff, 0x80000000, 0xfffffffe, 0xffffffff, 4096, 1 << 20, (1 << 20) + 1]),
            1 => self.below(256) as u32,
            2 => self.below(65536) as u32,
            _ => self.next() as u32,
        }
    }
}

// ---- the stream

const IMAGE_MOST: usize = 524_288;
/// one more than the greatest tag of a case
const TAGS: usize = 43;
const ENOUGH: u32 = 1024;
/// the greatest room for a value's data, and the bytes of it in one cell or one segment
const DATA_MOST: u32 = 65_536;
const SEGMENT: u32 = 16_344;
const BUDGET: u32 = 65536;
/// the greatest room for deleted keys, more than any image has
const WIDE_MOST: u32 = 8192;
/// the greatest room for a cell: that of an `lh` list of 65,535 entries
const CELL_MOST: u32 = 524_288;

/// Writes a stream. What a case needs of words, name and image is held against what the stream's reader has by then, and only
/// the difference is written: of the image, patches and a length where these are shorter than the whole.
struct Out<W: Write> {
    to: W,
    words: [u32; 5],
    name: Vec<u8>,
    has: Vec<u8>,
    has_length: usize,
    want: Vec<u8>,
    want_length: usize,
    changed: std::ops::Range<usize>,
    /// of each tag one case in so many is taken (0: none), and of these, where a list is given, those that it marks
    one_in: [u64; TAGS],
    pick: Rng,
    marked: Option<Vec<u8>>,
    taken: usize,
    /// the words of the last walk whose counts were asked for, while the image stays
    counted: Option<[u32; 4]>,
    /// the cases that were to be asked for once while the image stays
    asked: Vec<(u8, Vec<u32>)>,
    /// of the value records of hives, the data of one in so many is asked for
    data_one_in: usize,
    records: usize,
    /// where the whole check's cases are to be cut in parts later: of each its base and bins size, and as many of the bins' bytes as there are
    checked: Option<Vec<Checked>>,
    cases: u64,
}
type Checked = (u32, u32, Vec<u8>);
impl<W: Write> Out<W> {
    fn new(to: W, one_in: [u64; TAGS], seed: u64) -> Self {
        let none = vec![0; IMAGE_MOST];
        Out { to, words: [0; 5], name: vec![], has: none.clone(), has_length: 0, want: none, want_length: 0, changed: 0..0, one_in, pick: Rng(seed), marked: None, taken: 0, counted: None, asked: vec![], data_one_in: 1, records: 0, checked: None, cases: 0 }
    }
    fn put(&mut self, tag: u8, words: [u32; 5], name: Option<&[u8]>, image: Option<&[u8]>) {
        let mut mask = 0u8;
        let mut body = Vec::new();
        for i in 0..5 { if words[i] != self.words[i] { mask |= 1 << i; body.extend(words[i].to_le_bytes()); } }
        self.words = words;
        for (bit, bytes) in [(32, name), (64, image)] {
            if let Some(b) = bytes { mask |= bit; body.extend((b.len() as u32).to_le_bytes()); }
        }
        self.to.write_all(&[tag, mask]).unwrap();
        self.to.write_all(&body).unwrap();
        for b in [name, image].into_iter().flatten() { self.to.write_all(b).unwrap(); }
        if let Some(b) = name { self.name = b.to_vec(); }
    }
    /// Runs of the image's bytes that the reader does not have yet; those that lie close together as one.
    fn runs(&self) -> Vec<(usize, usize)> {
        let mut runs: Vec<(usize, usize)> = vec![];
        for at in self.changed.start..self.changed.end.min(self.want_length) {
            if self.has[at] != self.want[at] {
                match runs.last_mut() {
                    Some(r) if at - r.1 < 10 && at - r.0 < 65000 => r.1 = at + 1,
                    _ => runs.push((at, at + 1)),
                }
            }
        }
        runs
    }
    fn written(&mut self, tag: u8, words: [u32; 5], name: Option<&[u8]>) {
        let runs = self.runs();
        let other = self.want_length != self.has_length;
        let patches: usize = runs.iter().map(|r| 10 + r.1 - r.0).sum::<usize>() + if other { 6 } else { 0 };
        let mut image = None;
        let (want, n) = (std::mem::take(&mut self.want), self.want_length);
        if patches <= 6 + n {
            for &(from, to) in &runs {
                let mut w = self.words;
                w[0] = from as u32;
                self.put(100, w, Some(&want[from..to]), None);
                self.has[from..to].copy_from_slice(&want[from..to]);
            }
            if other { let mut w = self.words; w[0] = n as u32; self.put(101, w, None, None); }
        } else {
            image = Some(&want[..n]);
            self.has[..n].copy_from_slice(&want[..n]);
        }
        self.changed = self.changed.start.max(n)..self.changed.end.max(n);
        self.has_length = n;
        let name = name.filter(|b| *b != self.name);
        self.put(tag, words, name, image);
        self.want = want;
        self.cases += 1;
    }
    fn takes(&mut self, tag: u8) -> bool {
        let one_in = self.one_in[tag as usize];
        if one_in == 0 || one_in > 1 && !self.pick.chance(one_in) { return false; }
        self.taken += 1;
        self.marked.as_ref().is_none_or(|m| m[self.taken - 1] == b'1')
    }
    fn bytes(&mut self, at: usize, bytes: &[u8]) {
        let end = at + bytes.len();
        self.counted = None;
        self.asked.clear();
        self.want[at..end].copy_from_slice(bytes);
        self.changed = if self.changed.is_empty() { at..end } else { self.changed.start.min(at)..self.changed.end.max(end) };
    }
    /// A case with its words; what it does not use stays as it was. Whether it is taken.
    fn case(&mut self, tag: u8, words: &[u32], image: Option<&[u8]>) -> bool {
        if let Some(m) = image { self.image(m); }
        if !self.takes(tag) { return false; }
        let mut w = self.words;
        w[..words.len()].copy_from_slice(words);
        self.written(tag, w, None);
        if tag == 10 && self.checked.is_some() { self.note(words[0], words[1]); }
        true
    }
    /// A case of the whole check, to be cut in parts later: one of each kind.
    fn note(&mut self, base: u32, size: u32) {
        let (from, to) = (base as usize, base as usize + size as usize);
        let bytes = if from < self.want_length { self.want[from..to.min(self.want_length)].to_vec() } else { vec![] };
        let one = (base, size, bytes);
        if let Some(checked) = &mut self.checked { if !checked.contains(&one) { checked.push(one); } }
    }
    fn image(&mut self, image: &[u8]) { self.bytes(0, image); self.length(image.len()); }
    fn patch(&mut self, at: usize, bytes: &[u8]) { self.bytes(at, bytes); }
    fn length(&mut self, n: usize) { self.counted = None; self.asked.clear(); self.want_length = n; }
    fn values(&mut self, count: u32, offset: u32, base: u32, room: u32) { self.case(4, &[count, offset, base, room], None); }
    /// A walk and, where it is taken, what it counts with no regard to room: once for the rooms that follow each other.
    fn walk(&mut self, count: u32, list: u32, base: u32, budget: u32, room: u32) {
        let words = [count, list, base, budget];
        if self.case(5, &[count, list, base, budget, room], None) && self.counted != Some(words) {
            self.case(17, &words, None);
            self.counted = Some(words);
        }
    }
    /// One leaf list at a position of 64 bits.
    fn leaf(&mut self, at: u64, base: u32, room: u32) {
        let budget = self.words[3];
        self.case(16, &[at as u32, (at >> 32) as u32, base, budget, room], None);
    }
    /// Value data by a record's numbers, for each of some rooms.
    fn data(&mut self, raw: u32, offset: u32, base: u32, minor: u32, rooms: &[u32]) {
        for &room in rooms { self.case(21, &[raw, offset, base, minor, room.min(DATA_MOST)], None); }
    }
    /// Value data of the record at a position.
    fn data_of(&mut self, at: u32, base: u32, minor: u32, rooms: &[u32]) {
        let b = self.words[1];
        for &room in rooms { self.case(22, &[at, b, base, minor, room.min(DATA_MOST)], None); }
    }
    /// One step of the reader of cells, the image being the bins, and the same by the function on slice and spot.
    fn step(&mut self, bin: u64, place: u64) {
        let words = [bin as u32, (bin >> 32) as u32, place as u32, (place >> 32) as u32];
        if self.case(23, &words, None) { self.case(25, &words, None); }
    }
    fn deleted(&mut self, base: u32, size: u32, room: u32) {
        let [_, _, c, d, _] = self.words;
        self.case(24, &[base, size, c, d, room], None);
    }
    /// The image's bytes as bins that arrive: parts of these lengths, so many times over.
    fn parts(&mut self, base: u32, size: u32, times: u32, lengths: &[u32]) {
        let name: Vec<u8> = lengths.iter().flat_map(|x| x.to_le_bytes()).collect();
        self.named(26, &[base, size, times], &name);
    }
    /// The whole image in parts of these lengths, the last one shorter where they do not come out even; an empty image as one row of them.
    fn whole_in(&mut self, base: u32, size: u32, lengths: &[u32]) {
        let times = (self.want_length as u32).div_ceil(lengths.iter().sum::<u32>().max(1)).max(1);
        self.parts(base, size, times, lengths);
    }
    /// One part on a record: its words (base, size, taken, place, over), what is kept of a header, and its answer.
    fn on_record(&mut self, words: [u32; 5], head: &[u8; 12], answer: Told) {
        let mut name = head.to_vec();
        match answer {
            Told::Totals(totals) => { name.push(0); for x in totals { name.extend(x.to_le_bytes()); } }
            Told::Refused(kind, number, position) => { name.push(kind); name.extend(number.to_le_bytes()); name.extend(position.to_le_bytes()); }
        }
        self.named(27, &words, &name);
    }
    /// A row of calls on a table of totals.
    fn calls(&mut self, calls: &[Call]) {
        let name: Vec<u8> = calls.iter().flatten().flat_map(|x| x.to_le_bytes()).collect();
        self.named(28, &[], &name);
    }
    /// A record given with the image to a function: the record and the text behind it in the name, and what else the function needs.
    fn given(&mut self, function: u32, record: &[u8], text: &[u8], (budget, room, minor, filled): Beside) {
        self.named(38, &[minor, function, filled, budget, room], &[record, text].concat());
    }
    /// The place of the record that is read at a position of 64 bits.
    fn place(&mut self, at: u64, base: u32) { self.case(39, &[at as u32, (at >> 32) as u32, base], None); }
    /// A listing checked by the key record at a position, whose own is so much more; written with a room in bytes; written and then checked.
    fn check(&mut self, at: u32, by: u32, base: u32, budget: u32, listing: &[u8]) { self.named(40, &[at, by, base, budget], listing); }
    fn written_listing(&mut self, at: u32, by: u32, base: u32, budget: u32, room: u32) { self.case(41, &[at, by, base, budget, room.min(CELL_MOST)], None); }
    fn listing_back(&mut self, at: u32, by: u32, base: u32, budget: u32, room: u32) { self.case(42, &[at, by, base, budget, room.min(CELL_MOST)], None); }
    /// A case that is asked for once while the image stays.
    fn once(&mut self, tag: u8, words: &[u32]) {
        let one = (tag, words.to_vec());
        if !self.asked.contains(&one) && self.case(tag, words, None) { self.asked.push(one); }
    }
    /// One list strictly, for each of some minor versions, not named by an `ri` list and named by one; beside it the ordinary reading.
    fn strict_list(&mut self, at: u32, minors: &[u32], named: &[u32]) {
        self.once(11, &[at]);
        for &minor in minors { for &named in named { self.case(29, &[at, minor, named], None); } }
    }
    /// A strict walk for each of some minor versions, and beside it the ordinary one.
    fn strict_walk(&mut self, count: u32, list: u32, base: u32, budget: u32, room: u32, minors: &[u32]) {
        let words = [count, list, base, budget, room];
        self.once(5, &words);
        for &minor in minors { self.named(30, &words, &minor.to_le_bytes()); }
    }
    /// What it counts, with no regard to room.
    fn strict_counts(&mut self, count: u32, list: u32, base: u32, budget: u32, minors: &[u32]) {
        self.once(17, &[count, list, base, budget]);
        for &minor in minors { self.once(33, &[count, list, base, budget, minor]); }
    }
    /// One leaf list strictly, and beside it the ordinary reading.
    fn strict_leaf(&mut self, at: u64, base: u32, room: u32, minors: &[u32]) {
        let (low, high) = (at as u32, (at >> 32) as u32);
        self.once(16, &[low, high, base, 0, room]);
        for &minor in minors { self.case(32, &[low, high, base, minor, room], None); }
    }
    /// A strict walk and its counts from the key record at a position, and beside them the ordinary ones.
    fn strict_record(&mut self, at: u32, base: u32, budget: u32, room: u32, minors: &[u32]) {
        self.once(14, &[at, 0, base, budget, room]);
        self.once(20, &[at, 0, base, budget]);
        for &minor in minors { self.case(31, &[at, minor, base, budget, room], None); self.once(34, &[at, minor, base, budget]); }
    }
    /// The list at a position of the image written as `lh`, as `li`, and there and back, first as `li` or first as `lh`.
    fn as_lh(&mut self, at: u64, base: u32, room: u32) { self.case(35, &[at as u32, (at >> 32) as u32, base, 0, room.min(CELL_MOST)], None); }
    fn as_li(&mut self, at: u64, room: u32) { let c = self.words[2]; self.case(36, &[at as u32, (at >> 32) as u32, c, 0, room.min(CELL_MOST)], None); }
    fn back(&mut self, at: u64, base: u32, li_first: bool, room: u32) { self.case(37, &[at as u32, (at >> 32) as u32, base, li_first as u32, room.min(CELL_MOST)], None); }
    /// The same of a list that is in the name.
    fn lent_as_lh(&mut self, lent: &[u8], at: u64, base: u32, room: u32) { self.named(35, &[at as u32, (at >> 32) as u32, base, 1, room], lent); }
    fn lent_as_li(&mut self, lent: &[u8], at: u64, room: u32) { let c = self.words[2]; self.named(36, &[at as u32, (at >> 32) as u32, c, 1, room], lent); }
    fn lookup(&mut self, count: u32, offset: u32, base: u32, name: &[u8]) { self.named(8, &[count, offset, base], name); }
    fn named(&mut self, tag: u8, words: &[u32], name: &[u8]) {
        if !self.takes(tag) { return; }
        let mut w = self.words;
        w[..words.len()].copy_from_slice(words);
        self.written(tag, w, Some(name));
    }
    /// Value list, walk, its counts and lookup from the key record at a position.
    fn record(&mut self, at: u32, base: u32, budget: u32, room: u32, name: &[u8]) {
        let b = self.words[1];
        self.case(13, &[at, b, base, room], None);
        if self.case(14, &[at, b, base, budget, room], None) { self.case(20, &[at, b, base, budget], None); }
        self.named(15, &[at, b, base], name);
    }
}

// ---- pieces of images

fn put16(m: &mut [u8], at: usize, x: u16) { m[at..at + 2].copy_from_slice(&x.to_le_bytes()); }
fn put32(m: &mut [u8], at: usize, x: u32) { m[at..at + 4].copy_from_slice(&x.to_le_bytes()); }
fn put64(m: &mut [u8], at: usize, x: u64) { m[at..at + 8].copy_from_slice(&x.to_le_bytes()); }
fn get16(m: &[u8], at: usize) -> u16 { u16::from_le_bytes(m[at..at + 2].try_into().unwrap()) }
fn get32(m: &[u8], at: usize) -> u32 { u32::from_le_bytes(m[at..at + 4].try_into().unwrap()) }
fn checksum(m: &[u8]) -> u32 {
    let x = (0..127).fold(0, |s, i| s ^ get32(m, 4 * i));
    match x { 0 => 1, u32::MAX => u32::MAX - 1, _ => x }
}

/// The example of document 01.
fn example() -> Vec<u8> {
    let mut m = vec![0; 8192];
    m[..4].copy_from_slice(b"regf");
    for (at, x) in [(4, 1), (8, 1), (20, 1), (24, 5), (32, 1), (36, 32), (40, 4096), (44, 1)] { put32(&mut m, at, x); }
    m[4096..4100].copy_from_slice(b"hbin");
    put32(&mut m, 4104, 4096);
    for (at, name) in [(32, &b"ROOT"[..]), (144, b"A"), (232, b"b")] {
        let p = 4096 + at;
        put32(&mut m, p, -88i32 as u32);
        m[p + 4..p + 6].copy_from_slice(b"nk");
        put16(&mut m, p + 6, 32);
        put16(&mut m, p + 76, name.len() as u16);
        m[p + 80..p + 80 + name.len()].copy_from_slice(name);
    }
    put32(&mut m, 4096 + 32 + 24, 2);
    put32(&mut m, 4096 + 32 + 32, 120);
    list(&mut m, 4096 + 120, b"lh", &[144, 65, 232, 66], 2);
    put32(&mut m, 4096 + 320, 3776);
    let c = checksum(&m);
    put32(&mut m, 508, c);
    m
}

/// A list's header, and words from its byte 8 on.
fn list(m: &mut [u8], p: usize, kind: &[u8; 2], words: &[u32], count: u16) {
    put32(m, p, (-(8 + 4 * words.len() as i32)) as u32);
    m[p + 4..p + 6].copy_from_slice(kind);
    put16(m, p + 6, count);
    for (i, &x) in words.iter().enumerate() { put32(m, p + 8 + 4 * i, x); }
}

/// A leaf list of some offsets, for a base. A hint, where the kind has one, is no offset of the list and lies on the other side of the
/// drop.
fn leaf_list(m: &mut [u8], p: usize, kind: &[u8; 2], offsets: &[u32], base: u32) {
    let hint = |x: u32| if x.checked_add(base).is_none() { 3 } else { u32::MAX };
    let words: Vec<u32> = offsets.iter().flat_map(|&x| [x, hint(x)].into_iter().take(if kind == b"li" { 1 } else { 2 })).collect();
    list(m, p, kind, &words, offsets.len() as u16);
}

/// Nothing in a base block that the Rust's conversions lose: times of our days, a whole name, flags that it knows.
fn proper(r: &mut Rng, m: &mut [u8]) {
    for at in [12, 568] { let t = 0x01d00000_00000000 + r.below(1 << 52); put64(m, at, t); }
    let k = r.range(0, 32);
    for i in 0..32 { put16(m, 48 + 2 * i, if i < k { 0x41 + 257 * i as u16 } else { 0 }); }
    put32(m, 544, r.pick(&[0, 1, 2]));
}

fn header(r: &mut Rng, n: usize) -> Vec<u8> {
    let mut m = if r.chance(2) { r.bytes(n) } else { vec![0; n] };
    if n < 512 { return m; }
    m[..4].copy_from_slice(b"regf");
    for at in [4, 8, 20, 24, 36, 40, 44] { let x = r.word(); put32(&mut m, at, x); }
    let t = r.pick(&[0, 1, 6, 6, 2, 3, 4, 5, 7, 0x0fffffff, 0x0ffffffe, u32::MAX, 0x01000000, 0x100]);
    put32(&mut m, 28, t);
    let t = r.pick(&[1, 1, 0, 2, 0x0fffffff, u32::MAX, 0x101]);
    put32(&mut m, 32, t);
    if n >= 4096 { let f = r.pick(&[0, 1, 2, 3, 0x0fffffff, u32::MAX]); put32(&mut m, 544, f); }
    if n >= 4096 && r.chance(2) { proper(r, &mut m); }
    else { for i in 0..32 { if r.chance(3) { let x = r.pick(&[0x41u16, 0xd800, 0xdc00, 0xdbff, 0, 0xe9, 0x430, 0xffff]); put16(&mut m, 48 + 2 * i, x); } } }
    let c = if r.chance(3) { r.word() } else { checksum(&m) };
    put32(&mut m, 508, c);
    m
}

fn key(r: &mut Rng, m: &mut [u8], p: usize, name: &[u8], flags: u16, size: i32) {
    let end = (p + 80).min(m.len());
    for at in p..end { m[at] = r.next() as u8; }
    if p + 80 > m.len() { return; }
    put32(m, p, size as u32);
    m[p + 4..p + 6].copy_from_slice(b"nk");
    put16(m, p + 6, flags);
    for at in [24, 40] { let x = r.below(4) as u32; put32(m, p + at, x); }
    put16(m, p + 76, name.len() as u16);
    let n = name.len().min(m.len() - p - 80);
    m[p + 80..p + 80 + n].copy_from_slice(&name[..n]);
}

fn value(m: &mut [u8], p: usize, name: &[u8], flags: u16, size: i32, data: [u32; 3]) {
    if p + 24 > m.len() { return; }
    put32(m, p, size as u32);
    m[p + 4..p + 6].copy_from_slice(b"vk");
    put16(m, p + 6, name.len() as u16);
    for i in 0..3 { put32(m, p + 8 + 4 * i, data[i]); }
    put16(m, p + 20, flags);
    put16(m, p + 22, 0x5aa5);
    let n = name.len().min(m.len() - p - 24);
    m[p + 24..p + 24 + n].copy_from_slice(&name[..n]);
}

/// An image of at most so many bytes behind the base, with lists at chosen places; gives the places.
fn lists(r: &mut Rng, base: usize, most: usize) -> (Vec<u8>, Vec<usize>) {
    let n = base + r.range(8, most);
    let mut m = if r.chance(4) { r.bytes(n) } else { vec![0; n] };
    let k = r.range(1, 12);
    let mut at = base;
    let mut places = vec![];
    for _ in 0..k {
        let kind = r.pick(&[b"lf", b"lh", b"li", b"ri", b"ri"]);
        let each = if kind == b"lf" || kind == b"lh" { 8 } else { 4 };
        let count = if r.chance(12) { r.range(0, 200) } else { r.range(0, 9) };
        let size = 8 + each * count;
        if at + size > n { break; }
        put32(&mut m, at, (-(size as i32)) as u32);
        m[at + 4..at + 6].copy_from_slice(kind);
        put16(&mut m, at + 6, count as u16);
        places.push(at);
        at += if r.chance(3) { size } else { (size + 7) & !7 };
    }
    // ri entries name later places (or now and then any place); leaf entries are numbers
    for (i, &p) in places.clone().iter().enumerate() {
        let kind = [m[p + 4], m[p + 5]];
        let count = get16(&m, p + 6) as usize;
        let each = if &kind == b"lf" || &kind == b"lh" { 8 } else { 4 };
        for j in 0..count {
            let x = if &kind == b"ri" {
                let q = if r.chance(40) || i + 1 == places.len() { r.pick(&places) } else { r.pick(&places[i + 1..]) };
                if r.chance(60) { r.word() } else { (q - base) as u32 }
            } else {
                match r.below(80) {
                    0 => r.word(),
                    1 => (u32::MAX - base as u32).wrapping_add(r.below(4) as u32).wrapping_sub(1),
                    _ => r.below(1 << 20) as u32,
                }
            };
            put32(&mut m, p + 8 + each * j, x);
            if each == 8 { let h = r.word(); put32(&mut m, p + 12 + each * j, h); }
        }
    }
    if r.chance(6) && !m.is_empty() { let cut = r.range(0, m.len()); m.truncate(cut); }
    (m, places)
}

/// A chain of `ri` lists of one entry, `depth` lists deep with its leaf; the last names itself where `around`.
fn chain(base: usize, depth: usize, around: bool, leaf: &[u8; 2]) -> Vec<u8> {
    let mut m = vec![0; base + 32 * depth];
    for i in 0..depth {
        let p = base + 32 * i;
        let last = i + 1 == depth;
        let kind = if last && !around { leaf } else { b"ri" };
        let entry = if last && !around { 77 } else if last { 32 * i } else { 32 * (i + 1) };
        list(&mut m, p, kind, &[entry as u32], 1);
    }
    m
}

/// Bins from `base` on, filled with cells; some of the cells hold records and lists.
fn bins(r: &mut Rng, base: usize, count: usize) -> Vec<u8> {
    let mut m = vec![0; base];
    for _ in 0..count {
        let size = 4096 * if r.chance(4) { 2 } else { 1 };
        let start = m.len();
        m.resize(start + size, 0);
        m[start..start + 4].copy_from_slice(b"hbin");
        put32(&mut m, start + 4, (start - base) as u32);
        put32(&mut m, start + 8, size as u32);
        let mut at = start + 32;
        while at < start + size {
            let rest = start + size - at;
            let n = if r.chance(40) { rest } else { (8 * r.range(1, 64)).min(rest) };
            put32(&mut m, at, if r.chance(2) { n as u32 } else { (n as u32).wrapping_neg() });
            at += n;
        }
    }
    m
}

/// Value records and a list of them at `base`; gives the image, the list's offset, and the names.
fn valued(r: &mut Rng, base: usize, count: usize) -> (Vec<u8>, u32, Vec<Vec<u8>>) {
    let list_at = base + 8 * r.range(1, 4);
    let mut m = vec![0; list_at + 4 + 4 * count];
    let mut names = vec![];
    for i in 0..count {
        let p = m.len() + r.range(0, 3);
        let n = r.pick(&[0usize, 1, 1, 2, 3, 5, 8]);
        let name: Vec<u8> = (0..n).map(|_| r.pick(b"AaBbZz@[`{09\xc4\xe4\xff\x00")).collect();
        let size = (24 + n + r.range(0, 9)) as i32;
        m.resize(p + size as usize, 0);
        let flags = r.pick(&[1u16, 1, 1, 1, 0, 2, 3, 0x11, 0xffff, 0xfffe]);
        let data = [r.word(), r.word(), r.word()];
        value(&mut m, p, &name, flags, if r.chance(3) { size } else { -size }, data);
        let entry = if r.chance(60) { r.word() } else { (p - base) as u32 };
        put32(&mut m, list_at + 4 + 4 * i, entry);
        names.push(name);
    }
    if r.chance(4) && !m.is_empty() { let at = r.range(0, m.len() - 1); m[at] ^= 1 << r.below(8); }
    if r.chance(10) { let n = r.range(0, m.len()); m.truncate(n); }
    (m, (list_at - base) as u32, names)
}

// ---- boundaries

/// Each rule of the paper on both sides, and its examples. Never thinned out.
fn boundaries(o: &mut Out<impl Write>) {
    let r = &mut Rng(0);
    // checksum and base block
    for n in [0, 3, 4, 507, 508, 509] { o.case(1, &[], Some(&vec![0; n])); }
    o.image(&[0; 508]);
    for x in [u32::MAX, u32::MAX - 1, 1, 0x80000000] { for at in [0, 252, 504] { o.patch(at, &x.to_le_bytes()); o.case(1, &[], None); o.patch(at, &[0; 4]); } }
    let mut m: Vec<u8> = (0..4097).map(|i| (i * 7 + i / 256) as u8).collect();
    m[..4].copy_from_slice(b"regf");
    proper(r, &mut m);
    o.image(&m);
    for n in [4095, 4096, 4097] { o.length(n); o.case(2, &[], None); }
    for at in 0..4 { o.patch(at, &[m[at] ^ 0x20]); o.case(2, &[], None); o.patch(at, &m[at..at + 1]); }
    for t in [0u32, 1, 2, 5, 6, 7, 0x0fffffff, u32::MAX] { o.patch(28, &t.to_le_bytes()); o.patch(32, &t.to_le_bytes()); o.case(2, &[], None); }
    for x in [0u32, 0x7fffffff, 0x80000000, u32::MAX] { o.patch(36, &x.to_le_bytes()); o.case(2, &[], None); }
    // `db`
    for m in [&b"0000db"[..], b"0000d", b"0000", b"000db", b"0000bd", b"0000dB", b"0000db0", b""] { o.case(3, &[], Some(m)); }
    // value lists
    o.image(&[9; 8]);
    for (count, offset) in [(0u32, 0u32), (1, 0), (0, 9), (1, 8), (1, 7), (1, u32::MAX), (1, 0x7fffffff)] { for base in [0, 1, 2, 4096] { o.values(count, offset, base, 1); } }
    o.image(&(0..64).collect::<Vec<u8>>());
    for (count, offset) in [(1, 63), (1, 64), (14, 4), (15, 4), (14, 3), (14, 5), (1, 56), (1, 57), (15, 0), (1 << 20, 1), ((1 << 20) + 1, 1), ((1 << 20) + 1, 64)] {
        for base in [0, 1, 60, 64] { for room in [count.clamp(1, 64) - 1, count.min(64)] { o.values(count, offset, base, room); } }
    }
    // walks: the paper's examples, every kind at its end, drops, levels, budgets, counts, rooms
    let mut m = vec![0; 16];
    list(&mut m, 0, b"li", &[16, 32], 2);
    o.image(&m);
    for count in [0, 1, 1 << 20, (1 << 20) + 1] { for budget in [0, 1, BUDGET, BUDGET + 1] { for room in [1, 2, 3] { o.walk(count, 0, 0, budget, room); } } }
    for n in [7, 8, 15, 16] { o.length(n); o.walk(1, 0, 0, BUDGET, 4); o.walk(1, 9, 0, BUDGET, 4); o.case(11, &[0], None); }
    for (off, base) in [(15, 0), (16, 0), (17, 0), (0, 16), (0, 17), (u32::MAX, 1), (1, u32::MAX), (8, 8), (9, 8)] { o.walk(1, off, base, BUDGET, 4); o.case(11, &[off.saturating_add(base)], None); }
    for kind in [b"ri", b"lf", b"lh", b"li", b"lx", b"xi", b"lF"] { for count in [0u16, 1, 2] {
        let mut m = vec![0; 48];
        list(&mut m, 16, kind, &[0xffffffef, 0xfffffff0, 0xfffffff0, 0xffffffef], count);
        o.image(&m);
        for n in [16, 20, 22, 23, 24, 27, 28, 31, 32, 39, 40] { o.length(n); o.walk(1, 0, 16, BUDGET, 2); o.case(11, &[16], None); }
    } }
    for depth in [1, 2, 7, 8, 9] { for around in [false, true] {
        o.image(&chain(0, depth, around, b"li"));
        for budget in [0, 1, 6, 7, 8, 9, BUDGET] { o.walk(1, 0, 0, budget, 1); }
        o.walk(1, 0, 0, BUDGET, 0);
    } }
    drops(o);
    // records: the fixed part, the size, the bytes left, the signature, the name
    for (tag, fixed) in [(6, 80usize), (7, 24)] {
        let mut m = vec![0; fixed + 21];
        if tag == 6 { key(r, &mut m, 5, b"name", 0x20, 0) } else { value(&mut m, 5, b"name", 1, 0, [1, 2, 3]) }
        let name_at = 5 + if tag == 6 { 76 } else { 6 };
        o.image(&m);
        let f = fixed as i32;
        for size in [0, 8, f - 1, f, f + 3, f + 4, f + 8, f + 16, f + 17, f + 24, i32::MAX] { for s in [size, -size] { o.patch(5, &s.to_le_bytes()); o.case(tag, &[5], None); } }
        o.patch(5, &i32::MIN.to_le_bytes()); o.case(tag, &[5], None);
        o.patch(5, &(-f - 16).to_le_bytes());
        for n in [0u16, 1, 15, 16, 17, 0xffff] { o.patch(name_at, &n.to_le_bytes()); o.case(tag, &[5], None); }
        o.patch(name_at, &4u16.to_le_bytes());
        for sign in [b"nk", b"vk", b"nK", b"kn", b"sk"] { o.patch(9, sign); o.case(tag, &[5], None); }
        o.patch(9, if tag == 6 { b"nk" } else { b"vk" });
        for n in [4, 5, 6, fixed + 4, fixed + 5, fixed + 20, fixed + 21] { o.length(n); for at in [4, 5, 6, n as u32, n as u32 + 1] { o.case(tag, &[at], None); } }
        o.length(fixed + 21);
        o.patch(5, &(-f).to_le_bytes());
        for n in [0u16, 1] { o.patch(name_at, &n.to_le_bytes()); o.case(tag, &[5], None); }
    }
    // lookup: the first match, the first unreadable record, flags and letters
    let mut m = vec![0; 100];
    put32(&mut m, 8, 16); put32(&mut m, 12, 48);
    value(&mut m, 16, b"@Ab[", 1, -32, [1, 2, 3]);
    value(&mut m, 48, b"@aB[", 1, -32, [4, 5, 6]);
    o.image(&m);
    for name in [&b"@ab["[..], b"`ab[", b"@ab{", b"@AB[", b"@a", b"@ab[0", b""] { for count in [0, 1, 2] { o.lookup(count, 4, 0, name); } }
    for flags in [0u16, 1, 2, 3, 0xfffe] { o.patch(36, &flags.to_le_bytes()); o.lookup(2, 4, 0, b"@AB["); }
    for (at, x) in [(48, 0u8), (52, b'n'), (54, 30), (12, 101), (12, 90), (8, 200)] { o.patch(at, &[x]); o.lookup(2, 4, 0, b"@ab["); o.lookup(2, 4, 0, b"no"); o.patch(at, &m[at..at + 1]); }
    o.patch(22, &[0, 0]); o.lookup(1, 4, 0, b""); o.lookup(1, 4, 0, b"a");
    for (count, off) in [(1 << 20, 4), ((1 << 20) + 1, 4), (1, 0), (1, 99), (1, 100), (24, 4), (23, 4), (3, 88)] { for base in [0, 1, 2] { o.lookup(count, off, base, b"x"); } }
    // from a record: its own counts and offsets, one after the other wrong
    let mut m = vec![0; 400];
    key(r, &mut m, 0, b"key", 0x20, -88);
    for (at, x) in [(24, 1u32), (28, 2), (32, 100), (36, 3), (40, 2), (44, 128)] { put32(&mut m, at, x); }
    list(&mut m, 100, b"lf", &[7, 8, 9, 10], 2);
    for (i, x) in [0u32, 160, 200].into_iter().enumerate() { put32(&mut m, 128 + 4 * i, x); }
    value(&mut m, 160, b"one", 1, -32, [1, 2, 3]);
    value(&mut m, 200, b"two", 1, -32, [4, 5, 6]);
    o.image(&m);
    for room in [0, 1, 2, 3] { o.record(0, 0, 1, room, b"TWO"); }
    for budget in [0, BUDGET, BUDGET + 1] { o.record(0, 0, budget, 2, b"none"); }
    for base in [1, 4, 400, u32::MAX] { o.record(0, base, 1, 2, b"one"); }
    for at in [1, 320, 321, 400, 401] { o.record(at, 0, 1, 2, b"one"); }
    for (at, words) in [(24usize, [0u32, 1 << 20, (1 << 20) + 1]), (32, [0, 396, u32::MAX]), (40, [0, 1 << 20, (1 << 20) + 1]), (44, [0, 399, u32::MAX]), (4, [0, 1, 2])] {
        for x in words { o.patch(at, &x.to_le_bytes()); o.record(0, 0, 1, 2, b"two"); }
        o.patch(at, &m[at..at + 4]);
    }
    // its list drops an entry, then both
    o.patch(32, &84u32.to_le_bytes());
    for at in [116, 108] { o.patch(at, &(u32::MAX - 15).to_le_bytes()); for room in [0, 1, 2] { o.record(0, 16, 1, room, b"one"); } }
    // hash
    for x in [0u8, 64, 65, 90, 96, 97, 122, 123, 127, 128, 223, 224, 246, 247, 248, 254, 255] { o.case(9, &[0x20], Some(&[x])); o.case(9, &[0], Some(&[x, 0])); o.case(9, &[0], Some(&[x, 1])); }
    for m in [&b"A"[..], b"ab", b"", b"abc"] { for flags in [0, 0x20, 0xffdf] { o.case(9, &[flags], Some(m)); } }
    // bins and cells
    let mut m = vec![0; 8192 + 40];
    for (at, own, size) in [(8usize, 0u32, 4096u32), (4104, 4096, 4096)] {
        m[at..at + 4].copy_from_slice(b"hbin");
        put32(&mut m, at + 4, own);
        put32(&mut m, at + 8, size);
        put32(&mut m, at + 32, 8);
        put32(&mut m, at + 40, (-4056i32) as u32);
    }
    o.image(&m);
    for size in [0u32, 31, 32, 4095, 4096, 4097, 8191, 8192, 8193, 8223, 8224, 8225] { for base in [7, 8, 9] { o.case(10, &[base, size], None); } }
    for base in [8232, 8233, u32::MAX] { for size in [0, 1, u32::MAX] { o.case(10, &[base, size], None); } }
    for (at, words) in [(4108usize, [0u32, 4095, 4097, 8192]), (4112, [0, 2048, 8192, 12288]), (4136, [0, 4, 16, 4064]), (4144, [4048, 4056, 4064, 4052])] {
        for x in words { for x in [x, x.wrapping_neg()] { o.patch(at, &x.to_le_bytes()); o.case(10, &[8, 8192], None); } }
        o.patch(at, &m[at..at + 4]);
    }
    for at in [8, 11, 4104] { o.patch(at, b"x"); o.case(10, &[8, 8192], None); o.patch(at, &m[at..at + 1]); }
    // words at and past the end
    o.image(&[0x81, 0x92, 0xa3, 0xb4, 0xc5, 0xd6, 0xe7, 0xf8]);
    for at in (0..10).chain([u32::MAX]) { o.case(12, &[at], None); }
}

/// Walks that drop: lists of one `ri` list that each drop some, none or all, sums on both sides; rooms on both sides of what is kept, and
/// budgets, levels and faulty lists behind entries that were dropped.
fn drops(o: &mut Out<impl Write>) {
    let (base, kept, dropped) = (16u32, u32::MAX - 16, u32::MAX - 15);
    // five lists' offsets and entries; behind them an unknown one, one whose entries pass the image, and an `ri` list of two
    let leaves: [(u32, &[u32]); 5] = [(48, &[kept, dropped]), (96, &[dropped, 5, u32::MAX]), (144, &[7, kept, dropped, kept]), (192, &[dropped, u32::MAX]), (240, &[])];
    for kinds in [[b"li", b"lf", b"lh"], [b"lf", b"li", b"li"], [b"lh"; 3]] {
        let mut m = vec![0; 16 + 320];
        for (i, (at, offsets)) in leaves.into_iter().enumerate() { leaf_list(&mut m, 16 + at as usize, kinds[i % 3], offsets, base); }
        list(&mut m, 16 + 288, b"lx", &[], 0);
        list(&mut m, 16 + 296, b"li", &[], 65535);
        list(&mut m, 16 + 304, b"ri", &[48, 192], 2);
        let top = |o: &mut Out<_>, named: &[u32]| { let mut m = m.clone(); list(&mut m, 16, b"ri", named, named.len() as u16); o.image(&m); };
        for named in [&[48][..], &[96], &[144], &[192], &[240], &[48, 96], &[96, 48], &[48, 240], &[240, 96], &[192, 192], &[192, 240, 192], &[48, 48, 48], &[96, 48, 240], &[48, 96, 144], &[304, 96], &[144, 304]] {
            top(o, named);
            for room in 0..7 { o.walk(1, 0, base, BUDGET, room); }
        }
        top(o, &[96, 304, 144]);
        for budget in 1..8 { for room in [0, 8] { o.walk(1, 0, base, budget, room); } }
        // those two, outside, 7 bytes left, itself
        for fault in [288, 296, 321, 313, 0] { for named in [&[96, fault][..], &[192, fault], &[fault, 96], &[48, 304, fault]] {
            top(o, named);
            for room in [0, 8] { o.walk(1, 0, base, BUDGET, room); }
        } }
        // each by itself, as the top list
        top(o, &[]);
        for (at, _) in leaves { for room in 0..5 { o.walk(1, at, base, 1, room); } }
    }
}

// ---- exhaustive parts

fn fixed(o: &mut Out<impl Write>) {
    let r = &mut Rng(0);
    all(o, r, &example(), &[4096, 4128, 4216, 4240, 4328, 4416], 4096);
    // words at and past the end
    for n in 0..11usize {
        o.image(&(1..=n).map(|i| (i * 23 + 0x80 * (i % 2)) as u8).collect::<Vec<u8>>());
        for at in (0..13).chain([0x7fffffff, 0x80000000, 0xfffffff8, 0xffffffff]) { o.case(12, &[at], None); }
    }
    // the checksum
    for n in (0..10).chain(500..517).chain([4096]) {
        for fill in [0u8, 255, 1, 0x80] { o.case(1, &[], Some(&vec![fill; n])); }
        let mut m = vec![0; n];
        if n >= 4 { put32(&mut m, 0, u32::MAX); }
        o.case(1, &[], Some(&m));
    }
    o.case(1, &[], Some(&[0; 520]));
    for at in 0..516 { o.patch(at, &[1 + (at % 255) as u8]); o.case(1, &[], None); }
    // the base block: lengths, each byte of the signature, kinds, each byte of the fields
    for n in (0..6).chain(507..514).chain([560, 575, 576, 577]).chain(4086..4099).chain([8192]) { let m = header(r, n); o.case(2, &[], Some(&m)); o.case(1, &[], None); }
    let mut m = header(r, 4096);
    proper(r, &mut m);
    o.case(2, &[], Some(&m));
    for at in 0..4 {
        for x in [m[at] ^ 0x20, m[at] ^ 1, 0] { o.patch(at, &[x]); o.case(2, &[], None); }
        o.patch(at, &m[at..at + 1]);
    }
    for t in (0..9).chain([0x100, 0x10000, 0x01000000, 0x06000000, 0x0ffffffe, 0x0fffffff, 0x80000000, u32::MAX]) {
        o.patch(28, &t.to_le_bytes()); o.case(2, &[], None);
        o.patch(32, &t.to_le_bytes()); o.case(2, &[], None);
        o.patch(544, &t.to_le_bytes()); o.case(2, &[], None);
    }
    o.case(2, &[], Some(&{ let mut m = vec![0; 4100]; m[..4].copy_from_slice(b"regf"); m }));
    let mut m = vec![0; 4100];
    m[..4].copy_from_slice(b"regf");
    proper(r, &mut m);
    o.case(2, &[], Some(&m));
    for at in (4..592).chain((592..4080).step_by(97)).chain(4080..4100) {
        o.patch(at, &[m[at] ^ 0x81 ^ (at % 127) as u8]);
        o.case(2, &[], None);
        o.patch(at, &m[at..at + 1]);
    }
    // `db`: every length, and every pair of bytes at 4 and 5
    for n in 0..10usize { for s in [b"db", b"dc", b"bd", b"Db"] {
        let mut m = vec![0; n];
        for i in 0..2 { if 4 + i < n { m[4 + i] = s[i]; } }
        o.case(3, &[], Some(&m));
    } }
    for n in 2..10usize { for at in 0..n - 1 {
        let mut m = vec![0; n];
        m[at..at + 2].copy_from_slice(b"db");
        o.case(3, &[], Some(&m));
    } }
    for x in 0..=u16::MAX { if x % 7 == 0 || x as u8 == b'd' || x >> 8 == b'b' as u16 { o.patch(4, &x.to_le_bytes()); o.case(3, &[], None); } }
    // value lists: every offset around the ends, for counts, bases and rooms on both sides
    for n in [0usize, 4, 8, 12, 64] {
        let m: Vec<u8> = (0..n).map(|i| (i * 37 + 1) as u8).collect();
        o.image(&m);
        for base in [0u32, 1, 4, n as u32, n as u32 + 1, 4096, 0x7fffffff, 0x80000000, u32::MAX] {
            for count in [0u32, 1, 2, 3, 14, 15, 16, 1 << 20, (1 << 20) + 1, u32::MAX] {
                for offset in (0..n as u32 + 3).filter(|x| n < 64 || x % 4 < 2 || *x > 50).chain([0x7fffffff, 0x80000000, 0xffffffff, 0xfffffffc]) {
                    o.values(count, offset, base, ENOUGH);
                }
            }
        }
        for count in 0..16 { for room in 0..17 { o.values(count, 1, 0, room); o.values(count, 4, 0, room); } }
    }
    // one list: kinds, counts, every length, entries on both sides of the drop; the walk of it with rooms and budgets
    for base in [0usize, 4, 16, 4096] {
        for kind in [b"lf", b"lh", b"li", b"ri", b"lx", b"il", b"LH", b"rI"] { for count in [0u16, 1, 2, 3, 0xffff] {
            let mut m = vec![0; base + 32];
            let top = u32::MAX - base as u32;
            list(&mut m, base, kind, &[top, 16, top.wrapping_add(1), 9, 12, 13], count);
            o.image(&m);
            for n in 0..=32 {
                o.length(base + n);
                o.walk(1, 0, base as u32, BUDGET, ENOUGH);
                o.case(11, &[base as u32], None);
            }
            for room in 0..4 { o.walk(1, 0, base as u32, BUDGET, room); }
            for budget in [0, 1, 2, BUDGET, BUDGET + 1, u32::MAX] { o.walk(1, 0, base as u32, budget, ENOUGH); }
            for at in [base + 31, base + 32, base + 33, 0xffffffff] { o.case(11, &[at as u32], None); }
        } }
        for count in [0u32, 1, 2, 1 << 20, (1 << 20) + 1, u32::MAX] { for budget in [0, 1, BUDGET, BUDGET + 1, u32::MAX] {
            for off in [0u32, 1, 24, 25, 31, 32, 33, 0x7fffffff, 0x80000000, 0xfffffff0, 0xffffffff] { o.walk(count, off, base as u32, budget, 2); }
        } }
        // chains on both sides of level 8, with budgets and rooms on both sides
        for depth in 1..=10usize { for leaf in [b"lf", b"lh", b"li", b"lx"] { for around in [false, true] {
            o.image(&chain(base, depth, around, leaf));
            for budget in (0..11).chain([BUDGET]) { o.walk(1, 0, base as u32, budget, 1); }
            o.walk(1, 0, base as u32, BUDGET, 0);
            if leaf != b"lx" && !around && depth > 1 { for at in 1..depth { o.walk(1, 32 * at as u32, base as u32, BUDGET, 1); } }
        } } }
    }
    // every image of three lists of 16 bytes with up to two entries that name one of the three
    let mut one: Vec<(&[u8; 2], u16, [u32; 2])> = vec![];
    for kind in [b"ri", b"li", b"lh", b"lx"] { for count in 0..3u16 {
        if kind == b"lh" && count == 2 { continue; }
        let n = if kind == b"lh" { count * 2 } else { count };
        for x in 0..3u32.pow((n as u32).min(2)) { one.push((kind, count, [16 * (x % 3), 16 * (x / 3 % 3)])); }
        if kind == b"lx" { break; }
    } }
    let mut m = vec![0; 48];
    o.image(&m);
    for x in &one { for y in &one {
        if x.0 != b"ri" || x.1 == 0 { continue; }
        list(&mut m, 0, x.0, &x.2, x.1);
        list(&mut m, 16, y.0, &y.2, y.1);
        for z in &one {
            list(&mut m, 32, z.0, &z.2, z.1);
            o.image(&m);
            o.walk(1, 0, 0, BUDGET, ENOUGH);
        }
    } }
    // key and value records: sizes, name lengths and image lengths around the fixed part
    let sizes = |f: i32| vec![0, 8, f - 8, f - 4, f - 1, f, f + 1, f + 4, f + 8, f + 16, f + 24, f + 32, i32::MAX];
    for name in 0..10usize { for n in [0usize, 1, 5, 6, 23, 24, 25, 32, 75, 76, 79, 80, 81, 87, 88, 96, 104] {
        let mut m = vec![0x6e; n + 3];
        key(r, &mut m, 3, &b"Name\xe9\xffxyz"[..name], 0x20, 0);
        o.image(&m);
        for s in sizes(80) { for s in [s, -s] { if n >= 4 {
            o.patch(3, &s.to_le_bytes());
            o.case(6, &[3], None);
        } } }
        o.patch(3, &i32::MIN.to_le_bytes()); o.case(6, &[3], None);
        value(&mut m, 3, &b"Name\xe9\xffxyz"[..name], 1, 0, [4, 5, 6]);
        o.image(&m);
        for s in sizes(24) { for s in [s, -s] { if n >= 4 {
            o.patch(3, &s.to_le_bytes());
            o.case(7, &[3], None);
        } } }
        o.patch(3, &i32::MIN.to_le_bytes()); o.case(7, &[3], None);
    } }
    for fixed in [80usize, 24] {
        let tag = if fixed == 80 { 6 } else { 7 };
        let mut m = vec![0x41; fixed + 50];
        let size = -((fixed + 24) as i32);
        if fixed == 80 { key(r, &mut m, 8, b"A name 8", 0x20, size) } else { value(&mut m, 8, b"A name 8", 1, size, [7, 8, 9]) }
        o.image(&m);
        for at in (0..fixed + 54).chain([0x7fffffff, 0x80000000, 0xffffffff]) { o.case(tag, &[at as u32], None); }
        for at in 8..fixed + 34 {
            for x in [0, 255, m[at] ^ 1, m[at] ^ 0x80, m[at].wrapping_add(8)] { o.patch(at, &[x]); o.case(tag, &[8], None); }
            o.patch(at, &m[at..at + 1]);
        }
        for n in 0..fixed + 50 { o.length(n); o.case(tag, &[8], None); o.case(tag, &[0], None); }
        o.length(fixed + 50);
        for n in (0..40).chain([0xff, 0x100, 0xffff]) { o.patch(if fixed == 80 { 84 } else { 14 }, &(n as u16).to_le_bytes()); o.case(tag, &[8], None); }
    }
    // lookup: names, flags, lengths, the first match and the first unreadable record
    for flags in [0u16, 1, 2, 3, 0xfffe, 0xffff] { for stored in [&b""[..], b"a", b"A", b"ab", b"[", b"{", b"\xe4", b"\xc4", b"a\0", b"zZ"] {
        let mut m = vec![0; 80];
        for i in 0..2 { put32(&mut m, 8 + 4 * i, [16, 48][i]); }
        value(&mut m, 16, stored, flags, -32, [1, 2, 3]);
        value(&mut m, 48, b"A", 1, -32, [4, 5, 6]);
        o.image(&m);
        for name in [&b""[..], b"a", b"A", b"aB", b"{", b"[", b"\xe4", b"\xc4", b"a\0", b"Zz", b"abc"] { for count in 0..4 { o.lookup(count, 4, 0, name); } }
        o.patch(48, &[0]); o.lookup(2, 4, 0, b"a"); o.lookup(2, 4, 0, b"none");
        o.patch(12, &[200]); o.lookup(2, 4, 0, b"a");
        o.patch(12, &[0xff, 0xff, 0xff, 0xff]); o.lookup(2, 4, 0, b"a"); o.lookup(2, 1, 3, b"none");
    } }
    for off in [0u32, 1, 79, 80, 0x80000000, 0xffffffff] { for count in [0, 1, 2, 1 << 20, (1 << 20) + 1] { for base in [0, 1, 80, 4096] { o.lookup(count, off, base, b"A"); } } }
    // the hash: every byte, units around the table's ends, odd lengths
    for x in 0..=255u8 { o.case(9, &[0x20], Some(&[x])); o.case(9, &[0x20], Some(&[0x41, x, 0x61])); o.case(9, &[0], Some(&[x])); }
    for x in (0..1200u16).chain([0x1fff, 0x2160, 0xd800, 0xff41, 0xffff]) { o.case(9, &[0], Some(&x.to_le_bytes())); }
    for n in 0..20usize { for flags in [0u32, 0x20, 0xffdf, 0xffff] { let m = r.bytes(n); o.case(9, &[flags], Some(&m)); } }
    // bins: sizes, bases, each header word, cells on both sides of the bin's end
    let m = bins(r, 8, 3);
    let all = m.len() as u32 - 8;
    o.image(&m);
    for size in [0u32, 1, 31, 32, 4095, 4096, 4097, 8191, 8192, 12288, all - 4096, all - 1, all, all + 1, u32::MAX] {
        for base in [0u32, 7, 8, 9, 4104, 8 + all - 1, 8 + all, 8 + all + 1, u32::MAX] { o.case(10, &[base, size], None); }
    }
    for at in (8..20).chain(4104..4116) {
        for x in [0, 255, m[at] ^ 0x10, m[at] ^ 1] { o.patch(at, &[x]); o.case(10, &[8, all], None); }
        o.patch(at, &m[at..at + 1]);
    }
    for n in (0..64).chain([all as usize / 2, all as usize, all as usize + 7]) { o.length(n); o.case(10, &[0, n as u32], None); o.case(10, &[8, 0], None); o.case(10, &[8, 4096], None); }
    let mut m = vec![0; 4096];
    m[..4].copy_from_slice(b"hbin");
    put32(&mut m, 8, 4096);
    o.image(&m);
    for s in [0u32, 1, 4, 7, 8, 9, 16, 4056, 4060, 4063, 4064, 4065, 4072, 8192, 0x7fffffff, 0x80000000] { for s in [s, s.wrapping_neg()] {
        o.patch(32, &s.to_le_bytes());
        let next = 32 + s.min(s.wrapping_neg()) as usize;
        for t in [4064 - 8u32, 4064 - 16, (4064 - 8u32).wrapping_neg(), 0, 4064] {
            if next + 4 <= 4096 && next > 32 { o.patch(next, &t.to_le_bytes()); }
            o.case(10, &[0, 4096], None);
        }
    } }
    // large images, mostly zeros: lists at their end, 65,535 entries in one list, 10,101 lists
    let mut m = vec![0; IMAGE_MOST];
    list(&mut m, IMAGE_MOST - 16, b"li", &[5, 6], 2);
    o.image(&m);
    let end = (IMAGE_MOST - 16) as u32;
    for (off, base) in [(end, 0), (0, end), (end - 1, 1), (end + 1, 0), (end, 8), (end, 9), (end, 16), (end, 17)] { o.walk(1, off, base, BUDGET, 2); }
    for at in [end, end + 8, end + 16, end + 17] { o.case(11, &[at], None); o.case(12, &[at + 2], None); o.case(6, &[at], None); o.case(7, &[at - 8], None); }
    for (count, off) in [(131_070, 1u32), (131_070, 4), (131_071, 1), (131_071, 4), (3, end - 4), (3, end), (4, end - 4)] { o.values(count, off, 0, 131_071); o.values(count, off, 0, 131_069); }
    m[4..6].copy_from_slice(b"lh");
    put16(&mut m, 6, 65535);
    o.image(&m);
    for room in [65535, 65534, 65536] { o.walk(1, 0, 0, BUDGET, room); }
    o.length(IMAGE_MOST - 1);
    o.walk(1, 0, 0, BUDGET, 65535);
    o.length(IMAGE_MOST);
    let mut m = vec![0; IMAGE_MOST];
    list(&mut m, 0, b"ri", &[1024; 100], 100);
    list(&mut m, 1024, b"ri", &[2048; 100], 100);
    list(&mut m, 2048, b"li", &[7; 10], 10);
    o.image(&m);
    for (budget, room) in [(BUDGET, 100_000), (10_101, 100_000), (10_100, 100_000), (BUDGET, 99_999)] { o.walk(1, 0, 0, budget, room); }
    list(&mut m, 1024, b"ri", &[2048; 655], 655);
    o.image(&m);
    for (budget, room) in [(BUDGET, 0), (65_535, 0), (65_601, 0)] { o.walk(1, 0, 0, budget, room); }
}

/// Wide lists of any numbers.
fn wide(o: &mut Out<impl Write>) {
    let r = &mut Rng(0);
    for (kind, each) in [(b"li", 4), (b"lf", 8), (b"lh", 8)] {
        let n = 65528 / each;
        let mut m = r.bytes(65536);
        m[4..6].copy_from_slice(kind);
        for k in [n, n - 1, n + 1] {
            put16(&mut m, 6, k as u16);
            o.image(&m);
            o.walk(1 << 20, 0, 0, BUDGET, 20000);
            o.case(11, &[0], None);
            o.leaf(0, 0, 20000);
        }
    }
    let m = r.bytes(65536);
    o.image(&m);
    for n in [1u32, 16382, 16383, 16384] { o.values(n, 4, 0, 20000); o.values(n - 1, 1, 0, 20000); }
    let mut m = vec![0; IMAGE_MOST];
    m[4..6].copy_from_slice(b"lh");
    put16(&mut m, 6, 65535);
    for i in 0..65535 { put32(&mut m, 8 + 8 * i, i as u32 * 65537); }
    o.image(&m);
    for base in [0, 65536] { o.walk(1, 0, base, BUDGET, 70000); o.leaf(0, base, 70000); }
    for room in [65534, 65535, 65536] { o.leaf(0, 0, room); }
    o.values(131_070, 1, 0, 131_070);
}

/// Leaf lists of lengths around those at which the code goes another way (a block of 16, few of at most 32, a piece of 4,096), of which no entry is
/// dropped, or some: the first, the last, two in the middle, three apart.
fn long_leaves(o: &mut Out<impl Write>) {
    let base = 16;
    for (kind, each) in [(b"li", 4), (b"lh", 8)] {
        for n in [15, 16, 17, 31, 32, 33, 34, 47, 48, 49, 4095, 4096, 4097, 4128, 4129] {
            for lost in [vec![], vec![0], vec![n - 1], vec![n / 2 - 1, n / 2], vec![0, n / 3, n - 2]] {
                let offsets: Vec<u32> = (0..n).map(|i| if lost.contains(&i) { u32::MAX - 15 + i as u32 % 16 } else { 8 * i as u32 }).collect();
                let mut m = vec![0; base + 8 + each * n];
                leaf_list(&mut m, base, kind, &offsets, base as u32);
                o.image(&m);
                o.walk(1, 0, base as u32, BUDGET, n as u32);
                o.leaf(base as u64, base as u32, (n - lost.len()) as u32);
            }
        }
    }
}

// ---- hives

/// Every record and list that can be seen in a hive, and what they name.
fn hive(o: &mut Out<impl Write>, m: &[u8], few: bool) {
    for tag in 1..4 { o.case(tag, &[], None); }
    if m.len() >= 44 { o.case(10, &[4096, get32(m, 40)], None); o.case(10, &[4096, m.len() as u32 - 4096.min(m.len() as u32)], None); }
    let places: Vec<usize> = (4096..m.len().saturating_sub(24)).step_by(8).filter(|p| p % 8 == 0).collect();
    let mut seen = 0;
    for p in places {
        let sign = &m[p + 4..p + 6];
        if few && seen > 12 && (p / 8) % 7 != 0 { continue; }
        let least = match sign { b"nk" => 80, b"vk" => 24, b"lf" | b"lh" | b"li" | b"ri" => 8, _ => 0 };
        if !few && least > 0 { o.case(18, &[p as u32, least], None); }
        match sign {
            b"nk" if p + 80 <= m.len() => {
                seen += 1;
                o.case(6, &[p as u32], None);
                o.walk(get32(m, p + 24), get32(m, p + 32), 4096, 1024, ENOUGH);
                o.record(p as u32, 4096, 1024, ENOUGH, b"value1");
                o.values(get32(m, p + 40), get32(m, p + 44), 4096, ENOUGH);
                let end = (p + 80 + get16(m, p + 76) as usize).min(m.len());
                if !few { o.case(9, &[get16(m, p + 6) as u32], Some(&m[p + 80..end])); o.image(m); }
                if get32(m, p + 40) > 0 { for name in [&b"Value0"[..], b"value1", b"VALUE0000", b""] { o.lookup(get32(m, p + 40), get32(m, p + 44), 4096, name); } }
            }
            b"vk" => { seen += 1; o.case(7, &[p as u32], None); }
            b"lf" | b"lh" | b"li" | b"ri" => {
                o.case(11, &[p as u32], None);
                o.walk(1, (p - 4096) as u32, 4096, BUDGET, ENOUGH);
                if !few { o.leaf(p as u64, 4096, ENOUGH); }
            }
            _ => {}
        }
    }
}

/// The data of every value record that can be seen in a hive: for the minor versions on both sides and the hive's own, with rooms
/// that are exact, one fewer, none and larger.
fn hive_data(o: &mut Out<impl Write>, m: &[u8], few: bool) {
    let own = if m.len() >= 28 { get32(m, 24) } else { 5 };
    for p in (4096..m.len().saturating_sub(24)).step_by(8) {
        if &m[p + 4..p + 6] != b"vk" { continue; }
        o.records += 1;
        if o.records % o.data_one_in != 0 { continue; }
        let n = get32(m, p + 8) & 0x7fffffff;
        let rooms = [n, n.saturating_sub(1), 0, n.saturating_add(5)];
        if few { o.data_of(p as u32, 4096, own, &rooms[..2]); continue; }
        for minor in [3, 4, 5].into_iter().chain((!(3..6).contains(&own)).then_some(own)) { o.data_of(p as u32, 4096, minor, &rooms); }
        o.data(get32(m, p + 8), get32(m, p + 12), 4096, own, &rooms);
    }
}

fn hives(o: &mut Out<impl Write>, r: &mut Rng, files: &[String], cuts: usize, damaged: usize) {
    for f in files {
        let whole = std::fs::read(f).expect(f);
        let m = &whole[..whole.len().min(IMAGE_MOST)];
        o.image(m);
        hive(o, m, false);
        hive_data(o, m, false);
        // cuts
        for _ in 0..cuts {
            let n = if r.chance(3) { r.range(0, m.len()) } else { r.range(4096.min(m.len()), m.len()) };
            o.length(n);
            hive(o, &m[..n], true);
            hive_data(o, &m[..n], true);
        }
        o.length(m.len());
        // damage: one to six bytes, most of them inside the part in use
        let used = m.iter().rposition(|&x| x != 0).unwrap_or(0);
        for _ in 0..damaged {
            let mut d = m.to_vec();
            for _ in 0..r.range(1, 6) {
                let at = if r.chance(8) { r.range(0, 4095) } else { r.range(4096.min(used), used) };
                d[at] = if r.chance(2) { r.next() as u8 } else { d[at] ^ (1 << r.below(8)) };
                let x = d[at];
                o.patch(at, &[x]);
            }
            hive(o, &d, true);
            hive_data(o, &d, true);
            o.image(m);
        }
    }
}

/// The samples that are stored: a share of all of these. `rust`: only what the Rust has.
fn stored(o: &mut Out<impl Write>, seed: u64, files: &[String], rust: bool) {
    o.pick = Rng(seed);
    //                   checksum, block, db, values, walk, key, value, lookup, hash, bins, list, words, and three by the record
    // and all of the tags from 16 on, which the Rust does not have and which draw nothing, so that the picks above stay
    let whole = |first: [u64; 16]| -> [u64; TAGS] { std::array::from_fn(|i| if i < 16 { first[i] } else if rust { 0 } else { 1 }) };
    let shares: [[u64; 16]; 3] = if rust {
        [[0, 16, 24, 60, 20, 24, 6, 16, 0, 0, 0, 24, 0, 0, 0, 0], [0, 4, 2, 8, 2, 2, 2, 6, 0, 0, 0, 6, 0, 0, 0, 0], [0, 3, 6, 6, 3, 2, 2, 6, 0, 0, 0, 2, 0, 0, 0, 0]]
    } else {
        [[0, 8, 80, 10, 3, 7, 10, 10, 4, 1, 1, 12, 1, 1, 1, 1], [0, 8, 16, 8, 1, 1, 5, 5, 1, 1, 2, 3, 3, 2, 2, 2], [0, 3, 12, 3, 2, 1, 3, 3, 3, 1, 1, 1, 0, 2, 2, 2]]
    };
    o.one_in = whole(if rust { [0, 1, 1, 1, 1, 1, 1, 1, 0, 0, 0, 1, 0, 0, 0, 0] } else { [1; 16] });
    boundaries(o);
    o.one_in = whole(shares[0]);
    fixed(o);
    o.one_in = whole(shares[1]);
    rounds(o, &mut Rng(seed), 20, SMALL);
    o.one_in = whole(shares[2]);
    o.data_one_in = 5;
    hives(o, &mut Rng(seed), files, 1, 3);
    cells(o, &mut Rng(seed), 200);
    puts(o, &mut Rng(seed), 200);
    leaves(o, &mut Rng(seed), 20, SMALL.0);
    data_edges(o, false);
    datas(o, &mut Rng(seed), 40);
    dropping(o, &mut Rng(seed), 20, SMALL.0);
    steps(o, false);
    any_steps(o, &mut Rng(seed), 4);
    deleted(o, false);
    any_keys(o, &mut Rng(seed), 8);
    o.one_in[23] = 6;
    hive_bins(o, &mut Rng(seed), files, 2);
    letters(o);
    any_letters(o, &mut Rng(seed), 100);
    if !rust { o.one_in = [1; TAGS]; long_leaves(o); }
}

/// The samples about bins as they arrive, which are stored by themselves: among them each case of the whole check that is stored. Behind
/// them those about the strict profile, about lists written anew, about totals beside the keys, and then about records that know their place.
fn stored_parts(o: &mut Out<impl Write>, seed: u64, files: &[String]) {
    let mut others = Out::new(std::io::sink(), [1; TAGS], 0);
    others.checked = Some(vec![]);
    stored(&mut others, seed, files, false);
    again(o, &mut Rng(seed), others.checked.unwrap_or_default());
    arriving(o, false);
    records_between(o, false);
    any_parts(o, &mut Rng(seed), 20);
    hive_parts(o, &mut Rng(seed), files, 3);
    short_names(o);
    strict(o, false);
    any_strict(o, &mut Rng(seed), 3, SMALL.0);
    hive_strict(o, &mut Rng(seed), files, 1, false);
    conversion(o, false);
    any_conversion(o, &mut Rng(seed), 10, SMALL.0);
    hive_conversion(o, &mut Rng(seed), files, 6, false);
    totals(o, false);
    any_totals(o, &mut Rng(seed), 12, SMALL.0);
    hive_totals(o, &mut Rng(seed), files, 1);
    in_place(o, false);
    any_place(o, &mut Rng(seed), 10, SMALL.0);
    hive_place(o, &mut Rng(seed), files, 1, false);
}

/// The samples about listings, which are stored by themselves.
fn stored_listings(o: &mut Out<impl Write>, seed: u64, files: &[String]) {
    listings(o, false);
    any_listing(o, &mut Rng(seed), 12, SMALL.0);
    hive_listings(o, &mut Rng(seed), files, 6, false);
}

// ---- hashes of names with units above 255: the ends of the ranges that have an upper case, words, and `random` others

/// both ends of the two ranges, of what they become and of the table, and the units beside them
const ENDS: [u16; 21] = [254, 255, 256, 376, 1023, 1024, 1039, 1040, 1071, 1072, 1073, 1102, 1103, 1104, 1105, 1118, 1119, 1120, 1121, 1152, 1169];
/// letters, and what stands beside letters, in a byte each
const BYTES: [u16; 14] = [64, 65, 90, 91, 96, 97, 122, 123, 192, 215, 223, 224, 247, 254];
const WORDS: [&str; 24] = [
    "депо", "диспетчер", "терминал", "пост 7", "разъезд №3", "ёлка", "подъезд", "съёмка", "южный-восток", "щит эхо цех",
    "ђак", "љубав", "њива", "џеп", "ѓум", "ќерка", "ѕвезда", "ѐ", "ѝ", "їжак", "єдність", "ўлада", "ґанок", "straße Київ ÿ",
];

fn units(name: &[u16]) -> Vec<u8> { name.iter().flat_map(|x| x.to_le_bytes()).collect() }

fn letters(o: &mut Out<impl Write>) {
    for x in ENDS {
        for name in [vec![x], vec![x, 97], vec![122, x], vec![255, x, 65], vec![x, x, x]] { for flags in [0, 0xffdf, 0x20] { o.case(9, &[flags], Some(&units(&name))); } }
        // half a unit behind it
        for flags in [0, 0x20] { let mut m = units(&[x]); m.push(4); o.case(9, &[flags], Some(&m)); }
        for y in BYTES { o.case(9, &[0], Some(&units(&[y, x]))); }
        for y in ENDS { o.case(9, &[0], Some(&units(&[x, y]))); }
    }
    for word in WORDS { for word in [word.to_string(), word.to_uppercase(), word.to_lowercase()] {
        let name: Vec<u16> = word.encode_utf16().collect();
        o.case(9, &[0], Some(&units(&name)));
        o.case(9, &[0x20], Some(&units(&name)));
    } }
}

fn any_letters(o: &mut Out<impl Write>, r: &mut Rng, random: u64) {
    for _ in 0..random {
        let n = r.range(1, 24);
        let name: Vec<u16> = (0..n).map(|_| match r.below(8) { 0 => r.pick(&BYTES), 1 => r.range(32, 255) as u16, 2 => r.pick(&ENDS), 3 => r.next() as u16, _ => r.range(1020, 1124) as u16 }).collect();
        let flags = if r.chance(8) { r.next() as u16 } else { 0 };
        o.case(9, &[flags as u32], Some(&units(&name)));
    }
}

// ---- cells, and numbers written into a buffer: boundaries, and `random` others

fn cells(o: &mut Out<impl Write>, r: &mut Rng, random: u64) {
    let p = 5;
    for left in [0usize, 3, 4, 5, 8, 24] {
        let mut m: Vec<u8> = (1..).take(p + left).collect();
        o.image(&m);
        for at in [p, p + left, p + left + 1, u32::MAX as usize] { for least in [0, 4] { o.case(18, &[at as u32, least], None); } }
        if left < 4 { continue; }
        let n = left as i32;
        for size in [0, 1, 4, 7, 8, n - 1, n, n + 1, i32::MAX] { for word in [size, -size, i32::MIN] {
            put32(&mut m, p, word as u32);
            o.image(&m);
            let size = word.unsigned_abs();
            for least in [0, 4, size.saturating_sub(1), size, size + 1, u32::MAX] { o.case(18, &[p as u32, least], None); }
        } }
    }
    for _ in 0..random {
        let n = r.range(0, 40);
        let mut m = r.bytes(n);
        let at = r.range(0, n + 2);
        let size = r.range(0, n + 4) as i32;
        if at + 4 <= n && !r.chance(4) { put32(&mut m, at, if r.chance(2) { size } else { -size } as u32); }
        let least = if r.chance(3) { size as u32 } else { r.below(44) as u32 };
        o.case(18, &[at as u32, least], Some(&m));
    }
}

fn puts(o: &mut Out<impl Write>, r: &mut Rng, random: u64) {
    for width in [2u32, 4, 8] { for room in [0, 1, width - 1, width, width + 1, 32] {
        let last = room.saturating_sub(width);
        for at in [0, last, last + 1, room, room + 1, u32::MAX] { for (low, high) in [(0, 0), (0x0403_0201, 0x0807_0605), (u32::MAX, u32::MAX)] {
            o.case(19, &[width, at, low, high, room], None);
        } }
    } }
    for _ in 0..random {
        let (width, room) = (r.pick(&[2, 4, 8]), r.below(33) as u32);
        let (at, low, high) = (r.below(34) as u32, r.word(), r.word());
        o.case(19, &[width, at, low, high, room], None);
    }
}

// ---- one leaf list: each rule on both sides, and `random` images with lists, of at most so many bytes

fn leaves(o: &mut Out<impl Write>, r: &mut Rng, random: u64, most: usize) {
    let p = 5;
    for base in [0u32, 16, 1 << 31, u32::MAX] { for kind in [b"li", b"lf", b"lh", b"ri", b"lx", b"Li"] { for count in [0u16, 1, 2, 5, 0xffff] {
        // offsets on both sides of the drop, the greatest first; a hint is no offset of the list and lies on the other side
        let top = u32::MAX - base;
        let offsets = [top, top.wrapping_add(1), 7, u32::MAX, top / 2];
        let hints = [top.wrapping_add(2), 3, u32::MAX - 1, 1, u32::MAX - 2];
        let wide = kind[0] == b'l' && (kind[1] == b'f' || kind[1] == b'h');
        let words: Vec<u32> = if wide { (0..10).map(|i| if i % 2 == 0 { offsets[i / 2] } else { hints[i / 2] }).collect() } else { offsets.to_vec() };
        let each = if wide { 8 } else { 4 };
        let end = p + 8 + each * if count == 0xffff { 5 } else { count as usize };
        let mut m: Vec<u8> = (1..).take(p + 8 + 4 * words.len() + 3).collect();
        list(&mut m, p, kind, &words, count);
        o.image(&m);
        for n in [p - 1, p, p + 1, p + 5, p + 7, p + 8, end - 1, end, end + 1] { o.length(n.min(m.len())); o.leaf(p as u64, base, 8); }
        o.length(end);
        for room in 0..7 { o.leaf(p as u64, base, room); }
        if count != 2 { continue; }
        let (p, end) = (p as u64, end as u64);
        for at in [p - 1, p + 1, end - 8, end - 7, end, end + 1, u32::MAX as u64, (1 << 32) + p, (1 << 32) - 1 + end, u64::MAX - 7, u64::MAX] { o.leaf(at, base, 2); }
    } } }
    // all entries dropped, and all but one
    for base in [1u32, 16, 1 << 31, u32::MAX] { for kind in [b"li", b"lf", b"lh"] { for last in [u32::MAX, u32::MAX - base] {
        let mut m = vec![0; p + 8 + 8 * 3];
        leaf_list(&mut m, p, kind, &[0u32.wrapping_sub(base), u32::MAX, last], base);
        o.image(&m);
        for room in 0..3 { o.leaf(p as u64, base, room); }
    } } }
    for _ in 0..random {
        let base = r.pick(&[0usize, 0, 4, 16, 31, 32, most / 4]);
        let (m, places) = lists(r, base, most);
        o.image(&m);
        for p in places {
            let other = r.pick(&[0u32, base as u32, u32::MAX - (1 << 19), u32::MAX]);
            let room = r.below(12) as u32;
            for (base, room) in [(base as u32, ENOUGH), (base as u32, room), (other, ENOUGH)] { o.leaf(p as u64, base, room); }
            let at = p as u64 + r.below(9);
            o.leaf(at, base as u32, ENOUGH);
        }
    }
}

/// Walks and leaf lists of `random` images with lists, of at most so many bytes, in which half of the entries lie close to the drop.
fn dropping(o: &mut Out<impl Write>, r: &mut Rng, random: u64, most: usize) {
    for _ in 0..random {
        let base = r.pick(&[2usize, 4, 16, 31, 32, most / 4]);
        let (mut m, places) = lists(r, base, most);
        for &p in &places {
            if p + 8 > m.len() || &m[p + 4..p + 6] == b"ri" { continue; }
            let each = if &m[p + 4..p + 6] == b"li" { 4 } else { 8 };
            for at in (0..get16(&m, p + 6) as usize).map(|i| p + 8 + each * i) {
                if at + 4 <= m.len() && r.chance(2) { let x = u32::MAX - base as u32 - 1 + r.below(4) as u32; put32(&mut m, at, x); }
            }
        }
        o.image(&m);
        for p in places {
            let (budget, room) = (r.below(14) as u32, r.below(12) as u32);
            for (budget, room) in [(BUDGET, ENOUGH), (BUDGET, room), (budget, ENOUGH)] { o.walk(1, (p - base) as u32, base as u32, budget, room); }
            for room in [ENOUGH, room] { o.leaf(p as u64, base as u32, room); }
        }
    }
}

// ---- the reader of cells, and deleted keys

fn bin_header(m: &mut [u8], at: usize, own: usize, size: usize) {
    m[at..at + 4].copy_from_slice(b"hbin");
    put32(m, at + 4, own as u32);
    put32(m, at + 8, size as u32);
}

/// Bins from `base` on: of each its size and its cells' size words; what these leave of it is one free cell more.
fn bins_of(base: usize, rows: &[(usize, &[i32])]) -> Vec<u8> {
    let mut m = vec![0; base];
    for &(size, cells) in rows {
        let start = m.len();
        m.resize(start + size, 0);
        bin_header(&mut m, start, start - base, size);
        let mut at = start + 32;
        for &word in cells { put32(&mut m, at, word as u32); at += word.unsigned_abs() as usize; }
        if at < start + size { put32(&mut m, at, (start + size - at) as u32); }
    }
    m
}

/// The cells of bins that were made right, from `base` on: where each one's bin starts, and its own place.
fn cells_of(m: &[u8], base: usize) -> Vec<(usize, usize)> {
    let (mut cells, mut bin) = (vec![], base);
    while bin + 32 <= m.len() {
        let over = (bin + get32(m, bin + 8) as usize).min(m.len());
        let mut at = bin + 32;
        while at + 4 <= over {
            cells.push((bin, at));
            at += (get32(m, at) as i32).unsigned_abs().max(8) as usize;
        }
        bin = over.max(bin + 32);
    }
    cells
}

/// The size words around those that leave so many bytes to the bin's end.
fn size_words(left: i32) -> Vec<i32> {
    let sizes = [0, 1, 4, 7, 8, 9, 12, 16, left - 8, left - 4, left - 1, left, left + 1, left + 4, left + 8, left + 4096, 0x7ffffff8, i32::MAX];
    sizes.into_iter().flat_map(|s| [s, -s]).chain([i32::MIN]).collect()
}

/// Steps: each rule on both sides. `more`: what is too much of the same to be stored.
fn steps(o: &mut Out<impl Write>, more: bool) {
    const HIGH: u64 = 1 << 32;
    // no bytes, and so many of a bin's
    let m = bins_of(0, &[(4096, &[8, -16, 88]), (8192, &[-8152]), (4096, &[-4064])]);
    let all = m.len() as u64;
    o.image(&m);
    for n in 0..=40u64 {
        o.length(n as usize);
        o.step(0, 0);
        if more || [0, 1, 31, 32, 33, 40].contains(&n) { for (bin, place) in [(0, 32), (n, n), (n, n + 1), (n + 1, n + 1)] { o.step(bin, place); } }
    }
    // cuts in a bin, in a header, at a bin's end
    for n in [4095u64, 4096, 4097, 4100, 4127, 4128, 4136, 12287, 12288, 12289, 12319, 12320] {
        o.length(n as usize);
        for (bin, place) in [(0, 0), (0, 144), (4096, 4096), (4096, 12280), (12288, 12288), (n, n)] { o.step(bin, place); }
    }
    // each bin's start, header, cells and end, and the places beside these
    o.length(all as usize);
    for (bin, over) in [(0u64, 4096u64), (4096, 12288), (12288, all)] {
        for place in [0, 1, 4, 8, 24, 28, 31, 32, 33, 36, 40, 56, 144].map(|x| bin + x) { o.step(bin, place); }
        for place in [-16i64, -8, -4, -3, -1, 0, 1, 4, 8, 32, 40].map(|x| over.wrapping_add_signed(x)) { o.step(bin, place); }
        for place in [0, 32, 4128, all, all + 1, HIGH, HIGH + bin, HIGH + bin + 32, (1 << 63) + bin + 32, u64::MAX - 4095, u64::MAX - 31, u64::MAX - 7, u64::MAX] { o.step(bin, place); }
    }
    // no bin starts there, or none starts there any more
    for bin in [1, 8, 31, 32, 40, 4064, 4095, 4097, 8192, all - 4097, all - 33, all - 32, all - 31, all - 1, all, all + 1, all + 32, HIGH - 1, HIGH, HIGH + 4096, HIGH + all, 1 << 63, u64::MAX - 4095, u64::MAX - 31, u64::MAX - 30, u64::MAX] {
        for place in [bin, bin.wrapping_add(32), 0] { o.step(bin, place); }
    }
    for place in [all - 1, all + 1, HIGH + all] { o.step(all, place); }
    // size words of the first cell, of one behind it, of the last one
    for (at, left) in [(32usize, 4064), (56, 4040), (4088, 8)] {
        for word in size_words(left) {
            o.patch(at, &signed(word));
            o.step(0, at as u64);
            if at == 32 && (more || word % 8 != 0 || word == -left) { o.step(0, 0); }
        }
        o.patch(at, &m[at..at + 4]);
    }
    // the second bin's header: the last step before it goes there all the same
    let mut headers: Vec<Fault> = (4096..4100).flat_map(|at| [(at, vec![m[at] ^ 0x20]), (at, vec![0])]).collect();
    for own in [0u32, 4095, 4097, 8192, 4096 + 65536, 0x80001000] { headers.push((4100, own.to_le_bytes().to_vec())); }
    for size in [0u32, 1, 32, 4095, 4096, 4097, 8191, 8193, 12287, 12288, 12289, 16384, 0x80002000, 0xfffff000, u32::MAX] { headers.push((4104, size.to_le_bytes().to_vec())); }
    for (at, bytes) in headers {
        o.patch(at, &bytes);
        for (bin, place) in [(4096, 4096), (4096, 4128), (4096, 12280), (0, 144)].into_iter().take(if more || at == 4104 { 4 } else { 2 }) { o.step(bin, place); }
        if at == 4104 { o.step(12288, 12288); }
        o.patch(at, &m[at..at + bytes.len()]);
    }
    // a first bin that reaches over the second one, and the bins' rest
    for size in [8192u32, 12288, 16384, 20480] {
        o.patch(8, &size.to_le_bytes());
        for place in [0u64, 144, 4096, 4128, 12280, 12288] { o.step(0, place); }
    }
    o.patch(8, &m[8..12]);
    if more {
        // every place of a bin and every start of one; every byte of a header and of a size word
        for x in 0..4200 { o.step(0, x); o.step(x, x); o.step(4096, x + 8190); }
        for at in (4096..4108).chain(4128..4132).chain(12280..12284) {
            for x in [0, 255, m[at] ^ 1, m[at] ^ 0x80, m[at].wrapping_add(8)] {
                o.patch(at, &[x]);
                for (bin, place) in [(4096, 4096), (4096, 4128), (4096, 12280), (12288, 12288)] { o.step(bin, place); }
            }
            o.patch(at, &m[at..at + 1]);
        }
        // bins of 4,096 bytes up to the greatest image
        let m = bins_of(0, &[(4096, &[-8, 4048][..]); IMAGE_MOST / 4096]);
        o.image(&m);
        for bin in (0..IMAGE_MOST as u64).step_by(4096) { for place in [0, 32, 40, 4088, 4096] { o.step(bin, bin + place); } }
        o.step(IMAGE_MOST as u64, IMAGE_MOST as u64);
    }
}

/// Steps in random bins, and in damaged and cut ones.
fn any_steps(o: &mut Out<impl Write>, r: &mut Rng, random: u64) {
    for _ in 0..random {
        let count = r.range(0, 3);
        let m = bins(r, 0, count);
        o.image(&m);
        let cells = cells_of(&m, 0);
        for _ in 0..12 { any_step(o, r, &m, &cells); }
        if m.is_empty() { continue; }
        for _ in 0..6 {
            let (bin, at) = r.pick(&cells);
            let at = if r.chance(3) { bin + r.range(0, 11) } else { at + r.range(0, 3) };
            let x = if r.chance(2) { r.next() as u8 } else { m[at] ^ (1 << r.below(8)) };
            o.patch(at, &[x]);
            o.step(bin as u64, bin as u64);
            o.step(bin as u64, (at & !7) as u64);
            o.patch(at, &m[at..at + 1]);
        }
        let n = r.range(0, m.len());
        o.length(n);
        for _ in 0..2 { any_step(o, r, &m, &cells); }
    }
}

/// A step, most often at a cell that was made.
fn any_step(o: &mut Out<impl Write>, r: &mut Rng, m: &[u8], cells: &[(usize, usize)]) {
    let n = m.len() as u64;
    let (bin, place) = if cells.is_empty() { (0, 0) } else { r.pick(cells) };
    let (bin, place) = (bin as u64, place as u64);
    let (other, _) = if cells.is_empty() { (0, 0) } else { r.pick(cells) };
    let (wide, low) = ((r.word() as u64) << 32 | r.word() as u64, r.below(n + 40));
    match r.below(8) {
        0 => o.step(bin, bin),
        1 => o.step(bin, low),
        2 => o.step(other as u64, place),
        3 => o.step(low, low + 32 * (wide % 2)),
        4 => o.step(wide, r.pick(&[wide, place, bin])),
        5 => o.step(bin, r.pick(&[wide, n, place + 8, place.wrapping_sub(8)])),
        _ => o.step(bin, place),
    }
}

/// A key's size word, letters and name length; its other bytes stay.
fn key_head(m: &mut [u8], p: usize, word: i32, letters: &[u8; 2], name: usize) {
    put32(m, p, word as u32);
    m[p + 4..p + 6].copy_from_slice(letters);
    put16(m, p + 76, name as u16);
}

/// Keys of free cells: each rule on both sides. `more`: what is too much of the same to be stored.
fn deleted(o: &mut Out<impl Write>, more: bool) {
    // one cell at the start of its bin, and one at its end, which may be the image's
    for base in [0usize, 7] { for size in [8usize, 64, 72, 80, 88, 4064] { for last in [false, true] {
        let at = base + if last { 4096 - size } else { 32 };
        if last && size == 4064 || base > 0 && !more && (size < 72 || size > 88) { continue; }
        let m = bins_of(base, &[(4096, &[if last { 4064 - size } else { size } as i32])]);
        let mut heads: Vec<(i32, &[u8; 2], usize)> = vec![];
        let free = size as i32;
        for word in [free, -free] { for name in [0, 1] { heads.push((word, b"nk", name)); } }
        if size >= 80 {
            for name in [size - 80, size - 79, 0xffff].into_iter().chain((size > 80).then(|| size - 81)) { for word in [free, -free] { heads.push((word, b"nk", name)); } }
            for letters in [b"vk", b"nK", b"kn", b"sk", b"Nk", b"\0\0"] { heads.push((free, letters, 0)); }
        }
        heads.sort();
        heads.dedup();
        for tail in if more { vec![0usize, 3, 80] } else if last && size < 80 { vec![0, 80] } else { vec![0] } {
            for &(word, letters, name) in &heads {
                let mut m = m.clone();
                m.resize(base + 4096 + tail, 0);
                // what of the key passes its cell stands in the bytes behind it, as far as there are any
                let mut whole = vec![0; m.len().max(at + 80)];
                whole[..m.len()].copy_from_slice(&m);
                key_head(&mut whole, at, word, letters, name);
                if size < 80 && !last { whole[at + size..at + size + 4].copy_from_slice(&m[at + size..at + size + 4]); }
                o.image(&whole[..m.len()]);
                o.deleted(base as u32, 4096, 2);
                if size == 88 && letters == b"nk" && name == 8 { for n in [0, 1] { o.deleted(base as u32, 4096, n); } }
            }
        }
    } } }
    // three bins: keys at the start and the end of each, allocated ones and other cells between them
    let cells: [(usize, &[i32]); 3] = [(4096, &[88, -96, 24, 80, -88, 8, 3592, 88]), (8192, &[80, -88, 7904, 88]), (4096, &[128, 96, -3760, 80])];
    for base in if more { &[0usize, 1, 7, 4096, 65541][..] } else { &[0, 7, 4096] } {
        let mut m = bins_of(*base, &cells);
        let (base, size) = (*base as u32, (m.len() - base) as u32);
        let mut keys = vec![];
        for (_, at) in cells_of(&m, base as usize) {
            let word = get32(&m, at) as i32;
            if ![80, 88, 96, 128].contains(&word.unsigned_abs()) { continue; }
            key_head(&mut m, at, word, b"nk", word.unsigned_abs() as usize - 80);
            if word > 0 { keys.push(at); }
        }
        let n = keys.len() as u32;
        o.image(&m);
        for k in (0..=n + 1).chain([WIDE_MOST]) { o.deleted(base, size, k); }
        // one key fewer: by its sign, its letters, its name
        for &at in &keys {
            for (place, bytes) in [(at, signed(-(get32(&m, at) as i32))), (at + 4, *b"nl\x20\0"), (at + 76, signed(get32(&m, at) as i32 - 79))] {
                o.patch(place, &bytes);
                for k in [n - 1, n - 2].into_iter().take(if more || at == keys[0] { 2 } else { 1 }) { o.deleted(base, size, k); }
                o.patch(place, &m[place..place + 4]);
            }
        }
        // the bins' size, the base, the image's end
        if more || base != 7 {
            for size in [0, 1, 31, 32, 4095, 4096, 4097, 12287, 12288, 12289, size - 1, size, size + 1, size + 4096, u32::MAX - base, u32::MAX] { for k in [0, n] { o.deleted(base, size, k); } }
            for at in [0, 1, 8, 4095, 4096, 4097, base.wrapping_sub(1), base + 1, base + 4096, m.len() as u32 - 1, m.len() as u32, m.len() as u32 + 1, 1 << 31, u32::MAX] {
                for size in [0, 1, 4096, size] { o.deleted(at, size, n); }
            }
            for cut in [1, 8, 32, 80, 88, 4095, 4096] { o.length(m.len() - cut); o.deleted(base, size, n); o.deleted(base, size - cut as u32, n); }
        }
        o.length(m.len());
        m.push(9);
        o.image(&m);
        for size in [size, size + 1] { o.deleted(base, size, n); }
        // a bin or a cell at fault, before, between and behind the keys; 9 comes after it
        let b = base as usize;
        for (at, bytes) in [(b, b"hbiN".to_vec()), (b + 4, vec![1]), (b + 8, vec![0, 0]), (b + 4096, vec![0]), (b + 4100, vec![0, 0]), (b + 4104, vec![1]), (b + 12288, b"nibh".to_vec()), (b + 12296, vec![0, 0x20]),
            (b + 32, vec![0]), (b + 32, vec![84]), (b + 120, vec![168]), (b + 4008, vec![80]), (b + 4008, vec![96]), (b + 4128, vec![0]), (b + 12200, vec![96]), (b + 12320, vec![129]), (b + 16304, vec![88]), (b + 16304, vec![72])] {
            o.patch(at, &bytes);
            for k in [0, n] { o.deleted(base, size, k); }
            o.patch(at, &m[at..at + bytes.len()]);
        }
    }
    // a key within a free cell: only what holds it is judged
    for outer in [b"nk", b"sk"] { for (first, inner) in [(400i32, 96usize), (-400, 96), (96, 96), (-96, 96), (400, 8), (104, 96), (184, 96), (192, 104)] {
        let mut m = bins_of(0, &[(4096, &[first])]);
        key_head(&mut m, 32, first, outer, 16);
        // what is a cell of its own keeps its size word where this is 88
        key_head(&mut m, 32 + inner, 88, b"nk", 8);
        put32(&mut m, 32 + inner + 88, (4064 - inner - 88) as u32);
        if first.unsigned_abs() as usize != inner { let end = 32 + first.unsigned_abs() as usize; put32(&mut m, end, (4096 - end) as u32); }
        o.image(&m);
        for k in 0..3 { o.deleted(0, 4096, k); }
    } }
    // as many keys as a bin can hold
    let many = |size: usize| {
        let mut m = bins_of(0, &[(size, &vec![80; (size - 32) / 80])]);
        for (_, at) in cells_of(&m, 0) { if get32(&m, at) == 80 { key_head(&mut m, at, 80, b"nk", 0); } }
        (m, (size as u32 - 32) / 80)
    };
    let (m, n) = many(4096);
    o.image(&m);
    for k in [0, 1, n - 1, n, n + 1, WIDE_MOST - 1, WIDE_MOST] { o.deleted(0, 4096, k); }
    if more {
        let (m, n) = many(IMAGE_MOST);
        o.image(&m);
        for k in [0, n - 1, n, n + 1, WIDE_MOST] { o.deleted(0, IMAGE_MOST as u32, k); }
        // each byte of a key changed
        let mut m = bins_of(5, &[(4096, &[88, 104, -3784, 88])]);
        for at in [37, 125, 4013] { let word = get32(&m, at) as i32; key_head(&mut m, at, word, b"nk", 8); }
        o.image(&m);
        for at in (37..240).chain(4013..4101) {
            for x in [0, 255, m[at] ^ 1, m[at] ^ 0x80, m[at].wrapping_add(8)] { o.patch(at, &[x]); o.deleted(5, 4096, 3); }
            o.patch(at, &m[at..at + 1]);
        }
    }
}

/// Keys of free cells of random bins, and of damaged and cut ones.
fn any_keys(o: &mut Out<impl Write>, r: &mut Rng, random: u64) {
    for _ in 0..random {
        let (base, count) = (r.pick(&[0usize, 0, 9, 32, 4096]), r.range(1, 3));
        let mut m = bins(r, base, count);
        for (_, at) in cells_of(&m, base) {
            let word = get32(&m, at) as i32;
            let size = word.unsigned_abs() as usize;
            if size < 72 || r.chance(3) { continue; }
            let (spare, over) = (size.saturating_sub(80).min(60), r.chance(12) as usize);
            let name = if r.chance(3) { size.saturating_sub(80) + over } else { r.range(0, spare) };
            let letters = if r.chance(8) { r.pick(&[b"vk", b"sk", b"nK", b"lh"]) } else { b"nk" };
            if at + 80 <= m.len() { key_head(&mut m, at, word, letters, name); }
            // where the head passes a small cell, the next size word is put back
            if size < 80 && at + size + 4 <= m.len() && (at + size - base) % 4096 >= 32 { put32(&mut m, at + size, 8); }
        }
        let size = (m.len() - base) as u32;
        any_deleted(o, r, &m, base as u32, size, 8);
    }
}

/// The keys of free cells of bins that were made, with some rooms, and of so many damaged copies and a cut one.
fn any_deleted(o: &mut Out<impl Write>, r: &mut Rng, m: &[u8], base: u32, size: u32, damaged: usize) {
    o.image(m);
    for room in [0, ENOUGH, r.below(12) as u32] { o.deleted(base, size, room); }
    let cells = cells_of(m, base as usize);
    for _ in 0..damaged {
        let mut changed = vec![];
        for _ in 0..r.range(1, 3) {
            if cells.is_empty() { break; }
            let (bin, at) = r.pick(&cells);
            let at = match r.below(6) { 0 => bin + r.range(0, 11), 1 => at + r.range(0, 3), 2 => at + r.range(4, 5), 3 => at + r.range(76, 77), _ => at + r.range(0, 90) };
            if at >= m.len() { continue; }
            let x = if r.chance(2) { r.next() as u8 } else { m[at] ^ (1 << r.below(8)) };
            o.patch(at, &[x]);
            changed.push(at);
        }
        o.deleted(base, size, r.pick(&[ENOUGH, ENOUGH, 1]));
        for at in changed { o.patch(at, &m[at..at + 1]); }
    }
    let n = r.range(0, m.len());
    o.length(n);
    for size in [size, (n as u32).saturating_sub(base), (n as u32).saturating_sub(base) / 4096 * 4096] { o.deleted(base, size, ENOUGH); }
    o.length(m.len());
}

/// Hives: the keys of their free cells as they are, and in so many copies in which some of their keys are free; steps through their bins.
fn hive_bins(o: &mut Out<impl Write>, r: &mut Rng, files: &[String], copies: usize) {
    for f in files {
        let whole = std::fs::read(f).expect(f);
        let m = &whole[..whole.len().min(IMAGE_MOST)];
        let size = m.len() as u32 - 4096;
        any_deleted(o, r, m, 4096, size, copies);
        for size in [get32(m, 40), 4096, 0] { o.deleted(4096, size, ENOUGH); }
        let keys: Vec<usize> = cells_of(m, 4096).into_iter().map(|(_, at)| at).filter(|&p| p + 80 <= m.len() && &m[p + 4..p + 6] == b"nk").collect();
        for i in 0..copies {
            let mut d = m.to_vec();
            let mut n = 0;
            for &p in &keys { if i == 0 || r.chance(3) { let word = get32(&d, p).wrapping_neg(); put32(&mut d, p, word); n += 1; } }
            o.image(&d);
            for room in [n, n + 1, n.max(1) - 1] { o.deleted(4096, size, room); }
            any_deleted(o, r, &d, 4096, size, copies);
        }
        let lent = &m[4096..];
        o.image(lent);
        let cells = cells_of(lent, 0);
        for &(bin, at) in &cells { o.step(bin as u64, at as u64); if at == bin + 32 { o.step(bin as u64, bin as u64); } }
        o.step(lent.len() as u64, lent.len() as u64);
        for _ in 0..4 * copies { any_step(o, r, lent, &cells); }
    }
}

// ---- bins as they arrive

/// The answer of a record between two parts: totals, or a refusal and the byte, not 0, that says so.
#[derive(Clone, Copy)]
enum Told { Totals([u64; 5]), Refused(u8, u32, u64) }

/// the lengths of parts that everything is cut in
const CUTS: [u32; 8] = [1, 3, 4, 7, 31, 32, 33, 4096];

/// Random lengths of parts, some of them 0, that make up so many bytes.
fn any_cut(r: &mut Rng, bytes: usize) -> Vec<u32> {
    let (mut lengths, mut left) = (vec![], bytes);
    while left > 0 && lengths.len() < 40 {
        let most = if r.chance(3) { left } else { left.min(r.pick(&[1, 4, 8, 33, 100, 1000])) };
        let n = if r.chance(5) { 0 } else { r.range(1, most) };
        lengths.push(n as u32);
        left -= n;
    }
    lengths.push(left as u32);
    if r.chance(3) { lengths.push(0); }
    lengths
}

/// The cases of the whole check again, each in parts of one length after another, with empty parts between, and at random.
fn again(o: &mut Out<impl Write>, r: &mut Rng, checked: Vec<Checked>) {
    for (i, (base, size, bytes)) in checked.iter().enumerate() {
        o.image(bytes);
        for (j, &each) in CUTS.iter().enumerate() {
            match (i + j) % 4 { 0 => o.whole_in(*base, *size, &[each, 0]), 1 => o.whole_in(*base, *size, &[0, each]), _ => o.whole_in(*base, *size, &[each]) }
        }
        for _ in 0..2 { let lengths = any_cut(r, bytes.len()); o.parts(*base, *size, 1, &lengths); }
    }
}

/// Each rule on both sides. `more`: what is too much of the same to be stored.
fn arriving(o: &mut Out<impl Write>, more: bool) {
    let all = |o: &mut Out<_>, base: u32, size: u32, rows: &[&[u32]]| for lengths in rows { o.parts(base, size, 1, lengths); };
    // no part, and empty ones; parts that are all there is, and one byte more; the rest too short at the start
    let m = bins_of(0, &[(4096, &[8, -16, 88]), (8192, &[-8152]), (4096, &[-4064])]);
    o.image(&m);
    for base in [0, 7, u32::MAX] {
        for size in [0u32, 1, 2, 4, 30, 31, 32, 33, 4095, 4096, 4097, 4127, 4128, u32::MAX] {
            all(o, base, size, &[&[], &[0], &[0, 0], &[1], &[0, 1], &[1, 0], &[size], &[size, 0], &[0, size], &[size, 1], &[size, 0, 1, 0], &[size.saturating_sub(1)], &[size.saturating_sub(1), 1], &[size.saturating_sub(1), 2],
                &[size.saturating_add(1)], &[0, size.saturating_add(1)], &[size.saturating_add(1), 0, size]]);
        }
    }
    o.parts(0, 4096, 0, &[4096]);
    for size in [0, 31, 4096] { all(o, 3, size, &[&[u32::MAX], &[m.len() as u32, u32::MAX], &[1, u32::MAX, 1]]); }
    // the end after each byte: in one part, and in small ones
    let hive = example()[4096..].to_vec();
    o.image(&hive);
    let near = |n: usize| more || n <= 400 || n >= 3996 || n % 97 == 0;
    for n in 0..=4096u32 { if near(n as usize) { o.parts(4096, 4096, 1, &[n]); } }
    for n in (0..=150).chain([319, 320, 323, 324, 325, 4088, 4095, 4096]) {
        o.length(n);
        for lengths in [&[1][..], &[7, 0], &[32], &[5, 27]] { if more || n % 3 == 0 || n >= 150 { o.whole_in(4096, 4096, lengths); } }
    }
    // the same in two bins: around the second one's header and its first cell
    let two = bins_of(0, &[(4096, &[-4064]), (4096, &[16, -24, 8])]);
    o.image(&two);
    for n in 4080..=4160u32 { all(o, 12, 8192, &[&[n], &[4096.min(n), n.max(4096) - 4096]]); if more { for k in 1..40 { o.parts(12, 8192, 1, &[n - k, k]); } } }
    // a fault of each kind, and the end on both sides of the byte at which it is judged; parts behind it, and 18 before and after it
    let mut faults: Vec<Fault> = vec![(0, b"hbix".to_vec()), (0, vec![0]), (3, vec![0]), (4, vec![1]), (7, vec![128]), (8, vec![1]), (9, vec![0]), (9, vec![0x30]), (11, vec![255])];
    for word in [0, 4, 12, -4, 4072, -4072, 7, i32::MIN, i32::MAX] { faults.push((32, signed(word).to_vec())); }
    for (at, word) in [(4128usize, 0), (4128, 4072), (4144, 4), (4144, -4096), (4168, 20), (4176, 0), (4176, 3928)] { faults.push((at, signed(word).to_vec())); }
    for at in [4096usize, 4100, 4104] { faults.push((at, vec![two[at] ^ 1])); }
    faults.push((4105, vec![0x20]));
    for (at, bytes) in faults {
        o.image(&two);
        o.patch(at, &bytes);
        let start = match at { 0..=11 => 0, 4096..=4107 => 4096, _ => at as u32 };
        let due = start + if start % 4096 == 0 { 32 } else { 4 };
        for base in [0, u32::MAX - 4000].into_iter().take(if more { 2 } else { 1 }) {
            all(o, base, 8192, &[&[due - 1], &[due], &[due - 1, 1], &[due - 1, 0, 1, 5], &[due, 0, 1, 9000], &[start, 0, due - start], &[start, due - start - 1, 1], &[8191], &[8192], &[8192, 1], &[due - 1, 8193 - due], &[due - 1, 8194 - due], &[start, 8193 - start]]);
            if more { for each in CUTS { o.whole_in(base, 8192, &[each]); o.whole_in(base, 8192, &[0, each, 0]); } }
        }
        // a byte too long, and longer, with the fault inside
        let mut long = two.clone();
        long.extend([0; 40]);
        o.image(&long);
        o.patch(at, &bytes);
        all(o, 5, 8192, &[&[8193], &[start, 8193 - start], &[due - 1, 8194 - due], &[due - 1, 8193 - due, 1], &[due, 8193 - due], &[4096, 4097], &[0, 8232], &[start, 8193 - start, 1, 0]]);
        all(o, 5, due - 1, &[&[due], &[start, due - start]]);
    }
    // a rest too short behind a bin
    let mut rest = bins_of(0, &[(4096, &[24, -4040])]);
    rest.extend([0; 40]);
    for sign in [&b"hbin"[..], b"\0\0\0\0"] {
        o.image(&rest);
        o.patch(4096, sign);
        for over in [0u32, 1, 2, 4, 12, 30, 31, 32, 33, 36] {
            let size = 4096 + over;
            all(o, 64, size, &[&[4095], &[4095, 0], &[4095, 1], &[4095, 1, 0], &[4095, 2], &[4096], &[4096, 0], &[0, 4096, over], &[4096, over, 0], &[4096, over + 1], &[4095, over + 1], &[4095, over + 2], &[size], &[size + 1], &[4055, 41, 1]]);
            if more { for each in CUTS { o.length(size as usize); o.whole_in(64, size, &[each]); o.length(rest.len()); } }
        }
    }
    // parts after a good row, and in it
    o.image(&two);
    for lengths in [&[8192u32, 0][..], &[8192, 0, 0], &[4096, 4096], &[4096, 0, 4096, 0], &[32, 4064, 32, 4064], &[31, 1, 3, 1, 4060, 31, 1, 3, 1, 12, 4, 20, 4024], &[0, 8191, 1], &[36, 4056, 4, 100, 4036 - 40]] { o.parts(9, 8192, 1, lengths); }
    for each in CUTS { for lengths in [&[each][..], &[each, 0], &[0, 0, each]] { o.whole_in(9, 8192, lengths); } }
    if more {
        // every cut in two, and every header cut in three
        for n in 0..=8192 { o.parts(9, 8192, 1, &[n, 8192 - n]); }
        for start in [0u32, 4096] { for a in 0..=36 { for b in 0..=36 { o.parts(9, 8192, 1, &[start + a, b, 8192 - start - a - b]); } } }
        // bins up to the greatest image
        let m = bins_of(0, &[(4096, &[-8, 4048][..]); IMAGE_MOST / 4096]);
        o.image(&m);
        for each in [4096, 4095, 4097, 65536, 1 << 19, 32, 33] { o.whole_in(4096, IMAGE_MOST as u32, &[each]); }
    }
}

/// One part on records of any numbers, most of which no row of parts leads to. `more`: what is too much of the same to be stored.
fn records_between(o: &mut Out<impl Write>, more: bool) {
    const TOP: u64 = u64::MAX;
    let header = |own: u32, size: u32| -> [u8; 12] { let mut h = [0u8; 12]; bin_header(&mut h, 0, own as usize, size as usize); h };
    let cell = |word: i32| -> [u8; 12] { let mut h = [0x5a; 12]; h[..4].copy_from_slice(&signed(word)); h };
    let zero = Told::Totals([0; 5]);
    // the part: a bin's header and its cells
    let m = bins_of(0, &[(4096, &[8, -16, 88])]);
    // places of any kind
    let places = if more { &[0u32, 1, 3, 4, 12, 31, 32, 33, 36, 40, 4064, 4095, 4096, 4097, 8191, 8192, 8193, u32::MAX - 32, u32::MAX][..] } else { &[0, 4, 31, 32, 40, 4096, 8192, u32::MAX] };
    for n in if more { &[0usize, 1, 2, 4, 32, 36, 100][..] } else { &[0, 1, 36] } {
        o.image(&m[..*n]);
        for &taken in places { for &place in places { for &over in places {
            if !more && (taken as usize / 7 + place as usize / 3 + over as usize + n) % 3 != 0 && place != over && taken != place { continue; }
            o.on_record([7, 8192, taken, place, over], &header(place, 4096), zero);
            if more { o.on_record([u32::MAX, place.wrapping_add(20), taken, place, over], &cell(-16), zero); }
        } } }
    }
    // sizes around what is taken, and around the place
    for n in [0usize, 1, 32] {
        o.image(&m[..n]);
        for taken in [0u32, 31, 32, 4096, u32::MAX] {
            for size in [0, taken.saturating_sub(1), taken, taken.saturating_add(1), taken.saturating_add(31), taken.saturating_add(32), taken.saturating_add(33), u32::MAX] {
                for (place, over) in [(taken, taken), (taken, taken.saturating_add(8)), (taken.saturating_sub(31), taken.saturating_sub(31)), (taken.saturating_sub(3), taken), (taken.saturating_add(1), taken.saturating_add(1))] {
                    o.on_record([1 << 31, size, taken, place, over], &header(place, 4096), zero);
                }
            }
        }
    }
    // a header of which one byte is awaited: each of its words on both sides; and a cell's
    o.image(&m[..1]);
    for (place, size) in [(0u32, 4096u32), (4096, 12288), (4096, 4096 + 33), (1 << 20, u32::MAX)] {
        for own in [place, place + 1, place.wrapping_sub(1), 0] { for bytes in [0, 1, 32, 4095, 4096, 4097, 8192, size - place, (size - place) & !4095, ((size - place) & !4095).wrapping_add(4096), u32::MAX & !4095] {
            o.on_record([40, size, place + 31, place, place], &header(own, bytes), zero);
        } }
        for at in 0..4 { let mut h = header(place, 4096); h[at] ^= 0x20; o.on_record([40, size, place + 31, place, place], &h, zero); }
    }
    // the fourth byte is the part's
    for last in [0u8, 255, 1, 128] {
        o.image(&[last]);
        for left in [0u32, 1, 4, 7, 8, 16, 24, 4064, 1 << 24] { for word in [0, 8, 16, 24, 4064, 4, 12, -8, -16, -24, -4064, -4, 1 << 24, -1] {
            if !more && left > 24 && word % 16 != 0 { continue; }
            o.on_record([3, 1 << 30, 4096 + 3, 4096, 4096 + left], &cell(word), zero);
        } }
    }
    // more of a header than there can be
    for n in [1usize, 40] {
        o.image(&m[..n]);
        for have in [4u32, 5, 11, 12, 13, 16, 31, 32, 33, 40, 100, 4096, 1 << 31] { for over in [0u32, 8, 96] {
            o.on_record([0, u32::MAX, 64 + have, 64, 64 + over], &header(64, 4096), zero);
            o.on_record([0, 64 + have + 40, 64 + have, 64, 64 + over], &cell(-88), zero);
        } }
    }
    // totals at and near the largest: a bin, a cell of each kind
    for top in [TOP, TOP - 1, TOP - 7, TOP - 8, TOP - 15, TOP - 16, TOP - 17, 1 << 63, (1 << 32) - 1] {
        for i in 0..6 {
            let totals: [u64; 5] = std::array::from_fn(|k| if k == i || i == 5 { top } else { k as u64 });
            o.image(&m[..1]);
            o.on_record([0, 8192, 31, 0, 0], &header(0, 4096), Told::Totals(totals));
            for (last, word) in [(0u8, 16), (255, -16i32)] { o.image(&[last]); o.on_record([0, 8192, 99, 96, 4096], &cell(word), Told::Totals(totals)); }
            o.image(&[]);
            for taken in [8191, 8192] { o.on_record([0, 8192, taken, 8192, 8192], &[9; 12], Told::Totals(totals)); }
        }
    }
    // refusals of any number and position: they stay
    for n in [0usize, 1, 200] {
        o.image(&m[..n]);
        for number in [0u32, 8, 10, 11, 18, 99, u32::MAX] { for position in [0, 7, 1 << 32, TOP] { for kind in [1, 255] {
            if !more && (kind == 255) != (position == 7) { continue; }
            o.on_record([1, 2, 3, 4, 5], b"abcdefghijkl", Told::Refused(kind, number, position));
            o.on_record([0, 4096, 0, 0, 0], &[0; 12], Told::Refused(kind, number, position));
        } } }
    }
    // whole bins on records within a row, and on others
    o.image(&m);
    for (taken, place, over) in [(0u32, 0u32, 0u32), (0, 8, 8), (0, 4096, 4096), (0, 4064, 4096), (0, 100, 50), (0, 50, 100), (0, u32::MAX, 0), (32, 32, 4096), (4096, 4096, 4096), (8, 0, 0), (4000, 96, 96)] {
        for size in [4096u32, 8192, 8191, 8222, taken + 4096, taken + 4095, u32::MAX] { o.on_record([6, size, taken, place, over], &header(place, 4096), Told::Totals([1, 2, 3, 4, 5])); }
    }
}

/// Names that are no whole row of lengths, or hold less than a record.
fn short_names(o: &mut Out<impl Write>) {
    let m = bins_of(0, &[(4096, &[8, -16, 88])]);
    o.image(&m);
    let row: Vec<u8> = [32u32, 0, 4064, 1].into_iter().flat_map(|x| x.to_le_bytes()).collect();
    for n in 0..=row.len() { for times in [1, 2] { o.named(26, &[9, 4096, times], &row[..n]); } }
    o.image(&m[..32]);
    let mut name = [7u8; 53];
    for kind in [0, 1] { name[12] = kind; for n in [0, 1, 4, 11, 12, 13, 14, 16, 17, 20, 21, 24, 25, 29, 36, 37, 45, 52, 53] { o.named(27, &[9, 8192, 0, 0, 0], &name[..n]); } }
}

/// Random rows of parts: of good bins, of damaged ones, of too few bytes and of too many; and random records.
fn any_parts(o: &mut Out<impl Write>, r: &mut Rng, random: u64) {
    for _ in 0..random {
        let count = r.range(0, 3);
        let mut m = bins(r, 0, count);
        let base = r.pick(&[0, 0, 7, 4096, 4096, u32::MAX, 1 << 31]);
        let size = m.len() as u32;
        m.extend(r.bytes(40));
        o.image(&m);
        let cells = cells_of(&m[..size as usize], 0);
        for i in 0..6 {
            let mut changed = vec![];
            if i > 1 && !cells.is_empty() && !r.chance(4) {
                let (bin, at) = r.pick(&cells);
                let at = if r.chance(3) { bin + r.range(0, 11) } else { at + r.range(0, 3) };
                let x = if r.chance(2) { r.next() as u8 } else { m[at] ^ (1 << r.below(8)) };
                o.patch(at, &[x]);
                changed.push(at);
            }
            // the bins size, mostly that of the bins; the bytes that come, mostly as many
            let size = match r.below(10) { 0 => size + r.range(1, 40) as u32, 1 => size.saturating_sub(r.range(1, 40) as u32), 2 => r.word(), _ => size };
            let come = match r.below(6) { 0 => r.range(0, m.len()), 1 => (size as usize + r.range(0, 8)).min(m.len()), _ => (size as usize).min(m.len()) };
            o.length(come);
            if r.chance(4) && come < 20000 { let lengths = [r.pick(&CUTS), 0]; o.whole_in(base, size, &lengths[..r.range(1, 2)]); }
            let mut lengths = any_cut(r, come);
            if r.chance(8) { let i = r.range(0, lengths.len() - 1); lengths[i] += r.range(1, 50) as u32; }
            o.parts(base, size, 1, &lengths);
            o.length(m.len());
            for at in changed { o.patch(at, &m[at..at + 1]); }
        }
        any_records(o, r);
    }
}

/// Random records, many of them close to such as a row leads to, and a part.
fn any_records(o: &mut Out<impl Write>, r: &mut Rng) {
    let m = bins(r, 0, 1);
    for _ in 0..8 {
        let from = r.pick(&[0usize, 0, 4, 28, 31, 32, 33]);
        let n = r.pick(&[0usize, 1, 1, 3, 4, 28, 32, 60, 300]);
        let mut part = m[from..from + n].to_vec();
        if r.chance(4) && n > 0 { let at = r.range(0, n - 1); part[at] = r.next() as u8; }
        o.image(&part);
        let place = if r.chance(3) { r.word() } else { 8 * r.below(600) as u32 };
        let over = match r.below(4) { 0 => place, 1 => r.word(), _ => place.wrapping_add(8 * r.below(60) as u32) };
        let taken = match r.below(5) { 0 => r.word(), 1 => place.wrapping_sub(r.below(40) as u32), _ => place.wrapping_add(r.below(34) as u32) };
        let size = match r.below(5) { 0 => r.word(), 1 => taken.wrapping_add(n as u32), 2 => place.wrapping_add(r.below(40) as u32), _ => taken.wrapping_add(r.below(9000) as u32) };
        let mut head = [0u8; 12];
        if r.chance(2) { bin_header(&mut head, 0, place as usize, 4096 * r.range(0, 3)); } else { put32(&mut head, 0, (8 * r.range(0, 40) as u32).wrapping_mul(r.pick(&[1, u32::MAX]))); }
        if r.chance(4) { let at = r.range(0, 11); head[at] = r.next() as u8; }
        let totals = std::array::from_fn(|_| if r.chance(6) { u64::MAX - r.below(40) } else { r.below(5000) });
        let answer = if r.chance(8) { Told::Refused(r.range(1, 255) as u8, r.word(), r.next() >> r.below(64)) } else { Told::Totals(totals) };
        o.on_record([r.word(), size, taken, place, over], &head, answer);
    }
}

/// Hives: their bins in parts, as they are and in so many damaged copies.
fn hive_parts(o: &mut Out<impl Write>, r: &mut Rng, files: &[String], copies: usize) {
    for f in files {
        let whole = std::fs::read(f).expect(f);
        let m = &whole[4096..whole.len().min(IMAGE_MOST)];
        let size = m.len() as u32;
        o.image(m);
        let cells = cells_of(m, 0);
        for told in [size, get32(&whole, 40)] { for each in CUTS { for lengths in [&[each][..], &[each, 0]] { o.whole_in(4096, told, lengths); } } }
        for _ in 0..copies {
            let (bin, at) = r.pick(&cells);
            let at = match r.below(4) { 0 => bin + r.range(0, 11), 1 => r.range(0, m.len() - 1), _ => at + r.range(0, 3) };
            let x = if r.chance(2) { r.next() as u8 } else { m[at] ^ (1 << r.below(8)) };
            o.patch(at, &[x]);
            for each in [4096, r.pick(&CUTS)] { o.whole_in(4096, size, &[each]); }
            let (n, lengths) = (r.range(0, m.len()), any_cut(r, m.len()));
            o.parts(4096, size, 1, &lengths);
            o.parts(4096, size, 1, &[n as u32, r.below(5000) as u32, size]);
            o.patch(at, &m[at..at + 1]);
        }
    }
}

// ---- totals beside the keys

/// A call of a row: kind, times, position (its low and its high word), base, budget, count, list; of kinds from 2 on the last is the step.
type Call = [u32; 8];
/// What a record that is made up goes by: base, budget, count, list.
type From = [u32; 4];
/// A key record of the image, and how it is read: its position, base, budget.
type At = (u64, u32, u32);
fn call(kind: u32, times: u32, position: u64, rest: From) -> Call {
    [kind, times, position as u32, (position >> 32) as u32, rest[0], rest[1], rest[2], rest[3]]
}
/// By a record that is made up.
fn add(position: u64, from: From) -> Call { call(0, 1, position, from) }
fn replace(position: u64, from: From) -> Call { call(1, 1, position, from) }
fn remove(position: u64) -> Call { call(2, 1, position, [0; 4]) }
fn entry(position: u64) -> Call { call(3, 1, position, [0; 4]) }
fn whole() -> Call { call(4, 1, 0, [0; 4]) }
/// A place written by hand, the total written by hand, and an empty table.
fn hand(at: u32, taken: bool, position: u64, kept: u32) -> Call { call(5, 1, position, [at, taken as u32, kept, 0]) }
fn total(total: u64) -> Call { call(6, 1, total, [0; 4]) }
fn clear() -> Call { call(7, 1, 0, [0; 4]) }
/// By the key record at the position.
fn add_key(at: At) -> Call { call(8, 1, at.0, [at.1, at.2, 3, 0]) }
fn replace_key(at: At) -> Call { call(9, 1, at.0, [at.1, at.2, 3, 0]) }
fn times(n: u32, mut call: Call) -> Call { call[1] = n; call }
/// So many times, the positions so far apart.
fn row(n: u32, step: usize, mut call: Call) -> Call { call[1] = n; call[7] = step as u32; call }

/// Lists from a base of 16, with so many bytes behind them: an image, walks that are read, and those that are refused: by 2, 4, 7, 8 (two), 13,
/// 14, 15 (two).
fn walks(behind: usize) -> (Vec<u8>, Vec<From>, Vec<From>) {
    let base = 16u32;
    let mut m = vec![0; LISTS + behind];
    let out = u32::MAX - 15;
    leaf_list(&mut m, 16, b"li", &[1, 2, 3, 4, 5], base);
    leaf_list(&mut m, 16 + 32, b"lf", &[7, out, u32::MAX - 16], base);
    leaf_list(&mut m, 16 + 72, b"lh", &[out, u32::MAX], base);
    list(&mut m, 16 + 104, b"ri", &[0, 32, 0], 3);
    list(&mut m, 16 + 128, b"lh", &[], 0);
    list(&mut m, 16 + 136, b"lx", &[1], 1);
    list(&mut m, 16 + 152, b"li", &[], 65535);
    list(&mut m, 16 + 160, b"ri", &[160], 1);
    list(&mut m, 16 + 176, b"ri", &[32, 136], 2);
    let many: Vec<u32> = (0..300).collect();
    leaf_list(&mut m, 16 + 200, b"li", &many, base);
    let from = |count, list| [base, BUDGET, count, list];
    let good = vec![from(1, 0), from(2, 32), from(1, 72), from(1, 104), from(9, 128), from(300, 200), from(0, 136), [base, 0, 0, 0], [0, 1, 1, 16], from(1 << 20, 32), [base, 4, 1, 104]];
    let n = m.len() as u32 - 16;
    let bad = vec![from(1, n + 1), from(1, 176), from((1 << 20) + 1, 0), from(1, 152), from(1, n - 7), [base, BUDGET + 1, u32::MAX, 0], from(1, 160), [base, 3, 1, 104], [base, 0, 1, 0]];
    (m, good, bad)
}

/// The bytes of the lists of `walks`, and where among them 388 are free.
const LISTS: usize = 16 + 1800;
const SPOT: usize = 1440;
/// From one key record to the next where they lie over each other: what reads them and what walks go by does not clash.
const STRIDE: usize = 40;

/// A key record with no name: its size word and letters, the count and the list of its subkeys; its other bytes stay.
fn close_key(m: &mut [u8], p: usize, word: i32, count: u32, list: u32) {
    key_head(m, p, word, b"nk", 0);
    put32(m, p + 24, count);
    put32(m, p + 32, list);
}

/// Those lists with key records behind them: the image, how each record is read whose walk succeeds, and each whose walk is refused; then
/// where a row of 300 records more begins, whose walks keep 5, 2, 0 and 12 in turn.
fn keyed() -> (Vec<u8>, Vec<At>, Vec<At>, u64) {
    let (mut m, good, bad) = walks((20 + 300 + 1) * STRIDE);
    m[LISTS..].fill(0x11);
    let all: Vec<From> = good.iter().chain(&bad).copied().collect();
    for i in 0..320 {
        let from = if i < 20 { all[i] } else { good[i % 4] };
        close_key(&mut m, LISTS + STRIDE * i, if i % 2 == 0 { -80 } else { 80 }, from[2], from[3]);
    }
    let ats: Vec<At> = all.iter().enumerate().map(|(i, from)| ((LISTS + STRIDE * i) as u64, from[0], from[1])).collect();
    (m, ats[..good.len()].to_vec(), ats[good.len()..].to_vec(), (LISTS + STRIDE * 20) as u64)
}

/// The record of kinds 0 and 1 at a place of an image: a cell of 88 bytes, a name of 5, each other field a number of its own.
fn made_up(m: &mut [u8], p: usize, count: u32, list: u32) {
    key_head(m, p, -88, b"nk", 5);
    for (at, x) in [(6, 4002), (78, 4018)] { put16(m, p + at, x); }
    put64(m, p + 8, 4003);
    for (at, x) in [(16, 4004), (20, 4005), (24, count), (28, 4006), (32, list), (36, 4007), (40, 4008), (44, 4009), (48, 4010), (52, 4011), (56, 4012), (60, 4013), (64, 4014), (68, 4015), (72, 4016)] { put32(m, p + at, x); }
}

/// Totals beside the keys: each refusal on both sides and before each other, places used again, and tables that no call made. `more`: what
/// is too much of the same to be stored.
fn totals(o: &mut Out<impl Write>, more: bool) {
    let (m, good, bad, fill) = keyed();
    let all: Vec<At> = good.iter().chain(&bad).copied().collect();
    let filler = |i: u64| fill + STRIDE as u64 * i;
    let (p, q) = (good[0].0, good[1].0);
    // the first record by other bases and budgets: walks that keep 5, 1, 0, 0 and 300; refused by 4 (two), 8, 14, 2, 13 and 15
    let bases = [16, 48, 88, 144, 216, 0, 152, 168, 120, u32::MAX];
    let others: Vec<At> = bases.iter().map(|&b| (p, b, BUDGET)).chain([(p, 16, BUDGET + 1), (p, 16, 0)]).collect();
    let ends = [0, 1, 7, 255, 256, u32::MAX as u64, 1 << 32, u64::MAX - 1, u64::MAX];
    let made = [16, BUDGET, 1, 0];
    o.image(&m);
    // no call, and the empty table
    o.calls(&[]);
    for kind in [2, 3, 4, 5, 6, 7, 10, 11, u32::MAX] { for n in [0, 1, 2] { o.calls(&[call(kind, n, 7, [3, 1, 9, 0]), whole()]); } }
    for &at in &all {
        o.calls(&[add_key(at), entry(at.0), whole()]);
        o.calls(&[replace_key(at)]);
        o.calls(&[hand(1, true, at.0, 9), total(9), replace_key(at), add_key(at)]);
    }
    // one key, then each call on it and beside it: 19 and 16 before what the walk refuses, and another number in its place
    for &first in &others[..if more { 5 } else { 1 }] {
        for &second in &others {
            o.calls(&[add_key(first), add_key(second), whole()]);
            o.calls(&[add_key(first), replace_key(second), entry(p), whole()]);
            o.calls(&[add_key(first), replace_key(second), add_key(good[1]), remove(p), entry(p), entry(q), whole()]);
        }
        for &second in &all[1..] {
            o.calls(&[add_key(first), add_key(second), whole()]);
            o.calls(&[add_key(first), replace_key(second), entry(p), whole()]);
            if more { o.calls(&[add_key(first), replace_key(second), add_key(second), remove(p), entry(p), entry(second.0), whole()]); }
        }
    }
    // positions of 64 bits, by hand: a record that is made up is at none of them
    for &p in &ends { for &q in &ends {
        if !more && p != q && (p as u32 != q as u32) && p.wrapping_sub(q) != 1 { continue; }
        for act in [add(q, made), replace(q, made), remove(q), entry(q)] { o.calls(&[hand(0, true, p, 5), total(5), act]); }
    } }
    for far in [0, 1, 40, 1 << 16, 1 << 32, 1 << 63, u64::MAX << 32] {
        let table = [hand(0, true, p.wrapping_add(far), 9), total(9)];
        for act in [add_key(good[0]), replace_key(good[0]), remove(p), entry(p)] { o.calls(&[&table[..], &[act, whole()]].concat()); }
    }
    // positions that pass 2^64, and steps
    for at in [u64::MAX, u64::MAX - 2, u32::MAX as u64 - 2] { for step in [0, 1, 2, STRIDE, u32::MAX as usize] {
        if !more && step > 2 && at != u64::MAX { continue; }
        o.calls(&[row(5, step, call(5, 1, at, [0, 1, 3, 0])), total(15), row(3, step, remove(at)), row(5, step, entry(at)), times(5, entry(at)), whole()]);
    } }
    for step in [0, 1, STRIDE, 2 * STRIDE, 3 * STRIDE] {
        o.calls(&[row(4, step, add_key((fill, 16, BUDGET)))]);
        o.calls(&[row(3, step, add_key((fill, 16, BUDGET))), row(6, STRIDE, replace_key((fill, 16, BUDGET))), row(3, step, remove(fill)), whole()]);
    }
    // the table full, by calls and by hand: what is in, what is not; removed and added again
    let by_hand = [row(256, STRIDE, call(5, 1, fill, [0, 1, 2, 0])), total(512)];
    let full = if more { vec![row(256, STRIDE, add_key((fill, 16, BUDGET)))] } else { by_hand.to_vec() };
    for (i, &at) in all.iter().enumerate() {
        o.calls(&[&by_hand[..], &[add_key(at), whole()]].concat());
        o.calls(&[&by_hand[..], &[replace_key(at), entry(at.0), whole()]].concat());
        if more { o.calls(&[&full[..], &[add_key(at), whole()]].concat()); }
        if more || i % 2 == 0 { o.calls(&[&full[..], &[remove(filler(9 * i as u64)), add_key(at), add_key(filler_at(filler(9 * i as u64))), whole()]].concat()); }
    }
    for (i, n) in [0, 127, 255, 256].into_iter().enumerate() { for (j, &(base, budget)) in [(16, BUDGET), (48, BUDGET), (216, BUDGET), (16, BUDGET + 1), (16, 0), (120, BUDGET)].iter().enumerate() {
        if !more && i % 2 == 1 && j % 2 == 1 { continue; }
        let at = (filler(n), base, budget);
        o.calls(&[&full[..], &[add_key(at), whole()]].concat());
        o.calls(&[&full[..], &[replace_key(at), entry(at.0), remove(at.0), add_key(at), add_key(good[0]), whole()]].concat());
    } }
    for n in [0, 1, 254, 255, 256, 257, 300] {
        let first = (fill, 16, BUDGET);
        if more || n < 2 || n == 256 || n == 257 { o.calls(&[row(n, STRIDE, add_key(first)), whole()]); }
        if more || n == 256 { o.calls(&[row(n, STRIDE, add_key(first)), row(302, STRIDE, remove(fill - STRIDE as u64)), whole(), row(3, STRIDE, add_key(good[1]))]); }
        if more || n == 257 { o.calls(&[row(n, STRIDE, add_key(first)), row(n, STRIDE, replace_key((fill, 48, BUDGET))), row(n, STRIDE, entry(fill)), whole()]); }
    }
    // freed places: the first of several, in any order of removing
    let six = row(6, STRIDE, add_key((filler(260), 16, BUDGET)));
    for gone in [&[0][..], &[5], &[3, 1], &[1, 3], &[4, 2, 0], &[0, 1, 2, 3, 4, 5], &[5, 4, 3, 2, 1, 0], &[2, 2, 8, 6]] {
        let mut calls = vec![six];
        calls.extend(gone.iter().map(|&i| remove(filler(260 + i))));
        o.calls(&calls);
        for (i, &at) in good.iter().chain(&bad[..2]).enumerate() { calls.push(add_key(at)); if more || i % 5 == 0 { o.calls(&calls); } }
        calls.push(whole());
        o.calls(&calls);
        o.calls(&[&full[..], &[row(6, STRIDE, remove(filler(100)))], &calls[..]].concat());
    }
    o.calls(&[six, clear(), whole(), entry(filler(260)), add_key(good[3])]);
    // a position that stands twice, its first place taken or free: the first that is taken is meant, then the next one
    for (a, b) in [(0, 1), (3, 200), (200, 3), (255, 0)] { for first in [false, true] { for &at in &others[..if more { others.len() } else { 1 + a as usize / 255 }] {
        let table = [hand(a, first, p, 10), hand(b, true, p, 20), hand(9, true, q, 5), total(35)];
        for acts in [&[add_key(at)][..], &[replace_key(at), entry(p)], &[remove(p), entry(p)], &[remove(p), remove(p), remove(p)], &[remove(p), add_key(at), remove(p)], &[add_key(good[4]), replace_key(at)]] {
            o.calls(&[&table[..], acts, &[whole()]].concat());
        }
    } } }
    // totals that turn over, and numbers of 32 bits
    for kept in [0, 1, 5, 300, u32::MAX] { for &sum in &[0, 4, 5, u32::MAX as u64, u64::MAX - 299, u64::MAX, 1, 1 << 32, (1 << 63) - 1, u64::MAX - 1][..if more { 10 } else { 6 }] {
        if !more && (sum == 4 || sum == u32::MAX as u64) && kept < 300 { continue; }
        let table = [hand(2, true, p, kept), hand(1, false, p, 77), hand(0, false, 0, u32::MAX), total(sum)];
        for &act in &[remove(p), replace_key(others[0]), replace_key(others[4]), replace_key(others[2]), add_key(good[5]), add_key(good[2]), add_key(good[0]), replace_key(others[6])][..if more || kept > 300 && sum < 9 { 8 } else { 5 }] {
            o.calls(&[&table[..], &[act]].concat());
        }
    } }
    // free places with a position and a number, and all places alike
    for q in [p, good[2].0, good[3].0] { for first in [p, good[2].0] {
        let junk = [row(if more { 256 } else { 12 }, STRIDE, call(5, 1, p, [0, 0, 99, 0])), hand(5, false, first, 3), hand(6, true, good[3].0, 4), total(4)];
        for act in [add_key((q, 16, BUDGET)), replace_key((q, 16, BUDGET)), remove(q), entry(q), add_key((q, 152, BUDGET))] { o.calls(&[&junk[..], &[act, entry(q)]].concat()); }
    } }
    for (taken, kept) in [(true, u32::MAX), (true, 1), (false, u32::MAX), (false, 1)].into_iter().take(if more { 4 } else { 1 }) {
        let alike: Vec<Call> = (0..256).map(|i| hand(i, taken, p, kept)).collect();
        let sum = 256 * kept as u64;
        for acts in [&[add_key(good[0])][..], &[add_key(good[1])], &[add_key(bad[0])], &[replace_key(good[0]), entry(p)], &[remove(p), entry(p), add_key(good[1])]] { o.calls(&[&alike[..], &[total(sum)], acts, &[whole()]].concat()); }
        o.calls(&[&alike[..], &[total(sum)], &vec![remove(p); 257], &[whole()]].concat());
    }
    // rests of a call, and of nothing
    let bytes: Vec<u8> = [add_key(good[0]), add_key(good[1])].iter().flatten().flat_map(|x| x.to_le_bytes()).collect();
    for n in [0, 1, 31, 32, 33, 63, 64] { o.named(28, &[], &bytes[..n]); }
    totals_made_up(o, more, &by_hand);
    totals_unread(o, more, &full);
}
fn filler_at(position: u64) -> At { (position, 16, BUDGET) }

/// Records that are made up: one that stands in the image, and one that does not: 21 before all others.
fn totals_made_up(o: &mut Out<impl Write>, more: bool, full: &[Call]) {
    let (image, _, _, _) = keyed();
    let (_, good, bad) = walks(image.len() - LISTS);
    let spot = SPOT as u64;
    let in_it = [hand(0, true, spot, 9), total(9)];
    let beside = [hand(0, true, spot + 1, 9), total(9)];
    for (i, &from) in good.iter().chain(&bad).enumerate() {
        let mut m = image.clone();
        made_up(&mut m, SPOT, from[2], from[3]);
        m[SPOT + 80..SPOT + 88].copy_from_slice(&[i as u8; 8]);
        o.image(&m);
        let [base, budget, count, list] = from;
        o.calls(&[add(spot, from), entry(spot), whole()]);
        o.calls(&[replace(spot, from), add(spot, from), replace(spot, from), add(spot, from)]);
        o.calls(&[&in_it[..], &[add(spot, from), replace(spot, from), whole()]].concat());
        o.calls(&[full, &[add(spot, from), replace(spot, from), whole()]].concat());
        if more || i % 4 == 0 {
            o.calls(&[&beside[..], &[replace(spot, from), add(spot, from), whole()]].concat());
            o.calls(&[times(3, add(spot - 1, from)), whole()]);
        }
        // another base and another budget are no other record
        o.calls(&[add(spot, [base + 32, budget, count, list]), replace(spot, [base, 1, count, list]), replace(spot, [u32::MAX, BUDGET + 1, count, list])]);
        for (j, (at, from)) in [(spot, [base, budget, count ^ 1, list]), (spot, [base, budget, count, list ^ 1]), (spot + 1, from), (spot - 1, from), (spot + (1 << 32), from), (spot | 1 << 63, from), (spot, [base, BUDGET + 1, u32::MAX, list])].into_iter().enumerate() {
            if !more && (i + j) % 9 > 0 { continue; }
            o.calls(&[add(at, from), replace(at, from)]);
            o.calls(&[&in_it[..], &[add(at, from), replace(at, from), entry(spot)]].concat());
            o.calls(&[full, &[add(at, from), whole()]].concat());
        }
    }
    // each byte of it another in turn: before 19, before 16, before what the walk refuses, before 9
    for (i, &from) in [good[0], bad[1], bad[5]].iter().enumerate() {
        let mut m = image.clone();
        made_up(&mut m, SPOT, from[2], from[3]);
        o.image(&m);
        for at in 0..88 {
            if !more && ((at / 2) % 3 != i || at % 8 > 5) { continue; }
            o.patch(SPOT + at, &[m[SPOT + at] ^ if at % 2 == 0 { 1 } else { 128 }]);
            o.calls(&[&in_it[..], &[add(spot, from), replace(spot, from)]].concat());
            if more || at % 8 < 2 { o.calls(&[replace(spot, from), add(spot, from)]); }
            if more || at % 16 < 2 { o.calls(&[full, &[add(spot, from), whole()]].concat()); }
            o.patch(SPOT + at, &m[SPOT + at..SPOT + at + 1]);
        }
    }
}

/// Calls by the key record at a position that has none.
fn totals_unread(o: &mut Out<impl Write>, more: bool, full: &[Call]) {
    let (image, good, bad, _) = keyed();
    let at = image.len();
    let (_, lists, faults) = walks(image.len() - LISTS);
    for (i, from) in lists.iter().chain(&faults).enumerate() {
        if i > 0 && !more { break; }
        let mut m = image.clone();
        m.resize(at + 96, 0x11);
        close_key(&mut m, at, if i % 2 == 0 { -88 } else { 96 }, from[2], from[3]);
        put16(&mut m, at + 76, 4);
        let n = m.len();
        let breaks: [(usize, usize, Vec<u8>); 9] = [(n, 4, b"vk".to_vec()), (n, 0, signed(-79).to_vec()), (n, 0, signed(97).to_vec()), (n, 0, vec![0; 4]), (n, 76, vec![17, 0]), (n - 17, 4, b"nk".to_vec()), (n - 96, 0, vec![]), (n - 97, 0, vec![]), (n - 9, 4, b"nk".to_vec())];
        for (length, place, bytes) in breaks {
            let mut d = m.clone();
            d[at + place..at + place + bytes.len()].copy_from_slice(&bytes);
            o.image(&d);
            o.length(length);
            for p in [at as u64, at as u64 + 1, u64::MAX - at as u64] {
                let key = (p, from[0], from[1]);
                o.calls(&[add_key(key), whole()]);
                if !more && p != at as u64 { continue; }
                o.calls(&[hand(0, true, p, 3), total(3), add_key(key), replace_key(key), remove(p)]);
                o.calls(&[full, &[replace_key(key), add_key(good[0]), add_key(bad[1]), whole()]].concat());
            }
        }
    }
}

/// A call on one of the first few of some keys, mostly read as they are meant; now and then by a record that is made up, and where that may stand.
fn any_call(r: &mut Rng, keys: &[At], few: usize, made: (u64, From)) -> Call {
    let mut at = keys[r.below(few.min(keys.len()) as u64) as usize];
    if r.chance(30) { at.0 = r.next() >> r.below(64); }
    if r.chance(8) { at.1 = if r.chance(2) { r.word() } else { r.pick(keys).1 + r.below(64) as u32 }; }
    if r.chance(12) { at.2 = r.pick(&[0, 1, 2, BUDGET + 1, u32::MAX]); }
    match r.below(25) {
        0..=9 => add_key(at),
        10..=13 => replace_key(at),
        14..=19 => remove(at.0),
        20 | 21 => entry(at.0),
        22 => if r.chance(3) { add(at.0, made.1) } else { add(made.0, made.1) },
        23 => if r.chance(3) { replace(at.0, made.1) } else { replace(made.0, made.1) },
        _ => whole(),
    }
}

/// Random rows of calls on `random` images with lists, of at most so many bytes, and key records behind them: short ones, long ones over few
/// keys, rows that fill a table and drain it, and tables made by hand.
fn any_totals(o: &mut Out<impl Write>, r: &mut Rng, random: u64, most: usize) {
    for i in 0..random {
        let base = r.pick(&[0usize, 2, 16, 31, 32, most / 4]);
        let (mut m, places) = lists(r, base, most);
        let near = r.chance(2);
        for &p in &places {
            if !near || p + 8 > m.len() || &m[p + 4..p + 6] == b"ri" { continue; }
            let each = if &m[p + 4..p + 6] == b"li" { 4 } else { 8 };
            for at in (0..get16(&m, p + 6) as usize).map(|i| p + 8 + each * i) {
                if at + 4 <= m.len() && r.chance(3) { let x = (u32::MAX - base as u32 - 1).wrapping_add(r.below(4) as u32); put32(&mut m, at, x); }
            }
        }
        // the keys: of each list, and of any place; where the table is to be filled, many
        let (first, lists_end) = (m.len() + r.range(0, 8), m.len());
        let filled = i % 10 == 0;
        let n = if filled { 300 } else { r.range(3, 14) };
        let fill = r.next() as u8;
        m.resize(first + STRIDE * (n + 1), fill);
        let mut keys: Vec<At> = vec![];
        for j in 0..n {
            let list = if places.is_empty() || r.chance(8) { r.range(0, lists_end + 4) as u32 } else { (r.pick(&places) - base) as u32 };
            let count = match r.below(12) { 0 => 0, 1 => (1 << 20) + 1, 2 => r.word(), _ => 1 + r.below(9) as u32 };
            let p = first + STRIDE * j;
            close_key(&mut m, p, if r.chance(3) { 80 } else { -80 }, count, list);
            keys.push((p as u64, base as u32, if r.chance(9) { r.below(8) as u32 } else { BUDGET }));
        }
        // now and then the record that is made up, in the place of a key
        let made = (keys[r.range(0, n - 2)].0, [base as u32, BUDGET, r.below(3) as u32, places.first().map_or(0, |&p| (p - base) as u32)]);
        if r.chance(2) { made_up(&mut m, made.0 as usize, made.1[2], made.1[3]); }
        o.image(&m);
        for _ in 0..3 {
            let calls: Vec<Call> = (0..r.range(1, 6)).map(|_| any_call(r, &keys, 2, made)).collect();
            o.calls(&calls);
        }
        let few = r.pick(&[3, 6, 12, 40]);
        let calls: Vec<Call> = (0..r.range(10, 60)).map(|_| any_call(r, &keys, few, made)).collect();
        o.calls(&calls);
        // a table by hand, of few positions, its total right or any; then a few calls
        for _ in 0..3 {
            let mut calls = vec![];
            let (mut sum, n) = (0u64, r.range(1, 8));
            for j in 0..n {
                let (taken, kept) = (!r.chance(3), if r.chance(4) { r.word() } else { r.below(20) as u32 });
                if taken { sum += kept as u64; }
                let p = keys[r.below(3) as usize].0 + if r.chance(9) { 1 << 32 } else { 0 };
                calls.push(hand(if r.chance(3) { 255 - j as u32 } else { j as u32 }, taken, p, kept));
            }
            if r.chance(8) { calls.push(row(256, STRIDE, call(5, 1, if r.chance(2) { keys[0].0 } else { 50 }, [r.word(), 1, r.below(9) as u32, 0]))); }
            calls.push(total(match r.below(4) { 0 => r.below(30), 1 => u64::MAX - r.below(30), _ => sum }));
            for _ in 0..r.range(1, 5) { calls.push(any_call(r, &keys, 4, made)); }
            o.calls(&calls);
        }
        // full and drained
        if filled {
            let (mut calls, mut at) = (vec![], 0);
            while at < 256 { let n = r.range(1, 120); calls.push(row(n as u32, STRIDE, add_key(keys[at]))); at += n; }
            for _ in 0..r.range(1, 6) { calls.push(any_call(r, &keys, 300, made)); }
            for _ in 0..r.range(0, 3) {
                let at = r.pick(&keys);
                calls.push(row(r.range(1, 40) as u32, STRIDE, remove(at.0)));
                calls.push(row(r.range(1, 60) as u32, STRIDE, add_key((at.0 - (STRIDE as u64 * r.below(9)).min(at.0 - first as u64), at.1, at.2))));
                calls.push(row(r.range(1, 20) as u32, STRIDE, replace_key(at)));
            }
            if r.chance(2) { calls.push(row(310, STRIDE, remove(keys[0].0))); }
            calls.push(whole());
            o.calls(&calls);
        }
    }
}

/// The positions of a hive's keys.
fn hive_keys(m: &[u8]) -> Vec<u64> { (4096..m.len().saturating_sub(80)).step_by(8).filter(|&p| &m[p + 4..p + 6] == b"nk").map(|p| p as u64).collect() }

/// Hives: all their keys in one table, and each by itself, some replaced and some removed; as they are and in so many damaged copies.
fn hive_totals(o: &mut Out<impl Write>, r: &mut Rng, files: &[String], copies: usize) {
    for f in files {
        let whole_file = std::fs::read(f).expect(f);
        let m = &whole_file[..whole_file.len().min(IMAGE_MOST)];
        let keys = hive_keys(m);
        for copy in 0..=copies {
            o.image(m);
            if copy > 0 {
                for _ in 0..r.range(1, 4) {
                    let p = r.pick(&keys) as usize;
                    let at = match r.below(4) { 0 => p + r.range(0, 5), 1 => p + 24 + r.range(0, 3), 2 => p + 32 + r.range(0, 3), _ => r.range(4096, m.len() - 1) };
                    let x = if r.chance(2) { r.next() as u8 } else { m[at] ^ (1 << r.below(8)) };
                    o.patch(at, &[x]);
                }
                if r.chance(4) { let n = r.range(4096, m.len()); o.length(n); }
            }
            let at = |p| (p, 4096, 1024);
            let adds: Vec<Call> = keys.iter().map(|&p| add_key(at(p))).collect();
            o.calls(&[&adds[..], &[whole()]].concat());
            let mut calls = adds.clone();
            for _ in 0..r.range(4, 30) {
                let p = r.pick(&keys);
                calls.push(match r.below(5) { 0 | 1 => remove(p), 2 => replace_key(at(p)), 3 => add_key(at(p)), _ => entry(p) });
            }
            calls.push(whole());
            o.calls(&calls);
            // the rest of the table with others beside these
            if keys.len() < 256 { calls.push(times(256 - keys.len() as u32, call(5, 1, 1, [keys.len() as u32, 1, 0, 0]))); }
            for _ in 0..3 { calls.push(add_key(at(r.pick(&keys)))); }
            if copy % 5 == 0 && (copies > 2 || keys.len() > 20) { o.calls(&calls); }
            for _ in 0..6 {
                let (p, q) = (r.pick(&keys), r.pick(&keys));
                o.calls(&[add_key((p, 4096, r.pick(&[0, 1, 1024]))), add_key(at(q)), replace_key((p, r.pick(&[4096, 0, 4096]), 1024)), remove(q)]);
            }
        }
    }
}

// ---- the strict profile

/// Minor versions on both sides of those above which a kind is permitted, and the greatest.
const MINORS: [u32; 8] = [0, 1, 2, 3, 4, 5, 6, u32::MAX];
const KINDS: [&[u8; 2]; 4] = [b"lf", b"lh", b"li", b"ri"];

/// The bytes of an entry of a kind.
fn entry_of(kind: &[u8]) -> usize { if kind == b"lf" || kind == b"lh" { 8 } else { 4 } }

/// The size words around those that hold so many bytes, and around those that end the cell where the image ends.
fn cell_words(need: i32, left: i32) -> Vec<i32> {
    let mut words = vec![-need, 1 - need, -need - 1, -((need + 7) & !7), -left, -left - 1, -left - need, need, left, 0, -1, i32::MIN, i32::MAX];
    words.sort();
    words.dedup();
    words
}

/// The strict profile: each rule on both sides, alone, at the top and below it, and what comes first where several meet; the ordinary reading
/// beside it. `more`: what is too much of the same to be stored.
fn strict(o: &mut Out<impl Write>, more: bool) {
    strict_kinds(o, more);
    strict_cells(o, more);
    strict_order(o, more);
    strict_levels(o, more);
    strict_far(o, more);
    strict_records(o, more);
    if more { strict_threes(o); }
}

/// Every kind for every minor version: alone, as the top list, and named by an `ri` list, first and behind others.
fn strict_kinds(o: &mut Out<impl Write>, more: bool) {
    let base = 16;
    for kind in [b"lf", b"lh", b"li", b"ri", b"lx"] {
        let minors = if kind == b"lx" && !more { &MINORS[4..6] } else { &MINORS[..] };
        let mut m = vec![0x5a; 16 + 160];
        if kind == b"ri" { list(&mut m, 16, kind, &[64], 1); } else { leaf_list(&mut m, 16, kind, &[7, 9], base); }
        leaf_list(&mut m, 16 + 64, b"li", &[1, 2, 3], base);
        list(&mut m, 16 + 96, b"ri", &[0, 64], 2);
        list(&mut m, 16 + 120, b"ri", &[64, 64, 0], 3);
        o.image(&m);
        o.strict_list(16, minors, &[0, 1]);
        for top in [0, 96, 120] {
            o.strict_walk(1, top, base, BUDGET, 8, minors);
            if more || top == 0 { o.strict_counts(1, top, base, BUDGET, minors); }
        }
        o.strict_leaf(16, base, 8, minors);
        // what is not 1 says that no `ri` list names it
        if more || kind == b"ri" { o.strict_list(16, &[5], &[2, 257, 1 << 16, u32::MAX]); }
        // a minor version is a word of 32 bits
        for minor in [0x0003_0000, 0x0500_0000, 258, 1 << 31] { if more || kind == b"lf" { o.strict_list(16, &[minor], &[0]); o.strict_walk(1, 0, base, BUDGET, 8, &[minor]); } }
        // names that have less than a minor version, or more
        if more || kind == b"lh" { for name in [&[][..], &[5], &[4], &[0, 1], &[4, 0, 0, 1], &[4, 0, 0, 0, 1], &[5, 0, 0, 0, 0, 0]] { o.named(30, &[1, 0, base, BUDGET, 8], name); } }
    }
}

/// Size words: free cells, cells too small, exact, larger, up to the image's end and past it.
fn strict_cells(o: &mut Out<impl Write>, more: bool) {
    // an `li` list at 0, an `ri` list at 12 that names it, the list at hand and it again
    let (p, tail) = (33usize, 11usize);
    for kind in KINDS { for count in 0..4usize {
        if !more && (count == 3 || kind == b"lh" && count != 1 || kind == b"ri" && count == 2) { continue; }
        let need = 8 + entry_of(kind) * count;
        let mut m = vec![0; p + need + tail];
        list(&mut m, 0, b"li", &[3], 1);
        list(&mut m, 12, b"ri", &[0, p as u32, 0], 3);
        list(&mut m, p, kind, &vec![0; (need - 8) / 4], count as u16);
        // with bytes behind the list, and with none
        for n in [m.len(), p + need] {
            if !more && n < m.len() && (count > 1 || kind == b"ri") { continue; }
            o.image(&m);
            o.length(n);
            let left = n - p;
            for word in cell_words(need as i32, left as i32) {
                o.patch(p, &signed(word));
                let whole = more || word == -(need as i32);
                if whole { o.strict_list(p as u32, &[5], &[0]); } else { o.case(29, &[p as u32, 5, 0], None); }
                if n < m.len() && !more { continue; }
                let words = [1, p as u32, 0, BUDGET, 4];
                if whole { o.strict_walk(1, p as u32, 0, BUDGET, 4, &[5]); } else if count == 1 { o.named(30, &words, &[5, 0, 0, 0]); }
                if more || count == 1 && (kind == b"lf" || kind == b"li") { o.named(30, &[1, 12, 0, BUDGET, 5], &[5, 0, 0, 0]); }
                if whole { o.strict_leaf(p as u64, 0, 4, &[5]); } else if count == 2 || count == 1 && kind == b"ri" { o.case(32, &[p as u32, 0, 0, 5, 4], None); }
                if more || count == 1 && kind == b"li" { o.strict_counts(1, p as u32, 0, BUDGET, &[5]); }
            }
        }
    } }
    // 65,535 entries, in a cell that holds them, one that is a byte short, and one that ends a byte past the image
    let mut m = vec![0; IMAGE_MOST];
    for (kind, at) in [(b"li", 1000usize), (b"lh", 0), (b"lh", 1)] {
        if !more && at != 1000 { continue; }
        let need = 8 + 65535 * entry_of(kind) as i32;
        list(&mut m, at, kind, &[], 65535);
        o.image(&m);
        if !more { o.length(at + need as usize + 5); }
        let left = if more { (IMAGE_MOST - at) as i32 } else { need + 5 };
        for word in [-need, 1 - need, -left, -left - 1, need] {
            o.patch(at, &signed(word));
            o.case(29, &[at as u32, 5, 0], None);
            if more { o.strict_walk(1, at as u32, 0, BUDGET, 65535, &[5]); o.strict_leaf(at as u64, 0, 65534, &[5]); }
        }
        put32(&mut m, at, 0);
    }
}

/// Which refusal comes first where several meet.
fn strict_order(o: &mut Out<impl Write>, more: bool) {
    // of one list: 2, 8, 4, 8, then 20, then 3
    let p = 5usize;
    let faults: [(&[u8; 2], u16, i32); 14] = [(b"lf", 1, 0), (b"lf", 1, 16), (b"lf", 1, -15), (b"lf", 1, -17), (b"lf", 2, -16), (b"lf", 2, 0), (b"lh", 1, -8), (b"lx", 1, 16), (b"lx", 9, 0), (b"ri", 1, 12), (b"ri", 2, -11), (b"ri", 9, 12), (b"li", 9, 12), (b"li", 2, -15)];
    for (kind, count, word) in faults {
        let mut m = vec![0x5a; p + 16];
        list(&mut m, p, kind, &[1, 2], count);
        put32(&mut m, p, word as u32);
        o.image(&m);
        let minors = if more { &MINORS[..] } else if kind == b"lf" { &MINORS[2..4] } else { &MINORS[4..5] };
        o.strict_list(p as u32, minors, &[0, 1]);
        o.strict_walk(1, p as u32, 0, BUDGET, 0, minors);
        o.strict_leaf(p as u64, 0, 0, minors);
        if !more && (kind != b"lf" || word != 0) { continue; }
        for n in [p - 1, p, p + 7, p + 8, p + 15] { o.length(n); o.strict_list(p as u32, minors, &[0]); o.strict_walk(1, p as u32, 0, BUDGET, 1, minors); }
        o.length(p + 16);
        // the walk's own before it: 13, 7, a count of 0, 15
        for (count, budget) in [(1, BUDGET + 1), ((1 << 20) + 1, BUDGET), ((1 << 20) + 1, BUDGET + 1), (1 << 20, BUDGET), (0, 0), (1, 0), (1, 1)] {
            o.strict_walk(count, p as u32, 0, budget, 1, minors);
            o.strict_counts(count, p as u32, 0, budget, minors);
        }
    }
    // of a walk: lists that are read, of three kinds; then others
    let mut m = vec![0; 16 + 280];
    leaf_list(&mut m, 16, b"li", &[1, 2], 16);
    leaf_list(&mut m, 16 + 24, b"lf", &[3], 16);
    leaf_list(&mut m, 16 + 48, b"lh", &[4], 16);
    for (at, kind, count, word) in [(72, b"li", 1, 12i32), (88, b"li", 1, -11), (104, b"li", 1, -400), (120, b"ri", 1, -12), (136, b"ri", 1, 12), (152, b"lx", 1, 12), (168, b"li", 999, 12), (184, b"lf", 1, 0), (208, b"lf", 1, -16)] {
        list(&mut m, 16 + at, kind, &[0, 7], count);
        put32(&mut m, 16 + at, word as u32);
    }
    let top = |o: &mut Out<_>, named: &[u32]| { let mut m = m.clone(); list(&mut m, 16 + 232, b"ri", named, named.len() as u16); o.image(&m); };
    let n = m.len() as u32 - 16;
    for fault in [72, 88, 104, 120, 136, 152, 168, 184, n + 1, n - 7] {
        for named in [&[fault][..], &[0, 24, fault, 48], &[fault, 72], &[0, 0, 0, fault]] {
            if !more && (named.len() == 1 && fault > 120 || named.len() == 2 || named.starts_with(&[0, 0, 0]) && fault != 104) { continue; }
            top(o, named);
            let before = 1 + named.iter().position(|&x| x == fault).unwrap_or(0) as u32;
            // with budget enough, with just enough to reach it, and with enough to read it
            for budget in [BUDGET, before, before + 1] { if more || budget != before + 1 || fault == 72 { o.strict_walk(1, 232, 16, budget, 9, &[5]); } }
            if more || named.len() == 4 && (fault < 88 || fault == 120 || fault == 184) { o.strict_counts(1, 232, 16, BUDGET, &[5]); o.strict_walk(1, 232, 16, BUDGET, 0, &[5, 2]); }
        }
    }
    // kinds that are mixed: which of them is the first that is not permitted, and a size word before and behind it
    for named in [&[0, 24, 48][..], &[48, 24, 0], &[208, 0, 48, 24], &[24, 72, 0], &[72, 24, 0], &[48, 184], &[184, 48]] {
        top(o, named);
        o.strict_walk(1, 232, 16, BUDGET, 9, if more || named.len() == 3 { &MINORS } else { &MINORS[2..6] });
        if more || named == [0, 24, 48] { for budget in 1..5 { o.strict_walk(1, 232, 16, budget, 9, &MINORS[2..6]); } }
        for room in 0..6 { if more || named == [0, 24, 48] { o.strict_walk(1, 232, 16, 4, room, &[4, 5]); } }
    }
}

/// `ri` lists under `ri` lists, from level 2 on; and under one that names itself.
fn strict_levels(o: &mut Out<impl Write>, more: bool) {
    for base in [0usize, 16] { for depth in 1..=10usize { for around in [false, true] { for leaf in [b"li", b"lh"] {
        if !more && (base > 0 || around && ![1, 2, 8, 9].contains(&depth) || leaf == b"lh" && depth != 2) { continue; }
        o.image(&chain(base, depth, around, leaf));
        for budget in [BUDGET, 1, 2, 0, 8] { if more || budget == BUDGET || budget == 1 || depth == 2 { o.strict_walk(1, 0, base as u32, budget, 1, &[5]); } }
        if more || depth % 4 == 1 { o.strict_counts(1, 0, base as u32, BUDGET, &[0]); }
        // from the chain's end on: a leaf list by itself, one below an `ri` list, and so on
        for up in 0..depth { if more || depth == 9 && !around { o.strict_walk(1, 32 * up as u32, base as u32, BUDGET, 1, &[5]); o.case(29, &[(base + 32 * up) as u32, 5, (up > 0) as u32], None); } }
    } } } }
    // many lists below one `ri` list, and the last of them an `ri` list
    for n in [8usize, 40] {
        let mut m = vec![0; 8 + 4 * (n + 1) + 64];
        let (leaf, other) = (8 + 4 * (n as u32 + 1), 8 + 4 * (n as u32 + 1) + 32);
        leaf_list(&mut m, leaf as usize, b"li", &[5, 6], 0);
        list(&mut m, other as usize, b"ri", &[leaf], 1);
        for last in [leaf, other] {
            let mut named = vec![leaf; n];
            named.push(last);
            list(&mut m, 0, b"ri", &named, named.len() as u16);
            o.image(&m);
            for (budget, room) in [(BUDGET, 100), (n as u32 + 2, 2 * n as u32 + 2), (n as u32 + 1, 100), (n as u32 + 3, 2 * n as u32)] { o.strict_walk(1, 0, 0, budget, room, &[0]); o.strict_counts(1, 0, 0, budget, &[0]); }
        }
    }
}

/// Positions and sums on both sides of 2^32, entries that are dropped, and rooms on both sides of what is kept.
fn strict_far(o: &mut Out<impl Write>, more: bool) {
    const HIGH: u64 = 1 << 32;
    // `p` is a list's position, and so is what would be left of a sum of more than 32 bits
    let p = 21usize;
    for kind in [b"li", b"lf", b"ri"] { for base in [0u32, 21, 22, 1 << 31, u32::MAX] {
        if !more && (base == 1 << 31 || kind == b"lf" && base != 21 && base != u32::MAX || kind == b"ri" && base != 21 && base != 22) { continue; }
        let top = u32::MAX - base;
        let mut m = vec![0; p + 8 + 8 * 3];
        leaf_list(&mut m, p, kind, &[top, top.wrapping_add(1), 7], base);
        if kind == b"ri" { list(&mut m, p, kind, &[(p as u32).wrapping_sub(base), 0], 2); }
        o.image(&m);
        let minors = if kind == b"lf" { &[2, 3][..] } else { &[0][..] };
        let list = (p as u32).wrapping_sub(base);
        for budget in [1, 2] { if more || kind == b"ri" || budget == 1 { o.strict_walk(1, list, base, budget, 3, minors); } }
        for off in [u32::MAX, list.wrapping_add(1), top, 0] { if more || kind == b"li" { o.strict_walk(1, off, base, BUDGET, 3, minors); } }
        for at in [p as u64, HIGH + p as u64, HIGH - 1, u64::MAX - 31, u64::MAX] { if more || kind == b"li" && base != 22 { o.strict_leaf(at, base, 3, minors); } }
        for at in [u32::MAX, m.len() as u32, m.len() as u32 + 1, m.len() as u32 - 8] { if more || base == 0 { o.strict_list(at, minors, &[0, 1]); } }
        // the three entries of which some are dropped
        for room in 0..4 {
            if more || base == 21 || base == u32::MAX { o.strict_leaf(p as u64, base, room, minors); }
            if more || base == 21 { o.strict_walk(1, 0, base, 1, room, minors); }
        }
    } }
    // an `ri` list names a list past 2^32, whose position less 2^32 is a list's (16), before and behind one that is read
    let mut m = vec![0; 64 + 64];
    leaf_list(&mut m, 16, b"li", &[3], 64);
    leaf_list(&mut m, 64 + 32, b"li", &[1, u32::MAX - 63], 64);
    for named in [[32, u32::MAX - 47], [u32::MAX - 47, 32], [32, u32::MAX], [32, u32::MAX - 63], [32, 32]] {
        list(&mut m, 64, b"ri", &named, 2);
        o.image(&m);
        for room in [0, 1, 2, 3] { if more || named == [32, 32] || room == 3 { o.strict_walk(2, 0, 64, BUDGET, room, &[0]); } }
        o.strict_counts(2, 0, 64, BUDGET, &[0]);
    }
    // two lists that drop, of two kinds
    let mut m = vec![0; 16 + 96];
    list(&mut m, 16, b"ri", &[24, 56], 2);
    leaf_list(&mut m, 16 + 24, b"lh", &[5, u32::MAX - 15, u32::MAX - 16], 16);
    leaf_list(&mut m, 16 + 56, b"li", &[u32::MAX, 6], 16);
    o.image(&m);
    for room in 0..5 { o.strict_walk(9, 0, 16, 3, room, &[4, 5]); }
    o.strict_counts(9, 0, 16, 3, &[4, 5]);
}

/// From a key record: its own count and list, and its own refusals first.
fn strict_records(o: &mut Out<impl Write>, more: bool) {
    let mut m = vec![0x11; 200];
    key_head(&mut m, 0, -88, b"nk", 4);
    // volatile subkeys, values and what else stands beside count and list are others
    for (at, x) in [(24, 2u32), (28, 0), (32, 96), (36, 136), (40, 1), (44, 0)] { put32(&mut m, at, x); }
    leaf_list(&mut m, 100, b"lf", &[7, 9], 4);
    leaf_list(&mut m, 140, b"li", &[1], 4);
    list(&mut m, 164, b"ri", &[136, 96, 160], 3);
    o.image(&m);
    o.strict_record(0, 4, 1, 2, &MINORS);
    for room in [0, 1, 3] { o.strict_record(0, 4, 1, room, &[2, 3]); }
    for budget in [0, BUDGET, BUDGET + 1] { o.strict_record(0, 4, budget, 2, &[3]); }
    for base in [0, 3, 44, 104, 105, u32::MAX] { o.strict_record(0, base, 1, 2, &[3]); }
    for at in [1, 100, 121, 200, 201, u32::MAX] { o.strict_record(at, 4, 1, 2, &[2, 3][..if more { 2 } else { 1 }]); }
    // its list drops an entry, then both
    for at in [116, 108] { o.patch(at, &(u32::MAX - 3).to_le_bytes()); for room in [0, 1, 2] { o.strict_record(0, 4, 1, room, &[2, 3]); } }
    o.image(&m);
    // its list is an `ri` list, that names itself behind two others, and then the two alone
    o.patch(32, &[160]);
    for budget in [BUDGET, 3] { o.strict_record(0, 4, budget, 3, &[2, 3]); }
    o.patch(170, &[2]);
    for room in [3, 2] { o.strict_record(0, 4, 3, room, &[2, 3]); }
    o.image(&m);
    // its numbers, its own size, signature and name; the list's size word, kind and count
    let faults: [(usize, Vec<u8>); 20] = [(24, vec![0; 4]), (24, vec![0, 0, 16, 0]), (24, vec![1, 0, 16, 0]), (32, vec![136, 0, 0, 0]), (32, vec![192, 0, 0, 0]), (32, vec![189, 0, 0, 0]), (32, vec![0; 4]),
        (0, signed(88).to_vec()), (0, signed(-79).to_vec()), (0, signed(-201).to_vec()), (4, b"vk".to_vec()), (76, vec![9]),
        (100, signed(24).to_vec()), (100, signed(-23).to_vec()), (100, signed(-100).to_vec()), (100, signed(-101).to_vec()), (104, b"lh".to_vec()), (104, b"ri".to_vec()), (104, b"lx".to_vec()), (106, vec![0, 1])];
    for (at, bytes) in faults {
        o.patch(at, &bytes);
        o.strict_record(0, 4, 2, 2, if more { &MINORS } else if at < 24 { &[2] } else { &[2, 5] });
        o.patch(at, &m[at..at + bytes.len()]);
    }
}

/// Every image of three lists of 16 bytes, an `ri` list first, with up to two entries that name one of the three; in some the second list's
/// cell is free, or the third's a byte short.
fn strict_threes(o: &mut Out<impl Write>) {
    let mut one: Vec<(&[u8; 2], u16, [u32; 2])> = vec![];
    for kind in [b"ri", b"li", b"lh"] { for count in 0..3u16 {
        if kind == b"lh" && count == 2 { continue; }
        for x in 0..3u32.pow(if kind == b"ri" { count as u32 } else { 0 }) { one.push((kind, count, [16 * (x % 3), 16 * (x / 3 % 3)])); }
    } }
    let mut m = vec![0; 48];
    for x in &one { for y in &one {
        if x.0 != b"ri" || x.1 == 0 { continue; }
        for z in &one {
            list(&mut m, 0, x.0, &x.2, x.1);
            list(&mut m, 16, y.0, &y.2, y.1);
            list(&mut m, 32, z.0, &z.2, z.1);
            for (second, third) in [(-16, -16), (16, -16), (-16, -15)] {
                put32(&mut m, 16, second as u32);
                put32(&mut m, 32, third as u32);
                o.image(&m);
                o.strict_walk(1, 0, 0, BUDGET, ENOUGH, &[4, 5]);
                if third == -15 { o.strict_walk(1, 0, 0, 2, ENOUGH, &[5]); o.strict_counts(1, 0, 0, 3, &[5]); }
            }
        }
    } }
}

/// A size word of a list, most of them such that its cell holds its entries; `fault`: one that a strict reading refuses, or nearly does.
fn any_word(r: &mut Rng, need: i32, left: i32, fault: bool) -> i32 {
    if fault {
        return match r.below(8) { 0 | 1 => need, 2 => 1 - need, 3 => -(need - r.range(1, need as usize) as i32), 4 => -left - 1, 5 => -left - r.range(1, 99) as i32, 6 => -left, _ => r.pick(&[0, 8, -1, -7, -8, i32::MIN, i32::MAX, left]) };
    }
    match r.below(4) { 0 => -((need + 7) & !7).min(left.max(need)), 1 => -(r.range(need as usize, left.max(need) as usize) as i32), _ => -need }
}

/// Random images with lists, of at most so many bytes: most of them as a strict reading has it, and then with a few faults.
fn any_strict(o: &mut Out<impl Write>, r: &mut Rng, random: u64, most: usize) {
    for _ in 0..random {
        let base = r.pick(&[0usize, 0, 4, 16, 31, 32, most / 4]);
        let (mut m, places) = lists(r, base, most);
        let whole: Vec<usize> = places.iter().copied().filter(|&p| p + 8 <= m.len()).collect();
        let leaves: Vec<usize> = whole.iter().copied().filter(|&p| &m[p + 4..p + 6] != b"ri").collect();
        // in every other image leaf lists of one kind; `ri` lists name leaf lists, most of them
        let alike = r.pick(&[None, Some(b"li"), Some(b"lf"), None]);
        let index = r.pick(&[4u64, 40, 40, 400]);
        for &p in &whole {
            let count = get16(&m, p + 6) as usize;
            if &m[p + 4..p + 6] == b"ri" {
                if leaves.is_empty() { continue; }
                for at in (0..count).map(|i| p + 8 + 4 * i) { if at + 4 <= m.len() && !r.chance(index) { let x = r.pick(&leaves); put32(&mut m, at, (x - base) as u32); } }
                continue;
            }
            if let Some(kind) = alike { if entry_of(&m[p + 4..p + 6]) >= entry_of(kind) { m[p + 4..p + 6].copy_from_slice(kind); } }
            let each = entry_of(&m[p + 4..p + 6]);
            for at in (0..count).map(|i| p + 8 + each * i) { if at + 4 <= m.len() && r.chance(9) { let x = (u32::MAX - base as u32 - 1).wrapping_add(r.below(4) as u32); put32(&mut m, at, x); } }
        }
        // a key record behind them, in most images one that is read
        let record = m.len();
        let with_key = r.chance(2);
        if with_key {
            m.resize(record + 88, 0x11);
            key(r, &mut m, record, b"key", 0x20, -88);
            let list = if r.chance(12) { r.word() } else if r.chance(8) || whole.is_empty() { (m.len() - r.range(0, 12)) as u32 } else { (r.pick(&whole) - base) as u32 };
            put32(&mut m, record + 32, list);
            if r.chance(4) { let (at, x) = (record + r.pick(&[0, 1, 4, 5, 24, 26, 27, 76]), r.next() as u8); m[at] = x; }
        }
        let faults = r.pick(&[0usize, 0, 1, 1, 2, 9]);
        let wrong: Vec<usize> = (0..faults).filter(|_| !whole.is_empty()).map(|_| r.pick(&whole)).collect();
        for &p in &whole {
            let need = 8 + entry_of(&m[p + 4..p + 6]) * get16(&m, p + 6) as usize;
            let word = any_word(r, need as i32, (m.len() - p) as i32, wrong.contains(&p));
            put32(&mut m, p, word as u32);
        }
        o.image(&m);
        let b = base as u32;
        // the greatest versions, which permit all, as often as all others
        let minor = |r: &mut Rng| match r.below(8) { 0 => r.word(), 1..=4 => r.pick(&[5, 5, 6, u32::MAX]), _ => r.below(5) as u32 };
        let ask = |o: &mut Out<_>, r: &mut Rng, list: u32, few: bool| {
            let minors = [minor(r)];
            let (budget, room, count) = (r.below(9) as u32, r.below(20) as u32, 1 + r.below(9) as u32);
            o.strict_walk(count, list, b, BUDGET, ENOUGH, &minors);
            o.strict_counts(count, list, b, BUDGET, &minors);
            if few { return; }
            let minors = [minors[0], minor(r)];
            o.strict_walk(count, list, b, budget, ENOUGH, &minors);
            o.strict_walk(count, list, b, BUDGET, room, &minors);
            o.strict_counts(count, list, b, budget, &minors);
            if r.chance(6) { let (count, budget) = r.pick(&[(count, BUDGET + 1), ((1 << 20) + 1, BUDGET), (0, budget), (1 << 20, BUDGET), (u32::MAX, u32::MAX)]); o.strict_walk(count, list, b, budget, room, &minors); o.strict_counts(count, list, b, budget, &minors); }
        };
        for &p in &places {
            let (named, room) = (r.pick(&[0, 1, 1, 2]), r.pick(&[ENOUGH, 0, 1, 3, 7]));
            let minors = [minor(r), minor(r)];
            o.strict_list(p as u32, &minors, &[named]);
            o.strict_leaf(p as u64, b, room, &minors[..1]);
            ask(o, r, (p - base) as u32, false);
        }
        for _ in 0..3 {
            let off = r.range(0, m.len() + 4) as u32;
            ask(o, r, off.saturating_sub(b), true);
            let minors = [minor(r)];
            o.strict_list(off, &minors, &[0]);
            o.strict_leaf(off as u64 + if r.chance(8) { 1 << 32 } else { 0 }, b, ENOUGH, &minors);
        }
        if with_key {
            for at in [record as u32, record as u32, record as u32, (record + r.range(0, 90)) as u32] {
                let (budget, room, minors) = (r.pick(&[BUDGET, BUDGET, BUDGET, 1, 2, 3, BUDGET + 1]), r.pick(&[ENOUGH, ENOUGH, 0, 4]), [minor(r), minor(r)]);
                o.strict_record(at, b, budget, room, &minors);
            }
        }
        // one byte of a list's header changed, and the walk again
        for &p in places.iter().take(4) {
            let at = p + r.range(0, 9);
            if at < m.len() {
                let x = if r.chance(2) { r.next() as u8 } else { m[at] ^ (1 << r.below(8)) };
                o.patch(at, &[x]);
                for &q in places.iter().take(2) { ask(o, r, (q - base) as u32, true); }
                let minors = [minor(r)];
                o.strict_list(p as u32, &minors, &[0, 1]);
                o.patch(at, &m[at..at + 1]);
            }
        }
    }
}

/// Hives: their keys and lists, for minor versions on both sides and their own; as they are and in so many damaged copies. `more`: every key.
fn hive_strict(o: &mut Out<impl Write>, r: &mut Rng, files: &[String], copies: usize, more: bool) {
    for f in files {
        let file = std::fs::read(f).expect(f);
        let m = &file[..file.len().min(IMAGE_MOST)];
        let own = get32(m, 24);
        let found = |signs: &[&[u8]]| -> Vec<usize> { (4096..m.len().saturating_sub(80)).step_by(8).filter(|&p| signs.contains(&&m[p + 4..p + 6])).collect() };
        let (keys, lists) = (found(&[b"nk"]), found(&[b"lf", b"lh", b"li", b"ri"]));
        o.image(m);
        for &p in lists.iter().take(if more { usize::MAX } else { 1 }) {
            o.strict_list(p as u32, &MINORS, &[0]);
            o.strict_leaf(p as u64, 4096, ENOUGH, &[2, 4, own]);
            o.strict_walk(1, (p - 4096) as u32, 4096, 1024, ENOUGH, if more { &MINORS } else { &MINORS[2..6] });
            o.strict_counts(1, (p - 4096) as u32, 4096, 1024, &[own]);
        }
        for &p in keys.iter().take(if more { usize::MAX } else { 3 }) { o.strict_record(p as u32, 4096, 1024, ENOUGH, &[own, 2]); }
        for _ in 0..copies {
            o.image(m);
            for _ in 0..r.range(1, 3) {
                let p = r.pick(&lists);
                let at = match r.below(4) { 0 => p + r.range(4, 9), 1 => r.pick(&keys) + r.pick(&[0, 24, 32, 33]), _ => p + r.range(0, 3) };
                let x = if r.chance(2) { r.next() as u8 } else { m[at] ^ (1 << r.below(8)) };
                o.patch(at, &[x]);
            }
            for &p in lists.iter().take(if more { 20 } else { 2 }) { o.strict_list(p as u32, &[own], &[0, 1]); o.strict_walk(1, (p - 4096) as u32, 4096, 1024, ENOUGH, &[own, 5]); }
            for &p in keys.iter().take(if more { 30 } else { 2 }) { o.strict_record(p as u32, 4096, 1024, ENOUGH, &[own]); }
        }
    }
}

// ---- an `li` list written as `lh`, and back

/// The hash that a right hint has, for a key of these flags and this name.
fn hash(flags: u16, name: &[u8]) -> u32 {
    let wide: Vec<u16> = if flags & 0x20 != 0 { name.iter().map(|&x| x as u16).collect() } else { name.chunks_exact(2).map(|x| get16(x, 0)).collect() };
    wide.iter().fold(0u32, |h, &x| h.wrapping_mul(37).wrapping_add(match x { 97..=122 | 224..=246 | 248..=254 | 1072..=1103 => x - 32, 1104..=1119 => x - 80, 255 => 376, _ => x } as u32))
}

/// The size of the cell for a list of so many entries of a kind.
fn cell_for(kind: &[u8], count: usize) -> u32 { (8 + entry_of(kind) * count).next_multiple_of(8) as u32 }

/// A key's flags, name, and what its cell has behind the name; whether the cell is free.
type Key = (u16, Vec<u8>, usize, bool);

/// Keys behind the image, one behind the other; what else they have is as `fill`. Gives their positions.
fn keys_behind(m: &mut Vec<u8>, fill: u8, keys: &[Key]) -> Vec<u32> {
    keys.iter().map(|(flags, name, slack, free)| {
        let (p, size) = (m.len(), 80 + name.len() + slack);
        m.resize(p + size, fill);
        key_head(m, p, if *free { size as i32 } else { -(size as i32) }, b"nk", name.len());
        put16(m, p + 6, *flags);
        m[p + 80..p + 80 + name.len()].copy_from_slice(name);
        p as u32
    }).collect()
}

/// Offsets with a hint behind each.
fn hinted(offsets: &[u32], hints: &[u32]) -> Vec<u32> { offsets.iter().zip(hints).flat_map(|(&x, &h)| [x, h]).collect() }

/// A list of some offsets behind the image; where its kind has hints, these. Gives its position.
fn list_behind(m: &mut Vec<u8>, kind: &[u8; 2], offsets: &[u32], hints: &[u32]) -> u64 {
    let p = m.len();
    let words = if entry_of(kind) == 8 { hinted(offsets, hints) } else { offsets.to_vec() };
    m.resize(p + 8 + 4 * words.len(), 0);
    list(m, p, kind, &words, offsets.len() as u16);
    p as u64
}

/// Three keys of three kinds: a byte, bytes in a free cell with a byte behind them, and Cyrillic units.
fn three_keys() -> [Key; 3] { [(0x20, b"A".to_vec(), 0, false), (0x20, b"ab".to_vec(), 1, true), (0, units(&[1076, 1105]), 4, false)] }

/// An `li` list written as `lh` and an `lh` list as `li`: each rule on both sides, alone, and what comes first where several meet. `more`: what is
/// too much of the same to be stored.
fn conversion(o: &mut Out<impl Write>, more: bool) {
    conversion_counts(o, more);
    conversion_names(o, more);
    conversion_faults(o, more);
    conversion_kinds(o, more);
    conversion_places(o, more);
    conversion_bases(o, more);
    conversion_words(o);
    conversion_many(o, more);
}

/// Lists of few entries, with right hints and wrong ones, and buffers around the cell's size.
fn conversion_counts(o: &mut Out<impl Write>, more: bool) {
    let base = 24;
    let mut m = vec![0x5a; base as usize];
    let keys = three_keys();
    let at = keys_behind(&mut m, 0x11, &keys);
    for count in if more { vec![0, 1, 2, 3, 4, 5, 6, 7, 8, 17] } else { vec![0, 1, 2, 3] } {
        // in any order, so that two entries name one key where there are more than three
        let offsets: Vec<u32> = (0..count).map(|i| at[(2 * i + 1) % 3] - base).collect();
        let right: Vec<u32> = (0..count).map(|i| { let k = &keys[(2 * i + 1) % 3]; hash(k.0, &k.1) }).collect();
        let (lh, li) = (cell_for(b"lh", count), cell_for(b"li", count));
        let mut one = m.clone();
        let p = list_behind(&mut one, b"li", &offsets, &[]);
        o.image(&one);
        for room in [lh, lh - 1, lh + 1, 2 * lh + 7, 0, 7, li, li - 1] { o.as_lh(p, base, room); }
        for room in [lh, lh - 1, lh + 9] { o.back(p, base, false, room); }
        // one hint wrong, the first or the last, and all of them
        for wrong in 0..4 {
            let hints: Vec<u32> = right.iter().enumerate().map(|(i, &h)| if wrong == 3 || wrong == 1 && i == 0 || wrong == 2 && i + 1 == count { !h } else { h }).collect();
            if wrong > 0 && count == 0 || wrong == 2 && count == 1 { continue; }
            let mut one = m.clone();
            let p = list_behind(&mut one, b"lh", &offsets, &hints);
            o.image(&one);
            let rooms = [lh, lh - 1, lh + 3, li, li - 1];
            for room in if more || wrong == 0 { &rooms[..] } else { &rooms[..1] } { o.back(p, base, true, *room); }
            if wrong == 0 || more { for room in [li, li - 1, li + 1, li + 20, 0, 8 + 4 * count as u32, 7] { o.as_li(p, room); } }
        }
    }
    // keys that two entries name, all of them, and each other
    for order in [&[0, 0][..], &[0, 0, 0], &[0, 1, 0], &[1, 1, 0], &[2, 2, 2, 2], &[2, 1, 0, 0, 1, 2]] {
        let offsets: Vec<u32> = order.iter().map(|&i| at[i] - base).collect();
        let mut one = m.clone();
        let p = list_behind(&mut one, b"li", &offsets, &[]);
        let q = list_behind(&mut one, b"lh", &offsets, &vec![65; order.len()]);
        o.image(&one);
        o.as_lh(p, base, 60);
        o.as_li(q, 60);
        o.back(p, base, false, 60);
        o.back(q, base, true, 60);
    }
    // document 01's example, whose hints are right
    o.image(&example());
    for base in [4096, 4095] { o.as_li(4216, 40); o.back(4216, base, true, 40); o.as_lh(4216, base, 40); }
}

/// Names: of bytes and of units, odd and even, none, Cyrillic; in cells that are free, and with bytes behind the name.
fn conversion_names(o: &mut Out<impl Write>, more: bool) {
    let mut names: Vec<Vec<u8>> = [&b""[..], b"A", b"b", b"ab", b"abc", b"Terminal0001", b"\xe4\xff\xf7\xfe\xdf", b"\0", b"z\0\0", b"a\x04"].iter().map(|x| x.to_vec()).collect();
    for x in [255, 247, 1071, 1072, 1103, 1104, 1119, 1120, 376, 0xffff] { names.push(units(&[97, x, 0x7a])); if more { names.push(units(&[x])); } }
    for word in WORDS.iter().take(if more { WORDS.len() } else { 6 }) { names.push(units(&word.encode_utf16().collect::<Vec<u16>>())); }
    // half a unit behind units
    for word in ["депо", "ab"] { let mut name = units(&word.encode_utf16().collect::<Vec<u16>>()); name.push(4); names.push(name); }
    for (i, name) in names.iter().enumerate() {
        let cells = [(0, false), (0, true), (5, false), (2, true)];
        for flags in [0x20, 0, 0xffff, 0xffdf, 0x1020, 0x40] {
            if !more && !([0x20, 0].contains(&flags) || i % 8 == 1) { continue; }
            for &(slack, free) in if more { &cells[..] } else { &cells[i % 4..i % 4 + 1] } {
                let mut m = vec![];
                let at = keys_behind(&mut m, 0, &[(flags, name.clone(), slack, free)]);
                let q = list_behind(&mut m, b"lh", &at, &[hash(flags, name)]);
                o.image(&m);
                o.back(q, 0, true, 16);
                // the same entry twice, in the name
                let mut lent = vec![];
                list_behind(&mut lent, b"li", &[at[0], at[0]], &[]);
                if more || i % 3 == 0 { o.lent_as_lh(&lent, 0, 0, 24); }
            }
        }
    }
    // a name as long as a name can be
    if more {
        let mut m = vec![];
        let at = keys_behind(&mut m, 0, &[(0x20, vec![0x7a; 65535], 0, false), (0, vec![0x7a; 65534], 0, true), (0, vec![0x7a; 65535], 0, false)]);
        for n in 1..=3 { let mut one = m.clone(); let p = list_behind(&mut one, b"li", &at[..n], &[]); o.image(&one); o.as_lh(p, 0, 32); }
    }
}

/// Entries that name no key that can be hashed: at the first place, in the middle, at the last; two of them, in either order.
fn conversion_faults(o: &mut Out<impl Write>, more: bool) {
    let base = 96u32;
    // a key before the base, which no sum names: one that wraps would
    let mut m = vec![];
    keys_behind(&mut m, 0, &[(0x20, b"before".to_vec(), 0, false)]);
    m.resize(base as usize, 0);
    let good = keys_behind(&mut m, 0, &three_keys());
    // sizes, letters, names; what is behind the image, before it ends and past 2^32
    let mut faults: Vec<u32> = vec![];
    for (word, letters, name) in [(-79i32, b"nk", 0usize), (79, b"nk", 0), (0, b"nk", 0), (-5000, b"nk", 0), (5000, b"nk", 0), (i32::MIN, b"nk", 0), (-80, b"vk", 0), (88, b"nl", 0), (-80, b"nk", 1), (87, b"nk", 8), (-83, b"nk", 3), (81, b"nk", 1)] {
        faults.push(m.len() as u32 - base);
        let p = m.len();
        m.resize(p + 88, 0);
        key_head(&mut m, p, word, letters, name);
    }
    // a size that is just too great: the last key's, which ends where the lists begin, is set when they are there
    let last = keys_behind(&mut m, 0, &[(0x20, b"Z".to_vec(), 0, false)])[0];
    faults.push(last - base);
    let (p, q) = (m.len(), m.len() + 20);
    let n = q + 32;
    m.resize(n, 0);
    let left = (n - last as usize) as i32;
    put32(&mut m, last as usize, (-left - 1) as u32);
    for at in [n, n - 1, n - 79, n - 80, n + 1, n + 99, p] { faults.push(at as u32 - base); }
    faults.extend([u32::MAX - base, u32::MAX - base + 1, u32::MAX - base + 2, u32::MAX]);
    let lay = |o: &mut Out<_>, m: &[u8], offsets: &[u32; 3]| {
        let mut one = m.to_vec();
        list(&mut one, p, b"li", offsets, 3);
        list(&mut one, q, b"lh", &hinted(offsets, &[65, 2471, 7]), 3);
        o.image(&one);
    };
    let good = [good[0] - base, good[1] - base, good[2] - base];
    for (i, &fault) in faults.iter().enumerate() {
        for place in 0..3 {
            let mut offsets = good;
            offsets[place] = fault;
            lay(o, &m, &offsets);
            o.as_lh(p as u64, base, 32);
            if more || place == 2 || i % 4 == place { o.back(q as u64, base, true, 32); }
            // 9 comes after all others
            if more || place == 2 { o.as_lh(p as u64, base, 31); o.back(q as u64, base, true, 31); }
            if more || i % 3 == place { o.back(p as u64, base, false, 32); }
        }
        for (j, &other) in faults.iter().enumerate() {
            if i == j || !more && ![3, 7, 13].contains(&i.abs_diff(j)) { continue; }
            let orders = [[fault, good[1], other], [good[0], fault, other], [fault, other, good[2]]];
            for offsets in if more { &orders[..] } else { &orders[(i + j) % 3..(i + j) % 3 + 1] } { lay(o, &m, offsets); o.as_lh(p as u64, base, 32); if more { o.back(q as u64, base, true, 32); } }
        }
    }
    // none of them wrong, with room and without
    lay(o, &m, &good);
    for room in [32, 31, 0] { o.as_lh(p as u64, base, room); o.back(q as u64, base, true, room); o.back(p as u64, base, false, room); }
    // the key at the image's end, whole and cut; the list in the name
    let mut m = vec![0; 7];
    let at = keys_behind(&mut m, 0x33, &[(0x20, b"end".to_vec(), 2, false)])[0];
    let mut lent = vec![];
    list_behind(&mut lent, b"li", &[at], &[]);
    o.image(&m);
    for cut in [m.len(), m.len() - 1, 7 + 80, 7 + 79, 8, 7, 6, 0] { o.length(cut); o.lent_as_lh(&lent, 0, 0, 16); o.lent_as_lh(&lent, 0, 0, 15); }
    // an image that has a byte more than the key's magnitude, and as many
    for word in [-86i32, 86, -85, 85, -84, -83, -82] { o.image(&m); o.length(m.len()); o.patch(7, &signed(word)); o.lent_as_lh(&lent, 0, 0, 16); }
}

/// Lists of every kind given to either, also such as are cut, name no key, or find no room: the kind comes behind what one list is refused by and
/// before all else.
fn conversion_kinds(o: &mut Out<impl Write>, more: bool) {
    let base = 3;
    let mut m = vec![0; 3];
    let at = keys_behind(&mut m, 0, &three_keys());
    let p = m.len();
    for kind in [b"li", b"lh", b"lf", b"ri", b"lx", b"Li", b"il", b"hl", b"nk", b"\0\0", b"lI", b"l\xe9"] {
        for (count, entry, rooms) in [(2u16, at[0] - base, &[24u32, 15][..]), (1, u32::MAX, &[16, 0]), (0, 0, &[8, 7]), (5, at[1] - base, &[48])] {
            // letters that stand for no kind, once
            let few = !more && ![b"li", b"lh", b"lf", b"ri", b"lx"].contains(&kind);
            if few && count != 2 { continue; }
            let mut one = m.clone();
            one.resize(p + 24, 0);
            // five entries pass the image
            list(&mut one, p, kind, &[entry, at[2] - base, entry, 7], count);
            o.image(&one);
            for &room in if few { &rooms[..1] } else { rooms } {
                o.as_lh(p as u64, base, room);
                o.as_li(p as u64, room);
                if !few && (more || room == rooms[0]) { for li_first in [false, true] { o.back(p as u64, base, li_first, room); } }
            }
        }
    }
}

/// Where a list is: positions and lengths on both sides of what it needs, in the image and in the name, beside an image that is another one.
fn conversion_places(o: &mut Out<impl Write>, more: bool) {
    const HIGH: u64 = 1 << 32;
    let mut m = vec![];
    let at = keys_behind(&mut m, 0, &three_keys());
    let offsets = [at[0], at[2]];
    let p = m.len() + 5;
    for kind in [b"li", b"lh", b"lf"] {
        let mut one = m.clone();
        one.resize(p, 0x5a);
        list_behind(&mut one, kind, &offsets, &[1, 2]);
        let end = one.len();
        // the same list in a name, at the position 5
        let lent = one[p - 5..].to_vec();
        one.resize(end + 1, 0x5a);
        o.image(&one);
        let ask = |o: &mut Out<_>, lent: Option<&[u8]>, at: u64, room: u32| match lent {
            Some(lent) => { if more || kind != b"lh" { o.lent_as_lh(lent, at, 0, room); } if more || kind == b"lh" { o.lent_as_li(lent, at, room); } }
            None => {
                if more || kind != b"lh" { o.as_lh(at, 0, room); }
                if more || kind == b"lh" { o.as_li(at, room); }
                if more || kind != b"lf" { o.back(at, 0, kind == b"lh", room); }
            }
        };
        for n in [p - 1, p, p + 1, p + 5, p + 7, p + 8, end - 1, end, end + 1] { o.length(n); ask(o, None, p as u64, 24); }
        o.length(end);
        for at in [p - 1, p + 1, p - 5, end - 8, end - 7, end, end + 1] { ask(o, None, at as u64, 24); }
        for at in [HIGH - 1, HIGH, HIGH + p as u64, HIGH - 1 + end as u64, u64::MAX - 7, u64::MAX] { ask(o, None, at, 24); }
        for n in [0, 4, 5, 6, 12, 13, lent.len() - 1, lent.len()] { ask(o, Some(&lent[..n]), 5, 24); if more { ask(o, Some(&lent[..n]), 5, 15); } }
        let n = lent.len() as u64;
        for at in [0, 4, 6, n - 8, n - 7, n, n + 1, p as u64, HIGH - 1, HIGH + 5, u64::MAX] { ask(o, Some(&lent), at, 24); }
        // keys that the image has no longer, and an image of nothing; a list of none needs none
        let mut none = vec![0x5a; 5];
        list_behind(&mut none, kind, &[], &[]);
        for n in [at[2] as usize + 80, at[2] as usize, 80, 0] { o.length(n); ask(o, Some(&lent), 5, 24); ask(o, Some(&none), 5, 24); }
        // the image has such a list where the name has another, and the other way round
        o.image(&one);
        let other: Vec<u8> = { let mut x = vec![0; p]; list_behind(&mut x, kind, &[at[1]], &[3]); x };
        ask(o, Some(&other), p as u64, 24);
        for d in [0, 2, 257, 1 << 16, 1 << 31, u32::MAX, 1] { for (tag, its) in [(35, kind == b"li"), (36, kind == b"lh"), (37, kind != b"lf")] { if more || its { o.named(tag, &[p as u32, 0, 0, d, 24], &other); } } }
    }
}

/// Bases, and sums on both sides of 2^32: such as would be a good key's position if they had 32 bits.
fn conversion_bases(o: &mut Out<impl Write>, more: bool) {
    let mut m = vec![];
    let keys = keys_behind(&mut m, 0, &[(0x20, b"first".to_vec(), 3, false), (0, units(&[1103, 97]), 4, false)]);
    for base in [0u32, 1, 87, 88, 89, 1 << 31, u32::MAX - 88, u32::MAX - 87, u32::MAX - 1, u32::MAX] {
        if !more && [87, u32::MAX - 88, u32::MAX - 1].contains(&base) { continue; }
        let (first, second) = (keys[0].wrapping_sub(base), keys[1].wrapping_sub(base));
        let (top, past) = (u32::MAX - base, 0u32.wrapping_sub(base));
        for offsets in [vec![first], vec![second], vec![top], vec![past.wrapping_add(1)], vec![u32::MAX], vec![0], vec![second, first], vec![second, top, past], vec![second, past, top], vec![first, second, second]] {
            if !more && offsets.len() == 1 && [1, 89].contains(&base) && ![first, top].contains(&offsets[0]) { continue; }
            let mut one = m.clone();
            let p = list_behind(&mut one, b"li", &offsets, &[]);
            let q = list_behind(&mut one, b"lh", &offsets, &[5, 6, 7]);
            o.image(&one);
            o.as_lh(p, base, 32);
            if more || offsets.len() > 1 { o.back(q, base, true, 32); }
            if more || offsets.len() == 2 { o.back(p, base, false, 32); o.as_li(q, 20); }
        }
    }
}

/// Size words of the list, which are not used.
fn conversion_words(o: &mut Out<impl Write>) {
    let mut m = vec![];
    let keys = keys_behind(&mut m, 0, &three_keys());
    let p = list_behind(&mut m, b"li", &keys, &[]);
    let q = list_behind(&mut m, b"lh", &keys, &[65, 0, u32::MAX]);
    o.image(&m);
    for word in [0, 1, -1, 8, -8, 20, -20, 32, -32, i32::MIN, i32::MAX, 0x5a5a5a5a] {
        o.patch(p as usize, &signed(word));
        o.patch(q as usize, &signed(word));
        o.as_lh(p, 0, 40);
        o.as_li(q, 40);
        o.back(p, 0, false, 40);
        o.back(q, 0, true, 40);
    }
}

/// A thousand entries, and as many as a list can have. Nearly all of them are 0 and name the key at the base.
fn conversion_many(o: &mut Out<impl Write>, more: bool) {
    for count in if more { vec![1000usize, 1001, 32767, 65534, 65535] } else { vec![1000, 65535] } {
        let (lh, li) = (cell_for(b"lh", count), cell_for(b"li", count));
        // an `li` list at 0, two keys behind it: the first entry, one in the middle and the last one name the second
        let base = li;
        let mut m = vec![0; 8 + 4 * count];
        m.resize(base as usize, 0);
        let keys = keys_behind(&mut m, 0, &[(0x20, b"zero".to_vec(), 4, false), (0, units(&[1078, 1079]), 4, true)]);
        list(&mut m, 0, b"li", &[keys[1] - base], count as u16);
        for i in [count / 2, count - 1] { put32(&mut m, 8 + 4 * i, keys[1] - base); }
        o.image(&m);
        for room in [lh, lh - 1] { o.as_lh(0, base, room); }
        o.back(0, base, false, lh);
        if more { o.back(0, base, false, lh - 1); o.as_lh(0, base, CELL_MOST); o.as_lh(0, base, 0); }
        // the last one wraps, the one in the middle is past the image, the last one's name is odd
        for (at, x) in [(8 + 4 * (count - 1), 0u32.wrapping_sub(base)), (8 + 4 * (count / 2), 1 << 20)] { o.patch(at, &x.to_le_bytes()); o.as_lh(0, base, lh); }
        o.image(&m);
        o.patch(keys[1] as usize + 76, &[3]);
        o.patch(8, &[0; 4]);
        o.as_lh(0, base, lh - 1);
        // cut before its last entry's last byte
        o.length(8 + 4 * count - 1);
        o.as_lh(0, base, lh);
        // an `lh` list, which may fill the image, with the keys in it: of their words each that an entry has as its offset is 0, or 88 and names
        // the second one
        let mut m = vec![0; lh as usize];
        let base = 8 + 8 * (count as u32 / 3);
        let mut keys = vec![];
        keys_behind(&mut keys, 0, &[(0x20, b"\0\0\0\0zero".to_vec(), 0, true), (0, units(&[0, 0, 1078, 1079]), 0, true)]);
        m[base as usize..base as usize + keys.len()].copy_from_slice(&keys);
        list(&mut m, 0, b"lh", &[88, 1], count as u16);
        put32(&mut m, 8 * count, 88);
        o.image(&m);
        for room in [li, li - 1] { o.as_li(0, room); }
        for room in [lh, lh - 1] { o.back(0, base, true, room); }
        if more { o.as_li(0, CELL_MOST); o.back(0, base, true, li - 1); }
        o.patch(8 * count, &(u32::MAX - base + 1).to_le_bytes());
        o.back(0, base, true, lh);
        o.length(lh as usize - 1);
        o.as_li(0, li);
    }
}

/// Random keys and lists of them, in images whose keys have about so many bytes: most of them such as can be written, then with faults, then damaged.
fn any_conversion(o: &mut Out<impl Write>, r: &mut Rng, random: u64, most: usize) {
    for _ in 0..random {
        let base = r.pick(&[0u32, 0, 4, 16, 31, 32]);
        let n = base as usize + r.range(0, 9);
        let mut m = r.bytes(n);
        let mut keys: Vec<Key> = vec![];
        for _ in 0..r.range(1, (most / 96).max(1)) {
            let wide = r.chance(2);
            let name: Vec<u8> = if wide {
                let n = r.range(0, 9);
                let name: Vec<u16> = (0..n).map(|_| match r.below(6) { 0 => r.pick(&BYTES), 1 => r.pick(&ENDS), 2 => r.next() as u16, _ => r.range(1020, 1124) as u16 }).collect();
                units(&name)
            } else { let n = r.range(0, 14); (0..n).map(|_| if r.chance(3) { r.next() as u8 } else { r.pick(b"TERMINALterminal0019_") }).collect() };
            // now and then bytes as units, and units as bytes
            let flags = if r.chance(12) { r.next() as u16 } else if wide { r.pick(&[0, 0, 0, 0xffdf, 0x4]) } else { r.pick(&[0x20, 0x20, 0x20, 0x2c, 0xffff]) };
            keys.push((flags, name, r.range(0, 9), r.chance(4)));
        }
        let fill = r.next() as u8;
        let at = keys_behind(&mut m, fill, &keys);
        let end = m.len() as u32;
        let faulty = r.pick(&[0u64, 0, 9, 30]);
        let mut lists: Vec<(u64, bool, usize)> = vec![];
        for _ in 0..r.range(1, 4) {
            let count = if r.chance(9) { r.range(0, 60) } else { r.range(0, 6) };
            let named: Vec<usize> = (0..count).map(|_| r.range(0, keys.len() - 1)).collect();
            let offsets: Vec<u32> = named.iter().map(|&i| if faulty > 0 && r.chance(faulty) {
                match r.below(5) { 0 => r.word(), 1 => (u32::MAX - base - 1).wrapping_add(r.below(4) as u32), 2 => at[i].wrapping_sub(base).wrapping_add(r.below(5) as u32).wrapping_sub(2), 3 => end - base + r.below(40) as u32, _ => 0u32.wrapping_sub(base).wrapping_add(at[i]) }
            } else { at[i] - base }).collect();
            let all_right = r.chance(2);
            let hints: Vec<u32> = named.iter().map(|&i| if all_right || !r.chance(3) { hash(keys[i].0, &keys[i].1) } else { r.word() }).collect();
            let n = m.len() + r.range(0, 5);
            m.resize(n, fill);
            let kind = r.pick(&[b"li", b"li", b"li", b"lh", b"lh", b"lh", b"lf", b"ri"]);
            let p = list_behind(&mut m, kind, &offsets, &hints);
            if r.chance(3) { let word = r.word(); put32(&mut m, p as usize, word); }
            lists.push((p, kind == b"lh" || kind == b"lf", count));
        }
        if r.chance(8) { let n = m.len() - r.range(1, 20); m.truncate(n); }
        o.image(&m);
        let ask = |o: &mut Out<_>, r: &mut Rng, (p, lh, count): (u64, bool, usize), few: bool| {
            let (wide, narrow) = (cell_for(b"lh", count), cell_for(b"li", count));
            let mut room = |exact: u32| match r.below(6) { 0 => exact - 1, 1 => exact + r.below(20) as u32, 2 => r.below(exact as u64 + 4) as u32, _ => exact };
            if lh { let (x, y) = (room(narrow), room(wide)); o.as_li(p, x); o.back(p, base, true, y); }
            else { let (x, y) = (room(wide), room(wide)); o.as_lh(p, base, x); if !few { o.back(p, base, false, y); } }
            if !few && r.chance(4) { if lh { o.as_lh(p, base, wide); o.back(p, base, false, wide); } else { o.as_li(p, wide); o.back(p, base, true, wide); } }
        };
        for &one in &lists {
            ask(o, r, one, false);
            let (p, lh, count) = one;
            // another place, another base; the list in the name, by itself and behind some bytes
            if r.chance(4) { let at = p + r.below(9) + if r.chance(4) { 1 << 32 } else { 0 }; o.as_lh(at, base, 99); o.as_li(at, 99); }
            if r.chance(4) { let other = r.pick(&[0, base + 1, u32::MAX - end, u32::MAX]); o.as_lh(p, other, cell_for(b"lh", count)); o.back(p, other, true, cell_for(b"lh", count)); }
            if r.chance(3) && (p as usize) < m.len() {
                let before = r.range(0, 9).min(p as usize);
                let lent = &m[p as usize - before..];
                if lh { o.lent_as_li(lent, before as u64, cell_for(b"li", count)); } else { o.lent_as_lh(lent, before as u64, base, cell_for(b"lh", count)); }
            }
        }
        // one byte of a key or a list changed
        for _ in 0..6 {
            let one = r.pick(&lists);
            let p = one.0 as usize;
            let at = if r.chance(3) { p + r.range(4, 15) } else { r.pick(&at) as usize + r.pick(&[0, 1, 3, 4, 5, 6, 76, 77, 80, 81, 83]) };
            if at >= m.len() { continue; }
            let x = if r.chance(3) { r.next() as u8 } else { m[at] ^ (1 << r.below(8)) };
            o.patch(at, &[x]);
            ask(o, r, one, true);
            o.patch(at, &m[at..at + 1]);
        }
    }
}

/// Hives: each of their lists, as it is and by the letters of the other kinds, and lists of all their keys; then in so many damaged copies. `more`: every
/// room and letter.
fn hive_conversion(o: &mut Out<impl Write>, r: &mut Rng, files: &[String], copies: usize, more: bool) {
    for f in files {
        let file = std::fs::read(f).expect(f);
        let m = &file[..file.len().min(IMAGE_MOST)];
        let found = |signs: &[&[u8]]| -> Vec<usize> { (4096..m.len().saturating_sub(80)).step_by(8).filter(|&p| signs.contains(&&m[p + 4..p + 6])).collect() };
        let (keys, lists) = (found(&[b"nk"]), found(&[b"lf", b"lh", b"li", b"ri"]));
        let all = |o: &mut Out<_>, p: usize, rooms: &[u32]| {
            for &room in rooms { o.as_lh(p as u64, 4096, room); o.as_li(p as u64, room); for li_first in [false, true] { o.back(p as u64, 4096, li_first, room); } }
        };
        o.image(m);
        for &p in &lists {
            let count = get16(m, p + 6) as usize;
            let (lh, li) = (cell_for(b"lh", count), cell_for(b"li", count));
            let rooms = [lh, li - 1, lh - 1, li, 4096, 0];
            all(o, p, &rooms[..if more { 6 } else { 2 }]);
            for kind in [b"li", b"lh", b"lf", b"ri"] {
                if !more && kind != b"lh" { continue; }
                o.patch(p + 4, kind);
                all(o, p, &rooms[..if more { 4 } else { 1 }]);
            }
            o.patch(p + 4, &m[p + 4..p + 6]);
        }
        // all keys, and all but the first; with hints that are right
        let offsets: Vec<u32> = keys.iter().map(|&p| p as u32 - 4096).collect();
        let hints: Vec<u32> = keys.iter().map(|&p| hash(get16(m, p + 6), &m[p + 80..(p + 80 + get16(m, p + 76) as usize).min(m.len())])).collect();
        for from in [0, 1.min(keys.len())] {
            let (mut li, mut lh) = (vec![], vec![]);
            list_behind(&mut li, b"li", &offsets[from..], &[]);
            list_behind(&mut lh, b"lh", &offsets[from..], &hints[from..]);
            let room = cell_for(b"lh", keys.len() - from);
            for base in [4096, 4097, 0] { if more || base == 4096 { o.lent_as_lh(&li, 0, base, room); } }
            o.lent_as_lh(&li, 0, 4096, room - 1);
            o.lent_as_li(&lh, 0, room);
            // the same in place of the image's end, where nothing is in use
            let at = m.len().saturating_sub(lh.len() + 8);
            if m[at..].iter().all(|&x| x == 0) { o.patch(at, &lh); o.back(at as u64, 4096, true, room); o.patch(at, &li); o.back(at as u64, 4096, false, room); o.patch(at, &m[at..at + lh.len()]); }
        }
        for _ in 0..copies {
            o.image(m);
            let p = r.pick(&lists);
            let count = get16(m, p + 6) as usize;
            // an `lf` list has no other use
            if &m[p + 4..p + 6] == b"lf" { o.patch(p + 4, b"lh"); }
            for _ in 0..r.range(1, 2) {
                let at = match r.below(5) { 0 => p + r.range(4, 7), 1 => p + 8 + r.range(0, 15), _ => r.pick(&keys) + r.pick(&[0, 1, 3, 4, 6, 6, 76, 77, 80, 85, 91]) };
                let x = if r.chance(3) { r.next() as u8 } else { m[at] ^ (1 << r.below(8)) };
                o.patch(at, &[x]);
            }
            let room = cell_for(b"lh", count);
            if more || &m[p + 4..p + 6] != b"li" { o.as_li(p as u64, room); o.back(p as u64, 4096, true, room); }
            if more || &m[p + 4..p + 6] == b"li" { o.as_lh(p as u64, 4096, room); o.back(p as u64, 4096, false, room); }
        }
    }
}

// ---- a key record that knows its place

/// Where the numbers of a key record stand in its cell, with their widths; the name has them so too, behind 16 bytes. The letters are none.
const NUMBERS: [(usize, usize); 20] = [(0, 4), (6, 2), (8, 8), (16, 4), (20, 4), (24, 4), (28, 4), (32, 4), (36, 4), (40, 4), (44, 4), (48, 4), (52, 4), (56, 4), (60, 4), (64, 4), (68, 4), (72, 4), (76, 2), (78, 2)];
/// The functions that take a record with an image, the check by itself first.
const FUNCTIONS: std::ops::Range<u32> = 0..9;

/// A record as a name holds it: that of an image at a place, read with a base. What the image lacks of its bytes is 0.
fn taken(m: &[u8], p: usize, base: u32) -> Vec<u8> {
    let mut cell = m[p.min(m.len())..(p + 80).min(m.len())].to_vec();
    cell.resize(80, 0);
    let free = get32(&cell, 0) < 1 << 31;
    [&(p as u64).to_le_bytes()[..], &base.to_le_bytes(), &(!free as u32).to_le_bytes(), &cell].concat()
}
fn at_place(record: &[u8], position: u64) -> Vec<u8> { [&position.to_le_bytes(), &record[8..]].concat() }
fn with_base(record: &[u8], base: u32) -> Vec<u8> { [&record[..8], &base.to_le_bytes(), &record[12..]].concat() }
fn flipped(bytes: &[u8], at: usize, bits: u8) -> Vec<u8> { let mut b = bytes.to_vec(); b[at] ^= bits; b }
/// Other bytes at places of a record, counted in its cell.
fn changed(record: &[u8], words: &[(usize, u32)]) -> Vec<u8> { let mut b = record.to_vec(); for &(at, x) in words { put32(&mut b, 16 + at, x); } b }

/// What a record is given with beside the image: budget, room, minor version, and the word for the table.
type Beside = (u32, u32, u32, u32);
const PLENTY: Beside = (BUDGET, 32, 5, 0);

/// Position of the key of `place_image`, its base, and the text that its lookup finds.
const KEY: usize = 232;
const KEY_BASE: u32 = 16;
const TEXT: &[u8] = b"bC";

/// A key at 232, of a base of 16: an `ri` list of two `lh` lists, of which one entry is dropped, each in an allocated cell of its own; a list of
/// two values, `A` and `Bc`. Its every number is another. The lists lie before the key, at 16, 64 and 112, the value list at 128, the values at
/// 144 and 176. With the base of 64 there is an `lh` list in the place of the `ri` list.
fn place_image() -> Vec<u8> {
    let mut m = vec![0; 344];
    list(&mut m, 16, b"ri", &[48, 48], 2);
    leaf_list(&mut m, 64, b"lh", &[1, 2, u32::MAX - 3, 4], KEY_BASE);
    put32(&mut m, 128, -16i32 as u32);
    for (i, x) in [144, 176].into_iter().enumerate() { put32(&mut m, 132 + 4 * i, x - KEY_BASE); }
    value(&mut m, 144, b"A", 1, -32, [4, 7, 1]);
    value(&mut m, 176, b"Bc", 1, -32, [5, 8, 2]);
    made_up(&mut m, KEY, 2, 0);
    put32(&mut m, KEY, -96i32 as u32);
    for (at, x) in [(40, 2), (44, 128 - KEY_BASE)] { put32(&mut m, KEY + at, x); }
    m[KEY + 80..KEY + 96].copy_from_slice(b"a key and slack.");
    m
}

/// Records given with an image, and the place of records: each rule on both sides. `more`: what is too much of the same to be stored.
fn in_place(o: &mut Out<impl Write>, more: bool) {
    in_place_reads(o, more);
    in_place_numbers(o, more);
    in_place_nothing(o, more);
    in_place_far(o, more);
    in_place_first(o, more);
    in_place_walks(o, more);
    in_place_values(o, more);
    in_place_names(o, more);
    record_places(o, more);
}

/// The same record: in its own image, in one with other bytes in the name, the slack and outside the record, and in one that is shorter or longer.
fn in_place_reads(o: &mut Out<impl Write>, more: bool) {
    let m = place_image();
    let record = taken(&m, KEY, KEY_BASE);
    o.image(&m);
    for f in FUNCTIONS.chain([9, 255, 256, 1 << 31, u32::MAX]) {
        for beside in [PLENTY, (BUDGET, 6, 5, 1), (3, 5, 4, 3), (2, 0, 3, u32::MAX), (0, 1, 0, 2), (1, 2, u32::MAX, 7)] { o.given(f, &record, TEXT, beside); }
    }
    for (at, bytes) in [(KEY + 80, &b"other name and s"[..]), (KEY + 80, b"A"), (KEY + 84, b"X"), (KEY + 85, b"s"), (KEY + 95, b"?"), (KEY + 96, b"behind"), (KEY - 1, &[9]), (0, &[7; 16]), (343, &[1])] {
        o.patch(at, bytes);
        for f in FUNCTIONS { if more || f % 2 == 0 || at == KEY + 80 { o.given(f, &record, TEXT, PLENTY); } }
        o.patch(at, &m[at..at + bytes.len()]);
    }
    for n in [KEY + 96, KEY + 97, 343] { o.length(n); for f in FUNCTIONS { if more || f < 2 || n == KEY + 96 { o.given(f, &record, TEXT, PLENTY); } } }
    // other lists and values in the image: the record is the same, and what it leads to is the image's
    let mut other = m.clone();
    list(&mut other, 16, b"li", &[9, 8, 7], 3);
    value(&mut other, 176, b"bc", 0, 32, [6, 9, 3]);
    o.image(&other);
    for f in FUNCTIONS { o.given(f, &record, TEXT, PLENTY); o.given(f, &record, b"a", (BUDGET, 2, 2, 1)); }
    // two alike at two places, and a free one
    let mut twice = m.clone();
    twice.resize(450, 0);
    twice.copy_within(KEY..KEY + 96, 344);
    o.image(&twice);
    for f in FUNCTIONS { for p in [KEY, 344] { for q in [KEY, 344, 345] { if more || f % 3 != 2 || p != q { o.given(f, &at_place(&taken(&twice, p, KEY_BASE), q as u64), TEXT, PLENTY); } } } }
    put32(&mut twice, 344, 96);
    o.image(&twice);
    for f in FUNCTIONS { for p in [KEY, 344] { for q in [KEY, 344] { if more || p != q || p == 344 { o.given(f, &at_place(&taken(&twice, p, KEY_BASE), q as u64), TEXT, PLENTY); } } } }
}

/// One number another, in the record or in the image: by a bit at its low and its high end, with `more` by each bit. The letters of the record
/// are not read.
fn in_place_numbers(o: &mut Out<impl Write>, more: bool) {
    let m = place_image();
    let record = taken(&m, KEY, KEY_BASE);
    o.image(&m);
    let mut bits = vec![];
    for (i, &(at, width)) in NUMBERS.iter().enumerate() {
        let all: Vec<usize> = if more { (0..8 * width).collect() } else { vec![0, 8 * width - 1] };
        for bit in all { bits.push((i, at + bit / 8, 1u8 << (bit % 8))); }
    }
    for &(i, at, mask) in &bits {
        let other = flipped(&record, 16 + at, mask);
        o.given(0, &other, TEXT, PLENTY);
        for f in 1..9 { if more || (i as u32 + f) % 4 == 0 && mask == 1 { o.given(f, &other, TEXT, (BUDGET, 32, 5, f % 2)); } }
        if more { o.given(7, &other, TEXT, (BUDGET, 32, 5, 1)); o.given(8, &other, TEXT, (BUDGET, 32, 5, 1)); }
        if more || i == 9 { for f in [9, 265, u32::MAX] { o.given(f, &other, TEXT, PLENTY); } }
    }
    for &(i, at, mask) in bits.iter().chain(&[(20, 4, 1), (20, 5, 1), (20, 4, 128), (20, 5, 32)]) {
        o.patch(KEY + at, &[m[KEY + at] ^ mask]);
        o.given(0, &record, TEXT, PLENTY);
        for f in 1..9 { if more || (i as u32 + f) % 5 == 0 && mask == 1 { o.given(f, &record, TEXT, (BUDGET, 32, 5, f % 2)); } }
        // the image's own record, where there is one
        let own: Vec<u8> = [&record[..16 + at], &[record[16 + at] ^ mask], &record[17 + at..]].concat();
        if more || mask == 1 { o.given(0, &own, TEXT, PLENTY); }
        o.patch(KEY + at, &m[KEY + at..KEY + at + 1]);
    }
    // the sign of the size, in the record and in the image: it is in two numbers
    for image_free in [false, true] {
        put_signed(o, if image_free { 96 } else { -96 });
        for (size, allocated) in [(-96, 1u32), (-96, 0), (96, 1), (96, 0), (-96, 2), (-96, 1 << 31), (96, 256), (-96, u32::MAX)] {
            let mut given = record.clone();
            put32(&mut given, 12, allocated);
            put32(&mut given, 16, size as u32);
            for f in FUNCTIONS { if more || f == 0 || allocated < 2 { o.given(f, &given, TEXT, PLENTY); } }
        }
    }
    put_signed(o, -96);
    for (at, x) in [(20, 0u8), (21, 0), (20, b'v'), (21, 255)] {
        let mut given = record.clone();
        given[at] = x;
        for f in FUNCTIONS { if more || f % 3 == 0 { o.given(f, &given, TEXT, PLENTY); } }
    }
    // two numbers changed against each other, in the record: no sum of them tells
    for (i, &(at, _)) in NUMBERS.iter().enumerate().skip(3).take(if more { 14 } else { 4 }) {
        let next = NUMBERS[i + 1].0;
        let (x, y) = (get32(&record, 16 + at), get32(&record, 16 + next));
        for f in [0, 1, 5] { o.given(f, &changed(&record, &[(at, y), (next, x)]), TEXT, PLENTY); o.given(f, &changed(&record, &[(at, x + 1), (next, y.wrapping_sub(1))]), TEXT, PLENTY); }
    }
}
fn put_signed(o: &mut Out<impl Write>, size: i32) { o.patch(KEY, &size.to_le_bytes()); }

/// A place whose bytes are the record's own and do not read: other letters, a size too small or past the image, a name past its cell, an image
/// that is too short, and nothing at all.
fn in_place_nothing(o: &mut Out<impl Write>, more: bool) {
    let m = place_image();
    let n = m.len();
    let rest = (n - KEY) as i32;
    let mut broken: Vec<(Vec<u8>, usize)> = vec![(vec![0; n], n), (vec![], 0), (m[..KEY].to_vec(), KEY), (m[..KEY - 1].to_vec(), KEY - 1)];
    for letters in [b"nl", b"mk", b"vk", b"NK", b"kn"] { let mut d = m.clone(); d[KEY + 4..KEY + 6].copy_from_slice(letters); broken.push((d, n)); }
    for size in [0, 1, -1, 79, -79, 80, -80, 84, -84, 85, -85, rest, -rest, rest + 1, -rest - 1, i32::MAX, i32::MIN, i32::MIN + 1] { let mut d = m.clone(); put32(&mut d, KEY, size as u32); broken.push((d, n)); }
    for length in [15, 16, 17, 18, 256, u16::MAX] { let mut d = m.clone(); put16(&mut d, KEY + 76, length); broken.push((d, n)); }
    for left in [0, 1, 4, 6, 79, 80, 95, 96] { broken.push((m.clone(), KEY + left)); }
    for (i, (d, length)) in broken.iter().enumerate() {
        o.image(d);
        o.length(*length);
        let own = taken(d, KEY, KEY_BASE);
        for f in FUNCTIONS { if more || f == 0 || (i as u32 + f) % 4 == 0 { o.given(f, &own, TEXT, (BUDGET, 32, 5, f)); } }
        for f in FUNCTIONS { if more || f == 0 || (i as u32 + f) % 8 == 0 { o.given(f, &taken(&m, KEY, KEY_BASE), TEXT, PLENTY); } }
    }
}

/// Positions past the image and far past it, and such that are the key's own where they are cut to fewer bits.
fn in_place_far(o: &mut Out<impl Write>, more: bool) {
    let m = place_image();
    let record = taken(&m, KEY, KEY_BASE);
    let p = KEY as u64;
    o.image(&m);
    for (i, q) in [p - 1, p + 1, p - 8, p + 8, 0, 1, 344, 343, 345, 264, 265, p + 256, p + (1 << 16), p + (1 << 31), p + (1 << 32), p + (1 << 33), p + (1 << 63), p | 0xffff_ffff_0000_0000, p.wrapping_sub(1 << 20), 1 << 32, 1 << 63, u64::MAX - 79, u64::MAX - 1, u64::MAX, p.wrapping_neg()].into_iter().enumerate() {
        let other = at_place(&record, q);
        for f in FUNCTIONS { if more || f == 0 || q >> 32 == 1 || (i as u32 + f) % 4 == 0 { o.given(f, &other, TEXT, PLENTY); } }
        if more || i % 3 == 2 { for f in [7, 8] { o.given(f, &other, TEXT, (BUDGET, 32, 5, 1)); } }
    }
    // a key at the image's start, and one that ends it
    let mut small = m[KEY..KEY + 96].to_vec();
    o.image(&small);
    for q in [0, 1, 16, 17, 1 << 32, 1 << 63, u64::MAX] { for f in [0, 1, 5, 7] { o.given(f, &at_place(&taken(&small, 0, 0), q), TEXT, PLENTY); } }
    small.truncate(95);
    o.image(&small);
    for f in FUNCTIONS { o.given(f, &taken(&small, 0, 0), TEXT, PLENTY); }
}

/// Before all others: each function on a record out of its place that would be refused by another number too, and on one that would succeed
/// with nothing; beside it the same in its place.
fn in_place_first(o: &mut Out<impl Write>, more: bool) {
    let m = place_image();
    for words in [&[][..], &[(24, 0)], &[(24, 0), (40, 0)], &[(24, (1 << 20) + 1), (40, (1 << 20) + 1)], &[(32, 5000), (44, 5000)], &[(44, 0)], &[(44, u32::MAX)], &[(44, 343)], &[(44, 344)], &[(32, 344)], &[(32, 328)], &[(32, 321)], &[(32, 200)], &[(24, u32::MAX), (40, u32::MAX)], &[(32, u32::MAX)], &[(44, 328)], &[(44, 320)]] {
        let mut d = m.clone();
        for &(at, x) in words { put32(&mut d, KEY + at, x); }
        o.image(&d);
        let record = taken(&d, KEY, KEY_BASE);
        for f in 1..9 {
            for beside in [PLENTY, (BUDGET + 1, 0, 0, 1), (u32::MAX, 32, 5, 0), (0, 0, 5, 1)] {
                if more || words.is_empty() || beside == PLENTY || f == 8 && beside.0 == 0 { o.given(f, &record, TEXT, beside); }
                if more || words.is_empty() || beside.0 == BUDGET + 1 && words.len() == 1 || beside.0 == 0 && f % 4 == 1 { o.given(f, &flipped(&record, 16 + 72, 1), TEXT, beside); }
            }
        }
    }
}

/// Walks from a record in its place: the base is the record's, and each refusal.
fn in_place_walks(o: &mut Out<impl Write>, more: bool) {
    let m = place_image();
    o.image(&m);
    let record = taken(&m, KEY, KEY_BASE);
    // another base is no other record: there is another list, or none
    for base in [0, 8, 15, 17, 64, 63, 16 + 328, 16 + 329, 320, 321, 328, 1 << 31, u32::MAX - 15, u32::MAX] {
        for f in FUNCTIONS { o.given(f, &with_base(&record, base), TEXT, (BUDGET, 32, 5, (f == 8) as u32)); }
    }
    // rooms and budgets on both sides; the versions, and what is no list by them
    for room in 0..9 { for f in [1, 3] { o.given(f, &record, TEXT, (BUDGET, room, 5, 0)); } }
    for budget in [0, 1, 2, 3, 4, BUDGET - 1, BUDGET, BUDGET + 1, u32::MAX] { for f in [1, 2, 3, 4, 7, 8] { for c in [0, 1] { if c == 0 || f > 6 { o.given(f, &record, TEXT, (budget, 32, 5, c)); } } } }
    for minor in MINORS { for f in [1, 2, 3, 4] { o.given(f, &record, TEXT, (BUDGET, 32, minor, 0)); } }
    for (at, bytes) in [(20, &b"lh"[..]), (20, b"lf"), (20, b"li"), (20, b"lx"), (22, &[0, 0]), (22, &[1, 0]), (22, &[255, 255]), (24, &[0; 4]), (24, &[208, 0, 0, 0]), (24, &[255; 4]), (28, &[0; 4]), (68, b"lf"), (68, b"ri"), (68, b"li"), (70, &[255, 255]), (16, &[0, 0, 0, 0]), (16, &signed(-15)), (16, &signed(16)), (16, &signed(-329)), (64, &signed(-39)), (64, &signed(40)), (64, &signed(i32::MIN))] {
        o.patch(at, bytes);
        for f in [1, 2, 3, 4, 7, 8] { for minor in [5, 4, 2] { if (f == 3 || f == 4) && (more || at != 24) || minor == 5 { o.given(f, &record, TEXT, (BUDGET, 32, minor, (f == 8) as u32)); } } }
        if more { for f in [7, 8] { for c in [0, 1, 2, u32::MAX] { o.given(f, &record, TEXT, (BUDGET, 0, 5, c)); } } }
        o.patch(at, &m[at..at + bytes.len()]);
    }
    // a chain of lists that is too deep, and one that is just not
    for depth in [8, 9] { for around in [false, true] {
        let mut d = chain(16, depth, around, b"lh");
        let p = d.len();
        d.extend_from_slice(&m[KEY..KEY + 96]);
        put32(&mut d, p + 24, 1);
        o.image(&d);
        for f in [1, 2, 3, 4, 7, 8] { for budget in [7, 8, 9, BUDGET] { if more || f < 3 || budget == BUDGET { o.given(f, &taken(&d, p, KEY_BASE), TEXT, (budget, 32, 5, (f == 8) as u32)); } } }
    } }
}

/// Value lists and lookups from a record in its place, each refusal, and the names that are looked for.
fn in_place_values(o: &mut Out<impl Write>, more: bool) {
    let m = place_image();
    o.image(&m);
    let record = taken(&m, KEY, KEY_BASE);
    for room in [0, 1, 2, 3, 262_144] { o.given(5, &record, b"", (0, room, 0, 0)); }
    for text in [&b""[..], b"A", b"a", b"Bc", b"bc", b"BC", b"B", b"Bcd", b"@", b"none"] { o.given(6, &record, text, PLENTY); }
    for count in [0, 1, 2, 3, 50, 51, 1 << 20, (1 << 20) + 1, u32::MAX] { for offset in [112, 1, 0, 328, 327, 324, 320, 343, 344, 345, 1 << 31, u32::MAX] {
        if !more && count != 2 && offset != 112 && (count as usize + offset as usize) % 3 > 0 { continue; }
        let mut d = m.clone();
        for (at, x) in [(40, count), (44, offset)] { put32(&mut d, KEY + at, x); }
        o.image(&d);
        for f in [5, 6] { o.given(f, &taken(&d, KEY, KEY_BASE), TEXT, PLENTY); }
        if more { for f in [5, 6] { o.given(f, &taken(&d, KEY, 0), TEXT, PLENTY); } }
    } }
    // the records of the values: the first that is unreadable decides
    o.image(&m);
    for (at, bytes) in [(132, &[255u8; 4][..]), (136, &[255; 4]), (132, &[72, 1, 0, 0]), (136, &[73, 1, 0, 0]), (136, &[49, 1, 0, 0]), (136, &[48, 1, 0, 0]), (144, &[0; 4]), (176, &signed(-23)), (176, &signed(169)), (148, b"vl"), (180, b"nk"), (150, &[9, 0]), (182, &[9, 0]), (182, &[0, 0]), (196, &[0]), (164, &[2])] {
        o.patch(at, bytes);
        for text in [&b"a"[..], TEXT, b""] { o.given(6, &record, text, PLENTY); }
        o.given(5, &record, TEXT, PLENTY);
        o.patch(at, &m[at..at + bytes.len()]);
    }
}

/// Names that hold less than a record, or more: what they lack is 0.
fn in_place_names(o: &mut Out<impl Write>, more: bool) {
    // a key at 0 of which the last numbers are 0
    let mut m = vec![0; 120];
    close_key(&mut m, 0, -96, 1, 96);
    list(&mut m, 96, b"li", &[5, 6], 2);
    o.image(&m);
    let record = taken(&m, 0, 0);
    for n in 0..=96 { if more || n < 18 || n % 8 < 2 || n > 88 || (40..53).contains(&n) { o.given(0, &record[..n], b"", PLENTY); if n % 4 == 0 { o.given(2, &record[..n], b"", PLENTY); } } }
    // a base, a position and a sign alone
    for (at, x) in [(0, 1), (4, 1), (7, 128), (8, 96), (11, 1), (12, 0), (12, 2), (15, 128)] {
        let mut given = record.clone();
        given[at] = x;
        for f in FUNCTIONS { o.given(f, &given, b"", PLENTY); }
    }
    for n in [0, 1, 95] { for f in FUNCTIONS { o.given(f, &record[..n], b"", PLENTY); } }
    // a key with a value of no name: the name that is looked for is what is behind the record
    let mut m = place_image();
    value(&mut m, 144, b"", 1, -32, [4, 7, 1]);
    o.image(&m);
    let record = taken(&m, KEY, KEY_BASE);
    for text in [&b""[..], b"Bc", b"\0", b"bC\0"] { for f in [5, 6] { o.given(f, &record, text, PLENTY); } }
}

/// The position and the base that a record which is read has, and whether it is in its place: it is.
fn record_places(o: &mut Out<impl Write>, more: bool) {
    let m = place_image();
    o.image(&m);
    for base in [0, 1, 16, 4096, 1 << 31, u32::MAX] {
        for p in [KEY as u64, 0, 1, KEY as u64 - 1, KEY as u64 + 1, 264, 265, 343, 344, 345, KEY as u64 + (1 << 32), 1 << 32, KEY as u64 | 1 << 63, u64::MAX - 1, u64::MAX] {
            if more || base == 16 || p == KEY as u64 { o.place(p, base); }
        }
    }
    for (at, x) in [(0, 0u8), (0, 97), (3, 127), (3, 0), (4, b'v'), (5, 0), (6, 0), (24, 9), (76, 16), (76, 17), (77, 1), (80, 0), (95, 0)] {
        o.patch(KEY + at, &[x]);
        o.place(KEY as u64, KEY_BASE);
        o.patch(KEY + at, &m[KEY + at..KEY + at + 1]);
    }
    for left in [0, 1, 79, 80, 95, 96] { o.length(KEY + left); for p in [KEY, KEY + 1, KEY + left] { o.place(p as u64, KEY_BASE); } }
    let (m, good, bad, fill) = keyed();
    o.image(&m);
    for &(p, base, _) in good.iter().chain(&bad) { o.place(p, base); }
    for i in 0..300 { if more || i % 30 == 0 { o.place(fill + STRIDE as u64 * i, i as u32); } }
}

/// Random images with lists, values and keys, of at most so many bytes: a record of one of them given with it, with a damaged copy of it and with
/// another, or damaged itself.
fn any_place(o: &mut Out<impl Write>, r: &mut Rng, random: u64, most: usize) {
    for _ in 0..random {
        let base = r.pick(&[0usize, 2, 16, 32, most / 4]);
        let (mut m, places) = lists(r, base, most);
        let lists_end = m.len();
        let count = r.range(0, 4);
        let (values, list_at, names) = valued(r, 0, count);
        // the values' offsets count from where they are put, and their list's from the base
        let shift = m.len().max(base) - base;
        m.resize(base + shift, 0);
        m.extend_from_slice(&values);
        for i in 0..names.len() { let at = base + shift + list_at as usize + 4 + 4 * i; if at + 4 <= m.len() { let x = get32(&m, at).wrapping_add(shift as u32); put32(&mut m, at, x); } }
        let mut keys = vec![];
        for _ in 0..r.range(1, 3) {
            let (len, spare) = (r.range(0, 12), r.range(0, 12));
            let p = m.len() + r.range(0, 8);
            let size = 80 + len + spare;
            m.resize(p + size, 0);
            let (name, flags, free) = (r.bytes(len), r.next() as u16, r.chance(3));
            key(r, &mut m, p, &name, flags, if free { size as i32 } else { -(size as i32) });
            let list = if places.is_empty() || r.chance(9) { r.range(0, lists_end) as u32 } else { (r.pick(&places) - base) as u32 };
            for (at, x) in [(24, r.pick(&[0, 1, 1, 2, 7, (1 << 20) + 1])), (32, list), (40, if r.chance(6) { r.below(9) as u32 } else { names.len() as u32 }), (44, if r.chance(8) { r.word() } else { shift as u32 + list_at })] { put32(&mut m, p + at, x); }
            keys.push(p);
        }
        let n = m.len();
        o.image(&m);
        for turn in 0..8 {
            let p = r.pick(&keys);
            let mut record = taken(&m, p, base as u32);
            // half of the turns with a damaged image, some with a damaged record, some with another base or place
            let at = match r.below(4) { 0 => r.range(0, n - 1), 1 => (p + 80 + r.range(0, 24)).min(n - 1), _ => p + r.range(0, 79) };
            let damaged = turn % 2 == 1;
            if damaged { let x = if r.chance(3) { r.next() as u8 } else { m[at] ^ (1 << r.below(8)) }; o.patch(at, &[x]); }
            if r.chance(5) { let at = r.range(0, 95); record = flipped(&record, at, 1 << r.below(8)); }
            if r.chance(8) { record = at_place(&record, if r.chance(2) { r.pick(&keys) as u64 } else { r.next() >> r.below(64) }); }
            if r.chance(8) { record = with_base(&record, r.word()); }
            if r.chance(30) { o.length(r.range(0, n)); }
            for _ in 0..3 {
                let text = if names.is_empty() || r.chance(3) { r.bytes(turn % 3) } else { names[r.below(names.len() as u64) as usize].clone() };
                let budget = match r.below(5) { 0 => r.below(6) as u32, 1 => BUDGET + r.below(2) as u32, _ => BUDGET };
                let beside = (budget, if r.chance(3) { r.below(9) as u32 } else { ENOUGH }, r.pick(&MINORS), r.word());
                o.given(r.below(9) as u32, &record, &text, beside);
            }
            if turn % 4 == 0 { let q = if r.chance(3) { r.range(0, n + 2) } else { p }; o.place(q as u64 + if r.chance(9) { 1 << 32 } else { 0 }, r.word()); }
            o.length(n);
            if damaged { o.patch(at, &m[at..at + 1]); }
        }
    }
}

/// Hives: the record of each key given with the hive it is of, with so many damaged copies of it, and with the other hives.
fn hive_place(o: &mut Out<impl Write>, r: &mut Rng, files: &[String], copies: usize, more: bool) {
    let hives: Vec<Vec<u8>> = files.iter().map(|f| { let m = std::fs::read(f).expect(f); m[..m.len().min(IMAGE_MOST)].to_vec() }).collect();
    for m in &hives {
        let keys = hive_keys(m);
        let some: Vec<u64> = if more { keys.clone() } else { keys.iter().copied().step_by(1 + keys.len() / 4).collect() };
        for copy in 0..=copies {
            o.image(m);
            let mut about = r.pick(&some);
            if copy > 0 {
                for _ in 0..r.range(1, 3) {
                    about = r.pick(&some);
                    let p = about as usize;
                    let at = match r.below(5) { 0 => p + r.range(0, 5), 1 => r.range(4096, m.len() - 1), 2 => (p + 80 + r.range(0, 20)).min(m.len() - 1), _ => p + r.range(6, 79) };
                    o.patch(at, &[m[at] ^ (1 << r.below(8))]);
                }
                if r.chance(6) { let n = r.range(4096, m.len()); o.length(n); }
            }
            for &p in if copy == 0 { &some[..] } else { std::slice::from_ref(&about) } {
                let record = taken(m, p as usize, 4096);
                for f in FUNCTIONS { o.given(f, &record, b"", (1024, ENOUGH, r.pick(&[3, 5]), r.below(2) as u32)); }
                o.place(p, 4096);
            }
        }
        // a record of this hive, and the others
        for other in &hives {
            o.image(other);
            for &p in some.iter().take(if more { 20 } else { 2 }) {
                let record = taken(m, p as usize, 4096);
                for f in FUNCTIONS { if more || f % 4 == 0 { o.given(f, &record, b"", (1024, ENOUGH, 5, 1)); } }
            }
        }
    }
}

// ---- listings of a key's subkeys

/// The greatest listing that a case can hold.
const NAME_MOST: usize = 65_536;

/// A house record: the length of what follows, kind, content.
fn house(kind: u16, content: &[u8]) -> Vec<u8> { [&(2 + content.len() as u32).to_le_bytes()[..], &kind.to_le_bytes(), content].concat() }
/// The records of a listing: an opening, one for each offset, a close with their number.
fn house_records(base: u32, position: u64, offsets: &[u32]) -> Vec<Vec<u8>> {
    let mut records = vec![house(1, &[&base.to_le_bytes()[..], &position.to_le_bytes()].concat())];
    records.extend(offsets.iter().map(|x| house(2, &x.to_le_bytes())));
    records.push(house(3, &(offsets.len() as u32).to_le_bytes()));
    records
}
fn listing(base: u32, position: u64, offsets: &[u32]) -> Vec<u8> { house_records(base, position, offsets).concat() }
fn listing_size(offsets: &[u32]) -> u32 { 28 + 10 * offsets.len() as u32 }

/// The offsets that the lists of an image give from one on, the base added, without those that pass 32 bits: for listings that are right, or nearly
/// so. Nothing is judged by it. It stops at some lists and at the most that a listing of a case holds.
fn offsets_in(m: &[u8], base: usize, list: usize, levels: usize, lists: &mut usize, into: &mut Vec<u32>) {
    let p = list + base;
    if levels == 0 || *lists == 400 || p + 8 > m.len() { return; }
    *lists += 1;
    let kind = &m[p + 4..p + 6];
    for i in 0..get16(m, p + 6) as usize {
        let at = p + 8 + entry_of(kind) * i;
        if at + 4 > m.len() || into.len() == 6550 { return; }
        let x = get32(m, at);
        if kind == b"ri" { offsets_in(m, base, x as usize, levels - 1, lists, into); } else { into.extend(x.checked_add(base as u32)); }
    }
}
/// The same of the key record at a position.
fn offsets_of(m: &[u8], p: usize, base: u32) -> Vec<u32> {
    let mut into = vec![];
    if get32(m, p + 24) > 0 { offsets_in(m, base as usize, get32(m, p + 32) as usize, 8, &mut 0, &mut into); }
    into
}

/// Wrong in their form, all but a few: the records of a listing left out, doubled, in another order, with others between them, with other closing
/// numbers, kinds, lengths and contents.
fn wrong_forms(records: &[Vec<u8>]) -> Vec<Vec<u8>> {
    let n = records.len();
    let count = n as u32 - 2;
    let with = |i: usize, other: Vec<u8>| { let mut all = records.to_vec(); all[i] = other; all.concat() };
    let between = |i: usize, other: Vec<u8>| { let mut all = records.to_vec(); all.insert(i, other); all.concat() };
    let mut all = vec![];
    for i in 0..n {
        all.push(with(i, vec![]));
        for j in i + 1..n { let mut other = records.to_vec(); other.swap(i, j); all.push(other.concat()); }
    }
    for i in 0..=n {
        for other in [records[0].clone(), records[n - 1].clone(), house(3, &(i as u32).wrapping_sub(1).to_le_bytes()), house(2, &[9; 4]), house(0, &[]), house(2, &[]), house(3, &[]), house(4, &[0; 4]), vec![0; 4], vec![0], vec![0; 10]] { all.push(between(i, other)); }
    }
    for x in [count + 1, count.wrapping_sub(1), 0, 1, count << 8, count << 16, count << 24, count | 1 << 8, count | 1 << 16, count | 1 << 24, count | 1 << 31, u32::MAX, 10 * count, count + 2] { all.push(with(n - 1, house(3, &x.to_le_bytes()))); }
    for i in 0..n {
        let (kind, content) = (get16(&records[i], 4), &records[i][6..]);
        for other in [0, 1, 2, 3, 4, 255, kind + 256, kind << 8, kind | 1 << 15, u16::MAX] { if other != kind { all.push(with(i, [&records[i][..4], &other.to_le_bytes(), content].concat())); } }
        let length = get32(&records[i], 0);
        for other in [0, 1, 2, 4, 6, 10, 14, 18, length - 1, length + 1, length + 10, length << 8, length | 1 << 8, length | 1 << 16, length | 1 << 24, length | 1 << 31, u32::MAX, u32::MAX - 3] { if other != length { all.push(with(i, [&other.to_le_bytes(), &records[i][4..]].concat())); } }
        // contents that are shorter and longer, counted rightly; as many bytes as before, and the length counts less or more
        let end = content.len();
        for other in [vec![], content[..end - 1].to_vec(), content[..2].to_vec(), [content, &[0][..]].concat(), [content, &[0; 4][..]].concat(), content.repeat(2)] { all.push(with(i, house(kind, &other))); }
        for other in [&content[..end - 1], &content[..end - 4]] { all.push(with(i, [&records[i][..6], other].concat())); }
        all.push(with(i, [&records[i][..], &[0]].concat()));
    }
    all
}

/// Right in their form, all but a few, and not the list: another opening, other offsets, the same in another order.
fn other_lists(base: u32, position: u64, offsets: &[u32]) -> Vec<Vec<u8>> {
    let mut all = vec![];
    for x in [base.wrapping_add(1), base.wrapping_sub(1), base ^ 1 << 8, base ^ 1 << 16, base ^ 1 << 24, base ^ 1 << 31, 0, u32::MAX, position as u32, base.swap_bytes()] { all.push(listing(x, position, offsets)); }
    for bit in [0, 1, 7, 8, 15, 16, 24, 31, 32, 33, 39, 40, 48, 56, 63] { all.push(listing(base, position ^ 1 << bit, offsets)); }
    for x in [position + 1, position - 1, 0, base as u64, position << 32, position | position << 32, position | 0xffff_ffff_0000_0000, u64::MAX, position.wrapping_sub(base as u64), position.swap_bytes()] { all.push(listing(base, x, offsets)); }
    let n = offsets.len();
    let mut other = |x: &[u32]| if x != offsets { all.push(listing(base, position, x)) };
    for i in 0..n {
        for x in [offsets[i] ^ 1, offsets[i] ^ 1 << 8, offsets[i] ^ 1 << 16, offsets[i] ^ 1 << 24, offsets[i] ^ 1 << 31, offsets[i].wrapping_sub(base), 0, u32::MAX] { let mut v = offsets.to_vec(); v[i] = x; other(&v); }
        let mut v = offsets.to_vec();
        v.remove(i);
        other(&v);
        let mut v = offsets.to_vec();
        v.insert(i, offsets[i]);
        other(&v);
        for j in i + 1..n { let mut v = offsets.to_vec(); v.swap(i, j); other(&v); v[j] = v[i]; other(&v); }
    }
    for by in 1..n { let mut v = offsets.to_vec(); v.rotate_left(by); other(&v); }
    other(&offsets.iter().rev().copied().collect::<Vec<_>>());
    other(&offsets.iter().map(|x| x.wrapping_sub(base)).collect::<Vec<_>>());
    for x in [0, base, u32::MAX] { other(&[offsets, &[x]].concat()); other(&[&[x], offsets].concat()); }
    other(&[offsets, offsets].concat());
    other(&[]);
    all
}

/// A key with a leaf list of some offsets before it, for a base; gives the image and the key's position.
fn with_list(kind: &[u8; 2], offsets: &[u32], base: u32) -> (Vec<u8>, u32) {
    let p = base as usize + (8 + entry_of(kind) * offsets.len()).next_multiple_of(8);
    let mut m = vec![0; p + 88 + 8];
    leaf_list(&mut m, base as usize, kind, offsets, base);
    made_up(&mut m, p, 1, 0);
    (m, p as u32)
}

/// Three offsets whose every byte is another, with the base added; and such an image.
const THREE: [u32; 3] = [0x04030214, 0x08070616, 0x0c0b0a18];
fn three_listed() -> (Vec<u8>, u32) { with_list(b"lh", &THREE.map(|x| x - KEY_BASE), KEY_BASE) }

/// Listings checked and written: each rule on both sides. `more`: what is too much of the same to be stored.
fn listings(o: &mut Out<impl Write>, more: bool) {
    listing_bytes(o, more);
    listing_forms(o, more);
    listing_refusals(o, more);
    listing_moved(o, more);
    listing_unread(o, more);
    listing_none(o, more);
    listing_drops(o, more);
    listing_rooms(o, more);
    listing_levels(o, more);
    listing_many(o, more);
}

/// A listing of three offsets: each of its bytes wrong in turn, cut at each length, with further bytes; before and behind what the walk refuses.
fn listing_bytes(o: &mut Out<impl Write>, more: bool) {
    let (m, p) = three_listed();
    let right = listing(KEY_BASE, p as u64, &THREE);
    o.image(&m);
    for budget in [BUDGET, 1, 2, 0, BUDGET + 1, u32::MAX] { o.check(p, 0, KEY_BASE, budget, &right); }
    for at in 0..right.len() {
        let values: Vec<u8> = if more { (0..=255).collect() } else { vec![right[at].wrapping_add(1), right[at] ^ 0x80, 0, 255] };
        for x in values {
            let mut wrong = right.clone();
            wrong[at] = x;
            if x != right[at] { o.check(p, 0, KEY_BASE, BUDGET, &wrong); }
            if more && at % 4 == x as usize % 4 || x == right[at].wrapping_add(1) && at % 5 == 0 { for budget in [0, BUDGET + 1] { o.check(p, 0, KEY_BASE, budget, &wrong); } }
        }
    }
    for n in 0..right.len() { for budget in [BUDGET, 0, BUDGET + 1] { if more || budget == BUDGET || n % 10 == 8 { o.check(p, 0, KEY_BASE, budget, &right[..n]); } } }
    for n in 1..=if more { 40 } else { 12 } { for x in [0, 3, 255] { if more || x == 0 || n % 5 == 0 { o.check(p, 0, KEY_BASE, if n % 4 == 3 { 0 } else { BUDGET }, &[&right[..], &vec![x; n]].concat()); } } }
    let records = house_records(KEY_BASE, p as u64, &THREE);
    for behind in records.iter().chain(&[right.clone(), records[3..].concat(), records[4][..9].to_vec()]) { o.check(p, 0, KEY_BASE, BUDGET, &[&right[..], behind].concat()); }
}

/// Every wrong form and every other list of three offsets, of two and of none, and of numbers that are large.
fn listing_forms(o: &mut Out<impl Write>, more: bool) {
    let (m, p) = three_listed();
    o.image(&m);
    for (i, wrong) in wrong_forms(&house_records(KEY_BASE, p as u64, &THREE)).iter().chain(&other_lists(KEY_BASE, p as u64, &THREE)).enumerate() {
        o.check(p, 0, KEY_BASE, BUDGET, wrong);
        for budget in [0, BUDGET + 1] { if more || i % 40 == budget as usize % 40 { o.check(p, 0, KEY_BASE, budget, wrong); } }
    }
    // the list has other offsets, and the listing is as it was
    let right = listing(KEY_BASE, p as u64, &THREE);
    for i in 0..3 { for (at, x) in [(0, 1u8), (1, 2), (3, 128), (4, 255)] {
        let at = 16 + 8 + 8 * i + at;
        o.patch(at, &[m[at] ^ x]);
        o.check(p, 0, KEY_BASE, BUDGET, &right);
        o.patch(at, &m[at..at + 1]);
    } }
    for bytes in [&[2u8, 0][..], &[1, 0], &[0, 0], &[4, 0]] { o.patch(22, bytes); o.check(p, 0, KEY_BASE, BUDGET, &right); }
    for (kind, offsets, base) in [(b"li", &[][..], 8), (b"lf", &[77], 0), (b"li", &[5, 5], 24), (b"lh", &[0, u32::MAX - 40], 40), (b"li", &[1, 2, 3, 4], 66_051)] {
        let (m, p) = with_list(kind, offsets, base);
        let kept: Vec<u32> = offsets.iter().map(|x| x + base).collect();
        o.image(&m);
        o.check(p, 0, base, 1, &listing(base, p as u64, &kept));
        for (i, wrong) in wrong_forms(&house_records(base, p as u64, &kept)).iter().enumerate() { if more || i % 24 == kept.len() { o.check(p, 0, base, BUDGET, wrong); } }
        for (i, wrong) in other_lists(base, p as u64, &kept).iter().enumerate() { if more || i % 9 == 0 { o.check(p, 0, base, BUDGET, wrong); } }
        // read with another base there is another list, or none
        for other in [base + 8, base + 1, base ^ 8] { for opening in [base, other] { o.check(p, 0, other, BUDGET, &listing(opening, p as u64, &kept)); } o.written_listing(p, 0, other, BUDGET, 100); }
    }
}

/// Each refusal of the walk, behind a wrong form and before another list; and the writer's, with rooms.
fn listing_refusals(o: &mut Out<impl Write>, more: bool) {
    let (m, good, bad, _) = keyed();
    o.image(&m);
    for (i, &(at, base, own)) in good.iter().chain(&bad).enumerate() {
        let (p, kept) = (at as u32, offsets_of(&m, at as usize, base));
        let right = listing(base, at, &kept);
        let mut closed = right.clone();
        let end = closed.len();
        closed[end - 4] ^= 1;
        let mut budgets = vec![own];
        for x in [BUDGET, 0, 1, 3, BUDGET + 1, u32::MAX] { if x != own && (more || x == 0 || x == BUDGET + 1 || i % 8 == 0) { budgets.push(x); } }
        for budget in budgets {
            for given in [&right, &closed, &listing(base ^ 1, at, &kept), &listing(base, at ^ 1 << 40, &kept), &listing(base, at, &[&kept[..], &[7]].concat()), &vec![]] {
                if more || given == &right || budget == own && kept.len() < 20 || given == &closed { o.check(p, 0, base, budget, given); }
            }
            let size = listing_size(&kept);
            for room in [0, size - 1, size, size + 9] { if more || budget == own { o.written_listing(p, 0, base, budget, room); } }
            o.listing_back(p, 0, base, budget, size);
            if more { for room in [1, 18, 28, size - 1, size + 1, 4000] { o.listing_back(p, 0, base, budget, room); } }
        }
    }
}

/// Records whose position is another than where they were read: 21 behind a wrong form, before all others; and one that is in two places.
fn listing_moved(o: &mut Out<impl Write>, more: bool) {
    let (m, good, bad, _) = keyed();
    o.image(&m);
    for &(at, base, own) in good[..if more { 3 } else { 2 }].iter().chain(&bad[..if more { 9 } else { 2 }]) {
        let (p, kept) = (at as u32, offsets_of(&m, at as usize, base));
        for by in [1, 8, STRIDE as u32, 2 * STRIDE as u32, 1 << 31, u32::MAX] {
            if !more && by != 1 && by != u32::MAX && at != good[0].0 { continue; }
            for budget in [own, BUDGET + 1, 0] {
                if !more && budget != own && by != 1 { continue; }
                let place = at + by as u64;
                for given in [&listing(base, at, &kept), &listing(base, place, &kept), &listing(base, place, &[9]), &listing(base, place, &kept)[1..].to_vec(), &vec![]] { o.check(p, by, base, budget, given); }
                for room in [0, 1000] { o.written_listing(p, by, base, budget, room); o.listing_back(p, by, base, budget, room); }
            }
        }
    }
    // two keys that are alike in their numbers: the one that is read, in the other's place
    let (mut m, p) = three_listed();
    let n = m.len();
    m.resize(n + 88, 0);
    m.copy_within(p as usize..p as usize + 88, n);
    o.image(&m);
    let by = n as u32 - p;
    for place in [p as u64, n as u64, n as u64 + 1] { for by in [0, by, by + 1] { o.check(p, by, KEY_BASE, BUDGET, &listing(KEY_BASE, place, &THREE)); } }
    for by in [0, by, by - 1] { o.written_listing(p, by, KEY_BASE, BUDGET, 64); o.listing_back(p, by, KEY_BASE, BUDGET, 58); }
}

/// Where no key record is: its refusals, whatever the listing is.
fn listing_unread(o: &mut Out<impl Write>, more: bool) {
    let (m, p) = three_listed();
    let right = listing(KEY_BASE, p as u64, &THREE);
    let n = m.len() as u32;
    o.image(&m);
    let all = |o: &mut Out<_>, p: u32| {
        for given in [&right[..], &right[1..]] { for budget in [BUDGET, BUDGET + 1] { if more || budget == BUDGET { o.check(p, 0, KEY_BASE, budget, given); } } }
        o.written_listing(p, 0, KEY_BASE, BUDGET, 58);
        o.listing_back(p, 1, KEY_BASE, BUDGET, 58);
    };
    for q in [0, 1, p - 1, p + 1, n - 80, n - 79, n, n + 1, u32::MAX] { all(o, q); }
    for (at, x) in [(0, 0u8), (0, 200), (3, 127), (4, b'v'), (76, 9), (77, 1)] {
        let at = p as usize + at;
        o.patch(at, &[x]);
        all(o, p);
        o.patch(at, &m[at..at + 1]);
    }
}

/// No offset at all: a count of 0, lists of none, lists whose every entry is dropped.
fn listing_none(o: &mut Out<impl Write>, more: bool) {
    let (mut m, p) = with_list(b"lh", &[u32::MAX - 15, u32::MAX, u32::MAX - 7], KEY_BASE);
    let empty = |o: &mut Out<_>, m: &[u8]| {
        o.image(m);
        let records = house_records(KEY_BASE, p as u64, &[]);
        o.check(p, 0, KEY_BASE, BUDGET, &records.concat());
        for x in [1, 2, 3, 256, u32::MAX] { o.check(p, 0, KEY_BASE, BUDGET, &[&records[0][..], &house(3, &x.to_le_bytes())].concat()); }
        for x in [0, KEY_BASE - 1, KEY_BASE, u32::MAX] { o.check(p, 0, KEY_BASE, BUDGET, &listing(KEY_BASE, p as u64, &[x])); }
        for (i, wrong) in wrong_forms(&records).iter().chain(&other_lists(KEY_BASE, p as u64, &[])).enumerate() { if more || i % 40 == 5 { o.check(p, 0, KEY_BASE, BUDGET, wrong); } }
        for budget in [0, 1, BUDGET + 1] { o.check(p, 0, KEY_BASE, budget, &records.concat()); o.listing_back(p, 0, KEY_BASE, budget, 28); }
        for room in 0..32 { if more || room > 26 || room % 9 == 0 { o.written_listing(p, 0, KEY_BASE, BUDGET, room); } }
        for room in [27, 28, 29] { o.listing_back(p, 0, KEY_BASE, BUDGET, room); }
    };
    empty(o, &m);
    put16(&mut m, 22, 0);
    empty(o, &m);
    list(&mut m, 16, b"ri", &[], 0);
    empty(o, &m);
    // no list is looked for
    put32(&mut m, p as usize + 24, 0);
    for list in [0, 1 << 20, u32::MAX] { put32(&mut m, p as usize + 32, list); if more || list != 1 << 20 { empty(o, &m); } }
}

/// Entries on both sides of the drop, among others and alone; and bases so large that the list itself is past the image.
fn listing_drops(o: &mut Out<impl Write>, more: bool) {
    let over = u32::MAX - KEY_BASE;
    let rows: [&[u32]; 8] = [&[over], &[over + 1], &[over, over + 1], &[over + 1, over], &[1, over + 1, 2, u32::MAX, 3], &[over + 1, 1, over + 2, over], &[5, 6, over + 1], &[over + 1, 5, 6]];
    for kind in [b"li", b"lf", b"lh"] { for (i, row) in rows.iter().enumerate() {
        if !more && i % 3 != kind[1] as usize % 3 && i != 4 { continue; }
        let (m, p) = with_list(kind, row, KEY_BASE);
        let kept: Vec<u32> = row.iter().filter_map(|x| x.checked_add(KEY_BASE)).collect();
        // the dropped ones too, as the sums would be if they were cut
        let cut: Vec<u32> = row.iter().map(|x| x.wrapping_add(KEY_BASE)).collect();
        o.image(&m);
        for budget in [BUDGET, 1, 0] { if more || budget < BUDGET { o.check(p, 0, KEY_BASE, budget, &listing(KEY_BASE, p as u64, &kept)); } }
        for other in [&cut[..], row, &cut[..1], &kept[..kept.len().max(1) - 1]] { if other != kept { o.check(p, 0, KEY_BASE, BUDGET, &listing(KEY_BASE, p as u64, other)); } }
        let size = listing_size(&kept);
        for room in [size - 1, size, size + 10, listing_size(row)] { o.written_listing(p, 0, KEY_BASE, BUDGET, room); o.listing_back(p, 0, KEY_BASE, BUDGET, room); }
        // the greatest bases: the sum of the list's place has more than 32 bits
        for base in [u32::MAX, u32::MAX - 15, u32::MAX - p, 1 << 31] { if more || i == 4 && kind == b"li" { o.check(p, 0, base, BUDGET, &listing(base, p as u64, &kept)); o.listing_back(p, 0, base, BUDGET, size); } }
    } }
}

/// Rooms on both sides of what a listing needs, for 1, 2, 3 and 6 offsets, the last by an `ri` list that names a list twice.
fn listing_rooms(o: &mut Out<impl Write>, more: bool) {
    let six = [17, 18, 20, 17, 18, 20];
    for n in [1, 2, 3, 6] {
        let (m, p, base, kept) = if n == 6 { (place_image(), KEY as u32, KEY_BASE, six.to_vec()) } else { let (m, p) = with_list(b"li", &THREE[..n], 8); (m, p, 8, THREE[..n].iter().map(|x| x + 8).collect()) };
        let size = listing_size(&kept);
        o.image(&m);
        for room in 0..size + 12 { if more || [0, 1, 9, 17, 18, 19, 27, 28, 29, size - 10, size - 9, size - 1, size, size + 1, size + 9, size + 10].contains(&room) { o.written_listing(p, 0, base, BUDGET, room); if more || room + 2 > size { o.listing_back(p, 0, base, BUDGET, room); } } }
        for budget in [0, 1, 2, 3, 4, BUDGET + 1] { for room in [size - 1, size] { o.written_listing(p, 0, base, budget, room); o.listing_back(p, 0, base, budget, room); } o.check(p, 0, base, budget, &listing(base, p as u64, &kept)); }
        for room in [4096, CELL_MOST] { if more || n == 3 { o.written_listing(p, 0, base, BUDGET, room); o.listing_back(p, 0, base, BUDGET, room); } }
    }
    // the repeats: once, or in the order of the numbers, they are another list
    let p = KEY as u64;
    for other in [&six[..], &six[..3], &six[..5], &[17, 17, 18, 18, 20, 20], &[17, 18, 20, 17, 18, 18], &[17, 18, 20, 20, 17, 18], &[17, 18, 4, 20, 17, 18, 4, 20]] { o.check(KEY as u32, 0, KEY_BASE, BUDGET, &listing(KEY_BASE, p, other)); }
    for (i, wrong) in other_lists(KEY_BASE, p, &six).iter().chain(&wrong_forms(&house_records(KEY_BASE, p, &six))).enumerate() { if more || i % 12 == 1 { o.check(KEY as u32, 0, KEY_BASE, BUDGET, wrong); } }
}

/// Chains of lists of eight levels and of nine, and such as lead around; an unreadable list behind some that are read.
fn listing_levels(o: &mut Out<impl Write>, more: bool) {
    for depth in [1, 2, 8, 9] { for around in [false, true] {
        let mut m = chain(16, depth, around, b"li");
        let p = m.len();
        m.resize(p + 88, 0);
        made_up(&mut m, p, 1, 0);
        o.image(&m);
        let right = listing(KEY_BASE, p as u64, &[77 + KEY_BASE]);
        for budget in [7, 8, 9, BUDGET, BUDGET + 1] {
            if !more && budget != BUDGET && (depth < 8 || around && budget != 8) { continue; }
            for given in [&right, &right[..37].to_vec(), &listing(KEY_BASE, p as u64, &[77]), &listing(KEY_BASE, p as u64, &[])] { o.check(p as u32, 0, KEY_BASE, budget, given); }
            for room in [37, 38] { o.written_listing(p as u32, 0, KEY_BASE, budget, room); o.listing_back(p as u32, 0, KEY_BASE, budget, room); }
        }
    } }
    let m = place_image();
    o.image(&m);
    let right = listing(KEY_BASE, KEY as u64, &[17, 18, 20, 17, 18, 20]);
    for (at, bytes) in [(20, &b"lh"[..]), (20, b"li"), (20, b"lx"), (22, &[1, 0]), (22, &[3, 0]), (22, &[255, 255]), (24, &[200, 0, 0, 0]), (28, &[200, 0, 0, 0]), (28, &[0; 4]), (28, &[255; 4]), (28, &[72, 1, 0, 0]), (28, &[73, 1, 0, 0]), (28, &[64, 1, 0, 0]), (28, &[65, 1, 0, 0]), (68, b"lf"), (68, b"li"), (68, b"ri"), (68, b"db"), (70, &[255, 255])] {
        o.patch(at, bytes);
        for given in [&right[..], &right[..87], &right[..78]] { for budget in [BUDGET, 1] { if more || budget == BUDGET { o.check(KEY as u32, 0, KEY_BASE, budget, given); } } }
        for room in [0, 88] { o.written_listing(KEY as u32, 0, KEY_BASE, BUDGET, room); }
        o.listing_back(KEY as u32, 0, KEY_BASE, BUDGET, 200);
        o.patch(at, &m[at..at + bytes.len()]);
    }
}

/// Long listings: the longest that a case holds, and the longest for which there is room, by an `ri` list that names one list again and again.
fn listing_many(o: &mut Out<impl Write>, more: bool) {
    let repeated = |each: usize, times: usize| {
        let row: Vec<u32> = (0..each as u32).map(|i| 7 * i + 3).collect();
        let mut m = vec![0; 16 + 8 + 4 * times + 8 + 4 * each];
        let second = 8 + 4 * times;
        list(&mut m, 16, b"ri", &vec![second as u32; times], times as u16);
        list(&mut m, 16 + second, b"li", &row, each as u16);
        let p = m.len();
        m.resize(p + 88, 0);
        made_up(&mut m, p, 1, 0);
        let kept: Vec<u32> = row.iter().map(|x| x + KEY_BASE).collect();
        (m, p as u32, kept.repeat(times))
    };
    for (each, times) in [(131, 50), (100, 10), (7, 3), (655, 10), (6549, 1), (6551, 1), (65, 100)] {
        if !more && each > 131 || !more && times == 100 { continue; }
        let (m, p, kept) = repeated(each, times);
        let n = kept.len().min(6550);
        o.image(&m);
        let right = listing(KEY_BASE, p as u64, &kept[..n]);
        for budget in [BUDGET, times as u32, times as u32 + 1] { o.check(p, 0, KEY_BASE, budget, &right); }
        for i in [0, 1, n / 2, n - 2, n - 1] {
            if !more && n > 1000 && i + 1 < n { continue; }
            let mut v = kept[..n].to_vec();
            v[i] ^= 1;
            o.check(p, 0, KEY_BASE, BUDGET, &listing(KEY_BASE, p as u64, &v));
            if more || n < 1000 { v.remove(i); o.check(p, 0, KEY_BASE, BUDGET, &listing(KEY_BASE, p as u64, &v)); }
        }
        if more || n <= 1000 { o.check(p, 0, KEY_BASE, BUDGET, &right[..right.len() - 10]); o.check(p, 0, KEY_BASE, BUDGET, &[&right[..], &[0]].concat()[..(right.len() + 1).min(NAME_MOST)]); }
        let size = listing_size(&kept);
        for room in [size - 1, size, size + 1] { o.written_listing(p, 0, KEY_BASE, BUDGET, room); o.listing_back(p, 0, KEY_BASE, BUDGET, room); }
    }
    // 28 and 52,426 times 10 bytes are the greatest room; one offset more is too much, and so are many more
    for (each, times) in [(2383, 22), (509, 103), (26_213, 2), (52_426, 1), (65_535, 1), (65_535, 16)] {
        if !more && each > 2383 { continue; }
        let (m, p, _) = repeated(each, times);
        o.image(&m);
        for room in [CELL_MOST - 1, CELL_MOST] { o.written_listing(p, 0, KEY_BASE, BUDGET, room); o.listing_back(p, 0, KEY_BASE, BUDGET, room); }
        o.check(p, 0, KEY_BASE, BUDGET, &listing(KEY_BASE, p as u64, &[]));
    }
}

/// A listing with something changed: a byte, a record, the closing number, an offset, the opening, its end.
fn any_change(r: &mut Rng, base: u32, position: u64, kept: &[u32]) -> Vec<u8> {
    let mut records = house_records(base, position, kept);
    let n = records.len();
    let (i, j) = (r.range(0, n - 1), r.range(0, n - 1));
    match r.below(10) {
        0 => { records.swap(i, j); }
        1 => { records.remove(i); }
        2 => { let x = records[j].clone(); records.insert(i, x); }
        3 => { let x = r.word(); records[n - 1] = house(3, &(if r.chance(2) { x } else { (n as u32 - 2).wrapping_add(r.below(3) as u32).wrapping_sub(1) }).to_le_bytes()); }
        4 => { let (b, p) = (if r.chance(2) { r.word() } else { base }, if r.chance(2) { position ^ 1 << r.below(64) } else { position }); return listing(b, p, kept); }
        5 => { let mut v = kept.to_vec(); if !v.is_empty() { let at = r.range(0, v.len() - 1); v[at] ^= 1 << r.below(32); } return listing(base, position, &v); }
        6 => { let mut v = kept.to_vec(); if !v.is_empty() { let at = r.range(0, v.len() - 1); if r.chance(2) { v.remove(at); } else { v.insert(at, r.word()); } } return listing(base, position, &v); }
        7 => { let mut all = records.concat(); let cut = r.range(0, all.len()); all.truncate(cut); return all; }
        8 => { let mut all = records.concat(); let more = r.range(1, 12); let rest = r.bytes(more); all.extend(if r.chance(2) { rest } else { records[j].clone() }); return all; }
        _ => { let mut all = records.concat(); for _ in 0..r.range(1, 2) { let at = r.range(0, all.len() - 1); all[at] = if r.chance(3) { r.next() as u8 } else { all[at] ^ (1 << r.below(8)) }; } return all; }
    }
    records.concat()
}

/// Checks and writes around a key record of an image, whose offsets are these.
fn around_key(o: &mut Out<impl Write>, r: &mut Rng, p: u32, base: u32, kept: &[u32], turns: usize) {
    let right = listing(base, p as u64, kept);
    let size = right.len() as u32;
    for turn in 0..turns {
        let budget = match r.below(6) { 0 => r.below(6) as u32, 1 => BUDGET + r.below(2) as u32, _ => BUDGET };
        let by = if r.chance(16) { r.word() } else { 0 };
        let place = p as u64 + if r.chance(2) { by as u64 } else { 0 };
        let given = if r.chance(3) { right.clone() } else { any_change(r, base, place, kept) };
        o.check(p, by, base, budget, &given[..given.len().min(NAME_MOST)]);
        let room = match r.below(6) { 0 => r.below(size as u64) as u32, 1 => size - 1, 2 => size + r.below(20) as u32, 3 => ENOUGH, _ => size };
        if turn % 2 == 0 { o.written_listing(p, by, base, budget, room); } else { o.listing_back(p, by, base, budget, room); }
    }
}

/// Random images with lists and keys, of at most so many bytes: listings of a key that are right, and such with something changed, in the image
/// and in damaged copies of it.
fn any_listing(o: &mut Out<impl Write>, r: &mut Rng, random: u64, most: usize) {
    for _ in 0..random {
        let base = r.pick(&[0usize, 2, 16, 32, most / 4]);
        let (mut m, places) = lists(r, base, most);
        let end = m.len();
        let p = end + r.range(0, 8);
        let size = 80 + r.range(0, 12);
        m.resize(p + size, 0);
        let free = r.chance(3);
        key(r, &mut m, p, b"", 0x20, if free { size as i32 } else { -(size as i32) });
        let list = if places.is_empty() || r.chance(12) { r.range(0, end) as u32 } else { (r.pick(&places) - base) as u32 };
        for (at, x) in [(24, r.pick(&[0, 1, 1, 1, 2, 7, 1, 1, 1, (1 << 20) + 1])), (32, list)] { put32(&mut m, p + at, x); }
        o.image(&m);
        let kept = offsets_of(&m, p, base as u32);
        // where there are very many, few turns
        around_key(o, r, p as u32, base as u32, &kept, if kept.len() > 500 { 1 } else { 6 });
        if kept.len() > 500 { continue; }
        for _ in 0..3 {
            let at = match r.below(4) { 0 => r.range(0, m.len() - 1), 1 => p + r.range(0, 79), _ => (base + list as usize + r.range(0, 40)).min(m.len() - 1) };
            let x = if r.chance(3) { r.next() as u8 } else { m[at] ^ (1 << r.below(8)) };
            o.patch(at, &[x]);
            around_key(o, r, p as u32, base as u32, &kept, 2);
            o.patch(at, &m[at..at + 1]);
        }
    }
}

/// Hives: the listing of each key, right and changed; with so many damaged copies, and with the other hives.
fn hive_listings(o: &mut Out<impl Write>, r: &mut Rng, files: &[String], copies: usize, more: bool) {
    let hives: Vec<Vec<u8>> = files.iter().map(|f| { let m = std::fs::read(f).expect(f); m[..m.len().min(IMAGE_MOST)].to_vec() }).collect();
    for m in &hives {
        let keys = hive_keys(m);
        // the ones with subkeys, and of the others some
        let some: Vec<u64> = keys.iter().enumerate().filter(|(i, &p)| more || get32(m, p as usize + 24) > 0 || i % 8 == 7).map(|(_, &p)| p).collect();
        o.image(m);
        for &p in &some {
            let kept = offsets_of(m, p as usize, 4096);
            let size = listing_size(&kept);
            let right = listing(4096, p, &kept);
            o.check(p as u32, 0, 4096, 1024, &right);
            for room in [size - 1, size] { o.written_listing(p as u32, 0, 4096, 1024, room); }
            o.listing_back(p as u32, 0, 4096, 1024, size + 5);
            // the listing of one key given with another
            o.check(r.pick(&keys) as u32, 0, 4096, 1024, &right);
            if more || !kept.is_empty() { around_key(o, r, p as u32, 4096, &kept, if more { 4 } else { 6 }); }
        }
        for _ in 0..copies {
            let p = r.pick(&some) as usize;
            let kept = offsets_of(m, p, 4096);
            o.image(m);
            for _ in 0..r.range(1, 3) {
                let list = 4096 + get32(m, p + 32) as usize;
                let at = match r.below(4) { 0 => p + r.range(0, 79), 1 => r.range(4096, m.len() - 1), _ => list.min(m.len() - 41) + r.range(0, 40) };
                o.patch(at, &[m[at] ^ (1 << r.below(8))]);
            }
            if r.chance(6) { let n = r.range(4096, m.len()); o.length(n); }
            o.check(p as u32, 0, 4096, 1024, &listing(4096, p as u64, &kept));
            around_key(o, r, p as u32, 4096, &kept, 3);
        }
        for other in &hives {
            o.image(other);
            for &p in some.iter().take(if more { 20 } else { 2 }) { o.check(p as u32, 0, 4096, 1024, &listing(4096, p, &offsets_of(m, p as usize, 4096))); }
        }
    }
}

// ---- value data

/// A part of a chain that is made wrong: where, and the bytes there.
type Fault = (usize, Vec<u8>);

/// An image with a value record at 0 and, behind the base, a `db` cell, its list and three segments, in cells that touch; then 24
/// bytes. No two parts of it hold the same data.
const BASE: u32 = 40;
const DB: usize = 48;
const LIST: usize = 64;
const SEGMENTS: [usize; 3] = [88, 88 + 16352, 88 + 2 * 16352];
const TAIL: usize = 88 + 3 * 16352;
const END: usize = TAIL + 24;
fn offset(at: usize) -> u32 { at as u32 - BASE }
fn signed(x: i32) -> [u8; 4] { x.to_le_bytes() }

fn big(size: u32) -> Vec<u8> {
    let mut m: Vec<u8> = (0..END as u32).map(|i| (i * 7 + i / 251 + i / 16344 * 5) as u8).collect();
    value(&mut m, 0, b"big", 1, -32, [size, offset(DB), 3]);
    db(&mut m, DB, -16, needed(size), offset(LIST));
    put32(&mut m, LIST, (-24i32) as u32);
    for i in 0..5 { put32(&mut m, LIST + 4 + 4 * i, if i < 3 { offset(SEGMENTS[i]) } else { 0 }); }
    for p in SEGMENTS { put32(&mut m, p, (-16352i32) as u32); }
    m
}
fn db(m: &mut [u8], at: usize, size: i32, count: u16, list: u32) {
    put32(m, at, size as u32);
    m[at + 4..at + 6].copy_from_slice(b"db");
    put16(m, at + 6, count);
    put32(m, at + 8, list);
}
fn needed(size: u32) -> u16 { size.div_ceil(SEGMENT) as u16 }
/// The bytes of segment i of three.
fn share(size: u32, i: usize) -> i32 { size.saturating_sub(SEGMENT * i as u32).min(SEGMENT) as i32 }

/// Each rule on both sides. `more`: what is too large to be stored, or too much of the same.
fn data_edges(o: &mut Out<impl Write>, more: bool) {
    // resident
    let m: Vec<u8> = (1..30).collect();
    for n in [0usize, 29] {
        o.image(&m[..n]);
        for size in [0u32, 1, 2, 3, 4, 5, 6, 8, 0xff, 0x100, 0x104, SEGMENT, SEGMENT + 1, 0x10001, 0x1000000, 0x40000000, 0x40000004, 0x7ffffffb, 0x7fffffff] {
            if n > 0 && size > 5 && !more { continue; }
            let rooms = [size, size.saturating_sub(1), 0, size + 1, 9];
            for (field, minor) in [(0x04030201, 3), (0xfcfdfeff, 4), (0, 0), (u32::MAX, u32::MAX)] {
                o.data(1 << 31 | size, field, field / 3, minor, if size > 5 { &rooms[3..] } else if minor == 3 { &rooms } else { &rooms[..2] });
            }
        }
    }
    // no data: no cell is read
    for n in [0usize, 8] {
        o.image(&m[..n]);
        for (off, base) in [(0, 0), (n as u32, 0), (n as u32 + 1, 0), (0, n as u32 + 1), (u32::MAX, u32::MAX)] { for minor in [3, 4] { o.data(0, off, base, minor, &[0, 3]); } }
    }
    // one cell: the bytes left, its size word, both signs; its position
    let p = 5usize;
    for left in if more { (0..20).collect() } else { vec![0usize, 3, 4, 5, 8, 11, 12, 13] } {
        let m: Vec<u8> = (1..).take(p + left).collect();
        o.image(&m);
        let sizes = if more { (1..18).collect() } else { vec![1u32, 4, 7, 8, 9] };
        for &size in &sizes {
            if left < 4 { o.data(size, 2, 3, 5, &[size]); continue; }
            let (s, l) = (size as i32, left as i32);
            let mut words = vec![0, 4, s, s + 3, s + 4, s + 5, l - 1, l, l + 1, i32::MAX, i32::MIN];
            words.sort();
            words.dedup();
            for w in words { for w in [w, w.wrapping_neg()] {
                o.patch(p, &signed(w));
                o.data(size, 2, 3, if size % 2 == 0 { 3 } else { 4 }, &[size]);
                if w == -s - 4 { o.data(size, 2, 3, 5, &[0, size - 1, size + 1, size + 7]); }
            } }
            o.patch(p, &m[p..p + 4]);
        }
        let n = (p + left) as u32;
        o.patch(p, &signed(-(left as i32)));
        for (off, base) in [(n, 0), (0, n), (n - 3, 3), (n - 2, 3), (n + 1, 0), (0, n + 1), (n - 4, 0), (u32::MAX, 6), (6, u32::MAX), (u32::MAX, 0), (0, u32::MAX), (u32::MAX, u32::MAX), (1 << 31, 1 << 31), (5, 0), (0, 5), (1, 4)] {
            o.data(1, off, base, 4, &[1]);
            o.data(SEGMENT + 1, off, base, 4, &[1]);
        }
    }
    // sizes and versions: as one cell and as a `db` cell
    let sizes = [1, SEGMENT - 1, SEGMENT, SEGMENT + 1, 2 * SEGMENT, 2 * SEGMENT + 1, 40000, 3 * SEGMENT, 3 * SEGMENT + 1];
    o.image(&big(40000));
    let whole = (END - SEGMENTS[0]) as i32;
    for size in sizes { for minor in [0, 3, 4, 5, u32::MAX] {
        let rooms = [size, size - 1, size + 3, 0];
        let rooms = if minor == 3 || minor == 4 { &rooms[..] } else { &rooms[..1] };
        o.patch(SEGMENTS[0], &signed(-whole));
        o.data(size, offset(SEGMENTS[0]), BASE, minor, rooms);
        o.patch(SEGMENTS[0], &signed(-16352));
        o.patch(DB + 6, &needed(size).to_le_bytes());
        o.data(size, offset(DB), BASE, minor, rooms);
    } }
    // one large cell: exactly enough, one byte fewer, up to the image's end, past it
    for size in [SEGMENT - 1, SEGMENT, SEGMENT + 1, 40000] {
        let s = size as i32;
        for w in [s + 4, s + 3, s, 0, 4, 12, whole, whole + 1, i32::MAX, i32::MIN] { for w in [w, w.wrapping_neg()] {
            o.patch(SEGMENTS[0], &signed(w));
            o.data(size, offset(SEGMENTS[0]), BASE, 3, if w == s + 4 { &[40000, 0] } else { &[0] });
            if size <= SEGMENT { o.data(size, offset(SEGMENTS[0]), BASE, 4, if w == -s - 4 { &[40000, 0] } else { &[0] }); }
        } }
    }
    // the chain's numbers: for each size, each cell in turn with each size word; each place
    for size in [SEGMENT + 1, 2 * SEGMENT, 2 * SEGMENT + 1, 40000, 3 * SEGMENT] {
        let m = big(size);
        let n = needed(size) as usize;
        o.image(&m);
        let all = [size, size - 1, size + 9, 0, 1];
        o.data(size, offset(DB), BASE, 4, &all);
        o.data_of(0, BASE, 4, &all);
        o.data_of(0, BASE, 3, &all[..1]);
        for (at, least) in [(DB, 12), (LIST, 4 + 4 * n as i32)].into_iter().chain((0..n).map(|i| (SEGMENTS[i], 4 + share(size, i)))) {
            let left = (END - at) as i32;
            for w in [0, 1, 4, least - 4, least - 1, least, least + 1, left - 1, left, left + 1, i32::MAX, i32::MIN] { for w in [w, w.wrapping_neg()] {
                o.patch(at, &signed(w));
                o.data(size, offset(DB), BASE, 4, if w == -least || w == least || w == 1 - least { &all[..1] } else { &all[3..4] });
                if w == 1 - least { o.data_of(0, BASE, 4, &all[..1]); }
            } }
            o.patch(at, &m[at..at + 4]);
        }
        for count in [0u16, 1, n as u16 - 1, n as u16 + 1, n as u16 + 2, n as u16 + 256, 0xff00 | n as u16, 0xffff] { o.patch(DB + 6, &count.to_le_bytes()); o.data(size, offset(DB), BASE, 4, &all[3..4]); if count > n as u16 { o.data(size, offset(DB), BASE, 5, &all[..1]); } }
        o.patch(DB + 6, &m[DB + 6..DB + 8]);
        for sign in [b"dB", b"bd", b"Db", b"d\0", b"lf", b"vk"] { o.patch(DB + 4, sign); o.data(size, offset(DB), BASE, 4, &all[3..4]); }
        o.patch(DB + 4, b"db");
        // the list's and each segment's place: at the end, past it, with too few bytes for a size word, past 32 bits, at others' places
        for at in [DB + 8].into_iter().chain((0..n).map(|i| LIST + 4 + 4 * i)) {
            for x in [END, END + 1, END - 3, END - 4, TAIL, SEGMENTS[0], SEGMENTS[1], SEGMENTS[2], SEGMENTS[1] - 4, LIST, DB, BASE as usize, u32::MAX as usize, (1 << 31) + 8] {
                o.patch(at, &(x as u32).wrapping_sub(BASE).to_le_bytes());
                o.data(size, offset(DB), BASE, 4, &[if x == SEGMENTS[0] || x == SEGMENTS[1] { size } else { 0 }]);
            }
            for x in [u32::MAX, u32::MAX - BASE, u32::MAX - BASE + 1, 0x7fffffff] { o.patch(at, &x.to_le_bytes()); o.data(size, offset(DB), BASE, 4, &[0]); }
            o.patch(at, &m[at..at + 4]);
        }
        for at in [END, END + 1, END - 3, END - 4, END - 11, END - 12, TAIL, DB - 1, DB + 1, BASE as usize] { o.data(size, offset(at), BASE, 4, &[0]); o.data(size, at as u32, 0, 4, &[0]); }
        for (off, base) in [(u32::MAX, 1), (u32::MAX, u32::MAX), (u32::MAX, 1 + DB as u32), (offset(DB), BASE + 1), (offset(DB) + BASE, 0), (0, DB as u32)] { o.data(size, off, base, 4, &[size]); }
    }
    // a `db` cell and a list at the image's end: the bytes left, and the size word
    let m = big(40000);
    o.image(&m);
    for left in [0usize, 1, 3, 4, 5, 6, 8, 11, 12, 13, 16] { for w in [0, 4, 8, 11, 12, 13, 16, 17, 24] { for sign in [b"db", b"dc"] {
        if sign == b"dc" && w != 12 && w != 17 { continue; }
        let mut d = vec![0; 16];
        db(&mut d, 0, if left % 2 == 0 { -w } else { w }, 3, offset(LIST));
        d[4..6].copy_from_slice(sign);
        o.patch(TAIL, &d);
        o.length(TAIL + left);
        o.data(40000, offset(TAIL), BASE, 4, &[if left == 12 && w == 12 { 40000 } else { 0 }]);
        o.data(40000, offset(TAIL), BASE, 3, &[0]);
    } } }
    o.patch(DB + 8, &offset(TAIL).to_le_bytes());
    o.patch(TAIL + 4, &m[LIST + 4..LIST + 16]);
    for left in [0usize, 3, 4, 8, 12, 15, 16, 17, 20] { for w in [0, 4, 12, 15, 16, 17, 20, 21] {
        o.patch(TAIL, &signed(if left % 2 == 0 { -w } else { w }));
        o.length(TAIL + left);
        o.data(40000, offset(DB), BASE, 4, &[if left == 16 && w == 16 { 40000 } else { 0 }]);
    } }
    o.image(&m);
    // the last segment's cell ends where the image ends, and one byte later
    for (size, from) in [(40000u32, SEGMENTS[2]), (2 * SEGMENT, SEGMENTS[1]), (SEGMENT + 1, SEGMENTS[1])] {
        let last = share(size, needed(size) as usize - 1);
        o.patch(DB + 6, &needed(size).to_le_bytes());
        for cut in [0, 1, 2] { for w in [last + 4, last + 3] {
            o.patch(from, &signed(-w));
            o.length(from + 4 + last as usize - cut);
            o.data(size, offset(DB), BASE, 4, &[size, 0]);
        } }
        o.image(&m);
    }
    // sizes that need a number of segments that 16 bits do not have
    for size in [65535 * SEGMENT - 1, 65535 * SEGMENT, 65535 * SEGMENT + 1, 65536 * SEGMENT, 65536 * SEGMENT + 1, 0x7fffffff, 0x40000000] {
        // with a list that is outside, so that a number taken as right is seen
        for list in [LIST, END + 1] { for count in [0u16, 1, 65534, 65535, needed(size)] {
            o.patch(DB + 6, &count.to_le_bytes());
            o.patch(DB + 8, &offset(list).to_le_bytes());
            o.data(size, offset(DB), BASE, 4, &[8]);
        } }
        o.data(size, offset(SEGMENTS[0]), BASE, 3, &[8]);
    }
    o.image(&m);
    // two cells at fault: the first in reading order decides; one at fault and no room
    let past = |at: usize| signed((END - at) as i32 + 1).to_vec();
    let mut faults: Vec<(usize, Fault)> = vec![];
    for (i, at) in [DB, LIST].into_iter().chain(SEGMENTS).enumerate() {
        faults.push((i, (at, past(at))));
        faults.push((i, (at, signed(-8).to_vec())));
        let named = if i == 0 { continue } else if i == 1 { DB + 8 } else { LIST + 4 * (i - 1) };
        faults.push((i, (named, offset(END + 1 + i).to_le_bytes().to_vec())));
        faults.push((i, (named, offset(END - 3).to_le_bytes().to_vec())));
    }
    faults.push((0, (DB + 4, b"dc".to_vec())));
    faults.push((0, (DB + 6, vec![2, 0])));
    for (i, one) in &faults { for (j, two) in &faults {
        if i > j || one == two || i == j && one.0 == two.0 { continue; }
        for f in [one, two] { o.patch(f.0, &f.1); }
        o.data(40000, offset(DB), BASE, 4, &[if more { 40000 } else { 0 }]);
        for f in [one, two] { o.patch(f.0, &m[f.0..f.0 + f.1.len()]); }
    } }
    for (_, f) in &faults {
        o.patch(f.0, &f.1);
        o.data_of(0, BASE, 5, &[0, 40000]);
        o.patch(f.0, &m[f.0..f.0 + f.1.len()]);
    }
    // segments that are one cell, that overlap, that are free; a list within the `db` cell, a segment in the list
    let lists = |o: &mut Out<_>, places: [usize; 3]| for (i, p) in places.into_iter().enumerate() { o.patch(LIST + 4 + 4 * i, &offset(p).to_le_bytes()); };
    let [a, b, c] = SEGMENTS;
    for places in [[a, a, a], [b, b, a], [c, b, a], [c, c, b], [a, a + 8, a + 16], [a + 1, a + 2, b], [b, DB, LIST], [LIST, a, b]] {
        lists(o, places);
        o.data(40000, offset(DB), BASE, 4, &[40000, 39999]);
        for p in places { o.patch(p, &signed(if p % 3 == 0 { 16352 } else { -16348 })); }
        o.data(40000, offset(DB), BASE, 4, &[40000]);
        o.data(2 * SEGMENT, offset(DB), BASE, 4, &[40000]);
        for p in places { o.patch(p, &m[p..p + 4]); }
        o.image(&m);
    }
    o.patch(BASE as usize, &m[a..a + 32]);
    for at in [DB - 8, DB + 4, DB + 8, LIST - 4, LIST - 8] {
        // a `db` cell of 16 bytes at the base's own place and a list that begins within it
        let mut d = m[..SEGMENTS[0]].to_vec();
        db(&mut d, DB, -16, 3, offset(at));
        if at != DB + 4 { put32(&mut d, at, if at == DB + 8 { offset(at) } else { 16 }); }
        for i in 0..3 { if at + 4 + 4 * i >= DB + 12 || at < DB { put32(&mut d, at + 4 + 4 * i, offset(SEGMENTS[i])); } }
        o.patch(0, &d);
        o.data(40000, offset(DB), BASE, 4, &[40000, 0]);
        o.data(2 * SEGMENT, offset(DB), BASE, 4, &[0]);
    }
    o.image(&m);
    // of a record: its own refusals, then those of the data; the record as its own data's cell
    for (at, bytes) in [(0usize, signed(0)), (0, signed(-23)), (0, signed(24)), (0, signed(31)), (0, signed(32)), (0, signed(i32::MIN)), (0, signed(END as i32)), (0, signed(END as i32 + 1)), (4, *b"vk\x08\0"), (4, *b"vk\x09\0"), (4, *b"nk\x03\0"), (12, signed(-1)), (12, signed(END as i32 - 40 + 1))] {
        o.patch(at, &bytes);
        o.data_of(0, BASE, 4, &[40000, 0]);
        o.patch(at, &m[at..at + 4]);
    }
    for at in [1, DB as u32, END as u32 - 24, END as u32 - 23, END as u32, END as u32 + 1, u32::MAX] { o.data_of(at, BASE, 4, &[8]); }
    for raw in [0u32, 1, 4, 27, 28, 29, 1 << 31, 1 << 31 | 1, 1 << 31 | 4, 1 << 31 | 5, u32::MAX] { for off in [0u32, 0x04030201, u32::MAX] {
        o.patch(8, &raw.to_le_bytes());
        o.patch(12, &off.to_le_bytes());
        for t in [1u32, 4, 11] { o.patch(16, &t.to_le_bytes()); o.data_of(0, 0, 5, if t == 1 { &[40, 0] } else { &[40] }); }
    } }
    for n in [0, 12, 23, 24, 31, 32, 33] { o.length(n); o.data_of(0, 0, 4, &[4]); }
    o.image(&m);
    if !more { return; }
    // each byte of the chain's numbers changed
    for at in (0..24).chain(DB..DB + 16).chain(LIST..LIST + 16).chain(SEGMENTS.into_iter().flat_map(|p| p..p + 5)) {
        for x in [0, 255, m[at] ^ 1, m[at] ^ 0x80, m[at].wrapping_add(8)] { o.patch(at, &[x]); o.data_of(0, BASE, 4, &[40000]); o.data_of(0, BASE, 3, &[40000]); }
        o.patch(at, &m[at..at + 1]);
    }
    // every cut near a cell's end or start
    for p in [0, 24, DB, DB + 12, LIST, LIST + 16, SEGMENTS[0], SEGMENTS[1], SEGMENTS[2], SEGMENTS[2] + 4 + 7312, TAIL, END] {
        for n in p.saturating_sub(5)..(p + 6).min(END) { o.length(n); o.data_of(0, BASE, 4, &[40000]); o.data(40000, offset(DB), BASE, 4, &[0]); o.data(40000, offset(SEGMENTS[0]), BASE, 3, &[0]); }
    }
    // five segments of one cell that fill the greatest room, and one byte more
    o.image(&m);
    o.patch(TAIL - 32, &[signed(-24), offset(a).to_le_bytes(), offset(b).to_le_bytes(), offset(a).to_le_bytes(), offset(a).to_le_bytes(), offset(b).to_le_bytes()].concat());
    o.patch(DB + 6, &[5, 0]);
    o.patch(DB + 8, &offset(TAIL - 32).to_le_bytes());
    for size in [4 * SEGMENT, 4 * SEGMENT + 1, DATA_MOST - 1, DATA_MOST, DATA_MOST + 1, 5 * SEGMENT] { o.data(size, offset(DB), BASE, 4, &[DATA_MOST, DATA_MOST - 1, 0]); }
    // a list within the `db` cell: its first entry is made of the letters and the number, its second of the list's own offset
    let mut m = vec![0; 172_700];
    for (i, x) in m.iter_mut().enumerate() { *x = (i * 11 + i / 253) as u8; }
    db(&mut m, 48, -16, 2, 8);
    let at = 0x00026264 + 40;
    put32(&mut m, at, (-16348i32) as u32);
    o.image(&m);
    for size in [SEGMENT + 1, SEGMENT + 12, SEGMENT + 13] { o.data(size, 8, 40, 4, &[size, 0]); }
    o.length(at + 16348); o.data(SEGMENT + 12, 8, 40, 4, &[20000]);
    o.length(at + 16347); o.data(SEGMENT + 12, 8, 40, 4, &[20000]);
    // 65,535 segments, all of one cell: the most there can be
    let mut m = vec![0; 279_000];
    db(&mut m, 0, -16, 65535, 16);
    put32(&mut m, 16, (-262144i32) as u32);
    for i in 0..65535 { put32(&mut m, 20 + 4 * i, 262_160); }
    put32(&mut m, 262_160, 16348);
    o.image(&m);
    for size in [65535 * SEGMENT, 65535 * SEGMENT - 1, 65534 * SEGMENT + 1, 65534 * SEGMENT, 65535 * SEGMENT + 1] { o.data(size, 0, 0, 4, &[0]); }
    o.patch(20 + 4 * 65534, &262_161u32.to_le_bytes()); o.data(65535 * SEGMENT, 0, 0, 4, &[0]);
    o.patch(16, &signed(-262143)); o.data(65535 * SEGMENT, 0, 0, 4, &[0]);
}

/// Random cells of a few bytes, and random chains in one image.
fn datas(o: &mut Out<impl Write>, r: &mut Rng, random: u64) {
    for _ in 0..random {
        let n = r.range(0, 60);
        let mut m = r.bytes(n);
        let base = r.pick(&[0usize, 0, 4, 9]);
        let at = base + r.range(0, n + 2);
        let size = if r.chance(10) { r.word() } else { r.range(0, 30) as u32 };
        let word = size as i64 + r.pick(&[4i64, 4, 4, 5, 8, 3, 0, 20]);
        if at + 4 <= n && !r.chance(6) { put32(&mut m, at, if r.chance(2) { word } else { -word } as u32); }
        let record = n >= 24 && r.chance(2);
        let raw = if r.chance(5) { 1 << 31 | r.below(7) as u32 } else { size };
        let off = if r.chance(20) { r.word() } else { (at - base) as u32 };
        let room = r.pick(&[raw & 0x7fffffff, raw & 0x7fffffff, size.saturating_sub(1), 40, 0]);
        let minor = r.pick(&[0u32, 3, 4, 5, 6]);
        if record {
            let size = if r.chance(8) { r.range(20, n + 2) as i32 } else { 24 };
            value(&mut m, n - 24, b"", 1, if r.chance(2) { size } else { -size }, [raw, off, r.pick(&[1, 3, 3, 4, 11, 7, 0x10004])]);
        }
        o.image(&m);
        o.data(raw, off, base as u32, minor, &[room]);
        if record { o.data_of((n - 24) as u32, base as u32, minor, &[room, 40]); }
    }
    // a chain whose parts lie anywhere
    let (n, m) = (END, big(40000));
    o.image(&m);
    for _ in 0..random / 2 {
        let base = r.pick(&[0usize, 32, 4096]);
        let k = r.range(1, 3);
        let size = match r.below(4) { 0 => SEGMENT as usize * k + r.range(0, 3), 1 => SEGMENT as usize * k - r.range(0, 3), _ => r.range(16000, 49500) } as u32;
        let count = needed(size) as usize;
        let place = |r: &mut Rng, least: usize| base + r.range(0, (n - base - least.min(n - base)) / 4) * 4;
        let (d, l) = (place(r, 12), place(r, 4 + 4 * count));
        let mut put: Vec<(usize, Vec<u8>)> = vec![];
        for i in 0..count {
            let part = share(size, i) as usize;
            let p = place(r, part + 4);
            let word = part as i64 + r.pick(&[4i64, 4, 4, 4, 5, 8, 11, 100]) - if r.chance(25) { 1 } else { 0 };
            put.push((p, (if r.chance(2) { word } else { -word } as u32).to_le_bytes().to_vec()));
            let entry = if r.chance(50) { r.word() } else { (p - base) as u32 };
            put.push((l + 4 + 4 * i, entry.to_le_bytes().to_vec()));
        }
        put.push((l, signed(-(4 + 4 * count as i32) + if r.chance(25) { 1 } else { 0 } - r.range(0, 9) as i32).to_vec()));
        let named = if r.chance(8) { (count as u16).wrapping_add(r.pick(&[1, 0xffff, 2])) } else { count as u16 };
        let mut cell = vec![0; 12];
        db(&mut cell, 0, -r.pick(&[12, 16, 16, 24, 12, 16, 11]), named, (l - base) as u32);
        if r.chance(25) { cell[4 + r.range(0, 1)] ^= 1; }
        put.push((d, cell));
        // one part over the other where they meet: the last one written stays
        for (at, b) in &put { let b = &b[..b.len().min(n - at)]; o.patch(*at, b); }
        if r.chance(12) { o.length(r.range(n - 20_000, n)); }
        let minor = r.pick(&[4u32, 4, 5, 6, 3, 0xffff]);
        let room = r.pick(&[size, size, size - 1, size + 1, 0]);
        o.data(size, (d - base) as u32, base as u32, minor, &[room]);
        let p = (d - base) as u32 + r.below(3) as u32;
        if r.chance(5) { o.data(size, p, base as u32, minor, &[0]); }
        if r.chance(3) { o.image(&m); } else { o.length(n); for (at, b) in &put { let b = b.len().min(n - at); o.patch(*at, &m[*at..*at + b]); } }
    }
}

// ---- random rounds

fn all(o: &mut Out<impl Write>, r: &mut Rng, m: &[u8], places: &[usize], base: u32) {
    o.case(1, &[], Some(m));
    o.case(2, &[], None);
    o.case(3, &[], None);
    o.case(10, &[base, m.len() as u32 - base.min(m.len() as u32)], None);
    for &p in places {
        for q in [p, p + 1, p.wrapping_sub(4)] {
            for tag in [6, 7, 11, 12] { o.case(tag, &[q as u32], None); }
            if q == p { o.record(p as u32, base, BUDGET, 8, b""); }
            o.walk(1, (q as u32).wrapping_sub(base), base, BUDGET, ENOUGH);
            let n = r.below(9) as u32;
            o.values(n, (q as u32).wrapping_sub(base), base, ENOUGH);
        }
    }
}

fn records(o: &mut Out<impl Write>, r: &mut Rng, most: usize) {
    for _ in 0..6 {
        let n = r.range(80, most);
        let p = r.range(0, 16);
        let mut m = r.bytes(p + n);
        let len = if r.chance(8) { r.range(0, 400) } else { r.range(0, (n - 80).min(40)) };
        let mut name = r.bytes(len);
        if r.chance(2) { for x in &mut name { *x = r.pick(b"ABCxyz019 _\xe4\xff"); } }
        let flags = if r.chance(4) { r.next() as u16 } else { r.pick(&[0x20u16, 0x20, 0, 0x2c, 0x1020, 4]) };
        let size = match r.below(6) { 0 => r.word() as i32, 1 => n as i32, _ => -((n & !7) as i32) };
        key(r, &mut m, p, &name, flags, size);
        if r.chance(20) { m[p + 4] ^= 1; }
        o.case(6, &[p as u32], Some(&m));
        // the same record under other sizes, name lengths, and cuts
        for _ in 0..5 { let s = -(8 * if r.chance(5) { r.range(9, n / 8 + 1) } else { r.range(10, n / 8) } as i32); o.patch(p, &s.to_le_bytes()); o.case(6, &[p as u32], None); }
        for _ in 0..3 { let s = r.range(0, n - 80 + 8) as u16; o.patch(p + 76, &s.to_le_bytes()); o.case(6, &[p as u32], None); }
        for _ in 0..4 { let at = r.range(0, 79); let x = r.next() as u8; o.patch(p + at, &[x]); o.case(6, &[p as u32], None); }
        for _ in 0..2 { let k = r.range(0, p + n); o.length(k); o.case(6, &[p as u32], None); }
        o.length(p + n);
        for _ in 0..2 { let q = r.range(0, p + n + 2); o.case(6, &[q as u32], None); o.case(7, &[q as u32], None); }
        let (len, spare) = (r.range(0, 30), r.range(0, 20));
        let mut v = r.bytes(p + 24 + len + spare);
        let name = r.bytes(len);
        let size = match r.below(6) { 0 => r.word() as i32, 1 => (24 + len + spare) as i32, _ => -(((24 + len + spare) & !7) as i32) };
        let data = [r.word(), r.word(), r.word()];
        value(&mut v, p, &name, r.pick(&[0u16, 1, 1, 2, 3, 16]), size, data);
        o.case(7, &[p as u32], Some(&v));
        for _ in 0..3 { let at = r.range(0, 23); let x = r.next() as u8; o.patch(p + at, &[x]); o.case(7, &[p as u32], None); }
    }
}

/// The greatest number of bytes of: images with lists, with records, of noise.
struct Most(usize, usize, usize);
const USUAL: Most = Most(2048, 400, 300);
const SMALL: Most = Most(200, 130, 40);

fn rounds(o: &mut Out<impl Write>, r: &mut Rng, rounds: u64, most: Most) {
    for _ in 0..rounds {
        let n = r.pick(&[508, 509, 512, 600, 507, 4096]);
        let m = r.bytes(n);
        o.case(1, &[], Some(&m));
        let n = r.pick(&[4096, 4096, 4096, 4100, 4095, 5000]);
        let m = header(r, n);
        o.case(2, &[], Some(&m));
        o.case(1, &[], None);
        let n = r.range(0, 12);
        let mut m = r.bytes(n);
        if m.len() > 5 && r.chance(2) { m[4..6].copy_from_slice(b"db"); }
        o.case(3, &[], Some(&m));
        // lists and value lists
        for _ in 0..4 {
            let base = r.pick(&[0usize, 0, 4, 16, 31, 32, most.0 / 4]);
            let (m, places) = lists(r, base, most.0);
            o.image(&m);
            let b = base as u32;
            for &p in &places {
                let count = 1 + r.below(9) as u32;
                o.walk(count, (p - base) as u32, b, BUDGET, ENOUGH);
                let (budget, room) = (r.below(14) as u32, r.below(30) as u32);
                o.walk(count, (p - base) as u32, b, budget, ENOUGH);
                o.walk(count, (p - base) as u32, b, BUDGET, room);
                o.case(11, &[p as u32], None);
            }
            for _ in 0..8 {
                let (count, off) = (r.range(0, 40) as u32, r.range(0, m.len() + 4) as u32);
                o.values(count, off, b, r.pick(&[ENOUGH, ENOUGH, ENOUGH, count, count.saturating_sub(1)]));
                o.walk(1, off, b, BUDGET, ENOUGH);
            }
            // one byte of a list's header or entries changed, and the walk again
            for &p in places.iter().take(4) {
                let at = p + r.range(0, 15);
                if at < m.len() {
                    let x = r.next() as u8;
                    o.patch(at, &[x]);
                    for &q in places.iter().take(3) { o.walk(1, (q - base) as u32, b, BUDGET, ENOUGH); }
                    o.patch(at, &m[at..at + 1]);
                }
            }
            let (x, y, z) = (r.word(), r.word(), r.word());
            o.values(x, y, z, ENOUGH);
            o.walk(x, y, z, BUDGET, ENOUGH);
        }
        records(o, r, most.1);
        // lookup
        for _ in 0..2 {
            let (base, count) = (r.pick(&[0usize, 32]), r.range(0, 6));
            let (m, off, names) = valued(r, base, count);
            o.image(&m);
            for _ in 0..4 {
                let mut name = if names.is_empty() || r.chance(5) { b"none".to_vec() } else { names[r.range(0, names.len() - 1)].clone() };
                for x in &mut name { if r.chance(4) { *x ^= 0x20; } }
                let n = if r.chance(6) { count as u32 + 1 } else { count as u32 };
                o.lookup(n, off, base as u32, &name);
            }
            o.values(count as u32, off, base as u32, ENOUGH);
        }
        // hash
        let n = r.range(0, 40);
        let m = r.bytes(n);
        let flags = r.next() as u16;
        o.case(9, &[flags as u32], Some(&m));
        // bins, whole and damaged
        let (base, count) = (r.pick(&[0usize, 32, 4096]), r.range(0, 3));
        let mut m = bins(r, base, count);
        let size = (m.len() - base) as u32;
        o.case(10, &[base as u32, size], Some(&m));
        if !m.is_empty() && size > 0 {
            for _ in 0..8 {
                let at = if r.chance(3) { base + r.range(0, 15) } else { base + r.range(0, size as usize - 1) };
                let x = if r.chance(2) { r.next() as u8 } else { m[at] ^ (1 << r.below(8)) };
                o.patch(at, &[x]);
                o.case(10, &[base as u32, size], None);
                o.patch(at, &m[at..at + 1]);
            }
            let n = r.range(0, m.len());
            m.truncate(n);
            o.length(n);
            o.case(10, &[base as u32, size], None);
            o.case(10, &[base as u32, n as u32], None);
        }
        // damaged copies of the example, and noise
        let mut m = example();
        for _ in 0..r.range(1, 6) {
            let at = if r.chance(3) { r.range(0, m.len() - 1) } else { r.range(4096, 4440) };
            m[at] = if r.chance(2) { r.next() as u8 } else { m[at] ^ (1 << r.below(8)) };
        }
        if r.chance(4) { let n = r.range(4096, 4500); m.truncate(n); }
        all(o, r, &m, &[4096, 4128, 4216, 4240, 4328], 4096);
        let n = r.range(0, most.2);
        let m = r.bytes(n);
        let p = r.range(0, n);
        all(o, r, &m, &[p], 0);
    }
}

fn main() {
    let args: Vec<String> = std::env::args().skip(1).collect();
    let number = |i: usize| args.get(i).and_then(|s| s.parse::<u64>().ok());
    let to = BufWriter::with_capacity(1 << 16, std::io::stdout().lock());
    let mut o = Out::new(to, [1; TAGS], 0);
    match (args.first().map(|s| s.as_str()), number(0), number(1)) {
        (Some("fixed"), _, _) => { boundaries(&mut o); fixed(&mut o); wide(&mut o); long_leaves(&mut o); cells(&mut o, &mut Rng(0), 0); puts(&mut o, &mut Rng(0), 0); leaves(&mut o, &mut Rng(0), 0, 0); data_edges(&mut o, true); steps(&mut o, true); deleted(&mut o, true); letters(&mut o); arriving(&mut o, true); records_between(&mut o, true); short_names(&mut o); totals(&mut o, true); strict(&mut o, true); conversion(&mut o, true); in_place(&mut o, true); listings(&mut o, true) }
        (Some("hives"), _, Some(seed)) => { hives(&mut o, &mut Rng(seed), &args[2..], 12, 40); hive_bins(&mut o, &mut Rng(seed), &args[2..], 40); hive_parts(&mut o, &mut Rng(seed), &args[2..], 40); hive_totals(&mut o, &mut Rng(seed), &args[2..], 40); hive_strict(&mut o, &mut Rng(seed), &args[2..], 40, true); hive_conversion(&mut o, &mut Rng(seed), &args[2..], 40, true); hive_place(&mut o, &mut Rng(seed), &args[2..], 40, true); hive_listings(&mut o, &mut Rng(seed), &args[2..], 40, true) }
        (Some("stored"), _, Some(seed)) => stored(&mut o, seed, &args[2..], false),
        (Some("stored-parts"), _, Some(seed)) => stored_parts(&mut o, seed, &args[2..]),
        (Some("stored-listings"), _, Some(seed)) => stored_listings(&mut o, seed, &args[2..]),
        (Some("stored-rust"), _, Some(seed)) => {
            if args[2] != "-" { o.marked = Some(std::fs::read(&args[2]).expect("a list of marks")); }
            stored(&mut o, seed, &args[3..], true)
        }
        (Some("strict"), _, Some(seed)) => { strict(&mut o, true); any_strict(&mut o, &mut Rng(seed), number(2).unwrap_or(0), USUAL.0) }
        (Some("conversion"), _, Some(seed)) => { conversion(&mut o, true); any_conversion(&mut o, &mut Rng(seed), number(2).unwrap_or(0), USUAL.0) }
        (Some("place"), _, Some(seed)) => { let n = number(2).unwrap_or(0); totals(&mut o, true); any_totals(&mut o, &mut Rng(seed), n, USUAL.0); in_place(&mut o, true); any_place(&mut o, &mut Rng(seed), n, USUAL.0) }
        (Some("listing"), _, Some(seed)) => { listings(&mut o, true); any_listing(&mut o, &mut Rng(seed), number(2).unwrap_or(0), USUAL.0) }
        (_, Some(seed), Some(n)) => { rounds(&mut o, &mut Rng(seed), n, USUAL); cells(&mut o, &mut Rng(seed), 10 * n); puts(&mut o, &mut Rng(seed), 10 * n); leaves(&mut o, &mut Rng(seed), n, USUAL.0); datas(&mut o, &mut Rng(seed), 4 * n); dropping(&mut o, &mut Rng(seed), n, USUAL.0); any_steps(&mut o, &mut Rng(seed), n); any_keys(&mut o, &mut Rng(seed), n); any_letters(&mut o, &mut Rng(seed), 10 * n); any_parts(&mut o, &mut Rng(seed), n); any_totals(&mut o, &mut Rng(seed), n, USUAL.0); any_strict(&mut o, &mut Rng(seed), n, USUAL.0); any_conversion(&mut o, &mut Rng(seed), n, USUAL.0); any_place(&mut o, &mut Rng(seed), n, USUAL.0); any_listing(&mut o, &mut Rng(seed), n, USUAL.0) }
        _ => { eprintln!("usage: cases fixed | hives SEED FILE.. | stored SEED FILE.. | stored-parts SEED FILE.. | stored-listings SEED FILE.. | stored-rust SEED MARKS FILE.. | strict SEED ROUNDS | conversion SEED ROUNDS | place SEED ROUNDS | listing SEED ROUNDS | SEED ROUNDS"); std::process::exit(2) }
    }
    o.to.flush().unwrap();
    eprintln!("{} cases", o.cases);
}
