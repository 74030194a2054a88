//! What the walks are called with: the rows of the table, and small images, whole and damaged.

/// What a walk is called with.
pub struct Case {
    pub image: Vec<u8>,
    pub base: u32,
    pub count: u32,
    pub list: u32,
    pub budget: u32,
}

/// Numbers that look random, the same in every run.
pub struct Random(pub u64);

impl Random {
    pub fn below(&mut self, n: usize) -> usize {
        self.0 = self.0.wrapping_mul(6364136223846793005).wrapping_add(1442695040888963407);
        (((self.0 >> 32) * n as u64) >> 32) as usize
    }
    pub fn of<T: Copy>(&mut self, all: &[T]) -> T {
        all[self.below(all.len())]
    }
}

/// An image that is built list by list, from the base on.
struct Build {
    image: Vec<u8>,
    base: u32,
}

impl Build {
    fn new(base: u32) -> Build {
        Build { image: vec![0; base as usize], base }
    }
    fn list(&mut self, kind: &[u8; 2], entries: impl ExactSizeIterator<Item = u32>) -> u32 {
        let at = self.image.len();
        self.image.extend([0; 4]);
        self.image.extend(kind);
        self.image.extend((entries.len() as u16).to_le_bytes());
        for e in entries {
            self.image.extend(e.to_le_bytes());
            if matches!(kind, b"lf" | b"lh") {
                self.image.extend([0x5a; 4]);
            }
        }
        (at - self.base as usize) as u32
    }
    fn leaf(&mut self, kind: &[u8; 2], entries: usize) -> u32 {
        self.list(kind, (0..entries).map(|i| i as u32 * 88 + 32))
    }
    fn case(self, list: u32) -> Case {
        Case { image: self.image, base: self.base, count: 1, list, budget: 65_536 }
    }
}

fn word(k: &[u8; 2]) -> &str {
    std::str::from_utf8(k).unwrap()
}

pub struct Row {
    pub name: String,
    pub case: Case,
    /// A row of the growth table.
    pub growth: bool,
}

fn row(name: String, case: Case) -> Row {
    Row { name, case, growth: false }
}

pub fn rows() -> Vec<Row> {
    let mut rows = Vec::new();
    for n in [16, 1_000, 16_000, 65_535] {
        for kind in [b"li", b"lh"] {
            let mut b = Build::new(4096);
            let list = b.leaf(kind, n);
            rows.push(row(format!("one `{}` of {n}", word(kind)), b.case(list)));
        }
    }
    for (what, gone) in [("every 97th dropped", every_97th as fn(u32) -> bool), ("one in 8 dropped, at no fixed distance", one_in_8)] {
        for kind in [b"li", b"lh"] {
            let mut b = Build::new(4096);
            let list = b.list(kind, (0..16_000).map(|i| entry(i, gone)));
            rows.push(row(format!("one `{}` of 16000, {what}", word(kind)), b.case(list)));
        }
    }
    for (leaves, n, what, gone) in [
        (16, 16, "", none as fn(u32) -> bool),
        (1_000, 16, "", none),
        (1_000, 2, "", none),
        (1_000, 16, ", every 97th dropped", every_97th),
    ] {
        for kind in [b"li", b"lh"] {
            let mut b = Build::new(4096);
            let named: Vec<u32> = (0..leaves).map(|leaf| b.list(kind, (0..n as u32).map(|i| entry(leaf * n as u32 + i, gone)))).collect();
            let list = b.list(b"ri", named.into_iter());
            rows.push(row(format!("`ri` over {leaves} `{}` of {n}{what}", word(kind)), b.case(list)));
        }
    }
    for wide in [1, 2] {
        let mut b = Build::new(4096);
        let mut level: Vec<u32> = (0..(wide as usize).pow(7)).map(|_| b.leaf(b"lh", 16)).collect();
        for _ in 0..7 {
            level = level.chunks(wide).map(|c| b.list(b"ri", c.to_vec().into_iter())).collect();
        }
        rows.push(row(format!("eight levels, {wide} named in each `ri`, `lh` of 16"), b.case(level[0])));
    }
    // growth: a leaf of so many entries, named so many times, at level 2 or 8
    for (kind, levels) in [(b"li", 2), (b"li", 8), (b"lh", 2), (b"lh", 8)] {
        for (n, times) in [(10_000, 1), (50_000, 2), (65_535, 16), (65_535, 153)] {
            let mut b = Build::new(4096);
            let leaf = b.leaf(kind, n);
            let mut list = b.list(b"ri", vec![leaf; times].into_iter());
            for _ in 2..levels {
                list = b.list(b"ri", [list].into_iter());
            }
            let name = format!("`{}` at level {levels}, {} entries", word(kind), n * times);
            rows.push(Row { growth: true, ..row(name, b.case(list)) });
        }
    }
    rows
}

fn none(_: u32) -> bool {
    false
}

fn every_97th(i: u32) -> bool {
    i % 97 == 0
}

fn one_in_8(i: u32) -> bool {
    Random(i as u64 * 0x9e37_79b9_7f4a_7c15).below(8) == 0
}

/// The offset of the i-th entry: one that passes 32 bits with the base, where it is to be dropped.
fn entry(i: u32, gone: fn(u32) -> bool) -> u32 {
    if gone(i) { u32::MAX - i % 4096 } else { i * 88 + 32 }
}

/// The root of each of these hives, as document 01 lays it down: the file is the image, its root's offset is at 36, and the key record
/// has the subkey count at 24 and the list's offset at 32. A file that differs from another before byte 4096 alone is left out.
pub fn hives(paths: &[String]) -> Vec<Row> {
    let mut rows: Vec<Row> = Vec::new();
    for path in paths {
        let image = std::fs::read(path).unwrap();
        let word = |at: usize| u32::from_le_bytes(image[at..at + 4].try_into().unwrap());
        let root = word(36) as usize + 4096;
        let (count, list) = (word(root + 24), word(root + 32));
        if rows.iter().any(|r| r.case.image[4096..] == image[4096..] && (r.case.count, r.case.list) == (count, list)) {
            continue;
        }
        let name = path.rsplit('/').next().unwrap();
        rows.push(row(format!("{name}, {count}"), Case { image, base: 4096, count, list, budget: 65_536 }));
    }
    rows
}

/// Small images with lists in them, whole and damaged, that name each other.
pub fn random_case(r: &mut Random) -> (Case, usize) {
    let len = r.of(&[0, 7, 8, 9, 40, 120, 300, 600]) + r.below(16);
    let base = r.of(&[0, 0, 4, 16, 32]).min(len as u32);
    let mut image: Vec<u8> = (0..len).map(|_| r.of(&[0, 1, 255, r.0 as u8])).collect();
    let lists = 1 + r.below(12);
    let places: Vec<usize> = (0..lists).map(|i| base as usize + i * r.of(&[8, 16, 24, 40, 48])).collect();
    for at in &places {
        let kind = r.of(&[*b"ri", *b"ri", *b"ri", *b"li", *b"lh", *b"lf", *b"li", *b"lh"]);
        let mut list = vec![0u8; 4];
        list.extend(if r.below(40) == 0 { *b"lx" } else { kind });
        let n = r.of(&[0, 1, 1, 2, 2, 3, 4]);
        list.extend((if r.below(60) == 0 { r.below(65_536) } else { n } as u16).to_le_bytes());
        for _ in 0..n {
            let deeper = if kind == *b"ri" { r.below(30) > 0 } else { false };
            let e = if deeper {
                // mostly a list further on, so that many walks end
                let later: Vec<usize> = places.iter().copied().filter(|p| p > at || r.below(12) == 0).collect();
                if later.is_empty() { 0 } else { (r.of(&later) - base as usize) as u32 }
            } else {
                r.of(&[0, 8, 88, u32::MAX, u32::MAX - 3, u32::MAX - 4, u32::MAX - 15, u32::MAX - 16, u32::MAX - 32, r.0 as u32])
            };
            list.extend(e.to_le_bytes());
            if kind[0] == b'l' && kind[1] != b'i' {
                list.extend([9; 4]);
            }
        }
        for (i, x) in list.into_iter().enumerate() {
            if let Some(place) = image.get_mut(at + i) {
                *place = x;
            }
        }
    }
    if r.below(4) == 0 && !image.is_empty() {
        let at = r.below(image.len());
        image[at] = r.0 as u8;
    }
    if r.below(6) == 0 {
        image.truncate(r.below(len + 1));
    }
    let case = Case {
        base: if r.below(50) == 0 { u32::MAX - r.below(64) as u32 } else { base },
        count: r.of(&[1, 1, 1, 1, 1, 2, 1_000, 1_048_576, 1_048_577, 0, 1, 1, 1]),
        list: if r.below(30) == 0 { r.0 as u32 } else { (r.of(&places[..1]) - base as usize) as u32 },
        budget: r.of(&[200, 200, 200, 200, 8, 7, 3, 1, 0, 65_536, 65_537]),
        image,
    };
    let places = r.of(&[0, 1, 2, 4, 8, 16, 32, 64, 500, 500, 500]);
    (case, places)
}


/// Long lists, each with no entry dropped, with one, or with many, and room for all of the kept, for fewer or for more.
pub fn wide_case(r: &mut Random) -> (Case, usize) {
    let mut b = Build::new(r.of(&[64, 4096]));
    let mut kept = 0;
    let leaves: Vec<u32> = (0..r.of(&[1, 1, 2, 5]))
        .map(|_| {
            let (kind, n, chance) = (r.of(&[b"li", b"lh", b"lf"]), r.below(200), r.of(&[0, 0, 1, 8, 100, 200]));
            let last = u32::MAX - b.base;
            let entries: Vec<u32> = (0..n)
                .map(|_| if r.below(200) < chance { last + 1 + r.below(b.base as usize) as u32 } else { last - r.of(&[0, last, r.0 as u32 % last]) })
                .collect();
            kept += entries.iter().filter(|e| **e <= last).count();
            b.list(kind, entries.into_iter())
        })
        .collect();
    let list = if leaves.len() == 1 { leaves[0] } else { b.list(b"ri", leaves.into_iter()) };
    (b.case(list), (kept + r.of(&[0, 0, 1, 7, 300])).saturating_sub(r.of(&[0, 0, 0, 0, 1])))
}
