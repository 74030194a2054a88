//! The checksum and the walk in plain safe Rust, written for speed: what the Rattle is measured against.

pub const SHORT: u32 = 1;
pub const OUTSIDE: u32 = 2;
pub const BAD_SIGN: u32 = 4;
pub const TOO_MANY: u32 = 7;
pub const CUT_SHORT: u32 = 8;
pub const NO_ROOM: u32 = 9;
pub const BAD_BUDGET: u32 = 13;
pub const TOO_DEEP: u32 = 14;
pub const OUT_OF_STEPS: u32 = 15;
pub const LEVELS: usize = 8;

pub struct Counts {
    pub kept: u32,
    pub lists: u32,
    pub entries: u32,
}

pub const NONE: Counts = Counts { kept: 0, lists: 0, entries: 0 };

#[derive(Default)]
pub struct Refusal {
    pub number: u32,
    pub position: usize,
    pub lists: u32,
    pub places: u32,
    pub entries: u32,
}

pub fn checksum(bytes: &[u8]) -> Result<u32, u32> {
    let (words, _) = bytes.get(..508).ok_or(SHORT)?.as_chunks::<4>();
    Ok(mend(words.iter().fold(0, |x, w| x ^ u32::from_le_bytes(*w))))
}

pub fn mend(x: u32) -> u32 {
    match x {
        0 => 1,
        u32::MAX => u32::MAX - 1,
        x => x,
    }
}

/// The entries of a list, by its kind.
pub enum List<'a> {
    Index(&'a [[u8; 4]]),
    Narrow(&'a [[u8; 4]]),
    Wide(&'a [[u8; 8]]),
}

#[inline]
pub fn read_list(image: &[u8], position: usize) -> Result<List<'_>, u32> {
    let list = image.get(position..).ok_or(OUTSIDE)?;
    let (header, rest) = list.split_first_chunk::<8>().ok_or(CUT_SHORT)?;
    let count = u16::from_le_bytes([header[6], header[7]]) as usize;
    match [header[4], header[5]] {
        [b'l', b'f' | b'h'] => rest.as_chunks().0.get(..count).map(List::Wide),
        [b'l', b'i'] => rest.as_chunks().0.get(..count).map(List::Narrow),
        [b'r', b'i'] => rest.as_chunks().0.get(..count).map(List::Index),
        _ => return Err(BAD_SIGN),
    }
    .ok_or(CUT_SHORT)
}

/// An entry of 4 or of 8 bytes, which begins with an offset.
pub trait Entry: Sized {
    fn offset(&self) -> u32;
}

impl Entry for [u8; 4] {
    #[inline]
    fn offset(&self) -> u32 {
        u32::from_le_bytes(*self)
    }
}

impl Entry for [u8; 8] {
    #[inline]
    fn offset(&self) -> u32 {
        u64::from_le_bytes(*self) as u32
    }
}

/// What a walk does with the entries of a leaf list: how many it keeps.
pub trait Leaf {
    fn leaf<E: Entry>(&mut self, base: u32, entries: &[E]) -> u32;
}

/// Counts the sums that fit 32 bits: mostly all of them, and then no sum has to be looked at.
pub struct Measure;

const FEW: usize = 32;
const PIECE: usize = 1024;

impl Leaf for Measure {
    #[inline]
    fn leaf<E: Entry>(&mut self, base: u32, entries: &[E]) -> u32 {
        if entries.len() <= FEW {
            return count(base, entries);
        }
        measure_pieces(base, entries)
    }
}

/// Whether all sums fit. No offset is greater than all of them joined by OR.
#[inline]
fn all_fit<E: Entry>(base: u32, entries: &[E]) -> bool {
    let (blocks, rest) = entries.as_chunks::<16>();
    let mut all = [0; 16];
    for block in blocks {
        for (x, entry) in all.iter_mut().zip(block) {
            *x |= entry.offset();
        }
    }
    let bound = rest.iter().map(E::offset).chain(all).fold(0, |x, y| x | y);
    bound <= u32::MAX - base
}

/// Piece by piece, until one has a sum that is dropped.
#[inline(never)]
fn measure_pieces<E: Entry>(base: u32, entries: &[E]) -> u32 {
    let mut at = 0;
    for piece in entries.chunks(PIECE) {
        if !all_fit(base, piece) {
            return at as u32 + count(base, &entries[at..]);
        }
        at += piece.len();
    }
    at as u32
}

#[inline]
pub fn count<E: Entry>(base: u32, entries: &[E]) -> u32 {
    let greatest = u32::MAX - base;
    entries.iter().map(|entry| (entry.offset() <= greatest) as u32).sum()
}

/// Writes the sums that fit 32 bits to places that are as many as these sums in all. `whole`: all of them do, as the measuring found.
pub struct Fill<'a> {
    pub places: &'a mut [u32],
    pub at: usize,
    pub whole: bool,
}

impl Leaf for Fill<'_> {
    #[inline]
    fn leaf<E: Entry>(&mut self, base: u32, entries: &[E]) -> u32 {
        let before = self.at;
        if self.whole {
            copy(base, entries, &mut self.places[before..][..entries.len()]);
            self.at += entries.len();
        } else {
            self.at = fill_some(base, entries, self.places, before);
        }
        (self.at - before) as u32
    }
}

#[inline]
pub fn copy<E: Entry>(base: u32, entries: &[E], places: &mut [u32]) {
    for (place, entry) in places.iter_mut().zip(entries) {
        *place = entry.offset().wrapping_add(base);
    }
}

/// Sixteen at a time, as long as there are sixteen places: what is written too much is overwritten by a later sum.
#[inline(never)]
fn fill_some<E: Entry>(base: u32, entries: &[E], places: &mut [u32], mut at: usize) -> usize {
    let mut from = 0;
    while let (Some(block), Some(sixteen)) = (entries[from..].first_chunk::<16>(), places[at..].first_chunk_mut::<16>()) {
        if all_fit(base, block) {
            copy(base, block, sixteen);
            at += 16;
        } else {
            let mut kept = 0;
            for entry in block {
                let (sum, over) = entry.offset().overflowing_add(base);
                sixteen[kept % 16] = sum;
                kept += !over as usize;
            }
            at += kept;
        }
        from += 16;
    }
    for entry in &entries[from..] {
        if let Some(sum) = entry.offset().checked_add(base) {
            places[at] = sum;
            at += 1;
        }
    }
    at
}

/// One walk. What is left of each `ri` list that is open stands on a stack.
pub fn walk<L: Leaf>(image: &[u8], base: u32, budget: u32, list: u32, mut leaf: L) -> Result<Counts, Refusal> {
    let mut counts = NONE;
    let top = [list.to_le_bytes()];
    let mut rest: &[[u8; 4]] = &top;
    let mut open: [&[[u8; 4]]; LEVELS] = [&[]; LEVELS];
    let mut level = 0;
    loop {
        let Some((first, more)) = rest.split_first() else {
            if level == 0 {
                return Ok(counts);
            }
            level -= 1;
            rest = open[level];
            continue;
        };
        rest = more;
        let position = u32::from_le_bytes(*first) as usize + base as usize;
        let refuse = |number| Refusal { number, position, lists: counts.lists, ..Refusal::default() };
        if level == LEVELS {
            return Err(refuse(TOO_DEEP));
        }
        if counts.lists == budget {
            return Err(refuse(OUT_OF_STEPS));
        }
        let list = read_list(image, position).map_err(refuse)?;
        counts.lists += 1;
        match list {
            List::Narrow(entries) => {
                counts.entries += entries.len() as u32;
                counts.kept += leaf.leaf(base, entries);
            }
            List::Wide(entries) => {
                counts.entries += entries.len() as u32;
                counts.kept += leaf.leaf(base, entries);
            }
            List::Index(named) => {
                open[level] = rest;
                level += 1;
                rest = named;
            }
        }
    }
}

/// The tests before a walk: whether there is one.
pub fn judge(count: u32, budget: u32) -> Result<bool, Refusal> {
    if budget > 65_536 {
        return Err(Refusal { number: BAD_BUDGET, ..Refusal::default() });
    }
    if count > 1_048_576 {
        return Err(Refusal { number: TOO_MANY, ..Refusal::default() });
    }
    Ok(count > 0)
}

/// The test between the walks.
pub fn room(counts: &Counts, places: usize) -> Result<(), Refusal> {
    if places < counts.kept as usize {
        return Err(Refusal { number: NO_ROOM, position: 0, lists: counts.lists, places: counts.kept, entries: counts.entries });
    }
    Ok(())
}

pub fn sub_keys(image: &[u8], base: u32, count: u32, list: u32, budget: u32, out: &mut [u32]) -> Result<Counts, Refusal> {
    if !judge(count, budget)? {
        return Ok(NONE);
    }
    if budget > 0 {
        match read_list(image, list as usize + base as usize) {
            Ok(List::Narrow(entries)) => return one_leaf(base, entries, out),
            Ok(List::Wide(entries)) => return one_leaf(base, entries, out),
            _ => {}
        }
    }
    let counts = walk(image, base, budget, list, Measure)?;
    room(&counts, out.len())?;
    walk(image, base, budget, list, filling(&counts, out))
}

/// A key with one list: it is read once.
#[inline]
fn one_leaf<E: Entry>(base: u32, entries: &[E], out: &mut [u32]) -> Result<Counts, Refusal> {
    let counts = Counts { kept: Measure.leaf(base, entries), lists: 1, entries: entries.len() as u32 };
    room(&counts, out.len())?;
    filling(&counts, out).leaf(base, entries);
    Ok(counts)
}

pub fn filling<'a>(counts: &Counts, out: &'a mut [u32]) -> Fill<'a> {
    Fill { places: &mut out[..counts.kept as usize], at: 0, whole: counts.kept == counts.entries }
}
