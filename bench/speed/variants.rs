//! Other natural ways to write the walk in plain Rust, to see that `plain.rs` is not a slow one. `measure variants` times them.
use crate::plain::{copy, count, filling, judge, read_list, room, walk, Counts, Entry, Leaf, List, Measure, Refusal, LEVELS, NONE, OUT_OF_STEPS, TOO_DEEP};

/// A walk that calls itself once a level.
struct Walk<'a, L: Leaf> {
    image: &'a [u8],
    base: u32,
    budget: u32,
    counts: Counts,
    leaf: L,
}

impl<L: Leaf> Walk<'_, L> {
    fn refuse(&self, number: u32, position: usize) -> Refusal {
        Refusal { number, position, lists: self.counts.lists, ..Refusal::default() }
    }

    fn list(&mut self, levels: usize, offset: u32) -> Result<(), Refusal> {
        let position = offset as usize + self.base as usize;
        if levels == 0 {
            return Err(self.refuse(TOO_DEEP, position));
        }
        if self.counts.lists == self.budget {
            return Err(self.refuse(OUT_OF_STEPS, position));
        }
        let list = read_list(self.image, position).map_err(|number| self.refuse(number, position))?;
        self.counts.lists += 1;
        match list {
            List::Narrow(entries) => {
                self.counts.entries += entries.len() as u32;
                self.counts.kept += self.leaf.leaf(self.base, entries);
            }
            List::Wide(entries) => {
                self.counts.entries += entries.len() as u32;
                self.counts.kept += self.leaf.leaf(self.base, entries);
            }
            List::Index(named) => {
                for entry in named {
                    self.list(levels - 1, u32::from_le_bytes(*entry))?;
                }
            }
        }
        Ok(())
    }
}

/// Counts with `filter` and `count`.
struct Count;

impl Leaf for Count {
    fn leaf<E: Entry>(&mut self, base: u32, entries: &[E]) -> u32 {
        entries.iter().filter(|e| e.offset().checked_add(base).is_some()).count() as u32
    }
}

/// Counts each sum that fits.
struct Every;

impl Leaf for Every {
    fn leaf<E: Entry>(&mut self, base: u32, entries: &[E]) -> u32 {
        count(base, entries)
    }
}

/// Stores by an index, which is tested.
struct Index<'a>(&'a mut [u32], usize);

impl Leaf for Index<'_> {
    fn leaf<E: Entry>(&mut self, base: u32, entries: &[E]) -> u32 {
        let mut at = self.1;
        for entry in entries {
            if let Some(sum) = entry.offset().checked_add(base) {
                self.0[at] = sum;
                at += 1;
            }
        }
        let kept = at - self.1;
        self.1 = at;
        kept as u32
    }
}

/// Copies in wide steps where the measuring walk dropped nothing, and stores by an index else.
struct Whole<'a>(Index<'a>, bool);

impl Leaf for Whole<'_> {
    fn leaf<E: Entry>(&mut self, base: u32, entries: &[E]) -> u32 {
        if !self.1 {
            return self.0.leaf(base, entries);
        }
        copy(base, entries, &mut self.0.0[self.0.1..][..entries.len()]);
        self.0.1 += entries.len();
        entries.len() as u32
    }
}

/// Counts the leaf's sums that fit, and copies in wide steps where all of them do.
struct ByLeaf<'a>(&'a mut [u32], usize);

impl Leaf for ByLeaf<'_> {
    fn leaf<E: Entry>(&mut self, base: u32, entries: &[E]) -> u32 {
        let kept = count(base, entries);
        let places = &mut self.0[self.1..][..kept as usize];
        if places.len() == entries.len() {
            copy(base, entries, places);
        } else {
            for (place, sum) in places.iter_mut().zip(entries.iter().filter_map(|e| e.offset().checked_add(base))) {
                *place = sum;
            }
        }
        self.1 += kept as usize;
        kept
    }
}

/// Copies sixteen at a time where all of them are kept.
struct Sixteen<'a>(&'a mut [u32], usize);

impl Leaf for Sixteen<'_> {
    fn leaf<E: Entry>(&mut self, base: u32, entries: &[E]) -> u32 {
        let before = self.1;
        for some in entries.chunks(16) {
            if some.len() == 16 && count(base, some) == 16 {
                copy(base, some, &mut self.0[self.1..][..16]);
                self.1 += 16;
            } else {
                for entry in some {
                    if let Some(sum) = entry.offset().checked_add(base) {
                        self.0[self.1] = sum;
                        self.1 += 1;
                    }
                }
            }
        }
        (self.1 - before) as u32
    }
}

fn once<L: Leaf>(image: &[u8], base: u32, budget: u32, list: u32, leaf: L) -> Result<Counts, Refusal> {
    let mut walk = Walk { image, base, budget, counts: NONE, leaf };
    walk.list(LEVELS, list)?;
    Ok(walk.counts)
}

/// Two walks: one that counts with the first, and one that fills with the second.
macro_rules! walks {
    ($name:ident, $walk:path, $measure:expr, |$out:ident, $counts:ident| $fill:expr) => {
        pub fn $name(image: &[u8], base: u32, count: u32, list: u32, budget: u32, $out: &mut [u32]) -> Result<Counts, Refusal> {
            if !judge(count, budget)? {
                return Ok(NONE);
            }
            let $counts = $walk(image, base, budget, list, $measure)?;
            room(&$counts, $out.len())?;
            $walk(image, base, budget, list, $fill)
        }
    };
}

walks!(direct, once, Count, |out, _counts| Index(out, 0));
walks!(by_leaf, once, Every, |out, _counts| ByLeaf(out, 0));
walks!(sixteen, once, Every, |out, _counts| Sixteen(out, 0));
walks!(recursive, once, Measure, |out, counts| filling(&counts, out));
walks!(two_walks, walk, Every, |out, counts| Whole(Index(out, 0), counts.kept == counts.entries));
