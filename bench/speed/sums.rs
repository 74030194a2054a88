//! The checksum by columns in plain Rust, in the forms that were tried. `measure variants` times them.
use crate::plain::{mend, SHORT};

/// The checksum, where `columns` gives the XOR of each of the four.
fn joined(bytes: &[u8], columns: impl Fn(&[u8; 508]) -> [u8; 4]) -> Result<u32, u32> {
    let bytes = bytes.first_chunk().ok_or(SHORT)?;
    Ok(mend(u32::from_le_bytes(columns(bytes))))
}

/// Lays the bytes from `half` on upon the first.
fn fold(sheet: &mut [u8], half: usize) {
    let (upper, lower) = sheet.split_at_mut(half);
    for (x, y) in upper.iter_mut().zip(lower) {
        *x ^= *y;
    }
}

/// One column after another.
pub fn four_loops(bytes: &[u8]) -> Result<u32, u32> {
    joined(bytes, |b| [0, 1, 2, 3].map(|c| b.iter().skip(c).step_by(4).fold(0, |x, y| x ^ y)))
}

/// Row after row, with a number for each column.
pub fn rows(bytes: &[u8]) -> Result<u32, u32> {
    joined(bytes, |b| {
        let (mut first, mut second, mut third, mut fourth) = (0, 0, 0, 0);
        for row in b.as_chunks::<4>().0 {
            first ^= row[0];
            second ^= row[1];
            third ^= row[2];
            fourth ^= row[3];
        }
        [first, second, third, fourth]
    })
}

/// So many rows side by side, then folded to one.
fn lines<const N: usize>(bytes: &[u8]) -> Result<u32, u32> {
    joined(bytes, |b| {
        let (lines, rest) = b.as_chunks::<N>();
        let mut sheet = [0; N];
        for line in lines {
            for i in 0..N {
                sheet[i] ^= line[i];
            }
        }
        for i in 0..rest.len() {
            sheet[i] ^= rest[i];
        }
        let mut half = N / 2;
        while half >= 4 {
            fold(&mut sheet[..2 * half], half);
            half /= 2;
        }
        [sheet[0], sheet[1], sheet[2], sheet[3]]
    })
}

/// The lines of a usual dump.
pub fn lines_of_16(bytes: &[u8]) -> Result<u32, u32> {
    lines::<16>(bytes)
}

pub fn lines_of_64(bytes: &[u8]) -> Result<u32, u32> {
    lines::<64>(bytes)
}

/// As the Rattle does it.
pub fn sheet(bytes: &[u8]) -> Result<u32, u32> {
    joined(bytes, |b| {
        let mut sheet = [0; 512];
        sheet[..508].copy_from_slice(b);
        for rows in [64, 32, 16, 8, 4, 2, 1] {
            fold(&mut sheet[..8 * rows], 4 * rows);
        }
        [sheet[0], sheet[1], sheet[2], sheet[3]]
    })
}
