//! The level book: rows are sets of levels, so the order is tested and the bounds are found on whole sets.

use super::{refusal, Refusal};

pub const MAX_LEVELS: usize = 16;

type Rows = [u16; MAX_LEVELS];
type Table = [[u8; MAX_LEVELS]; MAX_LEVELS];

pub struct Book {
    pub count: usize,
    /// For each level the levels that it is at or below.
    above: Rows,
    join: Table,
    meet: Table,
    pub top: u8,
    pub bottom: u8,
}

impl Book {
    pub fn at_or_below(&self, i: u8, j: u8) -> bool {
        self.above[i as usize] >> j & 1 == 1
    }

    pub fn join(&self, i: u8, j: u8) -> u8 {
        self.join[i as usize][j as usize]
    }

    pub fn meet(&self, i: u8, j: u8) -> u8 {
        self.meet[i as usize][j as usize]
    }
}

pub fn load(bytes: &[u8]) -> Result<Book, Refusal> {
    let (count, above) = read(bytes).ok_or(refusal(1, 0))?;
    let all = u16::MAX >> (MAX_LEVELS - count);
    if let Some(i) = (0..count).find(|&i| is_faulty(&above, count, all, i)) {
        return Err(refusal(2, i));
    }
    let below = transposed(&above, count);
    let (join, meet) = bounds(&above, &below, count)?;
    // Every pair has a join and a meet, so there is a greatest level and a least one.
    let equal_to_all = |rows: &Rows| rows.iter().position(|&row| row == all).unwrap_or(0) as u8;
    Ok(Book {
        count,
        above,
        join,
        meet,
        top: equal_to_all(&below),
        bottom: equal_to_all(&above),
    })
}

fn read(bytes: &[u8]) -> Option<(usize, Rows)> {
    let (&first, rest) = bytes.split_first()?;
    let count = first as usize;
    if !(1..=MAX_LEVELS).contains(&count) || rest.len() != 2 * count {
        return None;
    }
    let mut rows = [0; MAX_LEVELS];
    for (row, pair) in rows.iter_mut().zip(rest.chunks_exact(2)) {
        *row = u16::from_be_bytes([pair[0], pair[1]]);
    }
    Some((count, rows))
}

/// Refusal 2, for level i.
fn is_faulty(above: &Rows, count: usize, all: u16, i: usize) -> bool {
    let row = above[i];
    if row >> i & 1 == 0 || row & !all != 0 {
        return true;
    }
    (0..count).any(|j| {
        let related = row >> j & 1 == 1;
        let both_ways = j != i && above[j] >> i & 1 == 1;
        let gap = above[j] & all & !row != 0;
        related && (both_ways || gap)
    })
}

fn transposed(above: &Rows, count: usize) -> Rows {
    let mut below = [0; MAX_LEVELS];
    for i in 0..count {
        for (j, set) in below.iter_mut().enumerate() {
            *set |= (above[i] >> j & 1) << i;
        }
    }
    below
}

/// The tables of joins and meets, or refusal 3.
fn bounds(above: &Rows, below: &Rows, count: usize) -> Result<(Table, Table), Refusal> {
    let mut join = [[0; MAX_LEVELS]; MAX_LEVELS];
    let mut meet = [[0; MAX_LEVELS]; MAX_LEVELS];
    for i in 0..count {
        for j in i..count {
            let upper = bound(above, above[i] & above[j]);
            let lower = bound(below, below[i] & below[j]);
            let (Some(upper), Some(lower)) = (upper, lower) else {
                return Err(refusal(3, MAX_LEVELS * i + j));
            };
            (join[i][j], join[j][i]) = (upper, upper);
            (meet[i][j], meet[j][i]) = (lower, lower);
        }
    }
    Ok((join, meet))
}

/// The level of a set of common bounds that is related to all of the set.
fn bound(rows: &Rows, common: u16) -> Option<u8> {
    let mut left = common;
    while left != 0 {
        let k = left.trailing_zeros();
        if common & !rows[k as usize] == 0 {
            return Some(k as u8);
        }
        left &= left - 1;
    }
    None
}
