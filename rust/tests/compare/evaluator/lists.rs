//! Lists as they are lent: all numbers in one row, one end for each list, and a word that says which were delivered.

use std::ops::Range;

use super::Refused;

/// All that is said of lists, in one value.
#[derive(Debug, Clone, PartialEq, Eq, Default)]
pub struct Lists {
    pub numbers: Vec<u32>,
    pub ends: Vec<u32>,
    pub word: u32,
}

/// The numbers of each list, or that it was not delivered.
pub type Each = Vec<Option<Vec<u32>>>;

/// Whether the word says that list k was delivered: list 0 has the most significant of the 32 bits.
pub fn delivered(word: u32, k: usize) -> bool {
    word / 2u32.pow(31 - k as u32) % 2 == 1
}

/// Lists one after the other, their ends, and their word, in which the bits of lists that are not there are 0.
pub fn lent(lists: &[Option<Vec<u32>>]) -> Lists {
    let mut lent = Lists::default();
    for (k, list) in lists.iter().enumerate() {
        lent.numbers.extend(list.iter().flatten());
        lent.ends.push(lent.numbers.len() as u32);
        // Of more than 32 lists the last have no bit.
        if list.is_some() && k < 32 {
            lent.word += 1 << (31 - k);
        }
    }
    lent
}

/// Where each list stands, if neither 7 nor 10 applies.
fn ranges(lists: &Lists) -> Result<Vec<Range<usize>>, Refused> {
    if !(1..=32).contains(&lists.ends.len()) {
        return Err(7);
    }
    let mut start = 0;
    let mut ranges = Vec::new();
    for (k, end) in lists.ends.iter().map(|end| *end as usize).enumerate() {
        if end < start || end > lists.numbers.len() || end - start > 65_535 {
            return Err(10);
        }
        if end != start && !delivered(lists.word, k) {
            return Err(10);
        }
        ranges.push(start..end);
        start = end;
    }
    Ok(ranges)
}

/// The same, if 11 does not apply either.
fn ascending(lists: &Lists) -> Result<Vec<Range<usize>>, Refused> {
    let ranges = ranges(lists)?;
    for range in &ranges {
        if !lists.numbers[range.clone()].windows(2).all(|pair| pair[0] < pair[1]) {
            return Err(11);
        }
    }
    Ok(ranges)
}

/// The lists themselves: 7, 10, 11.
pub fn accepted(lists: &Lists) -> Result<Each, Refused> {
    let ranges = ascending(lists)?.into_iter().enumerate();
    let list = |(k, range): (usize, Range<usize>)| delivered(lists.word, k).then(|| lists.numbers[range].to_vec());
    Ok(ranges.map(list).collect())
}

/// Where list k stands; the empty part at the start where it does not. One that was not delivered has its own place.
pub fn part(lists: &Lists, k: usize) -> Range<usize> {
    ascending(lists)
        .ok()
        .and_then(|ranges| ranges.get(k).cloned())
        .unwrap_or(0..0)
}
