//! Deliveries read, written and moved between the two forms by idiomatic Rust, with the engine's refusals and their order.

use super::same_steps::delivered;
use std::ops::Range;

const LONGEST: usize = 65_535;

/// Takes fields off a byte row, most significant bit first.
struct BitReader<'a> {
    bytes: &'a [u8],
    bit: usize,
}

impl BitReader<'_> {
    /// A field of 1 to 32 bits, or refusal 1 where the bits run out.
    fn field(&mut self, width: u32) -> Result<u32, u32> {
        let (byte, skip) = (self.bit / 8, (self.bit % 8) as u32);
        if self.bit + width as usize > self.bytes.len() * 8 {
            return Err(1);
        }
        let word = match self.bytes[byte..].first_chunk() {
            Some(chunk) => u64::from_be_bytes(*chunk),
            None => last_word(&self.bytes[byte..]),
        };
        self.bit += width as usize;
        Ok((word << skip >> (64 - width)) as u32)
    }

    /// Fewer than eight bits are left, and all are 0.
    fn at_end(&mut self) -> bool {
        match self.bytes.len() * 8 - self.bit {
            0 => true,
            left @ 1..=7 => self.field(left as u32) == Ok(0),
            _ => false,
        }
    }
}

fn last_word(rest: &[u8]) -> u64 {
    let mut chunk = [0; 8];
    chunk[..rest.len()].copy_from_slice(rest);
    u64::from_be_bytes(chunk)
}

/// The least width that holds the largest gap minus 1, and at least 1.
fn width_of(largest: u32) -> u32 {
    (32 - largest.leading_zeros()).max(1)
}

/// Reads one delivered list from its count on, handing each number to `put`; how many.
fn read_list(bits: &mut BitReader, room: usize, put: &mut impl FnMut(u32)) -> Result<usize, u32> {
    let count = bits.field(16)? as usize;
    if count > room {
        return Err(6);
    }
    if count == 0 {
        return Ok(0);
    }
    let mut last = bits.field(32)?;
    put(last);
    if count == 1 {
        return Ok(1);
    }
    let width = bits.field(5)? + 1;
    let mut largest = 0;
    for _ in 1..count {
        let gap = bits.field(width)?;
        last = last.checked_add(gap).and_then(|x| x.checked_add(1)).ok_or(8u32)?;
        largest = largest.max(gap);
        put(last);
    }
    if width != width_of(largest) {
        return Err(9);
    }
    Ok(count)
}

/// What was read: the word, how many lists and how many numbers.
pub type Read = (u32, usize, usize);

/// Reads a whole delivery, handing on each number and each end.
fn read_all(
    bytes: &[u8],
    rooms: (usize, usize),
    mut put_number: impl FnMut(u32),
    mut put_end: impl FnMut(u32),
) -> Result<Read, u32> {
    let mut bits = BitReader { bytes, bit: 0 };
    let lists = bits.field(6)? as usize;
    if lists == 0 || lists > 32 {
        return Err(7);
    }
    if lists > rooms.1 {
        return Err(6);
    }
    let (mut word, mut total) = (0, 0);
    for list in 0..lists {
        if bits.field(1)? == 1 {
            word |= 1 << (31 - list);
            total += read_list(&mut bits, rooms.0 - total, &mut put_number)?;
        }
        put_end(total as u32);
    }
    if !bits.at_end() {
        return Err(5);
    }
    Ok((word, lists, total))
}

/// Reads a delivery into lent rows. A refusal leaves the rows as they were, so a first walk only tests.
pub fn decode(bytes: &[u8], numbers: &mut [u32], ends: &mut [u32]) -> Result<Read, u32> {
    let rooms = (numbers.len(), ends.len());
    read_all(bytes, rooms, |_| (), |_| ())?;
    let (mut numbers, mut ends) = (numbers.iter_mut(), ends.iter_mut());
    read_all(
        bytes,
        rooms,
        |x| {
            if let Some(place) = numbers.next() {
                *place = x;
            }
        },
        |x| {
            if let Some(place) = ends.next() {
                *place = x;
            }
        },
    )
}

/// Puts fields behind one another into a byte row that is long enough.
struct BitWriter<'a> {
    bytes: &'a mut [u8],
    written: usize,
    held: u64,
    holds: u32,
}

impl<'a> BitWriter<'a> {
    fn new(bytes: &'a mut [u8]) -> Self {
        BitWriter {
            bytes,
            written: 0,
            held: 0,
            holds: 0,
        }
    }

    /// A field of 1 to 32 bits. Four bytes are written as soon as they are full.
    fn field(&mut self, value: u32, width: u32) {
        self.held = self.held << width | u64::from(value);
        self.holds += width;
        if self.holds >= 32 {
            self.holds -= 32;
            let word = ((self.held >> self.holds) as u32).to_be_bytes();
            self.bytes[self.written..self.written + 4].copy_from_slice(&word);
            self.written += 4;
        }
    }

    /// Writes what is held, filled up with zero bits.
    fn finish(self) -> usize {
        let rest = ((self.held << (32 - self.holds)) as u32).to_be_bytes();
        let size = self.holds.div_ceil(8) as usize;
        self.bytes[self.written..self.written + size].copy_from_slice(&rest[..size]);
        self.written + size
    }
}

/// The lists as parts of the lent row, or 7 or 10.
fn parts<'a>(numbers: &'a [u32], ends: &[u32], word: u32) -> Result<Vec<&'a [u32]>, u32> {
    if ends.is_empty() || ends.len() > 32 {
        return Err(7);
    }
    let mut start = 0;
    let part = |(k, &end): (usize, &u32)| {
        let list = numbers.get(start..end as usize).filter(|list| list.len() <= LONGEST);
        start = end as usize;
        list.filter(|list| list.is_empty() || delivered(word, k)).ok_or(10)
    };
    ends.iter().enumerate().map(part).collect()
}

/// The width for a list's gaps (of no use below two numbers), or 11.
fn gap_width(list: &[u32]) -> Result<u32, u32> {
    let mut largest = 0;
    for pair in list.windows(2) {
        if pair[1] <= pair[0] {
            return Err(11);
        }
        largest = largest.max(pair[1] - pair[0] - 1);
    }
    Ok(width_of(largest))
}

fn bits_of(list: &[u32], width: u32) -> usize {
    match list.len() {
        0 => 16,
        1 => 48,
        n => 53 + (n - 1) * width as usize,
    }
}

fn write_list(bits: &mut BitWriter, list: &[u32], width: u32) {
    bits.field(list.len() as u32, 16);
    if let Some(&first) = list.first() {
        bits.field(first, 32);
    }
    if list.len() > 1 {
        bits.field(width - 1, 5);
    }
    for pair in list.windows(2) {
        bits.field(pair[1] - pair[0] - 1, width);
    }
}

/// Writes a delivery into a lent row; how many bytes.
pub fn encode(numbers: &[u32], ends: &[u32], word: u32, bytes: &mut [u8]) -> Result<usize, u32> {
    let lists = parts(numbers, ends, word)?;
    let widths = lists.iter().map(|list| gap_width(list)).collect::<Result<Vec<_>, _>>()?;
    let came = || lists.iter().zip(&widths).enumerate().filter(|(k, _)| delivered(word, *k));
    let size: usize = came().map(|(_, (list, &width))| bits_of(list, width)).sum();
    if (6 + lists.len() + size).div_ceil(8) > bytes.len() {
        return Err(6);
    }
    let mut bits = BitWriter::new(bytes);
    bits.field(lists.len() as u32, 6);
    for (k, (list, &width)) in lists.iter().zip(&widths).enumerate() {
        bits.field(delivered(word, k).into(), 1);
        if delivered(word, k) {
            write_list(&mut bits, list, width);
        }
    }
    Ok(bits.finish())
}

/// Reads a whole stored delivery, in the new form or in the old one; where each list's bits stand, from its count on, or `None`
/// for one that was not delivered.
fn lists_of(bytes: &[u8], new: bool) -> Result<Vec<Option<Range<usize>>>, u32> {
    let mut bits = BitReader { bytes, bit: 0 };
    let count = bits.field(6)?;
    if count == 0 || count > 32 {
        return Err(7);
    }
    let mut lists = Vec::with_capacity(count as usize);
    for _ in 0..count {
        if new && bits.field(1)? == 0 {
            lists.push(None);
            continue;
        }
        let start = bits.bit;
        read_list(&mut bits, LONGEST, &mut |_| ())?;
        lists.push(Some(start..bits.bit));
    }
    if !bits.at_end() {
        return Err(5);
    }
    Ok(lists)
}

/// Copies bits, four bytes at a time.
fn copy(bytes: &[u8], from: Range<usize>, to: &mut BitWriter) -> Result<(), u32> {
    let mut bits = BitReader { bytes, bit: from.start };
    while bits.bit + 32 <= from.end {
        to.field(bits.field(32)?, 32);
    }
    let left = (from.end - bits.bit) as u32;
    if left > 0 {
        to.field(bits.field(left)?, left);
    }
    Ok(())
}

/// The lists of stored bytes in the new form or the old one, if all were delivered and they fit; how many bytes.
fn store(bytes: &[u8], lists: &[Option<Range<usize>>], new: bool, to: &mut [u8]) -> Result<usize, u32> {
    let lists = lists.iter().cloned().collect::<Option<Vec<_>>>().ok_or(19u32)?;
    let size: usize = lists.iter().map(|list| list.len() + usize::from(new)).sum();
    if (6 + size).div_ceil(8) > to.len() {
        return Err(6);
    }
    let mut bits = BitWriter::new(to);
    bits.field(lists.len() as u32, 6);
    for list in lists {
        if new {
            bits.field(1, 1);
        }
        copy(bytes, list, &mut bits)?;
    }
    Ok(bits.finish())
}

/// Moves a stored delivery from the old form to the new one.
pub fn upgrade(old: &[u8], delivery: &mut [u8]) -> Result<usize, u32> {
    store(old, &lists_of(old, false)?, true, delivery)
}

/// Moves a delivery back to the old form.
pub fn downgrade(delivery: &[u8], old: &mut [u8]) -> Result<usize, u32> {
    store(delivery, &lists_of(delivery, true)?, false, old)
}
