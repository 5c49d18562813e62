//! Deliveries, read and written, moved between the old form and the new one, and joined.

use std::collections::BTreeSet;

use super::bits::{Reader, Writer};
use super::lists::{accepted, lent, Each, Lists};
use super::Refused;

/// What stands ahead of a list's numbers: in the old form its count; in the new one a bit, and its count where that is 1.
#[derive(Debug, Clone, Copy, PartialEq, Eq)]
pub enum Form {
    Old,
    New,
}

/// How many places a row has; where none is lent, every number has one.
type Room = Option<usize>;

/// The lists of a delivery, into rows of so many places.
pub fn decode(bytes: &[u8], numbers_room: usize, ends_room: usize) -> Result<Lists, Refused> {
    read(bytes, Form::New, Some(numbers_room), Some(ends_room)).map(|lists| lent(&lists))
}

/// The lists of stored bytes in either form, no row being lent.
pub fn stored(bytes: &[u8], form: Form) -> Result<Each, Refused> {
    read(bytes, form, None, None)
}

fn read(bytes: &[u8], form: Form, numbers_room: Room, ends_room: Room) -> Result<Each, Refused> {
    let mut bits = Reader::new(bytes);
    let count = bits.take(6)? as usize;
    if count == 0 || count > 32 {
        return Err(7);
    }
    if ends_room.is_some_and(|room| count > room) {
        return Err(6);
    }
    let mut lists = Each::new();
    for _ in 0..count {
        let used: usize = lists.iter().flatten().map(Vec::len).sum();
        let came = form == Form::Old || bits.take(1)? == 1;
        lists.push(if came {
            Some(read_list(&mut bits, numbers_room.map(|room| room - used))?)
        } else {
            None
        });
    }
    bits.end()?;
    Ok(lists)
}

fn read_list(bits: &mut Reader, room: Room) -> Result<Vec<u32>, Refused> {
    let count = bits.take(16)? as usize;
    if room.is_some_and(|room| count > room) {
        return Err(6);
    }
    let mut list = Vec::new();
    if count == 0 {
        return Ok(list);
    }
    let mut number = bits.take(32)?;
    list.push(number as u32);
    if count == 1 {
        return Ok(list);
    }
    let width = bits.take(5)? as u32 + 1;
    let mut largest = 0;
    for _ in 1..count {
        let gap_less_1 = bits.take(width as usize)?;
        number += gap_less_1 + 1;
        list.push(u32::try_from(number).map_err(|_| 8u32)?);
        largest = largest.max(gap_less_1);
    }
    if width != least_width(largest) {
        return Err(9);
    }
    Ok(list)
}

/// The least width, at least 1, in which a field holds this value.
pub fn least_width(value: u64) -> u32 {
    (1..=32).find(|width| value < 1 << width).expect("a gap has at most 32 bits")
}

/// One delivered list's fields from its count on, packed in the least width.
pub fn write_list(bits: &mut Writer, list: &[u32]) {
    bits.put(list.len() as u64, 16);
    let Some(first) = list.first() else { return };
    bits.put(u64::from(*first), 32);
    let gaps: Vec<u64> = list.windows(2).map(|pair| u64::from(pair[1] - pair[0]) - 1).collect();
    if let Some(largest) = gaps.iter().max() {
        let width = least_width(*largest);
        bits.put(u64::from(width) - 1, 5);
        gaps.iter().for_each(|gap| bits.put(*gap, width));
    }
}

/// Lists in a form, whatever their number.
pub fn write(lists: &Each, form: Form) -> Vec<u8> {
    let mut bits = Writer::default();
    bits.put(lists.len() as u64, 6);
    for list in lists {
        if form == Form::New {
            bits.put(u64::from(list.is_some()), 1);
        }
        if let Some(list) = list {
            write_list(&mut bits, list);
        }
    }
    bits.bytes()
}

fn fitting(bytes: Vec<u8>, room: usize) -> Result<Vec<u8>, Refused> {
    if bytes.len() > room {
        return Err(6);
    }
    Ok(bytes)
}

/// Lists as a delivery, into so many bytes.
pub fn encode(lists: &Lists, room: usize) -> Result<Vec<u8>, Refused> {
    fitting(write(&accepted(lists)?, Form::New), room)
}

/// Stored bytes of the old form in the new one, into so many bytes: every list was delivered.
pub fn upgrade(old: &[u8], room: usize) -> Result<Vec<u8>, Refused> {
    fitting(write(&stored(old, Form::Old)?, Form::New), room)
}

/// A delivery in the old form, into so many bytes: that has no way to say that a list was not delivered.
pub fn downgrade(bytes: &[u8], room: usize) -> Result<Vec<u8>, Refused> {
    let lists = stored(bytes, Form::New)?;
    if lists.contains(&None) {
        return Err(19);
    }
    fitting(write(&lists, Form::Old), room)
}

/// A full delivery and a daily one made one, into so many bytes.
pub fn join(full: &[u8], daily: &[u8], room: usize) -> Result<Vec<u8>, Refused> {
    let (full, daily) = (stored(full, Form::New)?, stored(daily, Form::New)?);
    if full.len() != daily.len() {
        return Err(20);
    }
    let joined = unions(&full, &daily);
    if joined.iter().flatten().any(|list| list.len() > 65_535) {
        return Err(21);
    }
    fitting(write(&joined, Form::New), room)
}

/// The union of both lists of each number, as long as both deliveries have one; where neither came, none.
pub fn unions(full: &Each, daily: &Each) -> Each {
    let union = |(one, other): (&Option<Vec<u32>>, &Option<Vec<u32>>)| {
        let numbers: BTreeSet<u32> = one.iter().chain(other).flatten().copied().collect();
        (one.is_some() || other.is_some()).then(|| numbers.into_iter().collect())
    };
    full.iter().zip(daily).map(union).collect()
}
