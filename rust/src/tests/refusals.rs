//! The paper's small input of every refusal, and what is just accepted.

use super::{ask, lent, packed, Lists, FIRST, TOP};
use crate::{
    decode_delivery, downgrade_delivery, encode_delivery, pack_expression, run, unpack_expression, upgrade_delivery, Call,
    Refusal, ALL_DELIVERED,
};

pub(super) const DEPTH_13: [u8; 9] = [0x84, 0x21, 0x08, 0x42, 0x10, 0x84, 0x21, 0x00, 0x00];

/// A union of 8: five unions of 8 times list 0, of which the last has so many, and three times list 0.
pub(super) fn wide_row(last: u8) -> Vec<u8> {
    let mut row = vec![136];
    for members in [8, 8, 8, 8, last] {
        row.push(128 + members);
        row.extend(vec![0; members.into()]);
    }
    row.extend([0; 3]);
    row
}

/// The row of 49 nodes packed, bit by bit: 10 111 for a union of 8, 00 00000 for a list.
pub(super) fn wide_packed() -> Vec<u8> {
    let bits: String = wide_row(8)
        .iter()
        .map(|node| if *node == 0 { "0000000" } else { "10111" })
        .collect();
    let bits = format!("{bits:0<width$}", width = bits.len().next_multiple_of(8));
    (0..bits.len() / 8)
        .map(|i| u8::from_str_radix(&bits[8 * i..][..8], 2).unwrap())
        .collect()
}

fn unpack(bytes: &[u8], lists: usize) -> Result<usize, Refusal> {
    let mut row = [77; 48];
    let result = unpack_expression(bytes, lists, ALL_DELIVERED, &mut row);
    assert!(result.is_ok() || row == [77; 48], "a refusal wrote");
    result
}

fn pack(row: &[u8], lists: usize) -> Result<usize, Refusal> {
    let mut bytes = [77; 48];
    let result = pack_expression(row, lists, ALL_DELIVERED, &mut bytes);
    assert!(result.is_ok() || bytes == [77; 48], "a refusal wrote");
    result
}

fn decode(bytes: &[u8], room: usize, lists: usize) -> Option<Refusal> {
    let (mut numbers, mut ends) = (vec![77; room], vec![77; lists]);
    let result = decode_delivery(bytes, &mut numbers, &mut ends);
    let same = numbers == vec![77; room] && ends == vec![77; lists];
    assert!(result.is_ok() || same, "a refusal wrote");
    result.err()
}

/// One of the two moves, into so many bytes.
fn moved(to: fn(&[u8], &mut [u8]) -> Result<usize, Refusal>, bytes: &[u8], room: usize) -> Result<usize, Refusal> {
    let mut row = vec![77; room];
    let result = to(bytes, &mut row);
    assert!(result.is_ok() || row == vec![77; room], "a refusal wrote");
    result
}

fn encode(numbers: &[u32], ends: &[u32], room: usize) -> Result<usize, Refusal> {
    let mut bytes = vec![77; room];
    let result = encode_delivery(numbers, ends, ALL_DELIVERED, &mut bytes);
    assert!(result.is_ok() || bytes == vec![77; room], "a refusal wrote");
    result
}

#[test]
fn expressions() {
    assert_eq!(unpack(&[], 1), Err(Refusal::EndsEarly));
    assert_eq!(pack(&[], 1), Err(Refusal::EndsEarly));
    assert_eq!(pack(&wide_row(8), 1), Err(Refusal::TooManyNodes));
    assert_eq!(unpack(&DEPTH_13, 1), Err(Refusal::TooDeep));
    assert_eq!(pack(&[[129; 12].as_slice(), &[0]].concat(), 1), Err(Refusal::TooDeep));
    assert_eq!(unpack(&[0x02], 1), Err(Refusal::NoSuchList));
    assert_eq!(pack(&[1], 1), Err(Refusal::NoSuchList));
    assert_eq!(unpack(&[0x01], 1), Err(Refusal::LeftOver));
    assert_eq!(unpack(&[0x00, 0x00], 1), Err(Refusal::LeftOver));
    assert_eq!(pack(&[0, 0], 1), Err(Refusal::LeftOver));
    assert_eq!(pack(&[32], 1), Err(Refusal::UnknownByte));
    for lists in [0, 33, usize::MAX] {
        assert_eq!(unpack(&[0x00], lists), Err(Refusal::NumberOfLists));
        assert_eq!(pack(&[0], lists), Err(Refusal::NumberOfLists));
    }
    assert_eq!(
        unpack_expression(&[0x40, 0x01], 2, ALL_DELIVERED, &mut [0; 2]),
        Err(Refusal::RowTooShort)
    );
    assert_eq!(
        pack_expression(&[64, 0, 1], 2, ALL_DELIVERED, &mut [0; 1]),
        Err(Refusal::RowTooShort)
    );
}

#[test]
fn a_49th_node_packed() {
    assert_eq!(unpack(&wide_packed(), 1), Err(Refusal::TooManyNodes));
}

#[test]
fn expressions_just_accepted() {
    assert_eq!(pack(&wide_row(7), 1), Ok(41));
    assert_eq!(unpack(&packed(&wide_row(7)), 1), Ok(48));
    let deep = [[129; 11].as_slice(), &[31]].concat();
    assert_eq!(unpack(&packed(&deep), 32), Ok(12));
}

/// The table's bytes, which are the old form's.
#[test]
fn old_deliveries() {
    let upgrade = |bytes: &[u8], room| moved(upgrade_delivery, bytes, room);
    let three = [0x04, 0x00, 0x0C, 0x00, 0x00, 0x00, 0x08, 0x08];
    assert_eq!(upgrade(&[], 99), Err(Refusal::EndsEarly));
    assert_eq!(upgrade(&three[..7], 99), Err(Refusal::EndsEarly));
    assert_eq!(upgrade(&[0x00], 99), Err(Refusal::NumberOfLists));
    assert_eq!(upgrade(&[0x84], 99), Err(Refusal::NumberOfLists));
    let passes_top = [0x04, 0x00, 0x0B, 0xFF, 0xFF, 0xFF, 0xFC, 0x00];
    assert_eq!(upgrade(&passes_top, 99), Err(Refusal::GapPassesTop));
    let wide = [0x04, 0x00, 0x08, 0x00, 0x00, 0x00, 0x08, 0x20];
    assert_eq!(upgrade(&wide, 99), Err(Refusal::WidthNotLeast));
    assert_eq!(upgrade(&[0x04, 0x00, 0x00, 0x00], 99), Err(Refusal::LeftOver));
    assert_eq!(upgrade(&[0x04, 0x00, 0x01], 99), Err(Refusal::LeftOver));
    assert_eq!(upgrade(&three, 7), Err(Refusal::RowTooShort));
    assert_eq!(upgrade(&three, 8), Ok(8));
}

/// The same in the form that is read and written.
#[test]
fn deliveries() {
    let downgrade = |bytes: &[u8], room| moved(downgrade_delivery, bytes, room);
    let both = |bytes: &[u8]| [decode(bytes, 9, 99), downgrade(bytes, 99).err()];
    let three = [0x06, 0x00, 0x06, 0x00, 0x00, 0x00, 0x04, 0x04];
    assert_eq!(both(&[]), [Some(Refusal::EndsEarly); 2]);
    assert_eq!(both(&three[..7]), [Some(Refusal::EndsEarly); 2]);
    assert_eq!(both(&[0x00]), [Some(Refusal::NumberOfLists); 2]);
    assert_eq!(both(&[0x86]), [Some(Refusal::NumberOfLists); 2]);
    let passes_top = [0x06, 0x00, 0x05, 0xFF, 0xFF, 0xFF, 0xFE, 0x00];
    assert_eq!(both(&passes_top), [Some(Refusal::GapPassesTop); 2]);
    let wide = [0x06, 0x00, 0x04, 0x00, 0x00, 0x00, 0x04, 0x10];
    assert_eq!(both(&wide), [Some(Refusal::WidthNotLeast); 2]);
    assert_eq!(both(&[0x06, 0x00, 0x00, 0x00]), [Some(Refusal::LeftOver); 2]);
    assert_eq!(both(&[0x06, 0x00, 0x01]), [Some(Refusal::LeftOver); 2]);
    assert_eq!(both(&[0x06, 0x00, 0x02]), [Some(Refusal::EndsEarly); 2]);
    assert_eq!(both(&[0x05]), [Some(Refusal::LeftOver); 2]);
    assert_eq!(both(&[0x04, 0x00]), [Some(Refusal::LeftOver); 2]);
    assert_eq!(decode(&three, 2, 1), Some(Refusal::RowTooShort));
    assert_eq!(decode(&three, 3, 0), Some(Refusal::RowTooShort));
    assert_eq!(decode(&three, 3, 1), None);
    // 19 behind all tests of reading, ahead of 6.
    assert_eq!(decode(&[0x04], 0, 1), None);
    assert_eq!(downgrade(&[0x04], 0), Err(Refusal::DeliveryIncomplete));
    assert_eq!(downgrade(&three, 7), Err(Refusal::RowTooShort));
    assert_eq!(downgrade(&three, 8), Ok(8));
}

#[test]
fn lists() {
    assert_eq!(encode(&[], &[], 99), Err(Refusal::NumberOfLists));
    assert_eq!(encode(&[], &[0; 33], 99), Err(Refusal::NumberOfLists));
    assert_eq!(encode(&[1, 2], &[2, 1], 99), Err(Refusal::BadEnds));
    assert_eq!(encode(&[1, 2], &[3], 99), Err(Refusal::BadEnds));
    assert_eq!(encode(&[5, 5], &[2], 99), Err(Refusal::NotAscending));
    assert_eq!(encode(&[2, 3, 5], &[3], 7), Err(Refusal::RowTooShort));
    // 6 + 32 * (1 + 16) bits.
    assert_eq!(encode(&[], &[0; 32], 99), Ok(69));
}

#[test]
fn the_longest_list() {
    let numbers: Vec<u32> = (0..65_536).collect();
    assert_eq!(encode(&numbers, &[65_536], 20_000), Err(Refusal::BadEnds));
    // 6 + 1 + 16 + 32 + 5 bits, and 65,534 gaps of one bit.
    assert_eq!(encode(&numbers, &[65_535], 20_000), Ok(8_200));
}

#[test]
fn runs() {
    assert_eq!(ask(&[], &[0], 0, &[]).err(), Some(Refusal::NumberOfLists));
    assert_eq!(ask(&[&[5, 5]], &[0], 0, &[]).err(), Some(Refusal::NotAscending));
    assert_eq!(ask(&[FIRST], &[1], 0, &[]).err(), Some(Refusal::NoSuchList));
    assert_eq!(ask(&[FIRST], &[0], TOP + 1, &[]).err(), Some(Refusal::BadBookmark));
    assert!(ask(&[FIRST], &[0], TOP, &[Call::Next]).is_ok());
    let Lists { numbers, ends } = lent(&[FIRST]);
    for (codes, arguments, room) in [(1, 0, 9), (0, 1, 9), (2, 2, 1)] {
        let mut replies = vec![77; room];
        let result = run(
            &numbers,
            &ends,
            ALL_DELIVERED,
            &packed(&[0]),
            0,
            &vec![0; codes],
            &vec![0; arguments],
            &mut replies,
        );
        assert_eq!(result.err(), Some(Refusal::LengthsDiffer));
        assert_eq!(replies, vec![77; room]);
    }
}

#[test]
fn numbers_and_sentences() {
    assert!(Refusal::ALL.iter().map(|refusal| refusal.number()).eq(1..=21));
    let mut sentences = std::collections::HashSet::new();
    for refusal in Refusal::ALL {
        assert_eq!(Refusal::test(refusal.number()), Err(*refusal));
        assert!(sentences.insert(refusal.to_string()), "{refusal} is said twice");
    }
    assert_eq!(Refusal::test(0), Ok(()));
}

#[test]
#[should_panic(expected = "stands for nothing")]
fn a_number_that_stands_for_nothing() {
    let _ = Refusal::test(22);
}
