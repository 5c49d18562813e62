//! One change to a list, with the row of members kept current.

use super::{lent, packed, Lists, FIRST, FOURTH};
use crate::Change::{self, Add, Remove};
use crate::{ffi, members, update, Refusal, ALL_DELIVERED};

const DIFFERENCE: &[u8] = &[64, 0, 1];
const UNION: &[u8] = &[130, 0, 1];
/// What stands in a row's free places: this, and from there on.
const FREE: u32 = 77;

/// What a console holds.
#[derive(Debug, Clone, PartialEq)]
struct Console {
    numbers: Vec<u32>,
    ends: Vec<u32>,
    members: Vec<u32>,
    count: usize,
}

/// Lists and the members of an expression over them, with so many free places behind the numbers and behind the members.
fn console(lists: &[&[u32]], row: &[u8], free: [usize; 2]) -> Console {
    let Lists { mut numbers, ends } = lent(lists);
    let mut shown: Vec<u32> = members(&numbers, &ends, ALL_DELIVERED, &packed(row), 0, 100)
        .unwrap()
        .collect();
    let count = shown.len();
    numbers.extend((FREE..).take(free[0]));
    shown.extend((FREE..).take(free[1]));
    Console {
        numbers,
        ends,
        members: shown,
        count,
    }
}

impl Console {
    /// The change, which if it is refused has changed nothing.
    fn change(&mut self, row: &[u8], list: usize, change: Change) -> Result<(), Refusal> {
        let before = self.clone();
        let Console {
            numbers,
            ends,
            members,
            count,
        } = self;
        let result = update(numbers, ends, ALL_DELIVERED, &packed(row), list, change, members, count);
        assert!(result.is_ok() || *self == before, "a refusal wrote");
        result
    }

    /// The same by the C call: any byte but 0 adds.
    fn change_raw(&mut self, row: &[u8], list: usize, number: u32, add: u8) -> u32 {
        let Console {
            numbers,
            ends,
            members,
            count,
        } = self;
        ffi::update(numbers, ends, ALL_DELIVERED, &packed(row), list, number, add, members, count)
    }
}

#[test]
fn added_to_the_first_list() {
    let mut held = console(&[&[2, 5], &[], &[3, 5]], DIFFERENCE, [2, 2]);
    assert_eq!(held.change(DIFFERENCE, 0, Add(3)), Ok(()));
    let expected = Console {
        numbers: vec![2, 3, 5, 3, 5, FREE + 1],
        ends: vec![3, 3, 5],
        members: vec![2, 3, 5, FREE + 1],
        count: 3,
    };
    assert_eq!(held, expected);
}

#[test]
fn removed_from_the_first_list() {
    let mut held = console(&[&[2, 3, 5], &[], &[3, 5]], DIFFERENCE, [1, 1]);
    assert_eq!(held.change(DIFFERENCE, 0, Remove(2)), Ok(()));
    // The places that came free hold what they held.
    let expected = Console {
        numbers: vec![3, 5, 3, 5, 5, FREE],
        ends: vec![2, 2, 4],
        members: vec![3, 5, 5, FREE],
        count: 2,
    };
    assert_eq!(held, expected);
}

#[test]
fn withdrawn_and_granted_again() {
    let mut held = console(&[FIRST, FOURTH], DIFFERENCE, [1, 0]);
    let before = held.clone();
    assert_eq!(held.members, [5, 6, 8]);
    assert_eq!(held.change(DIFFERENCE, 1, Add(6)), Ok(()));
    assert_eq!(held.numbers, [FIRST, &[0, 1, 2, 3, 6, 7, 9]].concat());
    assert_eq!((&held.members[..held.count], &held.ends[..]), (&[5, 8][..], &[7, 14][..]));
    // Out of a list that is subtracted a member comes back.
    assert_eq!(held.change(DIFFERENCE, 1, Remove(6)), Ok(()));
    let used = before.numbers.len() - 1;
    assert_eq!(held.numbers[..used], before.numbers[..used]);
    assert_eq!((held.ends, held.members, held.count), (before.ends, before.members, 3));
}

#[test]
fn no_member_comes_or_goes() {
    // No place is free for one.
    for (lists, row, list, change) in [
        ([&[5u32][..], &[6]], UNION, 0, Add(6)),
        ([&[5, 6], &[6]], UNION, 0, Remove(6)),
        ([&[5], &[6]], DIFFERENCE, 1, Add(7)),
        ([&[5], &[6]], DIFFERENCE, 1, Remove(6)),
        ([&[5], &[5]], UNION, 1, Remove(5)),
    ] {
        let mut held = console(&lists, row, [1, 0]);
        let before = held.clone();
        assert_eq!(held.change(row, list, change), Ok(()));
        assert_eq!((held.members, held.count), (before.members, before.count), "{change:?}");
    }
}

#[test]
fn a_list_the_expression_does_not_name() {
    let mut held = console(&[&[5], &[6]], &[0], [1, 1]);
    assert_eq!(held.change(&[0], 1, Add(0)), Ok(()));
    assert_eq!((held.numbers, held.ends), (vec![5, 0, 6], vec![1, 3]));
    assert_eq!((held.members, held.count), (vec![5, FREE], 1));
}

#[test]
fn both_ends_of_the_numbers() {
    let mut held = console(&[&[], &[]], UNION, [2, 2]);
    for number in [u32::MAX, 0] {
        assert_eq!(held.change(UNION, 0, Add(number)), Ok(()));
    }
    assert_eq!((&held.numbers[..], &held.ends[..]), (&[0, u32::MAX][..], &[2, 2][..]));
    assert_eq!((&held.members[..], held.count), (&[0, u32::MAX][..], 2));
    for number in [u32::MAX, 0] {
        assert_eq!(held.change(UNION, 0, Remove(number)), Ok(()));
    }
    assert_eq!((held.ends, held.count), (vec![0, 0], 0));
}

#[test]
fn every_byte_but_0_adds() {
    for add in 0..=u8::MAX {
        let mut held = console(&[&[5], &[6]], UNION, [1, 1]);
        let number = if add == 0 { 5 } else { 7 };
        assert_eq!(held.change_raw(UNION, 0, number, add), 0, "{add}");
        let expected = if add == 0 { &[6][..] } else { &[5, 6, 7] };
        assert_eq!(&held.members[..held.count], expected, "{add}");

        // The other way round there is nothing to change.
        let mut held = console(&[&[5], &[6]], UNION, [1, 1]);
        let number = if add == 0 { 7 } else { 5 };
        assert_eq!(held.change_raw(UNION, 0, number, add), 15, "{add}");
    }
}

#[test]
fn lists_and_expression_refused() {
    let refused = |numbers: &[u32], ends: &[u32], packed: &[u8], list| {
        let (mut numbers, mut ends) = (numbers.to_vec(), ends.to_vec());
        // Nor is the count that of any members: 17 comes later.
        update(&mut numbers, &mut ends, ALL_DELIVERED, packed, list, Add(9), &mut [], &mut 9).err()
    };
    assert_eq!(refused(&[], &[], &[], 0), Some(Refusal::NumberOfLists));
    assert_eq!(refused(&[], &[0; 33], &[], 0), Some(Refusal::NumberOfLists));
    assert_eq!(refused(&[5, 5], &[2, 1], &[], 9), Some(Refusal::BadEnds));
    assert_eq!(refused(&[5, 5], &[2], &[], 9), Some(Refusal::NotAscending));
    assert_eq!(refused(&[5], &[1], &[], 9), Some(Refusal::EndsEarly));
    assert_eq!(refused(&[5], &[1], &[0x01], 9), Some(Refusal::LeftOver));
    assert_eq!(refused(&[5], &[1], &[0x02], 0), Some(Refusal::NoSuchList));
    for list in [1, 32, 1 << 32, usize::MAX] {
        assert_eq!(refused(&[5], &[1], &[0x00], list), Some(Refusal::NoSuchList));
    }
    assert_eq!(refused(&[5], &[1], &[0x00], 0), Some(Refusal::RowNotCurrent));
}

#[test]
fn a_row_that_is_not_current() {
    let current = console(&[&[5, 6], &[6]], UNION, [0, 1]);
    let spoilt = |spoil: fn(&mut Console)| {
        let mut held = current.clone();
        spoil(&mut held);
        // Ahead of 15 and of 6.
        [held.change(UNION, 0, Add(5)), held.change(UNION, 0, Add(7))]
    };
    for refused in [
        spoilt(|held| held.count = 1),
        spoilt(|held| held.count = 3),
        spoilt(|held| held.count = 4),
        spoilt(|held| held.count = usize::MAX),
        spoilt(|held| held.count += 1 << 32),
        spoilt(|held| held.members[0] = 4),
        spoilt(|held| held.members[1] = 7),
        spoilt(|held| held.members.swap(0, 1)),
        spoilt(|held| held.members.truncate(1)),
    ] {
        assert_eq!(refused, [Err(Refusal::RowNotCurrent); 2]);
    }
    let mut held = current.clone();
    assert_eq!(held.change(UNION, 0, Add(5)), Err(Refusal::NoChange));
    assert_eq!(held.change(UNION, 0, Add(7)), Err(Refusal::RowTooShort));
}

#[test]
fn nothing_to_change() {
    // Ahead of 6: nothing is free.
    let mut held = console(&[&[5], &[6]], UNION, [0, 0]);
    assert_eq!(held.change(UNION, 0, Add(5)), Err(Refusal::NoChange));
    assert_eq!(held.change(UNION, 0, Remove(6)), Err(Refusal::NoChange));
    assert_eq!(held.change(UNION, 1, Remove(7)), Err(Refusal::NoChange));
}

#[test]
fn no_room() {
    let refused = |lists: &[&[u32]], row: &[u8], free, list, change| console(lists, row, free).change(row, list, change).err();
    let too_short = Some(Refusal::RowTooShort);
    assert_eq!(refused(&[&[5], &[6]], UNION, [0, 1], 0, Add(7)), too_short);
    assert_eq!(refused(&[&[5], &[6]], UNION, [1, 0], 0, Add(7)), too_short);
    assert_eq!(refused(&[&[5], &[6]], UNION, [1, 1], 0, Add(7)), None);
    // Removing needs no place for a number, but can for a member.
    assert_eq!(refused(&[&[5, 6], &[6]], DIFFERENCE, [0, 0], 1, Remove(6)), too_short);
    assert_eq!(refused(&[&[5, 6], &[6]], DIFFERENCE, [0, 1], 1, Remove(6)), None);
}

#[test]
fn a_full_list() {
    let full: Vec<u32> = (0..65_535).collect();
    let mut held = console(&[&full, &[9]], &[1], [1, 0]);
    assert_eq!(held.change(&[1], 0, Add(65_535)), Err(Refusal::ListFull));
    assert_eq!(held.change(&[1], 0, Add(65_534)), Err(Refusal::NoChange));
    assert_eq!(held.change(&[1], 0, Remove(65_534)), Ok(()));
    assert_eq!(held.change(&[1], 0, Add(70_000)), Ok(()));
    assert_eq!((held.numbers[65_534], held.numbers[65_535]), (70_000, 9));
    assert_eq!(held.ends, [65_535, 65_536]);
    // Ahead of 6: without the free place.
    held.numbers.pop();
    assert_eq!(held.change(&[1], 0, Add(65_535)), Err(Refusal::ListFull));
}
