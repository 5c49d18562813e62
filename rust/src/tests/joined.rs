//! A full delivery and a daily one made one.

use crate::{decode_delivery, encode_delivery, join_deliveries, members, Refusal, ALL_DELIVERED};

/// A list's numbers, or that it was not delivered.
type List<'a> = Option<&'a [u32]>;

/// What always suffices: 32 lists of 65,535, each in the width of 32.
const MOST: usize = 8_388_569;

/// Lists as a delivery.
fn delivery(lists: &[List]) -> Vec<u8> {
    let (mut numbers, mut ends, mut word) = (Vec::new(), Vec::new(), 0);
    for (k, list) in lists.iter().enumerate() {
        numbers.extend_from_slice(list.unwrap_or_default());
        ends.push(numbers.len() as u32);
        word |= u32::from(list.is_some()) << (31 - k);
    }
    let mut bytes = vec![0; 4 * numbers.len() + 300];
    let length = encode_delivery(&numbers, &ends, word, &mut bytes).unwrap();
    bytes[..length].to_vec()
}

/// Joined into so many bytes: what was written. The rest is as it was, all of it where the join is refused.
fn join(full: &[u8], daily: &[u8], room: usize) -> Result<Vec<u8>, Refusal> {
    let mut bytes = vec![77; room];
    let length = join_deliveries(full, daily, &mut bytes);
    let behind = &bytes[length.unwrap_or(0)..];
    assert!(behind.iter().all(|byte| *byte == 77), "written where nothing is to be");
    length.map(|length| bytes[..length].to_vec())
}

/// Both ways round.
fn assert_joined(full: &[List], daily: &[List], joined: &[List]) {
    let [full, daily, joined] = [full, daily, joined].map(delivery);
    assert_eq!(join(&full, &daily, joined.len() + 3).as_ref(), Ok(&joined));
    assert_eq!(join(&daily, &full, joined.len()).as_ref(), Ok(&joined));
    assert_eq!(join(&full, &daily, joined.len() - 1), Err(Refusal::RowTooShort));
}

#[test]
fn each_way_for_a_list_to_come() {
    let some: List = Some(&[2, 3, 5]);
    let empty: List = Some(&[]);
    for (full, daily, joined) in [
        (None, None, None),
        (None, empty, empty),
        (None, some, some),
        (empty, empty, empty),
        (empty, some, some),
        (some, some, some),
        (some, Some(&[4]), Some(&[2, 3, 4, 5])),
        (some, Some(&[3, 5, 9]), Some(&[2, 3, 5, 9])),
        (some, Some(&[0, 1]), Some(&[0, 1, 2, 3, 5])),
        (Some(&[0]), Some(&[u32::MAX]), Some(&[0, u32::MAX])),
        (Some(&[0, u32::MAX]), Some(&[u32::MAX]), Some(&[0, u32::MAX])),
    ] {
        assert_joined(&[full], &[daily], &[joined]);
        // Between two others, which it leaves alone.
        assert_joined(&[some, full, None], &[None, daily, some], &[some, joined, some]);
    }
}

#[test]
fn widths() {
    // Narrower than in either: gaps of 8, and of 4. Wider than in either: gaps of 2, and of 64.
    assert_joined(&[Some(&[0, 8, 16])], &[Some(&[4, 12])], &[Some(&[0, 4, 8, 12, 16])]);
    assert_joined(&[Some(&[0, 2])], &[Some(&[66, 68])], &[Some(&[0, 2, 66, 68])]);
    // One number far away: 65,533 gaps of one bit become as many of 32.
    let near: Vec<u32> = (0..65_534).collect();
    let far = [near.as_slice(), &[u32::MAX]].concat();
    assert_joined(&[Some(&near)], &[Some(&[u32::MAX])], &[Some(&far)]);
}

#[test]
fn with_itself() {
    let longest: Vec<u32> = (0..65_535).map(|number| 3 * number).collect();
    for lists in [
        &[None][..],
        &[Some(&[][..])],
        &[Some(&[7][..]), None, Some(&[2, 3, 5])],
        &[None, Some(&longest)],
        &[Some(&[1][..]); 32],
    ] {
        let bytes = delivery(lists);
        assert_eq!(join(&bytes, &bytes, bytes.len()).as_ref(), Ok(&bytes));
    }
}

/// Bytes that each test of reading refuses, with so many lists said ahead.
fn bad(refusal: Refusal) -> &'static [u8] {
    match refusal {
        Refusal::EndsEarly => &[0x06, 0x00, 0x06, 0x00, 0x00, 0x00, 0x04],
        Refusal::NumberOfLists => &[0x86],
        Refusal::GapPassesTop => &[0x06, 0x00, 0x05, 0xFF, 0xFF, 0xFF, 0xFE, 0x00],
        Refusal::WidthNotLeast => &[0x06, 0x00, 0x04, 0x00, 0x00, 0x00, 0x04, 0x10],
        _ => &[0x06, 0x00, 0x00, 0x00],
    }
}

const READING: [Refusal; 5] = [
    Refusal::EndsEarly,
    Refusal::NumberOfLists,
    Refusal::GapPassesTop,
    Refusal::WidthNotLeast,
    Refusal::LeftOver,
];

#[test]
fn the_order_of_the_tests() {
    let (one, two) = (delivery(&[Some(&[1])]), delivery(&[Some(&[1]), None]));
    for full in READING {
        for daily in READING {
            assert_eq!(join(bad(full), bad(daily), 0), Err(full), "ahead of {daily:?}");
        }
        // Ahead of 6, and, with two lists beside the one that these say, ahead of 20.
        for good in [&one, &two] {
            assert_eq!(join(bad(full), good, 0), Err(full));
            assert_eq!(join(good, bad(full), 0), Err(full));
        }
    }
    assert_eq!(join(&one, &two, 0), Err(Refusal::ListCountsDiffer));
    assert_eq!(join(&two, &one, 99), Err(Refusal::ListCountsDiffer));
    assert_eq!(join(&one, &one, 0), Err(Refusal::RowTooShort));
}

#[test]
fn the_longest_union() {
    let all: Vec<u32> = (0..65_536).collect();
    let longest = [Some(&all[..65_535])];
    assert_joined(&longest, &longest, &longest);
    // As many as can be, of 80,000 and of 65,536.
    assert_joined(&[Some(&all[..40_000])], &[Some(&all[25_535..65_535])], &longest);
    assert_joined(&[Some(&all[..65_535])], &[Some(&all[65_534..65_535])], &longest);
    // One too many: ahead of 6, behind 20 and behind every test of reading, whichever list it is.
    for (full, daily) in [
        (0..65_535, 1..65_536),
        (0..65_535, 65_535..65_536),
        (0..40_000, 40_000..65_536),
    ] {
        let [full, daily] = [&all[full], &all[daily]];
        for others in [0, 1, 31] {
            let with = |list| delivery(&[vec![Some(&[1][..]); others], vec![Some(list)]].concat());
            let (full, daily) = (with(full), with(daily));
            for room in [0, 20_000] {
                assert_eq!(join(&full, &daily, room), Err(Refusal::JoinedListTooLong));
                assert_eq!(join(&daily, &full, room), Err(Refusal::JoinedListTooLong));
            }
            let longer = [&daily[..], &[0]].concat();
            assert_eq!(join(&full, &longer, 0), Err(Refusal::LeftOver));
        }
        let another = delivery(&[Some(daily), None]);
        assert_eq!(join(&delivery(&[Some(full)]), &another, 0), Err(Refusal::ListCountsDiffer));
    }
}

/// 32 lists of 65,535, each in the width of 32: nothing is longer.
#[test]
fn what_always_suffices() {
    let near: Vec<u32> = (0..65_534).collect();
    let (full, daily) = (delivery(&[Some(&near[..]); 32]), delivery(&[Some(&[u32::MAX][..]); 32]));
    assert_eq!(join(&full, &daily, MOST - 1), Err(Refusal::RowTooShort));
    let joined = join(&full, &daily, MOST).unwrap();
    assert_eq!(joined.len(), MOST);
    let (mut numbers, mut ends) = (vec![0; 32 * 65_535], [0; 32]);
    let read = decode_delivery(&joined, &mut numbers, &mut ends).unwrap();
    assert_eq!((read.word, read.lists, read.numbers), (ALL_DELIVERED, 32, numbers.len()));
    let list = [near.as_slice(), &[u32::MAX]].concat();
    assert!(numbers.chunks(65_535).all(|part| part == list));
}

/// All members over a delivery's lists.
fn drawn(delivery: &[u8], row: &[u8]) -> Result<Vec<u32>, Refusal> {
    let (mut numbers, mut ends) = ([0; 20], [0; 3]);
    let read = decode_delivery(delivery, &mut numbers, &mut ends).unwrap();
    let packed = super::packed(row);
    members(&numbers, &ends, read.word, &packed, 0, 9).map(|drawn| drawn.collect())
}

/// "(team or partners) and held": a list that did not come in one can be asked for, and no member is lost.
#[test]
fn members_of_the_outcome() {
    let full = delivery(&[Some(&[101, 104, 107]), None, Some(&[101, 102, 107])]);
    let daily = delivery(&[Some(&[110]), Some(&[102, 108]), Some(&[108])]);
    let joined = join(&full, &daily, 99).unwrap();
    let row = [194, 130, 0, 1, 2];
    assert_eq!(drawn(&full, &row), Err(Refusal::ListNotDelivered));
    assert_eq!(drawn(&daily, &row), Ok(vec![108]));
    assert_eq!(drawn(&joined, &row), Ok(vec![101, 102, 107, 108]));
    // A difference can lose one: list 0 less list 2, once 104 comes into list 2.
    let withdrawn = delivery(&[None, None, Some(&[104])]);
    let joined = join(&full, &withdrawn, 99).unwrap();
    assert_eq!(drawn(&full, &[64, 0, 2]), Ok(vec![104]));
    assert_eq!(drawn(&joined, &[64, 0, 2]), Ok(vec![]));
}
