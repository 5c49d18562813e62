//! How large it can get, from the lengths alone.

use super::refusals::{wide_packed, wide_row, DEPTH_13};
use super::{ask, lent, packed, Lists, FIRST, FOURTH, SECOND, THIRD};
use crate::{bounds, decode_delivery, encode_delivery, ffi, Bounds, Call, Refusal, Reply, ALL_DELIVERED};

/// The ends of lists of these lengths.
fn ends(lengths: &[u32]) -> Vec<u32> {
    let mut end = 0;
    lengths
        .iter()
        .map(|length| {
            end += length;
            end
        })
        .collect()
}

/// The most members and the most moves over lists of these lengths.
fn most(lengths: &[u32], row: &[u8]) -> (u32, u32) {
    let Bounds { members, moves, .. } = bounds(&ends(lengths), &packed(row)).unwrap();
    (members, moves)
}

/// The most bytes of lists of these lengths.
fn most_bytes(lengths: &[u32]) -> usize {
    let bytes = [packed(&[0]), packed(&[130, 0, 0])].map(|packed| bounds(&ends(lengths), &packed).unwrap().bytes);
    assert_eq!(bytes[0], bytes[1], "the expression has no part in the bytes");
    bytes[0]
}

/// The refusal, of which every other part is 0.
fn refused(ends: &[u32], packed: &[u8]) -> Option<Refusal> {
    let refusal = bounds(ends, packed).err();
    if let Some(refusal) = refusal {
        let parts = ffi::BoundsResult {
            number: refusal.number(),
            members: 0,
            moves: 0,
            bytes: 0,
        };
        assert_eq!(ffi::bounds(ends, packed), parts);
    }
    refusal
}

#[test]
fn one_list() {
    for length in [0, 1, 2, 7, 65_534, 65_535] {
        assert_eq!(most(&[length], &[0]), (length, length));
        assert_eq!(most(&[9, length, 3], &[1]), (length, length));
        // An operator of one node is that node.
        assert_eq!(most(&[9, length], &[129, 1]), (length, length));
        assert_eq!(most(&[9, length], &[193, 129, 1]), (length, length));
    }
}

#[test]
fn a_union_is_the_sum() {
    assert_eq!(most(&[3, 4], &[130, 0, 1]), (7, 7));
    assert_eq!(most(&[4, 3], &[130, 0, 1]), (7, 7));
    assert_eq!(
        most(&[1, 2, 4, 8, 16, 32, 64, 128], &[136, 0, 1, 2, 3, 4, 5, 6, 7]),
        (255, 255)
    );
    assert_eq!(most(&[0, 0], &[130, 0, 1]), (0, 0));
}

#[test]
fn an_intersection_is_the_least() {
    for lengths in [[3, 5, 9], [5, 3, 9], [9, 5, 3], [5, 9, 3], [3, 9, 5], [9, 3, 5]] {
        assert_eq!(most(&lengths, &[195, 0, 1, 2]), (3, 17));
    }
    assert_eq!(most(&[8, 7, 6, 5, 4, 3, 2, 1], &[200, 0, 1, 2, 3, 4, 5, 6, 7]), (1, 36));
    assert_eq!(most(&[5, 0], &[194, 0, 1]), (0, 5));
}

#[test]
fn a_difference_is_its_first() {
    for (first, second) in [(3, 9), (9, 3), (4, 4), (0, 5), (5, 0)] {
        assert_eq!(most(&[first, second], &[64, 0, 1]), (first, first + second));
        assert_eq!(most(&[second, first], &[64, 1, 0]), (first, first + second));
    }
}

#[test]
fn a_list_at_several_leaves() {
    assert_eq!(most(&[3], &[130, 0, 0]), (6, 6));
    assert_eq!(most(&[3], &[194, 0, 0]), (3, 6));
    assert_eq!(most(&[3], &[64, 0, 0]), (3, 6));
    assert_eq!(most(&[3, 5], &[131, 0, 64, 1, 0, 0]), (11, 14));
}

#[test]
fn operators_in_operators() {
    let lengths = [4, 3, 5, 2];
    assert_eq!(most(&lengths, &[64, 194, 130, 0, 1, 2, 3]), (5, 14));
    // What stands behind an operator's nodes counts too, and what is subtracted moves.
    assert_eq!(most(&lengths, &[131, 130, 0, 1, 64, 2, 3, 3]), (14, 16));
    assert_eq!(most(&lengths, &[194, 130, 0, 1, 130, 2, 3]), (7, 14));
    assert_eq!(most(&lengths, &[64, 3, 132, 0, 1, 2, 2]), (2, 19));
    assert_eq!(most(&lengths, &[130, 194, 2, 3, 194, 0, 1]), (5, 14));
    assert_eq!(most(&lengths, &[64, 64, 2, 0, 64, 1, 3]), (5, 14));
    // A list that is not named has no part in either.
    assert_eq!(most(&[65_535, 1, 65_535], &[1]), (1, 1));
}

#[test]
fn the_bytes_of_lengths() {
    let bits_of: [(&[u32], usize); 12] = [
        (&[0], 6 + 17),
        (&[1], 6 + 17 + 32),
        (&[2], 6 + 17 + 32 + 5 + 32),
        (&[3], 6 + 17 + 32 + 5 + 2 * 32),
        (&[4], 6 + 17 + 32 + 5 + 3 * 32),
        // Exactly 5 bytes; a bit more than 7.
        (&[0, 0], 6 + 2 * 17),
        (&[0, 0, 0], 6 + 3 * 17),
        (&[0, 1, 2], 6 + 3 * 17 + 2 * 32 + 5 + 32),
        (&[2, 0, 1, 3], 6 + 4 * 17 + 3 * 32 + 2 * 5 + 3 * 32),
        (&[65_535], 6 + 17 + 32 + 5 + 65_534 * 32),
        (&[0; 32], 6 + 32 * 17),
        (&[1; 32], 6 + 32 * (17 + 32)),
    ];
    for (lengths, bits) in bits_of {
        assert_eq!(most_bytes(lengths), bits.div_ceil(8), "{lengths:?}");
    }
}

/// The most bytes are filled where all lists were delivered and every width is 32.
#[test]
fn bytes_that_are_filled() {
    let top = u32::MAX;
    for lists in [
        &[&[0, top][..]][..],
        &[&[]],
        &[&[7]],
        &[&[0, top], &[], &[7], &[1, 2, 2_147_483_651]],
        &[&[0, 2_147_483_649, top], &[top], &[0, 1, 2, 3, top]],
        &[&[] as &[u32]; 32],
        &[&[5, top] as &[u32]; 32],
    ] {
        let Lists { numbers, ends } = lent(lists);
        let bytes = bounds(&ends, &[0x00]).unwrap().bytes;
        let mut delivery = vec![0; bytes];
        assert_eq!(
            encode_delivery(&numbers, &ends, ALL_DELIVERED, &mut delivery),
            Ok(bytes),
            "{lists:?}"
        );
        let short = encode_delivery(&numbers, &ends, ALL_DELIVERED, &mut delivery[1..]);
        assert_eq!(short, Err(Refusal::RowTooShort), "{lists:?}");
    }
    let longest: Vec<u32> = (0..65_534).chain([top]).collect();
    let bytes = bounds(&[65_535], &[0x00]).unwrap().bytes;
    assert_eq!(
        encode_delivery(&longest, &[65_535], ALL_DELIVERED, &mut vec![0; bytes]),
        Ok(bytes)
    );
}

/// Else there are fewer, and the rows that are reserved by the ends are long enough to read them back.
#[test]
fn bytes_that_are_not() {
    let Lists { numbers, ends } = lent(&[&[2, 3, 5], &[], &[0, 2_147_483_648], &[]]);
    let bytes = bounds(&ends, &[0x00]).unwrap().bytes;
    for word in [ALL_DELIVERED, 0xB << 28, 0xE << 28, 0xA << 28] {
        let mut delivery = vec![0; bytes];
        let length = encode_delivery(&numbers, &ends, word, &mut delivery).unwrap();
        assert!(length < bytes, "{word:x}");
        let (mut numbers_back, mut ends_back) = ([0; 5], [0; 4]);
        let read = decode_delivery(&delivery[..length], &mut numbers_back, &mut ends_back).unwrap();
        assert_eq!((read.lists, read.numbers), (4, 5), "{word:x}");
        assert_eq!((&numbers_back[..], &ends_back[..]), (&numbers[..], &ends[..]), "{word:x}");
    }
}

/// A run of as many next calls as can draw a member, and one more.
fn draw(lists: &[&[u32]], row: &[u8], bookmark: u64) -> (Bounds, Vec<Reply>, u32) {
    let most = bounds(&lent(lists).ends, &packed(row)).unwrap();
    let (replies, result) = ask(lists, row, bookmark, &vec![Call::Next; most.members as usize + 1]).unwrap();
    (most, replies, result.moves)
}

#[test]
fn never_below_a_run() {
    let lists = [FIRST, SECOND, THIRD, FOURTH];
    for row in [
        &[3][..],
        &[132, 0, 1, 2, 3],
        &[196, 0, 1, 2, 3],
        &[64, 0, 3],
        &[64, 194, 130, 0, 1, 2, 3],
        &[131, 0, 0, 64, 0, 3],
        &[194, 64, 0, 1, 130, 2, 3],
    ] {
        for bookmark in 0..12 {
            let (most, replies, moves) = draw(&lists, row, bookmark);
            assert_eq!(replies.last(), Some(&Reply::Finished), "{row:?} from {bookmark}");
            assert!(moves <= most.moves, "{row:?} from {bookmark}");
        }
    }
}

/// Both bounds can be met, so neither is an invention.
#[test]
fn reached_by_a_run() {
    for (lists, row, not_moved) in [
        (&[FIRST][..], &[0][..], 0),
        (&[&[]], &[0], 0),
        (&[&[1, 3], &[2, 4, 6], &[5]], &[131, 0, 1, 2], 0),
        (&[&[1, 3], &[2]], &[64, 0, 1], 0),
        // The first list ends it, while the second still stands at its last number.
        (&[SECOND, SECOND], &[194, 0, 1], 1),
    ] {
        let (most, replies, moves) = draw(lists, row, 0);
        let drawn = replies.iter().filter(|reply| matches!(reply, Reply::Member(_))).count();
        assert_eq!((drawn, moves), (most.members as usize, most.moves - not_moved), "{row:?}");
    }
}

#[test]
fn the_largest() {
    let longest = 65_535;
    let all = ends(&[longest; 32]);
    let expected = |members, moves| {
        Ok(Bounds {
            members,
            moves,
            bytes: 8_388_569,
        })
    };
    assert_eq!(all[31], 2_097_120);
    // 48 nodes, of which 42 are lists.
    assert_eq!(bounds(&all, &packed(&wide_row(7))), expected(42 * longest, 42 * longest));
    let mut row = wide_row(7);
    for (node, list) in row.iter_mut().filter(|node| **node == 0).zip((0..32).cycle()) {
        *node = list;
    }
    assert_eq!(bounds(&all, &packed(&row)), expected(42 * longest, 42 * longest));
    // The same with an intersection of 8 at the root, of which three are lists.
    row[0] = 200;
    assert_eq!(bounds(&all, &packed(&row)), expected(longest, 42 * longest));
    let deep = [[129; 11].as_slice(), &[31]].concat();
    assert_eq!(bounds(&all, &packed(&deep)), expected(longest, longest));
}

#[test]
fn lists_refused() {
    for count in [0, 33, 34, 64, 1000] {
        assert_eq!(refused(&vec![0; count], &[0x00]), Some(Refusal::NumberOfLists), "{count}");
    }
    for bad in [
        &[2, 1][..],
        &[1, 0],
        &[0, 5, 4],
        &[65_536],
        &[1, 65_537],
        &[65_535, 131_071],
        &[u32::MAX],
        &[5, u32::MAX],
        &[5, 5 + 65_536, 6 + 65_536],
        &[65_535, 131_070, 0],
        &[3, 2, 65_535],
    ] {
        assert_eq!(refused(bad, &[0x00]), Some(Refusal::BadEnds), "{bad:?}");
    }
    for good in [&[0][..], &[65_535], &[1, 65_536], &[65_535, 131_070], &[5, 5, 5], &[0; 32]] {
        assert_eq!(refused(good, &[0x00]), None, "{good:?}");
    }
}

#[test]
fn expressions_refused() {
    for (bytes, refusal) in [
        (&[][..], Refusal::EndsEarly),
        (&[0x88, 0x00], Refusal::EndsEarly),
        (&wide_packed(), Refusal::TooManyNodes),
        (&DEPTH_13, Refusal::TooDeep),
        (&[0x04], Refusal::NoSuchList),
        (&[0x3E], Refusal::NoSuchList),
        (&[0x01], Refusal::LeftOver),
        (&[0x00, 0x00], Refusal::LeftOver),
        // Of two that apply the one at the earlier node: list 4 is not there, and behind it the bits run out.
        (&[0x90, 0x40], Refusal::NoSuchList),
        (&[0x05], Refusal::NoSuchList),
    ] {
        assert_eq!(refused(&[3, 7], bytes), Some(refusal), "{bytes:x?}");
        // The lists' refusals come ahead of all these, and 7 ahead of 10.
        assert_eq!(refused(&[7, 3], bytes), Some(Refusal::BadEnds), "{bytes:x?}");
        assert_eq!(refused(&[0, 65_536], bytes), Some(Refusal::BadEnds), "{bytes:x?}");
        assert_eq!(refused(&[], bytes), Some(Refusal::NumberOfLists), "{bytes:x?}");
        let falling: Vec<u32> = (0..33).rev().collect();
        assert_eq!(refused(&falling, bytes), Some(Refusal::NumberOfLists), "{bytes:x?}");
    }
    assert_eq!(refused(&[3, 7], &[0x02]), None);
    // A list without numbers counts as delivered: 18 never comes.
    assert_eq!(refused(&[0, 0], &[0x40, 0x01]), None);
    assert_eq!(refused(&[0; 32], &[0x3E]), None);
}
