//! Packed expressions byte by byte, over the report's lists: pairs of each kind, and three that look like one and are none.

use super::forms::made;
use super::kept;
use crate::evaluator::expression::read_packed;
use crate::evaluator::lists::lent;
use crate::evaluator::{Begin, TOP};
use crate::runs::Run;

const FINISHED: u64 = TOP + 2;

/// A run over lists 0 to 3 of the report.
fn run(packed: &[u8], bookmark: u64, code: u8, arguments: Vec<u32>) -> Run {
    let lists = [
        vec![0, 1, 2, 5, 6, 8, 9],
        vec![0, 2, 3, 4, 5],
        vec![2, 3, 6, 8, 9],
        vec![0, 1, 2, 3, 7, 9],
    ];
    Run {
        number: 0,
        lists: lent(&lists.map(Some)),
        packed: packed.to_vec(),
        begin: Begin { bookmark },
        codes: vec![code; arguments.len()],
        room: arguments.len() + 1,
        arguments,
    }
}

/// The members, drawn by next calls up to the first finished, and how many moves that takes.
fn drawn(packed: &[u8]) -> (Vec<u64>, u32) {
    let run = run(packed, 0, 0, vec![0; 11]);
    let expected = run.expected();
    run.compare(&expected);
    let result = expected.expect("an accepted run");
    let members = result.replies.iter().copied().take_while(|reply| *reply != FINISHED);
    (members.collect(), result.moves)
}

/// A rule and the one back, the expression on either side, the members of both, and the moves of each.
struct Pair {
    rules: [&'static str; 2],
    packed: [&'static [u8]; 2],
    members: &'static [u64],
    moves: [u32; 2],
}

const PAIRS: [Pair; 8] = [
    // Lists 0, 1 and 3 united, and 3, 0 and 1.
    Pair {
        rules: ["another order", "another order"],
        packed: [&[0x90, 0x00, 0x20, 0xC0], &[0x90, 0x30, 0x00, 0x40]],
        members: &[0, 1, 2, 3, 4, 5, 6, 7, 8, 9],
        moves: [18, 18],
    },
    // 0 ∩ 1 ∩ 2, and 2 ∩ 0 ∩ 1.
    Pair {
        rules: ["another order", "another order"],
        packed: [&[0xD0, 0x00, 0x20, 0x80], &[0xD0, 0x20, 0x00, 0x40]],
        members: &[2],
        moves: [14, 14],
    },
    // 0 ∪ (1 ∪ 2) ∪ 3, and 0 ∪ 1 ∪ 2 ∪ 3.
    Pair {
        rules: ["opened out", "closed in"],
        packed: [&[0x90, 0x08, 0x81, 0x04, 0x0C], &[0x98, 0x00, 0x20, 0x81, 0x80]],
        members: &[0, 1, 2, 3, 4, 5, 6, 7, 8, 9],
        moves: [23, 23],
    },
    // 0 ∩ (1 ∩ 2), and 0 ∩ 1 ∩ 2.
    Pair {
        rules: ["opened out", "closed in"],
        packed: [&[0xC8, 0x0C, 0x81, 0x04], &[0xD0, 0x00, 0x20, 0x80]],
        members: &[2],
        moves: [14, 14],
    },
    // 0 − (1 ∪ 3), and (0 − 1) − 3.
    Pair {
        rules: ["subtracted one by one", "subtracted at once"],
        packed: [&[0x40, 0x44, 0x08, 0x30], &[0x50, 0x00, 0x41, 0x80]],
        members: &[6, 8],
        moves: [17, 17],
    },
    // 0 ∩ (1 ∪ 2), and (0 ∩ 1) ∪ (0 ∩ 2).
    Pair {
        rules: ["distributed", "factored out"],
        packed: [&[0xC8, 0x08, 0x81, 0x04], &[0x8E, 0x40, 0x01, 0xC8, 0x00, 0x40]],
        members: &[0, 2, 5, 6, 8, 9],
        moves: [16, 23],
    },
    // 0 ∩ (1 ∪ 2) ∩ 3, and (0 ∩ 1 ∩ 3) ∪ (0 ∩ 2 ∩ 3).
    Pair {
        rules: ["distributed", "factored out"],
        packed: [
            &[0xD0, 0x08, 0x81, 0x04, 0x0C],
            &[0x8E, 0x80, 0x01, 0x07, 0xA0, 0x00, 0x81, 0x80],
        ],
        members: &[0, 2, 9],
        moves: [21, 32],
    },
    // ((0 ∪ 1) ∩ 2) − 3, and ((0 ∩ 2) ∪ (1 ∩ 2)) − 3.
    Pair {
        rules: ["distributed", "factored out"],
        packed: [&[0x73, 0x10, 0x00, 0x41, 0x03], &[0x63, 0x90, 0x00, 0xB2, 0x04, 0x10, 0x30]],
        members: &[6, 8],
        moves: [21, 23],
    },
];

#[test]
fn pairs() {
    for Pair {
        rules: [rule, back],
        packed: [one, other],
        members,
        moves,
    } in PAIRS
    {
        let trees = [one, other].map(|packed| read_packed(packed, 4, u32::MAX).expect("an accepted expression"));
        assert!(made(rule, &trees[0]).contains(&trees[1]), "{one:x?} {rule}");
        assert!(made(back, &trees[1]).contains(&trees[0]), "{other:x?} {back}");
        assert_eq!(drawn(one), (members.to_vec(), moves[0]), "{one:x?}");
        assert_eq!(drawn(other), (members.to_vec(), moves[1]), "{other:x?}");
        for (bookmark, code) in (0..12)
            .chain([TOP])
            .flat_map(|bookmark| (0..5).map(move |code| (bookmark, code)))
        {
            let runs = [one, other].map(|packed| run(packed, bookmark, code, (0..11).collect()));
            assert_eq!(kept(&runs[0]), kept(&runs[1]), "{:#?}", runs[0]);
        }
    }
}

/// What looks like a regrouping and is none: other members, and so another reply to a next.
#[test]
fn none() {
    // 0 − (1 ∩ 2) is not (0 − 1) − 2.
    assert_eq!(drawn(&[0x40, 0x64, 0x08, 0x20]).0, [0, 1, 5, 6, 8, 9]);
    assert_eq!(drawn(&[0x50, 0x00, 0x41, 0x00]).0, [1]);
    // 0 ∪ (1 ∩ 2) is not (0 ∪ 1) ∩ 2.
    assert_eq!(drawn(&[0x88, 0x0C, 0x81, 0x04]).0, [0, 1, 2, 3, 5, 6, 8, 9]);
    assert_eq!(drawn(&[0xCC, 0x40, 0x01, 0x04]).0, [2, 3, 6, 8, 9]);
    // 0 − 3 is not 3 − 0.
    assert_eq!(drawn(&[0x40, 0x03]).0, [5, 6, 8]);
    assert_eq!(drawn(&[0x41, 0x80]).0, [3, 7]);
}
