//! The evaluator alone, on the papers' own bytes: it is what the engine is held against.

use super::bounds::{bounds, Bounds};
use super::delivery::{decode, downgrade, encode, join, stored, upgrade, Form};
use super::expression::{pack, unpack};
use super::lists::{accepted, delivered, lent, part, Lists};
use super::update::{update, Change, Kept};
use super::{run, Begin, RunResult, TOP};

const OLD: [u8; 8] = [0x04, 0x00, 0x0C, 0x00, 0x00, 0x00, 0x08, 0x08];
const NEW: [u8; 8] = [0x06, 0x00, 0x06, 0x00, 0x00, 0x00, 0x04, 0x04];

/// Lists 2 3 5, not delivered, delivered and empty, 4.
fn four() -> Lists {
    lent(&[Some(vec![2, 3, 5]), None, Some(vec![]), Some(vec![4])])
}

#[test]
fn forms() {
    assert_eq!(stored(&OLD, Form::Old), Ok(vec![Some(vec![2, 3, 5])]));
    assert_eq!(stored(&[0x04, 0x00, 0x00], Form::Old), Ok(vec![Some(vec![])]));
    assert_eq!(stored(&NEW, Form::New), Ok(vec![Some(vec![2, 3, 5])]));
    assert_eq!(stored(&[0x06, 0x00, 0x00], Form::New), Ok(vec![Some(vec![])]));
    assert_eq!(stored(&[0x04], Form::New), Ok(vec![None]));
    for (bytes, lists) in [
        (&NEW[..], vec![Some(vec![2, 3, 5])]),
        (&[0x06, 0x00, 0x00], vec![Some(vec![])]),
        (&[0x04], vec![None]),
    ] {
        assert_eq!(decode(bytes, 3, 1), Ok(lent(&lists)));
        assert_eq!(encode(&lent(&lists), 8).as_deref(), Ok(bytes));
    }
}

#[test]
fn moves() {
    assert_eq!(upgrade(&OLD, 8).as_deref(), Ok(&NEW[..]));
    assert_eq!(downgrade(&NEW, 8).as_deref(), Ok(&OLD[..]));
    assert_eq!([upgrade(&OLD, 7), downgrade(&NEW, 7)], [Err(6), Err(6)]);
    assert_eq!(downgrade(&[0x04], 0), Err(19));
    assert_eq!(downgrade(&[0x05], 0), Err(5));
    // The table's small inputs.
    assert_eq!(upgrade(&[0x00], 9), Err(7));
    assert_eq!(upgrade(&[0x04, 0x00, 0x0B, 0xFF, 0xFF, 0xFF, 0xFC, 0x00], 9), Err(8));
    assert_eq!(upgrade(&[0x04, 0x00, 0x08, 0x00, 0x00, 0x00, 0x08, 0x20], 9), Err(9));
}

#[test]
fn joins() {
    let bytes = |lists: &[Option<Vec<u32>>]| encode(&lent(lists), 99).expect("lists of a delivery");
    let full = bytes(&[Some(vec![2, 3, 5]), None, Some(vec![]), None]);
    let daily = bytes(&[Some(vec![3, 4]), Some(vec![9]), None, None]);
    let both = bytes(&[Some(vec![2, 3, 4, 5]), Some(vec![9]), Some(vec![]), None]);
    assert_eq!(join(&full, &daily, both.len()).as_ref(), Ok(&both));
    assert_eq!(join(&daily, &full, both.len()).as_ref(), Ok(&both));
    assert_eq!(join(&full, &full, 99).as_ref(), Ok(&full));
    assert_eq!(join(&full, &daily, both.len() - 1), Err(6));
    assert_eq!([join(&full, &NEW, 0), join(&NEW, &full, 0)], [Err(20), Err(20)]);
    assert_eq!([join(&[0x00], &[], 0), join(&[], &[0x00], 0)], [Err(7), Err(1)]);
    assert_eq!([join(&NEW, &[0x05], 0), join(&full, &[0x05], 0)], [Err(5), Err(5)]);
    // 0 to 65,534, with the last of them, and with one more.
    let long = encode(&lent(&[Some((0..65_535).collect())]), 9000).expect("a list of the greatest length");
    let [last, more] = [65_534, 65_535].map(|number| bytes(&[Some(vec![number])]));
    assert_eq!(join(&long, &last, 9000).as_ref(), Ok(&long));
    assert_eq!(join(&more, &long, 0), Err(21));
}

#[test]
fn words() {
    assert!((0..32).all(|k| delivered(1 << (31 - k), k) && !delivered(!(1 << (31 - k)), k)));
    let lists = four();
    assert_eq!((lists.word, &lists.ends[..]), (0xB << 28, &[3, 3, 3, 4][..]));
    assert_eq!([part(&lists, 1), part(&lists, 2), part(&lists, 4)], [3..3, 3..3, 0..0]);
    let noisy = Lists {
        word: lists.word | 0x0123_4567,
        ..lists.clone()
    };
    assert_eq!(accepted(&noisy), accepted(&lists));
    for word in [0x3 << 28, 0xA << 28] {
        let contradicted = Lists { word, ..lists.clone() };
        assert_eq!((accepted(&contradicted), part(&contradicted, 3)), (Err(10), 0..0));
    }
}

#[test]
fn leaves() {
    let word = four().word;
    assert_eq!(unpack(&[0x02], 4, word, 9), Err(18));
    assert_eq!(pack(&[130, 1, 4], 4, word, 9), Err(18));
    assert_eq!(pack(&[130, 4, 1], 4, word, 9), Err(4));
    assert_eq!(pack(&[130, 0, 3], 4, word, 9), Ok(vec![0x88, 0x00, 0x60]));
    assert_eq!(
        run(&four(), &[0x40, 0x01], Begin { bookmark: u64::MAX }, &[], &[0], 0),
        Err(18)
    );
    let run = run(&four(), &[0x40, 0x02], Begin::default(), &[0; 4], &[0; 4], 4);
    assert_eq!(run.map(|run| run.replies), Ok(vec![2, 3, 5, 4_294_967_298]));
}

#[test]
fn changes() {
    let lists = lent(&[Some(vec![2, 3, 5]), None]);
    let kept = Kept { row: vec![9], count: 1 };
    let refused = |packed: &[u8], list| {
        let change = Change {
            list,
            number: 7,
            adds: true,
        };
        update(&lists, packed, change, &kept).err()
    };
    assert_eq!([0, 1, 2].map(|list| refused(&[0x00], list)), [Some(17), Some(18), Some(4)]);
    assert_eq!([0, 1, 2].map(|list| refused(&[0x02], list)), [Some(18); 3]);
}

#[test]
fn how_large() {
    let of = |ends: &[u32], packed: &[u8]| bounds(ends, packed).map(|most| [most.members, most.moves, most.bytes]);
    // Lists of 4, 3, 5 and 2: the console's expression, list 2 alone, 0 less 2, and the union and the intersection of 0 and 1.
    let four = [4, 7, 12, 14];
    for (packed, members, moves) in [
        (&[0x73, 0x10, 0x00, 0x41, 0x03][..], 5, 14),
        (&[0x04], 5, 5),
        (&[0x40, 0x02], 4, 9),
        (&[0x88, 0x00, 0x20], 7, 7),
        (&[0xC8, 0x00, 0x20], 3, 7),
    ] {
        assert_eq!(of(&four, packed), Ok([members, moves, 68]));
    }
    // 6 + 17 bits; 32 more; 5 and 32 more.
    assert_eq!(
        [0, 1, 2].map(|end| of(&[end], &[0x00]).map(|most| most[2])),
        [Ok(3), Ok(7), Ok(12)]
    );
    let most = Bounds {
        members: 65_535,
        moves: 65_535,
        bytes: 8_388_569,
    };
    let all: Vec<u32> = (1..=32).map(|list| 65_535 * list).collect();
    assert_eq!(bounds(&all, &[0x3E]), Ok(most));
    assert_eq!([of(&[], &[]), of(&[0; 33], &[])], [Err(7), Err(7)]);
    assert_eq!([of(&[2, 1], &[]), of(&[65_536], &[])], [Err(10), Err(10)]);
    assert_eq!(
        [of(&[2], &[]), of(&[2], &[0x02]), of(&[2], &[0x01])],
        [Err(1), Err(4), Err(5)]
    );
}

/// A run from the start.
fn steps(lists: &[Vec<u32>], packed: &[u8], calls: &[(u8, u32)]) -> RunResult {
    let lists: Vec<Option<Vec<u32>>> = lists.iter().cloned().map(Some).collect();
    let (codes, arguments): (Vec<u8>, Vec<u32>) = calls.iter().copied().unzip();
    run(&lent(&lists), packed, Begin::default(), &codes, &arguments, calls.len()).expect("an accepted run")
}

const FINISHED: u64 = TOP + 2;

#[test]
fn papers() {
    let lists = [
        vec![0, 1, 2, 5, 6, 8, 9],
        vec![0, 2, 3, 4, 5],
        vec![2, 3, 6, 8, 9],
        vec![0, 1, 2, 3, 7, 9],
    ];
    // P1 and P2: list 0 less list 3.
    let difference = [0x40, 0x03];
    let p1 = steps(&lists, &difference, &[(0, 0); 4]);
    assert_eq!((p1.replies, p1.moves), (vec![5, 6, 8, FINISHED], 12));
    assert_eq!(p1.places[..4], [0, 7, 5, 0]);
    let p2 = steps(&lists, &difference, &[(0, 0)]);
    assert_eq!((p2.replies, p2.last.bookmark, p2.moves), (vec![5], 6, 7));
    // P3: their union; it ends with every number passed.
    let p3 = steps(&lists, &[0x98, 0x00, 0x20, 0x81, 0x80], &[(0, 0); 11]);
    assert_eq!(p3.replies, [0, 1, 2, 3, 4, 5, 6, 7, 8, 9, FINISHED]);
    assert_eq!((&p3.places[..5], p3.moves), (&[0, 7, 5, 5, 6][..], 23));
    // P4: their intersection.
    let intersection = [0xD8, 0x00, 0x20, 0x81, 0x80];
    let p4 = steps(&lists, &intersection, &[(0, 0)]);
    assert_eq!((p4.replies, p4.moves), (vec![2], 5));
    let p4 = steps(&lists, &intersection, &[(0, 0); 2]);
    assert_eq!((p4.replies, p4.moves), (vec![2, FINISHED], 13));
}

/// A list of so many numbers, 10 20 30 and so on: the 64th is 640, the 128th 1280.
fn tens(length: u32) -> Vec<u32> {
    (1..=length).map(|i| 10 * i).collect()
}

/// What comes of these calls over one list: the last reply, the moves, the place.
fn over(length: u32, calls: &[(u8, u32)]) -> (u64, u32, u16) {
    let run = steps(&[tens(length)], &[0x00], calls);
    (*run.replies.last().expect("a call"), run.moves, run.places[0])
}

/// Past the greatest number: E is 4,294,967,296.
const PAST_ALL: (u8, u32) = (2, u32::MAX);

#[test]
fn hops() {
    let to = |e| (1, e);
    for (length, call, reply, moves, place) in [
        // 63 are too few to hop over.
        (63, to(630), 630, 62, 62),
        (63, to(631), FINISHED, 63, 63),
        (63, to(641), FINISHED, 63, 63),
        (63, PAST_ALL, FINISHED, 63, 63),
        // The 64th has to be below E.
        (64, to(639), 640, 63, 63),
        (64, to(640), 640, 63, 63),
        (64, to(641), FINISHED, 1, 64),
        (64, PAST_ALL, FINISHED, 1, 64),
        (65, to(639), 640, 63, 63),
        (65, to(640), 640, 63, 63),
        (65, to(641), 650, 1, 64),
        (65, to(650), 650, 1, 64),
        (65, to(651), FINISHED, 2, 65),
        (65, PAST_ALL, FINISHED, 2, 65),
        // A second hop, or 63 single moves behind the first.
        (128, to(640), 640, 63, 63),
        (128, to(641), 650, 1, 64),
        (128, to(661), 670, 3, 66),
        (128, to(1279), 1280, 64, 127),
        (128, to(1280), 1280, 64, 127),
        (128, to(1281), FINISHED, 2, 128),
        (128, PAST_ALL, FINISHED, 2, 128),
        (129, to(641), 650, 1, 64),
        (129, to(1280), 1280, 64, 127),
        (129, to(1281), 1290, 2, 128),
        (129, to(1291), FINISHED, 3, 129),
        (129, PAST_ALL, FINISHED, 3, 129),
    ] {
        assert_eq!(over(length, &[call]), (reply, moves, place), "{length}, {call:?}");
    }
}

#[test]
fn hops_from_the_middle() {
    // At 20 the place is 1, by one move: the 64th from there is 650.
    for (length, call, reply, moves, place) in [
        (63, PAST_ALL, FINISHED, 1 + 62, 63),
        (64, PAST_ALL, FINISHED, 1 + 63, 64),
        (65, (1, 650), 650, 1 + 63, 64),
        (65, (1, 651), FINISHED, 1 + 1, 65),
        (65, PAST_ALL, FINISHED, 1 + 1, 65),
        (128, (1, 641), 650, 1 + 63, 64),
        (128, (1, 651), 660, 1 + 1, 65),
        (128, PAST_ALL, FINISHED, 1 + 1 + 63, 128),
        (129, (1, 1290), 1290, 1 + 1 + 63, 128),
        (129, PAST_ALL, FINISHED, 1 + 2, 129),
    ] {
        assert_eq!(over(length, &[(1, 20), call]), (reply, moves, place), "{length}, {call:?}");
    }
    // At 640, by 63 single moves, the 64th from there is 1270.
    assert_eq!(over(129, &[(1, 640), (1, 1270)]), (1270, 63 + 63, 126));
    assert_eq!(over(129, &[(1, 640), (1, 1271)]), (1280, 63 + 1, 127));
    // At 650, by a hop, it is 1280.
    assert_eq!(over(129, &[(1, 650), (1, 1280)]), (1280, 1 + 63, 127));
    assert_eq!(over(129, &[(1, 650), (1, 1281)]), (1290, 1 + 1, 128));
    // From draw to draw no reader hops.
    assert_eq!(over(129, &[(0, 0); 130]), (FINISHED, 129, 129));
}

#[test]
fn hops_in_checks() {
    const NO: u64 = TOP;
    const YES: u64 = TOP + 1;
    for (length, d, reply, moves, place) in [
        (63, 641, NO, 63, 63),
        (64, 640, YES, 63, 63),
        (64, 641, NO, 1, 64),
        (65, 650, YES, 1, 64),
        (128, 1280, YES, 64, 127),
        (129, 1290, YES, 2, 128),
        (129, u32::MAX, NO, 3, 129),
    ] {
        assert_eq!(over(length, &[(3, d)]), (reply, moves, place), "{length}, {d}");
    }
    // A check leaves the floor at its number, and moves no reader where it is made again.
    assert_eq!(over(129, &[(3, 650), (3, 650), (3, 1290)]), (YES, 2, 128));
}

/// Each leaf has its own reader, also of the same list.
#[test]
fn hops_of_each_leaf() {
    // List 0 less list 1: from 641 on the first hops to 650, and the second, of 63 numbers, moves 63 times.
    let run = steps(&[tens(65), tens(63)], &[0x40, 0x01], &[(1, 641)]);
    assert_eq!((run.replies[0], run.moves, &run.places[..3]), (650, 1 + 63, &[0, 64, 63][..]));
    // The union of a list with itself.
    let run = steps(&[tens(129)], &[0x88, 0x00, 0x00], &[(1, 651)]);
    assert_eq!((run.replies[0], run.moves, &run.places[..3]), (660, 2 + 2, &[0, 65, 65][..]));
    // The intersection with 645 and 1290: the first hops to 650 and to 1290, and the second moves once.
    let run = steps(&[tens(129), vec![645, 1290]], &[0xC8, 0x00, 0x20], &[(0, 0)]);
    assert_eq!((run.replies[0], run.moves, &run.places[..3]), (1290, 3, &[0, 128, 1][..]));
}
