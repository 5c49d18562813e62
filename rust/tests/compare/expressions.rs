//! Both forms of an expression.

use crate::evaluator::expression as model;
use crate::ffi;
use crate::inputs::{absent_bits, any_absent_bits, damage, expression_row, list_count, packed_anyway, room, same_word};
use crate::random::{cases, seed, Random};
use crate::rows::Lent;
use crate::tally::Tally;

/// The refusals that each call can give.
pub const UNPACK_REFUSALS: &[usize] = &[1, 2, 3, 4, 5, 6, 7, 18];
pub const PACK_REFUSALS: &[usize] = &[1, 2, 3, 4, 5, 6, 7, 14, 18];

// The case's number is only printed.
#[allow(dead_code)]
#[derive(Debug)]
struct Case {
    number: u64,
    bytes: Vec<u8>,
    lists: usize,
    word: u32,
    room: usize,
}

/// What the engine was asked, and all that it sent back, against the evaluator. The C call is given the word, and the wrapper
/// another one that says the same.
fn compare(case: &Case, expected: &Result<Vec<u8>, u32>, raw: Raw, wrapper: Wrapper) {
    let mut lent = Lent::new(case.room);
    let sent = raw(&case.bytes, case.lists, case.word, lent.row());
    let (number, written): (u32, &[u8]) = match expected {
        Ok(written) => (0, written),
        Err(number) => (*number, &[]),
    };
    assert_eq!((sent.number, sent.count), (number, written.len()), "{case:#?}");
    lent.assert_holds(written, "the bytes", case);

    let mut lent = Lent::new(case.room);
    let result = wrapper(&case.bytes, case.lists, same_word(case.word, case.lists), lent.row());
    let expected = expected.as_ref().map(Vec::len).map_err(|number| *number);
    assert_eq!(result.map_err(|refusal| refusal.number()), expected, "{case:#?}");
    lent.assert_holds(written, "the bytes by the wrapper", case);
}

type Raw = fn(&[u8], usize, u32, &mut [u8]) -> ffi::WriteResult;
type Wrapper = fn(&[u8], usize, u32, &mut [u8]) -> Result<usize, zwailmoor::Refusal>;

/// Any word, mostly one in which every list that the row names was delivered.
fn any_word(random: &mut Random, row: &[u8]) -> u32 {
    let any = random.next() as u32;
    let leaves = row.iter().filter(|node| **node < 32);
    let named = leaves.fold(0, |word, list| word | 1u32 << (31 - list));
    match random.below(6) {
        0 => any,
        1 => !(1 << random.below(32)),
        2 => u32::MAX,
        _ => any | named,
    }
}

/// A case for one of the two directions: the packed form or the row form of the same expressions.
fn case(salt: u64, number: u64, form: fn(Vec<u8>) -> Vec<u8>, other: fn(&[u8]) -> usize) -> Case {
    let mut random = Random::of_case(seed() ^ salt, number);
    let usual = random.between(1, 32);
    let row = expression_row(&mut random, usual);
    let needed = other(&row);
    let word = any_word(&mut random, &row);
    let mut bytes = form(row);
    match random.below(16) {
        0..=3 => damage(&mut random, &mut bytes),
        4 => {
            let count = random.below(12);
            bytes = random.bytes(count);
        }
        _ => {}
    }
    let lists = match random.below(8) {
        0 => random.between(1, usual),
        _ => list_count(&mut random, usual),
    };
    let room = room(&mut random, needed);
    Case {
        number,
        bytes,
        lists,
        word: any_absent_bits(&mut random, word, lists),
        room,
    }
}

/// The evaluator's answer for a list count and a word.
type Model = fn(&[u8], usize, u32, usize) -> Result<Vec<u8>, u32>;

/// What would have been refused if every list had been delivered, or been there.
fn refused_edges(tally: &mut Tally, case: &Case, refused: u32, model: Model, later: &[(u32, &'static str)]) {
    if refused == 18 {
        let otherwise = model(&case.bytes, case.lists, u32::MAX, case.room).err();
        for (number, name) in later {
            tally.edge(name, otherwise == Some(*number));
        }
    }
    if refused == 4 {
        let otherwise = model(
            &case.bytes,
            32,
            case.word & !absent_bits(case.lists) | absent_bits(case.lists),
            case.room,
        );
        tally.edge("4 ahead of a later 18", otherwise.err() == Some(18));
    }
}

const BEHIND_18: [(u32, &str); 6] = [
    (1, "18 ahead of a later 1"),
    (2, "18 ahead of a later 2"),
    (3, "18 ahead of a later 3"),
    (4, "18 ahead of a later 4"),
    (5, "18 ahead of 5"),
    (6, "18 ahead of 6"),
];
const BEHIND_18_IN_A_ROW: [(u32, &str); 1] = [(14, "18 ahead of a later 14")];

fn edges(tally: &mut Tally, case: &Case, row: &[u8], written: usize) {
    let tree = model::read_row(row, case.lists, case.word).expect("an accepted row");
    tally.edge("48 nodes", row.len() == 48);
    tally.edge("depth 12", tree.depth() == 12);
    tally.edge("32 lists", case.lists == 32);
    tally.edge("an exact row", case.room == written);
    tally.edge(
        "a list not named and not delivered",
        case.word | absent_bits(case.lists) != u32::MAX,
    );
}

#[test]
fn unpack_expression() {
    let mut tally = Tally::default();
    for number in 0..cases() {
        let case = case(1, number, |row| packed_anyway(&row), |row| row.len());
        let expected = model::unpack(&case.bytes, case.lists, case.word, case.room);
        compare(&case, &expected, ffi::unpack_expression, zwailmoor::unpack_expression);
        if let Ok(row) = &expected {
            let mut back = [0; 41];
            let length = zwailmoor::pack_expression(row, case.lists, case.word, &mut back);
            assert_eq!(
                length.map(|length| &back[..length]),
                Ok(&case.bytes[..]),
                "written back: {case:#?}"
            );
            edges(&mut tally, &case, row, row.len());
        }
        refused_edges(
            &mut tally,
            &case,
            expected.as_ref().err().copied().unwrap_or(0),
            model::unpack,
            &BEHIND_18,
        );
        tally.count(&expected);
    }
    tally.close("unpack_expression", seed(), UNPACK_REFUSALS);
}

#[test]
fn pack_expression() {
    let mut tally = Tally::default();
    for number in 0..cases() {
        let case = case(2, number, |row| row, |row| packed_anyway(row).len());
        let expected = model::pack(&case.bytes, case.lists, case.word, case.room);
        compare(&case, &expected, ffi::pack_expression, zwailmoor::pack_expression);
        if let Ok(packed) = &expected {
            let mut back = [0; 48];
            let length = zwailmoor::unpack_expression(packed, case.lists, case.word, &mut back);
            assert_eq!(
                length.map(|length| &back[..length]),
                Ok(&case.bytes[..]),
                "read back: {case:#?}"
            );
            edges(&mut tally, &case, &case.bytes, packed.len());
        }
        let refused = expected.as_ref().err().copied().unwrap_or(0);
        refused_edges(&mut tally, &case, refused, model::pack, &BEHIND_18);
        refused_edges(&mut tally, &case, refused, model::pack, &BEHIND_18_IN_A_ROW);
        tally.count(&expected);
    }
    tally.close("pack_expression", seed(), PACK_REFUSALS);
}
