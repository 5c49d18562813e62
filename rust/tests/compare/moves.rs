//! Stored deliveries moved from the old form to the new one, and back.

use crate::evaluator::delivery::{self as model, Form};
use crate::evaluator::lists::{lent, Each, Lists};
use crate::ffi;
use crate::inputs::{delivery, long_list, longest, room, some_lists};
use crate::random::{cases, seed, Random};
use crate::rows::Lent;
use crate::tally::Tally;

/// The refusals that each move can give.
pub const UPGRADE_REFUSALS: &[usize] = &[1, 5, 6, 7, 8, 9];
pub const DOWNGRADE_REFUSALS: &[usize] = &[1, 5, 6, 7, 8, 9, 19];

/// One of the two moves, by all who make it.
struct Move {
    from: Form,
    model: fn(&[u8], usize) -> Result<Vec<u8>, u32>,
    raw: fn(&[u8], &mut [u8]) -> ffi::WriteResult,
    wrapper: fn(&[u8], &mut [u8]) -> Result<usize, zwailmoor::Refusal>,
    back: fn(&[u8], &mut [u8]) -> Result<usize, zwailmoor::Refusal>,
}

const UPGRADE: Move = Move {
    from: Form::Old,
    model: model::upgrade,
    raw: ffi::upgrade_delivery,
    wrapper: zwailmoor::upgrade_delivery,
    back: zwailmoor::downgrade_delivery,
};
const DOWNGRADE: Move = Move {
    from: Form::New,
    model: model::downgrade,
    raw: ffi::downgrade_delivery,
    wrapper: zwailmoor::downgrade_delivery,
    back: zwailmoor::upgrade_delivery,
};

// The case's number is only printed.
#[allow(dead_code)]
#[derive(Debug)]
struct Case {
    number: u64,
    bytes: Vec<u8>,
    room: usize,
}

/// A list of the greatest length among others, well packed.
fn long_delivery(random: &mut Random, form: Form) -> Vec<u8> {
    let long = long_list(random)[..65_535].to_vec();
    let lists = [some_lists(random), vec![Some(long)]].concat();
    let new = |lists: &Each| model::encode(&lent(lists), usize::MAX).unwrap_or_default();
    match form {
        Form::New => new(&lists),
        Form::Old => {
            let all_came: Each = lists.into_iter().map(|list| Some(list.unwrap_or_default())).collect();
            model::downgrade(&new(&all_came), usize::MAX).unwrap_or_default()
        }
    }
}

impl Move {
    fn case(&self, salt: u64, number: u64) -> Case {
        let mut random = Random::of_case(seed() ^ salt, number);
        let bytes = if random.one_in(20) {
            let count = random.below(20);
            random.bytes(count)
        } else if random.one_in(2000) {
            long_delivery(&mut random, self.from)
        } else {
            delivery(&mut random, self.from)
        };
        let needed = (self.model)(&bytes, usize::MAX).map_or(random.below(80), |moved| moved.len());
        let room = room(&mut random, needed);
        Case { number, bytes, room }
    }

    /// All that both interfaces send back, and the whole row of bytes.
    fn compare(&self, case: &Case, expected: &Result<Vec<u8>, u32>) {
        let (number, written): (u32, &[u8]) = match expected {
            Ok(written) => (0, written),
            Err(number) => (*number, &[]),
        };
        let mut lent = Lent::new(case.room);
        let sent = (self.raw)(&case.bytes, lent.row());
        assert_eq!((sent.number, sent.count), (number, written.len()), "{case:#?}");
        lent.assert_holds(written, "the bytes", case);

        let mut lent = Lent::new(case.room);
        let result = (self.wrapper)(&case.bytes, lent.row());
        let count = expected.as_ref().map(Vec::len).map_err(|number| *number);
        assert_eq!(result.map_err(|refusal| refusal.number()), count, "{case:#?}");
        lent.assert_holds(written, "the bytes by the wrapper", case);
    }

    /// Moved there and back the bytes are the same, to the last one.
    fn compare_back(&self, case: &Case, moved: &[u8]) {
        let mut back = Lent::new(case.bytes.len());
        let length = (self.back)(moved, back.row());
        assert_eq!(length, Ok(case.bytes.len()), "there and back: {case:#?}");
        back.assert_holds(&case.bytes, "there and back, the bytes", case);
    }
}

/// The bytes of the new form hold the lists of those of the old one, all delivered.
fn compare_read(case: &Case, old: &[u8], new: &[u8]) -> Lists {
    let lists = lent(&model::stored(old, Form::Old).expect("accepted bytes"));
    let (mut numbers, mut ends) = (vec![0; lists.numbers.len()], vec![0; lists.ends.len()]);
    let read = zwailmoor::decode_delivery(new, &mut numbers, &mut ends).expect("what was moved reads");
    let word = read.word;
    assert_eq!((read.lists, read.numbers), (ends.len(), numbers.len()), "{case:#?}");
    assert_eq!(Lists { numbers, ends, word }, lists, "{case:#?}");
    lists
}

fn edges(tally: &mut Tally, case: &Case, lists: &Lists, moved: &[u8]) {
    tally.edge("32 lists", lists.ends.len() == 32);
    tally.edge("a list of 65,535", longest(lists) == 65_535);
    tally.edge(
        "an empty list",
        longest(lists) == 0 || lists.ends.windows(2).any(|ends| ends[0] == ends[1]),
    );
    tally.edge("an exact row", moved.len() == case.room);
    tally.edge("as many bytes in both forms", moved.len() == case.bytes.len());
    tally.edge("another number of bytes", moved.len() != case.bytes.len());
}

/// Bytes with an undelivered list, as they are and a byte shorter and longer: the tests of reading come first, and 6 comes last.
fn compare_incomplete(tally: &mut Tally, case: &Case) {
    tally.edge("19 ahead of 6", case.room == 0);
    let (_, shorter) = case.bytes.split_last().expect("a delivery has bytes");
    let longer = [&case.bytes[..], &[0]].concat();
    for (bytes, number, name) in [(shorter, 1, "1 ahead of 19"), (&longer, 5, "5 ahead of 19")] {
        let spoilt = Case {
            bytes: bytes.to_vec(),
            ..*case
        };
        let expected = model::downgrade(&spoilt.bytes, spoilt.room);
        DOWNGRADE.compare(&spoilt, &expected);
        tally.edge(name, expected == Err(number));
    }
}

#[test]
fn upgrade_delivery() {
    let mut tally = Tally::default();
    for number in 0..cases() {
        let case = UPGRADE.case(9, number);
        let expected = model::upgrade(&case.bytes, case.room);
        UPGRADE.compare(&case, &expected);
        if let Ok(new) = &expected {
            UPGRADE.compare_back(&case, new);
            let lists = compare_read(&case, &case.bytes, new);
            edges(&mut tally, &case, &lists, new);
        }
        tally.count(&expected);
    }
    tally.close("upgrade_delivery", seed(), UPGRADE_REFUSALS);
}

#[test]
fn downgrade_delivery() {
    let mut tally = Tally::default();
    for number in 0..cases() {
        let case = DOWNGRADE.case(10, number);
        let expected = model::downgrade(&case.bytes, case.room);
        DOWNGRADE.compare(&case, &expected);
        match &expected {
            Ok(old) => {
                DOWNGRADE.compare_back(&case, old);
                let lists = compare_read(&case, old, &case.bytes);
                edges(&mut tally, &case, &lists, old);
            }
            Err(19) => compare_incomplete(&mut tally, &case),
            Err(_) => {}
        }
        tally.count(&expected);
    }
    tally.close("downgrade_delivery", seed(), DOWNGRADE_REFUSALS);
}
