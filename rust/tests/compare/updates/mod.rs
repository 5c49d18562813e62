//! One number added to a list or removed from it, with the row of members kept current.

mod cases;
mod edges;

use crate::evaluator::lists::Lists;
use crate::evaluator::update::{self as model, Change, Kept, Updated};
use crate::ffi;
use crate::inputs::same_word;
use crate::random::{cases, seed};
use crate::rows::Lent;
use crate::tally::Tally;

/// The refusals that the call can give.
pub const REFUSALS: &[usize] = &[1, 2, 3, 4, 5, 6, 7, 10, 11, 15, 16, 17, 18];

// The case's number is only printed.
#[allow(dead_code)]
#[derive(Debug, Clone)]
struct Update {
    number: u64,
    lists: Lists,
    packed: Vec<u8>,
    change: Change,
    // The change as C is told it: 0 removes, any other value adds.
    add: u8,
    kept: Kept,
}

/// What is lent for one call.
struct Rows {
    numbers: Lent<u32>,
    ends: Lent<u32>,
    members: Lent<u32>,
    count: Lent<usize>,
}

impl Rows {
    fn new(case: &Update) -> Self {
        Rows {
            numbers: Lent::holding(&case.lists.numbers),
            ends: Lent::holding(&case.lists.ends),
            members: Lent::holding(&case.kept.row),
            count: Lent::holding(&[case.kept.count]),
        }
    }

    /// The lists as the rows hold them; the word is no row.
    fn lists(&mut self, word: u32) -> Lists {
        Lists {
            numbers: self.numbers.row().to_vec(),
            ends: self.ends.row().to_vec(),
            word,
        }
    }

    fn kept(&mut self) -> Kept {
        Kept {
            row: self.members.row().to_vec(),
            count: self.count.row()[0],
        }
    }

    fn assert_hold(&self, expected: &Result<Updated, u32>, case: &Update) {
        let (lists, members, count): (_, &[u32], &[usize]) = match expected {
            Ok(Updated { lists, members }) => (lists, members, &[members.len()]),
            Err(_) => (&Lists::default(), &[], &[]),
        };
        self.numbers.assert_holds(&lists.numbers, "the numbers", case);
        self.ends.assert_holds(&lists.ends, "the ends", case);
        self.members.assert_holds(members, "the members", case);
        self.count.assert_holds(count, "the count", case);
    }
}

impl Update {
    fn expected(&self) -> Result<Updated, u32> {
        model::update(&self.lists, &self.packed, self.change, &self.kept)
    }

    /// The number that the C call sends back.
    fn call(&self, rows: &mut Rows) -> u32 {
        let (numbers, ends) = (rows.numbers.row(), rows.ends.row());
        let (members, count) = (rows.members.row(), &mut rows.count.row()[0]);
        let Change { list, number, .. } = self.change;
        ffi::update(
            numbers,
            ends,
            self.lists.word,
            &self.packed,
            list,
            number,
            self.add,
            members,
            count,
        )
    }

    /// The same of the wrapper, which is given another word that says the same.
    fn call_wrapper(&self, rows: &mut Rows) -> u32 {
        let (numbers, ends) = (rows.numbers.row(), rows.ends.row());
        let (members, count) = (rows.members.row(), &mut rows.count.row()[0]);
        let Change { list, number, adds } = self.change;
        let change = if adds {
            zwailmoor::Change::Add(number)
        } else {
            zwailmoor::Change::Remove(number)
        };
        let word = same_word(self.lists.word, ends.len());
        let result = zwailmoor::update(numbers, ends, word, &self.packed, list, change, members, count);
        result.map_or_else(|refusal| refusal.number(), |()| 0)
    }

    /// What both interfaces send back, and all rows and the count as they leave them. The C call's are handed back.
    fn compare(&self, expected: &Result<Updated, u32>) -> Rows {
        let number = expected.as_ref().err().copied().unwrap_or(0);
        let mut rows = Rows::new(self);
        assert_eq!(self.call_wrapper(&mut rows), number, "by the wrapper: {self:#?}");
        rows.assert_hold(expected, self);
        let mut rows = Rows::new(self);
        assert_eq!(self.call(&mut rows), number, "{self:#?}");
        rows.assert_hold(expected, self);
        rows
    }

    /// Next calls over the lists as they were left draw the row as it was left.
    fn compare_afresh(&self, rows: &mut Rows) {
        let (Lists { numbers, ends, word }, Kept { row, count }) = (rows.lists(self.lists.word), rows.kept());
        let drawn = zwailmoor::members(&numbers, &ends, word, &self.packed, 0, numbers.len());
        // One more than there can be, so that an iterator that does not end is seen.
        let drawn = drawn.map(|drawn| drawn.take(numbers.len() + 1).collect::<Vec<u32>>());
        assert_eq!(drawn.as_deref(), Ok(&row[..count]), "drawn afresh: {self:#?}");
    }

    /// The opposite change gives back what was there.
    fn compare_taken_back(&self, rows: &mut Rows) {
        let adds = !self.change.adds;
        let opposite = Update {
            lists: rows.lists(self.lists.word),
            kept: rows.kept(),
            change: Change { adds, ..self.change },
            add: u8::from(adds),
            ..self.clone()
        };
        let expected = opposite.expected();
        let mut back = opposite.compare(&expected);
        let (Lists { numbers, ends, .. }, Kept { row, count }) = (back.lists(self.lists.word), back.kept());
        let used = *ends.last().expect("accepted lists") as usize;
        assert_eq!(ends, self.lists.ends, "taken back: {self:#?}");
        assert_eq!(numbers[..used], self.lists.numbers[..used], "taken back: {self:#?}");
        assert_eq!(count, self.kept.count, "taken back: {self:#?}");
        assert_eq!(row[..count], self.kept.row[..count], "taken back: {self:#?}");
        assert!(expected.is_ok(), "the opposite change is refused: {self:#?}");
    }
}

#[test]
fn update() {
    let mut tally = Tally::default();
    let mut values = [false; 256];
    for number in 0..cases() {
        let case = cases::case(number);
        let expected = case.expected();
        let mut rows = case.compare(&expected);
        match &expected {
            Ok(updated) => {
                case.compare_afresh(&mut rows);
                case.compare_taken_back(&mut rows);
                edges::accepted(&mut tally, &case, updated);
                values[usize::from(case.add)] = true;
            }
            Err(refused) => edges::refused(&mut tally, &case, *refused),
        }
        tally.count(&expected);
    }
    tally.edge("every value of add", !values.contains(&false));
    tally.close("update", seed(), REFUSALS);
}
