//! A full delivery and a daily one made one.

mod cases;
mod edges;

use crate::evaluator::delivery::{self as model, Form};
use crate::evaluator::expression::read_packed;
use crate::evaluator::lists::{accepted, lent, Each, Lists};
use crate::ffi;
use crate::inputs::{expression_row, name_delivered, packed_anyway};
use crate::random::{seed, Random};
use crate::rows::Lent;
use crate::tally::Tally;

/// The refusals that the call can give.
pub const REFUSALS: &[usize] = &[1, 5, 6, 7, 8, 9, 20, 21];

// The case's number is only printed.
#[allow(dead_code)]
#[derive(Debug, Clone)]
struct Case {
    number: u64,
    full: Vec<u8>,
    daily: Vec<u8>,
    room: usize,
}

impl Case {
    fn expected(&self) -> Result<Vec<u8>, u32> {
        model::join(&self.full, &self.daily, self.room)
    }

    /// What each delivery alone is read as.
    fn inputs(&self) -> [Result<Each, u32>; 2] {
        [&self.full, &self.daily].map(|bytes| model::stored(bytes, Form::New))
    }

    fn swapped(&self) -> Case {
        Case {
            full: self.daily.clone(),
            daily: self.full.clone(),
            ..*self
        }
    }

    fn with_itself(&self) -> Case {
        Case {
            daily: self.full.clone(),
            room: self.full.len(),
            ..self.clone()
        }
    }

    /// All that both interfaces send back, and the whole row of bytes.
    fn compare(&self, expected: &Result<Vec<u8>, u32>) {
        let (number, written): (u32, &[u8]) = match expected {
            Ok(written) => (0, written),
            Err(number) => (*number, &[]),
        };
        let mut lent = Lent::new(self.room);
        let sent = ffi::join_deliveries(&self.full, &self.daily, lent.row());
        assert_eq!((sent.number, sent.count), (number, written.len()), "{self:#?}");
        lent.assert_holds(written, "the bytes", self);

        let mut lent = Lent::new(self.room);
        let result = zwailmoor::join_deliveries(&self.full, &self.daily, lent.row());
        let count = expected.as_ref().map(Vec::len).map_err(|number| *number);
        assert_eq!(result.map_err(|refusal| refusal.number()), count, "{self:#?}");
        lent.assert_holds(written, "the bytes by the wrapper", self);
    }

    /// The outcome reads back as the unions.
    fn compare_read(&self, joined: &[u8], unions: &Each) -> Lists {
        let expected = lent(unions);
        let (mut numbers, mut ends) = (vec![0; expected.numbers.len()], vec![0; expected.ends.len()]);
        let read = zwailmoor::decode_delivery(joined, &mut numbers, &mut ends).expect("what was joined reads");
        let word = read.word;
        assert_eq!((read.lists, read.numbers), (ends.len(), numbers.len()), "{self:#?}");
        let lists = Lists { numbers, ends, word };
        assert_eq!(lists, expected, "{self:#?}");
        lists
    }

    /// An expression without a difference that is accepted over either input is accepted over the outcome, and loses no member there.
    fn compare_denoted(&self, tally: &mut Tally, inputs: [Lists; 2], outcome: &Lists) {
        let packed = self.expression(&inputs, outcome);
        let joined = members(outcome, &packed);
        let tree = read_packed(&packed, outcome.ends.len(), outcome.word);
        let denoted = tree.map(|tree| tree.denoted(&accepted(outcome).expect("lists of a delivery")));
        assert_eq!(joined, denoted.map(Vec::from_iter), "{packed:x?} over {self:#?}");
        let [full, daily] = inputs.map(|lists| members(&lists, &packed));
        for drawn in [&full, &daily].into_iter().flatten() {
            let joined = joined.as_ref().expect("accepted over an input, and so over the outcome");
            let kept = drawn.iter().all(|member| joined.binary_search(member).is_ok());
            assert!(kept, "{packed:x?} loses a member: {self:#?}");
        }
        let accepted = [&full, &daily].map(|drawn| drawn.is_ok());
        tally.edge("an expression over both", accepted == [true, true]);
        tally.edge("an expression over the full one alone", accepted == [true, false]);
        tally.edge("an expression over the daily one alone", accepted == [false, true]);
        tally.edge(
            "an expression over the outcome alone",
            accepted == [false, false] && joined.is_ok(),
        );
        let most = [&full, &daily].into_iter().flatten().map(Vec::len).max();
        tally.edge(
            "more members than over either",
            joined.is_ok_and(|joined| most < Some(joined.len())),
        );
    }

    /// An expression without a difference, packed; mostly of lists that one of the deliveries brought.
    fn expression(&self, inputs: &[Lists; 2], outcome: &Lists) -> Vec<u8> {
        let mut random = Random::of_case(seed() ^ 14, self.number);
        let mut row = expression_row(&mut random, outcome.ends.len());
        for node in row.iter_mut().filter(|node| **node == 64) {
            *node = random.pick(&[130, 194]);
        }
        match random.below(4) {
            0 => name_delivered(&mut random, outcome, &mut row),
            1 => {}
            _ => name_delivered(&mut random, &inputs[self.number as usize % 2], &mut row),
        }
        packed_anyway(&row)
    }
}

/// All members, by the engine.
fn members(lists: &Lists, packed: &[u8]) -> Result<Vec<u32>, u32> {
    let drawn = zwailmoor::members(&lists.numbers, &lists.ends, lists.word, packed, 0, usize::MAX);
    drawn.map(Iterator::collect).map_err(|refusal| refusal.number())
}

#[test]
fn join_deliveries() {
    let mut tally = Tally::default();
    for number in 0..crate::random::cases() {
        let case = cases::case(number);
        let expected = case.expected();
        case.compare(&expected);
        let inputs = case.inputs();
        edges::refused(&mut tally, &case, &inputs);
        if inputs[0].is_ok() {
            case.with_itself().compare(&Ok(case.full.clone()));
        }
        if let [Ok(full), Ok(daily)] = &inputs {
            case.swapped().compare(&expected);
            let unions = model::unions(full, daily);
            edges::lengths(&mut tally, [full, daily, &unions], &expected);
            match &expected {
                Ok(joined) => {
                    let outcome = case.compare_read(joined, &unions);
                    case.compare_denoted(&mut tally, [lent(full), lent(daily)], &outcome);
                    edges::accepted(&mut tally, &case, [full, daily, &unions], joined);
                }
                Err(later) => edges::compare_spoilt(&mut tally, &case, *later),
            }
        }
        tally.count(&expected);
    }
    tally.close("join_deliveries", seed(), REFUSALS);
}
