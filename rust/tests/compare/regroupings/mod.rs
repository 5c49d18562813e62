//! Expressions regrouped: over the same lists every list of calls from the same bookmark gets equal replies and an equal last
//! bookmark. Moves and places may differ.

mod bytes;
mod cases;
mod edges;
mod forms;
mod rules;
mod wrong;

use crate::evaluator::expression::Tree;
use crate::evaluator::lists::Lists;
use crate::random::{seed, Random};
use crate::rows::Lent;
use crate::runs::Run;
use crate::tally::Tally;
use cases::Case;

/// What a run over accepted lists and an accepted expression can be refused with.
const REFUSALS: &[usize] = &[12, 13];

/// What a regrouping leaves as it is: the number, the last bookmark, and the replies with all that stands about them.
fn kept(run: &Run) -> (u32, u64, Lent<u64>) {
    let (sent, replies) = run.sent();
    (sent.number, sent.bookmark, replies)
}

/// A tree packed by the engine, as the evaluator packs it, and read back.
fn packed(tree: &Tree, Lists { ends, word, .. }: &Lists) -> Vec<u8> {
    let (row, mut packed, mut back) = (tree.row(), [0; 41], [0; 48]);
    let length = zwailmoor::pack_expression(&row, ends.len(), *word, &mut packed);
    let packed = &packed[..length.unwrap_or_else(|refusal| panic!("{refusal}: {tree:#?}"))];
    assert_eq!(packed, tree.packed(), "{tree:#?}");
    let length = zwailmoor::unpack_expression(packed, ends.len(), *word, &mut back);
    assert_eq!(length.map(|length| &back[..length]), Ok(&row[..]), "read back: {tree:#?}");
    packed.to_vec()
}

/// The run with this expression.
fn with(run: &Run, tree: &Tree) -> Run {
    Run {
        packed: packed(tree, &run.lists),
        ..run.clone()
    }
}

impl Case {
    /// The run with the first tree and with the last.
    fn runs(&self) -> [Run; 2] {
        let trees = &self.walk.trees;
        [&trees[0], &trees[trees.len() - 1]].map(|tree| with(&self.run, tree))
    }
}

#[test]
fn regroupings() {
    let mut tally = Tally::default();
    for number in 0..crate::random::cases() {
        let mut random = Random::of_case(seed() ^ 15, number);
        let case = cases::case(&mut random, number);
        let runs = case.runs();
        let [one, other] = runs.each_ref().map(kept);
        assert_eq!(one, other, "{case:#?}");
        let expected = runs.each_ref().map(Run::expected);
        runs.iter().zip(&expected).for_each(|(run, expected)| run.compare(expected));
        edges::trees(&mut tally, &case);
        edges::limits(&mut tally, &case);
        edges::runs(&mut tally, &expected);
        tally.count(&expected[0]);
    }
    tally.close("regroupings", seed(), REFUSALS);
    edges::demand(&tally);
}
