//! What a good many cases must have had: each kind of a refusal, two refusals that apply at once, and each kind of success.

use super::Update;
use crate::evaluator::lists::delivered;
use crate::evaluator::steps::{walk, HOP};
use crate::evaluator::update::{Change, Kept, Updated};
use crate::evaluator::{self, Begin, Source};
use crate::inputs::{absent_bits, longest};
use crate::tally::Tally;

impl Update {
    /// How many numbers the changed list has, of accepted lists.
    fn size(&self) -> usize {
        evaluator::lists::part(&self.lists, self.change.list).len()
    }

    /// Whether 6 applies to the row of numbers, of accepted lists.
    fn no_place(&self) -> bool {
        let used = self.lists.ends.last().map_or(0, |end| *end as usize);
        self.change.adds && self.lists.numbers.len() == used
    }

    /// The refusal that would come if the row of members were the expression's.
    fn behind_17(&self, source: &Source) -> Option<u32> {
        let mut row: Vec<u32> = source.set.iter().copied().collect();
        let count = row.len();
        row.resize(count.max(self.kept.row.len()), 0);
        let kept = Kept { row, count };
        Update { kept, ..self.clone() }.expected().err()
    }

    /// The refusal that would come if list 0 were to be changed, which is there.
    fn behind_4(&self) -> Option<u32> {
        let change = Change { list: 0, ..self.change };
        Update { change, ..self.clone() }.expected().err()
    }

    /// The same with every list delivered.
    fn all_came(&self) -> Update {
        let mut all_came = self.clone();
        all_came.lists.word = u32::MAX;
        all_came
    }

    /// Whether a reader hops when the members are drawn to be compared with the row, of accepted lists and expression.
    fn hops(&self) -> bool {
        if (longest(&self.lists) as usize) < HOP {
            return false;
        }
        let source = evaluator::source(&self.lists, &self.packed, Begin::default()).expect("an accepted source");
        let nexts = vec![(0, 0); source.set.len() + 1];
        let seeks = walk(&source.tree, &source.lists, Begin::default(), &nexts).seeks;
        seeks.iter().flatten().any(|sought| sought.hops > 0)
    }

    /// Whether a number that is added is then a member.
    fn would_be_member(&self, source: &Source) -> bool {
        let Change { list, number, .. } = self.change;
        let mut lists = source.lists.clone();
        lists[list].get_or_insert_default().push(number);
        source.tree.denoted(&lists).contains(&number)
    }
}

pub fn refused(tally: &mut Tally, case: &Update, refused: u32) {
    let Change { list, adds, .. } = case.change;
    let Ok(source) = evaluator::source(&case.lists, &case.packed, Begin::default()) else {
        tally.edge("lists or expression ahead of 4 for the list", list >= case.lists.ends.len());
        let names = refused == 18;
        tally.edge(
            "18 of the expression ahead of 4 for the list",
            names && list >= case.lists.ends.len(),
        );
        tally.edge("18 of the expression alone", names && case.all_came().expected().is_ok());
        tally.edge("10 by the word", refused == 10 && case.all_came().expected().is_ok());
        return;
    };
    let Kept { row, count } = &case.kept;
    let members = source.set.len();
    tally.edge("4 for the list", refused == 4);
    tally.edge("18 for the list", refused == 18);
    match refused {
        18 => {
            let behind = case.all_came().expected().err();
            tally.edge("18 for the list and nothing else", behind.is_none());
            tally.edge("18 for the list ahead of 17", behind == Some(17));
            tally.edge("18 for the list ahead of 15", behind == Some(15));
            tally.edge("18 for the list ahead of 6", behind == Some(6));
        }
        4 => tally.edge("4 ahead of 17", case.behind_4() == Some(17)),
        17 => {
            tally.edge("17, the row too short", *count > row.len());
            tally.edge("17, the count", *count <= row.len() && *count != members);
            tally.edge("17, an element", *count <= row.len() && *count == members);
            let behind = case.behind_17(&source);
            tally.edge("17 ahead of 15", behind == Some(15));
            tally.edge("17 ahead of 16", behind == Some(16));
            tally.edge("17 ahead of 6", behind == Some(6));
        }
        15 => {
            tally.edge("15, adding", adds);
            tally.edge("15, removing", !adds);
            tally.edge("15 ahead of 16", adds && case.size() == 65_535);
            tally.edge("15 ahead of 6", case.no_place());
        }
        16 => {
            tally.edge("16 ahead of 6, a number", case.no_place());
            tally.edge(
                "16 ahead of 6, a member",
                row.len() == members && case.would_be_member(&source),
            );
        }
        _ => {
            tally.edge("6, a number", case.no_place());
            tally.edge("6, a member by adding", adds && !case.no_place());
            tally.edge("6, a member by removing", !adds);
        }
    }
}

pub fn accepted(tally: &mut Tally, case: &Update, updated: &Updated) {
    let Change { list, number, adds } = case.change;
    let Kept { row, count } = &case.kept;
    let Updated { lists, members } = updated;
    let tree = evaluator::expression::read_packed(&case.packed, lists.ends.len(), lists.word).expect("an accepted expression");
    let was = row[..*count].contains(&number);
    let will = members.contains(&number);
    tally.edge("a member came by adding", adds && !was && will);
    tally.edge("a member went by adding", adds && was && !will);
    tally.edge("a member came by removing", !adds && !was && will);
    tally.edge("a member went by removing", !adds && was && !will);
    tally.edge("a member stayed", was && will);
    tally.edge("no member", !was && !will);
    let full = lists.numbers.len() == case.lists.numbers.len();
    tally.edge("the last place for numbers", adds && full);
    tally.edge("the last place for members", !was && will && members.len() == row.len());
    tally.edge("lists before and behind", list > 0 && list + 1 < lists.ends.len());
    tally.edge("32 lists", lists.ends.len() == 32);
    tally.edge(
        "another list not delivered",
        lists.word | absent_bits(lists.ends.len()) != u32::MAX,
    );
    tally.edge(
        "the list behind not delivered",
        list + 1 < lists.ends.len() && !delivered(lists.word, list + 1),
    );
    tally.edge("a list emptied", !adds && case.size() == 1);
    tally.edge(
        "a list filled to 65,535",
        adds && longest(lists) == 65_535 && case.size() == 65_534,
    );
    tally.edge("0", number == 0);
    tally.edge("4,294,967,295", number == u32::MAX);
    tally.edge("48 nodes", tree.row().len() == 48);
    tally.edge("depth 12", tree.depth() == 12);
    tally.edge("readers hop", case.hops());
}
