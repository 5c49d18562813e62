//! A second evaluator, made apart, from the papers: sets are `BTreeSet`, bits are a row of truth values, readers hop and move
//! singly, and each move is counted as it is made. It is slow and plain, and shares nothing with the engine.
//!
//! Every function answers what the paper sends back: the elements written, or the refusal's number.

pub mod bits;
pub mod bounds;
pub mod delivery;
pub mod expression;
pub mod lists;
pub mod machine;
pub mod steps;
mod tests;
pub mod update;

use expression::Tree;
use lists::{Each, Lists};
use std::collections::BTreeSet;

/// A refusal's number.
pub type Refused = u32;

/// Where a run begins, and where each of its calls leaves it: the bookmark is the floor.
#[derive(Debug, Clone, Copy, PartialEq, Eq, Default)]
pub struct Begin {
    pub bookmark: u64,
}

/// All that a run writes and hands back.
#[derive(Debug, Clone, PartialEq, Eq)]
pub struct RunResult {
    pub replies: Vec<u64>,
    pub moves: u32,
    pub places: [u16; 48],
    pub last: Begin,
}

/// What a run works on once its lists, expression and bookmark are accepted.
pub struct Source {
    pub lists: Each,
    pub tree: Tree,
    pub set: BTreeSet<u32>,
}

pub const TOP: u64 = 4_294_967_296;

/// The tests that a run makes ahead of 13.
pub fn source(lists: &Lists, packed: &[u8], begin: Begin) -> Result<Source, Refused> {
    let word = lists.word;
    let lists = lists::accepted(lists)?;
    let tree = expression::read_packed(packed, lists.len(), word)?;
    if begin.bookmark > TOP {
        return Err(12);
    }
    let set = tree.denoted(&lists);
    Ok(Source { lists, tree, set })
}

/// A run, into a row of so many replies.
pub fn run(
    lists: &Lists,
    packed: &[u8],
    begin: Begin,
    codes: &[u8],
    arguments: &[u32],
    room: usize,
) -> Result<RunResult, Refused> {
    let source = source(lists, packed, begin)?;
    if codes.len() != arguments.len() || room < codes.len() {
        return Err(13);
    }
    let calls: Vec<(u8, u32)> = codes.iter().copied().zip(arguments.iter().copied()).collect();
    let (replies, last) = machine::replies(&source.set, begin, &calls);
    let walk = steps::walk(&source.tree, &source.lists, begin, &calls);
    assert_eq!(walk.last, last, "the steps and the machine of this evaluator differ");
    Ok(RunResult {
        replies,
        moves: walk.moves(),
        places: walk.places,
        last,
    })
}
