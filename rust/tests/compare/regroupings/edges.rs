//! What must have been met among the cases, and how often.

use super::cases::{Case, Size};
use super::rules::RULES;
use crate::evaluator::{RunResult, TOP};
use crate::runs::{sum, HOPPED, REPLIES};
use crate::tally::Tally;

/// Each is met once in so many cases, or more often; each rule once in 12.
const DEMANDED: [(&str, u64); 16] = [
    ("trees that differ", 2),
    ("three rules or more", 4),
    ("8 members", 10),
    ("8 members in both", 40),
    ("48 nodes", 40),
    ("48 nodes in both", 200),
    ("depth 12", 40),
    ("depth 12 in both", 100),
    ("by way of more than 8 members", 200),
    ("by way of more than 48 nodes", 200),
    ("by way of a depth above 12", 200),
    ("moves that differ", 20),
    ("places that differ", 4),
    (HOPPED, 100),
    ("refused 12", 400),
    ("refused 13", 40),
];

/// Of the trees, whatever becomes of the run.
pub fn trees(tally: &mut Tally, case: &Case) {
    let (trees, rules) = (&case.walk.trees, &case.walk.rules);
    for (name, _) in RULES {
        tally.edge(name, rules.contains(&name));
    }
    let several = RULES.iter().filter(|(name, _)| rules.contains(name)).count();
    tally.edge("three rules or more", several >= 3);
    tally.edge("trees that differ", trees[0] != trees[trees.len() - 1]);
}

type Limit = fn(&Size) -> bool;

/// Of the limits: at one, and by way of a tree that is above it.
pub fn limits(tally: &mut Tally, case: &Case) {
    let sizes: Vec<Size> = case.walk.trees.iter().map(Size::of).collect();
    let ends = [&sizes[0], &sizes[sizes.len() - 1]];
    assert!(ends.into_iter().all(Size::accepted), "{case:#?}");
    let limits: [(Limit, _, _); 3] = [
        (|size| size.members == 8, "8 members", "8 members in both"),
        (|size| size.nodes == 48, "48 nodes", "48 nodes in both"),
        (|size| size.depth == 12, "depth 12", "depth 12 in both"),
    ];
    for (at_limit, in_one, in_both) in limits {
        tally.edge(in_one, ends.into_iter().any(at_limit));
        tally.edge(in_both, ends.into_iter().all(at_limit));
    }
    tally.edge("by way of more than 8 members", sizes.iter().any(|size| size.members > 8));
    tally.edge("by way of more than 48 nodes", sizes.iter().any(|size| size.nodes > 48));
    tally.edge("by way of a depth above 12", sizes.iter().any(|size| size.depth > 12));
}

/// Of the two runs.
pub fn runs(tally: &mut Tally, [one, other]: &[Result<RunResult, u32>; 2]) {
    tally.edge("refused 12", *one == Err(12) && *other == Err(12));
    tally.edge("refused 13", *one == Err(13) && *other == Err(13));
    let (Ok(one), Ok(other)) = (one, other) else { return };
    tally.edge("moves that differ", one.moves != other.moves);
    tally.edge("places that differ", one.places != other.places);
    tally.edge(HOPPED, [one, other].iter().any(|run| run.moves < sum(&run.places)));
    for reply in &one.replies {
        tally.edge("members", *reply < TOP);
        for (name, other) in REPLIES {
            tally.edge(name, *reply == other);
        }
    }
}

/// All of it, in as many cases as there must be.
pub fn demand(tally: &Tally) {
    DEMANDED.iter().for_each(|(name, times)| tally.demand(name, *times));
    RULES.iter().for_each(|(name, _)| tally.demand(name, 12));
    assert!(tally.met("members") > tally.met("finished"), "most draws find none");
    assert!(6 * tally.met("yes") > tally.met("no"), "hardly a check finds a member");
}
