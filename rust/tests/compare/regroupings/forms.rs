//! The rules alone, on rows of a few nodes: all that each can make of them, and nothing else.

use std::collections::BTreeSet;

use super::rules::{step, Rule, RULES};
use crate::evaluator::expression::{read_row, Tree};
use crate::random::Random;

pub fn rule(name: &str) -> Rule {
    let named = RULES.iter().find(|(rule, _)| *rule == name);
    named.unwrap_or_else(|| panic!("there is no rule {name}")).1
}

/// All trees that one step by a rule can make of this one. Each is so likely that it does come.
pub fn made(name: &str, tree: &Tree) -> Vec<Tree> {
    let mut trees = Vec::new();
    for case in 0..2000 {
        let mut made = tree.clone();
        if step(&mut Random::of_case(1, case), rule(name), &mut made) && !trees.contains(&made) {
            trees.push(made);
        }
    }
    trees
}

/// Asserts that a rule makes just these rows of this one.
fn assert_made(name: &str, row: &[u8], expected: &[&[u8]]) {
    let tree = read_row(row, 32, u32::MAX).expect("a good row");
    let rows: BTreeSet<Vec<u8>> = made(name, &tree).iter().map(Tree::row).collect();
    assert_eq!(rows, expected.iter().map(|row| row.to_vec()).collect(), "{name}: {row:?}");
}

#[test]
fn another_order() {
    for operator in [131, 195] {
        let orders = [[0, 1, 2], [0, 2, 1], [1, 0, 2], [1, 2, 0], [2, 0, 1], [2, 1, 0]];
        let rows = orders.map(|[a, b, c]| [operator, a, b, c]);
        assert_made("another order", &rows[0], &rows.each_ref().map(|row| &row[..]));
    }
    // Inside either part of a difference, and inside a member; the parts themselves stay.
    let row = [64, 130, 0, 1, 193, 194, 2, 3];
    let others: [&[u8]; 2] = [&[64, 130, 1, 0, 193, 194, 2, 3], &[64, 130, 0, 1, 193, 194, 3, 2]];
    assert_made("another order", &row, &[&row, others[0], others[1]]);
    assert_made("another order", &[64, 0, 129, 1], &[]);
}

#[test]
fn opened_out_and_closed_in() {
    for (two, other) in [(130, 194), (194, 130)] {
        let one = two - 1;
        // First, between, last; of one member, and of two. What has the other operator stays.
        assert_made("opened out", &[two, two, 0, 1, 2], &[&[two + 1, 0, 1, 2]]);
        assert_made("opened out", &[two + 1, 0, two, 1, 2, 3], &[&[two + 2, 0, 1, 2, 3]]);
        assert_made(
            "opened out",
            &[two + 1, 0, one, 1, one, 2],
            &[&[two + 1, 0, 1, one, 2], &[two + 1, 0, one, 1, 2]],
        );
        assert_made("opened out", &[two, 0, other, 1, 2], &[]);
        assert_made("opened out", &[64, 0, two, 1, 2], &[]);
        assert_made(
            "closed in",
            &[two, 0, 1],
            &[&[two, one, 0, 1], &[two, 0, one, 1], &[one, two, 0, 1]],
        );
        assert_made("closed in", &[one, 0], &[&[one, one, 0]]);
    }
    assert_made("closed in", &[64, 0, 1], &[]);
}

#[test]
fn differences() {
    assert_made("subtracted one by one", &[64, 0, 129, 1], &[&[64, 0, 1]]);
    assert_made("subtracted one by one", &[64, 0, 130, 1, 2], &[&[64, 64, 0, 1, 2]]);
    assert_made("subtracted one by one", &[64, 0, 131, 1, 2, 3], &[&[64, 64, 64, 0, 1, 2, 3]]);
    assert_made("subtracted one by one", &[64, 0, 194, 1, 2], &[]);
    assert_made("subtracted one by one", &[64, 130, 0, 1, 2], &[]);
    let both: [&[u8]; 2] = [&[64, 0, 130, 1, 2], &[64, 64, 0, 1, 129, 2]];
    assert_made(
        "subtracted at once",
        &[64, 64, 0, 1, 2],
        &[both[0], both[1], &[64, 64, 0, 129, 1, 2]],
    );
    assert_made(
        "subtracted at once",
        &[64, 0, 64, 1, 2],
        &[&[64, 0, 129, 64, 1, 2], &[64, 0, 64, 1, 129, 2]],
    );
    assert_made("subtracted at once", &[130, 0, 1], &[]);
}

#[test]
fn distributed_and_factored_out() {
    let pairs: [(&[u8], &[u8]); 4] = [
        (&[194, 0, 130, 1, 2], &[130, 194, 0, 1, 194, 0, 2]),
        (&[194, 131, 1, 2, 3, 0], &[131, 194, 1, 0, 194, 2, 0, 194, 3, 0]),
        (&[195, 0, 130, 1, 2, 3], &[130, 195, 0, 1, 3, 195, 0, 2, 3]),
        (&[193, 130, 1, 2], &[130, 193, 1, 193, 2]),
    ];
    for (whole, each) in pairs {
        assert_made("distributed", whole, &[each]);
        assert_made("factored out", each, &[whole]);
    }
    // One of several unions; and a union of one.
    assert_made(
        "distributed",
        &[194, 130, 0, 1, 129, 2],
        &[&[130, 194, 0, 129, 2, 194, 1, 129, 2], &[129, 194, 130, 0, 1, 2]],
    );
    // Where they are all the same, either place; nothing where they differ at two, in length, or in what they are.
    assert_made(
        "factored out",
        &[130, 194, 0, 1, 194, 0, 1],
        &[&[194, 130, 0, 0, 1], &[194, 0, 130, 1, 1]],
    );
    assert_made("factored out", &[129, 194, 0, 1], &[&[194, 129, 0, 1], &[194, 0, 129, 1]]);
    assert_made("factored out", &[130, 194, 0, 1, 194, 1, 0], &[]);
    assert_made("factored out", &[130, 194, 0, 1, 193, 0], &[]);
    assert_made("factored out", &[130, 194, 0, 1, 0], &[]);
    assert_made("distributed", &[130, 0, 194, 1, 2], &[]);
    assert_made("distributed", &[194, 0, 64, 1, 2], &[]);
}
