//! The standard library's `BTreeSet`, with its operators `|`, `&` and `-`.

use crate::inputs::Tree;
use std::borrow::Cow;
use std::collections::BTreeSet;

pub fn build(lists: &[Vec<u32>]) -> Vec<BTreeSet<u32>> {
    lists.iter().map(|list| list.iter().copied().collect()).collect()
}

/// The set of an expression. A list by itself is not copied.
pub fn set<'a>(tree: &Tree, sets: &'a [BTreeSet<u32>]) -> Cow<'a, BTreeSet<u32>> {
    match tree {
        Tree::List(number) => Cow::Borrowed(&sets[usize::from(*number)]),
        Tree::Difference(pair) => Cow::Owned(&*set(&pair[0], sets) - &*set(&pair[1], sets)),
        Tree::Union(nodes) => combine(nodes, sets, |a, b| a | b),
        Tree::Intersection(nodes) => combine(nodes, sets, |a, b| a & b),
    }
}

type Operator = fn(&BTreeSet<u32>, &BTreeSet<u32>) -> BTreeSet<u32>;

fn combine<'a>(nodes: &[Tree], sets: &'a [BTreeSet<u32>], operator: Operator) -> Cow<'a, BTreeSet<u32>> {
    nodes
        .iter()
        .map(|node| set(node, sets))
        .reduce(|a, b| Cow::Owned(operator(&a, &b)))
        .unwrap_or_default()
}

pub fn members(tree: &Tree, sets: &[BTreeSet<u32>]) -> Vec<u32> {
    set(tree, sets).iter().copied().collect()
}

/// Whether one number is a member, by looking it up in the sets of the leaves.
pub fn contains(tree: &Tree, sets: &[BTreeSet<u32>], d: u32) -> bool {
    match tree {
        Tree::List(number) => sets[usize::from(*number)].contains(&d),
        Tree::Difference(pair) => contains(&pair[0], sets, d) && !contains(&pair[1], sets, d),
        Tree::Union(nodes) => nodes.iter().any(|node| contains(node, sets, d)),
        Tree::Intersection(nodes) => nodes.iter().all(|node| contains(node, sets, d)),
    }
}
