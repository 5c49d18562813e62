//! Sorted vectors, merged two at a time.

use crate::inputs::Tree;
use std::borrow::Cow;
use std::cmp::Ordering;

/// All members of an expression, ascending. A list by itself is not copied.
pub fn members<'a>(tree: &Tree, lists: &'a [Vec<u32>]) -> Cow<'a, [u32]> {
    match tree {
        Tree::List(number) => Cow::Borrowed(&lists[usize::from(*number)]),
        Tree::Difference(pair) => Cow::Owned(difference(&members(&pair[0], lists), &members(&pair[1], lists))),
        Tree::Union(nodes) => merge_all(nodes, lists, union),
        Tree::Intersection(nodes) => merge_all(nodes, lists, intersection),
    }
}

fn merge_all<'a>(nodes: &[Tree], lists: &'a [Vec<u32>], merge: fn(&[u32], &[u32]) -> Vec<u32>) -> Cow<'a, [u32]> {
    nodes
        .iter()
        .map(|node| members(node, lists))
        .reduce(|a, b| Cow::Owned(merge(&a, &b)))
        .unwrap_or_default()
}

fn union(a: &[u32], b: &[u32]) -> Vec<u32> {
    let mut out = Vec::with_capacity(a.len() + b.len());
    let (mut i, mut j) = (0, 0);
    while i < a.len() && j < b.len() {
        out.push(a[i].min(b[j]));
        let order = a[i].cmp(&b[j]);
        i += usize::from(order != Ordering::Greater);
        j += usize::from(order != Ordering::Less);
    }
    out.extend_from_slice(&a[i..]);
    out.extend_from_slice(&b[j..]);
    out
}

fn intersection(a: &[u32], b: &[u32]) -> Vec<u32> {
    let mut out = Vec::with_capacity(a.len().min(b.len()));
    let (mut i, mut j) = (0, 0);
    while i < a.len() && j < b.len() {
        match a[i].cmp(&b[j]) {
            Ordering::Less => i += 1,
            Ordering::Greater => j += 1,
            Ordering::Equal => {
                out.push(a[i]);
                i += 1;
                j += 1;
            }
        }
    }
    out
}

fn difference(a: &[u32], b: &[u32]) -> Vec<u32> {
    let mut out = Vec::with_capacity(a.len());
    let mut j = 0;
    for &x in a {
        while j < b.len() && b[j] < x {
            j += 1;
        }
        if b.get(j) != Some(&x) {
            out.push(x);
        }
    }
    out
}

/// Whether one number is a member, by looking it up in the lists of the leaves.
pub fn contains(tree: &Tree, lists: &[Vec<u32>], d: u32) -> bool {
    match tree {
        Tree::List(number) => lists[usize::from(*number)].binary_search(&d).is_ok(),
        Tree::Difference(pair) => contains(&pair[0], lists, d) && !contains(&pair[1], lists, d),
        Tree::Union(nodes) => nodes.iter().any(|node| contains(node, lists, d)),
        Tree::Intersection(nodes) => nodes.iter().all(|node| contains(node, lists, d)),
    }
}
