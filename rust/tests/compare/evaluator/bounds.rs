//! How large it can get, from the lengths alone: the tree's bound node by node, its leaves one by one, and a delivery's fields.

use super::expression::{read_packed, Tree};
use super::Refused;

#[derive(Debug, Clone, Copy, PartialEq, Eq, Default)]
pub struct Bounds {
    pub members: usize,
    pub moves: usize,
    pub bytes: usize,
}

/// The length of each list: 7, 10. There is no row that an end could pass.
pub fn lengths(ends: &[u32]) -> Result<Vec<usize>, Refused> {
    if !(1..=32).contains(&ends.len()) {
        return Err(7);
    }
    let starts = std::iter::once(&0).chain(ends);
    let length = |(start, end): (&u32, &u32)| match end.checked_sub(*start) {
        Some(length) if length <= 65_535 => Ok(length as usize),
        _ => Err(10),
    };
    starts.zip(ends).map(length).collect()
}

/// The call's whole work: 7, 10; 1 to 5.
pub fn bounds(ends: &[u32], packed: &[u8]) -> Result<Bounds, Refused> {
    let lengths = lengths(ends)?;
    // Every list counts as delivered.
    let tree = read_packed(packed, lengths.len(), u32::MAX)?;
    Ok(Bounds {
        members: members(&tree, &lengths),
        moves: tree.leaves().into_iter().map(|list| lengths[list]).sum(),
        bytes: bytes(&lengths),
    })
}

fn members(tree: &Tree, lengths: &[usize]) -> usize {
    match tree {
        Tree::List(list) => lengths[*list],
        Tree::Difference(first, _) => members(first, lengths),
        Tree::Union(all) => all.iter().map(|member| members(member, lengths)).sum(),
        Tree::Intersection(all) => {
            let each = all.iter().map(|member| members(member, lengths));
            each.min().expect("an operator has members")
        }
    }
}

/// The number of lists, then for each its bit and its count, its first number, its width and its gaps, each of 32 bits.
fn bytes(lengths: &[usize]) -> usize {
    let list = |length: &usize| {
        let first = if *length > 0 { 32 } else { 0 };
        let width = if *length > 1 { 5 } else { 0 };
        let gaps: usize = (1..*length).map(|_| 32).sum();
        1 + 16 + first + width + gaps
    };
    let bits = 6 + lengths.iter().map(list).sum::<usize>();
    bits.div_ceil(8)
}
