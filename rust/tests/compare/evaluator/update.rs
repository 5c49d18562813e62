//! One number added to a list or removed from it: the set of that list is changed, and the members are worked out afresh.

use std::collections::BTreeSet;

use super::lists::{lent, Lists};
use super::{source, Begin, Refused, Source};

/// A number that is added to list k, or removed from it.
#[derive(Debug, Clone, Copy)]
pub struct Change {
    pub list: usize,
    pub number: u32,
    pub adds: bool,
}

/// The row of members that is kept, in all its places, and how many of them are said to be used.
#[derive(Debug, Clone, PartialEq, Eq)]
pub struct Kept {
    pub row: Vec<u32>,
    pub count: usize,
}

/// The used parts of the rows as they are left; the word stays the caller's.
#[derive(Debug, PartialEq, Eq)]
pub struct Updated {
    pub lists: Lists,
    pub members: Vec<u32>,
}

/// The call's whole work: 7, 10, 11; 1 to 5 and 18; 4, 18; 17, 15, 16, 6.
pub fn update(lists: &Lists, packed: &[u8], change: Change, kept: &Kept) -> Result<Updated, Refused> {
    let Source {
        lists: mut each,
        tree,
        set,
    } = source(lists, packed, Begin::default())?;
    let list = each.get_mut(change.list).ok_or(4u32)?.as_mut().ok_or(18u32)?;
    if !kept.row.get(..kept.count).is_some_and(|used| used.iter().eq(&set)) {
        return Err(17);
    }
    let mut new: BTreeSet<u32> = list.iter().copied().collect();
    let other = if change.adds {
        new.insert(change.number)
    } else {
        new.remove(&change.number)
    };
    if !other {
        return Err(15);
    }
    if new.len() > 65_535 {
        return Err(16);
    }
    *list = new.into_iter().collect();
    let updated = Updated {
        lists: lent(&each),
        members: tree.denoted(&each).into_iter().collect(),
    };
    if updated.lists.numbers.len() > lists.numbers.len() || updated.members.len() > kept.row.len() {
        return Err(6);
    }
    Ok(updated)
}
