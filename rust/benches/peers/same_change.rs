//! One change with the row of members kept current, in idiomatic Rust: the tests, refusals and draws of the engine's call.

use super::same_steps::{delivered, test_lists, tree, Node};
use zwailmoor::Change;

const LONGEST: usize = 65_535;

/// Whether exactly these are the members, in order.
fn draws(mut root: Node, kept: &[u32]) -> bool {
    let mut floor = 0;
    for &x in kept {
        if root.seek(floor) != Some(x) {
            return false;
        }
        floor = u64::from(x) + 1;
    }
    root.seek(floor).is_none()
}

/// Puts a number in at a place of a row that is used so far, or takes it out.
pub fn shift(row: &mut [u32], at: usize, used: usize, number: u32, adds: bool) {
    if adds {
        row.copy_within(at..used, at + 1);
        row[at] = number;
    } else {
        row.copy_within(at + 1..used, at);
    }
}

/// Moves ends by one.
pub fn move_ends(ends: &mut [u32], adds: bool) {
    for end in ends {
        *end = if adds { *end + 1 } else { *end - 1 };
    }
}

/// A change: the tests, then the rows.
// As many arguments as the engine's call.
#[allow(clippy::too_many_arguments)]
pub fn update(
    numbers: &mut [u32],
    ends: &mut [u32],
    word: u32,
    packed: &[u8],
    list: usize,
    change: Change,
    members: &mut [u32],
    count: &mut usize,
) -> Result<(), u32> {
    let (number, adds) = match change {
        Change::Add(number) => (number, true),
        Change::Remove(number) => (number, false),
    };
    let lists = test_lists(numbers, ends, word)?;
    let root = tree(packed, &lists, word)?;
    let part = *lists.get(list).ok_or(4u32)?;
    if !delivered(word, list) {
        return Err(18);
    }
    let kept = members.get(..*count).ok_or(17u32)?;
    if !draws(root, kept) {
        return Err(17);
    }
    let found = part.binary_search(&number);
    if found.is_ok() == adds {
        return Err(15);
    }
    if adds && part.len() == LONGEST {
        return Err(16);
    }
    let used: usize = lists.iter().map(|list| list.len()).sum();
    if adds && numbers.len() == used {
        return Err(6);
    }
    // Membership rests on the number alone, so the lists are cut down to it.
    let alone = [number];
    let holds = |(k, l): (usize, &&[u32])| if k == list { adds } else { l.binary_search(&number).is_ok() };
    let cut: Vec<&[u32]> = lists.iter().enumerate().map(|l| &alone[..usize::from(holds(l))]).collect();
    let will = tree(packed, &cut, word)?.check(number);
    let shown = kept.binary_search(&number);
    if will && shown.is_err() && members.len() == *count {
        return Err(6);
    }
    let start: usize = lists[..list].iter().map(|list| list.len()).sum();
    shift(numbers, start + found.unwrap_or_else(|place| place), used, number, adds);
    move_ends(&mut ends[list..], adds);
    if will != shown.is_ok() {
        shift(members, shown.unwrap_or_else(|place| place), *count, number, will);
        *count = if will { *count + 1 } else { *count - 1 };
    }
    Ok(())
}
