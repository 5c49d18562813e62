//! The plain machine over a set: its state is the floor.

use std::collections::BTreeSet;

use super::{Begin, TOP};

const NO: u64 = 4_294_967_296;
const YES: u64 = 4_294_967_297;
const FINISHED: u64 = 4_294_967_298;
const UNKNOWN: u64 = 4_294_967_299;

/// The least member not below the floor.
fn least(set: &BTreeSet<u32>, floor: u64) -> Option<u32> {
    let floor = u32::try_from(floor).ok()?;
    set.range(floor..).next().copied()
}

fn draw(set: &BTreeSet<u32>, at: &mut Begin) -> u64 {
    match least(set, at.bookmark) {
        Some(member) => {
            at.bookmark = u64::from(member) + 1;
            u64::from(member)
        }
        None => {
            at.bookmark = TOP;
            FINISHED
        }
    }
}

fn reply(set: &BTreeSet<u32>, at: &mut Begin, code: u8, number: u32) -> u64 {
    let d = u64::from(number);
    match code {
        0 => draw(set, at),
        1 => {
            at.bookmark = d.max(at.bookmark);
            draw(set, at)
        }
        2 => {
            at.bookmark = (d + 1).max(at.bookmark);
            draw(set, at)
        }
        3 => {
            let yes = d >= at.bookmark && set.contains(&number);
            at.bookmark = d.max(at.bookmark);
            if yes {
                YES
            } else {
                NO
            }
        }
        _ => UNKNOWN,
    }
}

/// One reply for each call, and where the last leaves the run.
pub fn replies(set: &BTreeSet<u32>, begin: Begin, calls: &[(u8, u32)]) -> (Vec<u64>, Begin) {
    let mut at = begin;
    let replies = calls
        .iter()
        .map(|(code, number)| reply(set, &mut at, *code, *number))
        .collect();
    (replies, at)
}
