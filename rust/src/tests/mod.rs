//! The papers' small inputs and examples, lists that were not delivered, deliveries joined, lists that readers hop over, bounds, the
//! iterator, and changes.

mod bounds;
mod delivered;
mod hops;
mod joined;
mod members;
mod paper;
mod refusals;
mod updates;

use crate::{run, Call, Refusal, Reply, RunResult, ALL_DELIVERED};

const FIRST: &[u32] = &[0, 1, 2, 5, 6, 8, 9];
const SECOND: &[u32] = &[0, 2, 3, 4, 5];
const THIRD: &[u32] = &[2, 3, 6, 8, 9];
const FOURTH: &[u32] = &[0, 1, 2, 3, 7, 9];

const TOP: u64 = 4_294_967_296;

/// Lists as they are lent.
struct Lists {
    numbers: Vec<u32>,
    ends: Vec<u32>,
}

/// Lists one after the other, and their ends.
fn lent(lists: &[&[u32]]) -> Lists {
    let mut numbers = Vec::new();
    let mut ends = Vec::new();
    for list in lists {
        numbers.extend_from_slice(list);
        ends.push(numbers.len() as u32);
    }
    Lists { numbers, ends }
}

/// An expression's row form, packed.
fn packed(row: &[u8]) -> Vec<u8> {
    let mut bytes = [0; 41];
    let length = crate::pack_expression(row, 32, ALL_DELIVERED, &mut bytes).unwrap();
    bytes[..length].to_vec()
}

/// A run over lists that were all delivered and a row form.
fn ask(lists: &[&[u32]], row: &[u8], bookmark: u64, calls: &[Call]) -> Result<(Vec<Reply>, RunResult), Refusal> {
    let Lists { numbers, ends } = lent(lists);
    let codes: Vec<u8> = calls.iter().map(|call| call.code()).collect();
    let arguments: Vec<u32> = calls.iter().map(|call| call.argument()).collect();
    let mut replies = vec![0; calls.len()];
    let result = run(
        &numbers,
        &ends,
        ALL_DELIVERED,
        &packed(row),
        bookmark,
        &codes,
        &arguments,
        &mut replies,
    )?;
    let replies = replies.into_iter().map(|reply| Reply::from_row(reply).unwrap()).collect();
    Ok((replies, result))
}

/// 48 places, these first.
fn places(first: &[u16]) -> [u16; 48] {
    let mut places = [0; 48];
    places[..first.len()].copy_from_slice(first);
    places
}
