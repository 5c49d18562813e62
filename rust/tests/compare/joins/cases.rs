//! Pairs of deliveries: good ones, ones at a limit, and damaged ones.

use std::collections::BTreeSet;

use super::Case;
use crate::evaluator::delivery::{self as model, Form};
use crate::evaluator::lists::Each;
use crate::inputs::{delivery_of, list, number_near, room, some_lists};
use crate::random::{seed, Random};

pub fn case(number: u64) -> Case {
    let mut random = Random::of_case(seed() ^ 13, number);
    let [full, daily] = if random.one_in(1000) {
        long_deliveries(&mut random)
    } else {
        deliveries(&mut random)
    };
    let room = match model::join(&full, &daily, usize::MAX) {
        Ok(joined) => room(&mut random, joined.len()),
        Err(_) => random.pick(&[0, 1, 99]),
    };
    Case {
        number,
        full,
        daily,
        room,
    }
}

fn deliveries(random: &mut Random) -> [Vec<u8>; 2] {
    let full = some_lists(random);
    let daily = beside(random, &full);
    let [spoilt, daily_spoilt] = match random.below(8) {
        0 => [true, false],
        1 => [false, true],
        2 => [true, true],
        _ => [false, false],
    };
    [bytes(random, full, spoilt), bytes(random, daily, daily_spoilt)]
}

/// A delivery of these lists, or one that is likely bad.
fn bytes(random: &mut Random, lists: Each, spoilt: bool) -> Vec<u8> {
    if !spoilt {
        return model::write(&lists, Form::New);
    }
    if random.one_in(8) {
        let count = random.below(20);
        return random.bytes(count);
    }
    delivery_of(random, lists, Form::New)
}

/// Lists to be joined with these: mostly equally many.
fn beside(random: &mut Random, lists: &Each) -> Each {
    let count = match random.below(25) {
        0 => random.pick(&[lists.len() + 1, lists.len().saturating_sub(1), 1, 32]),
        _ => lists.len(),
    };
    (0..count)
        .map(|k| list_beside(random, lists.get(k).and_then(Option::as_ref)))
        .collect()
}

/// A list to be joined with this one: none, the same, a part of it, some numbers more, or another one.
fn list_beside(random: &mut Random, one: Option<&Vec<u32>>) -> Option<Vec<u32>> {
    let numbers = one.map_or(&[][..], |list| list);
    let some_more = |random: &mut Random| (0..random.between(1, 3)).map(|_| number_near(random, numbers)).collect();
    match random.below(10) {
        0 | 1 => None,
        2 => Some(vec![]),
        3 => one.cloned(),
        4 => Some(numbers.iter().filter(|_| random.one_in(2)).copied().collect()),
        5 | 6 => {
            let added: BTreeSet<u32> = some_more(random);
            Some(added.into_iter().collect())
        }
        7 => {
            let mut added: BTreeSet<u32> = some_more(random);
            added.extend(numbers);
            Some(added.into_iter().collect())
        }
        _ => Some(list(random)),
    }
}

/// Deliveries with a pair of long lists among short ones; sometimes one has a list more.
fn long_deliveries(random: &mut Random) -> [Vec<u8>; 2] {
    let (before, behind) = (random.below(3), random.below(3));
    let mut full: Each = (0..before + behind).map(|_| Some(list(random))).collect();
    let mut daily = full.clone();
    daily
        .iter_mut()
        .for_each(|other| *other = list_beside(random, other.as_ref()));
    let [long, other] = long_pair(random);
    full.insert(before, Some(long));
    daily.insert(before, Some(other));
    if random.one_in(6) {
        full.push(None);
    }
    [full, daily].map(|lists| model::write(&lists, Form::New))
}

/// Two lists of at most 65,535 whose union has about as many: apart, each with a share of the other, one in the other, or the same
/// as far as they can be.
fn long_pair(random: &mut Random) -> [Vec<u32>; 2] {
    let size = random.pick(&[65_534, 65_535, 65_535, 65_535, 65_536, 65_536, 65_537, 131_070]);
    let over = 65_535.max(size) - 65_535;
    let sides: &[[bool; 2]] = match random.below(4) {
        0 => &[[true, false], [false, true]],
        1 => &[[true, false], [true, true], [true, true], [false, true]],
        2 => &[[true, false], [true, true]],
        _ => &[[true, true]],
    };
    let mut pair = [vec![], vec![]];
    for (i, number) in ascending(random, size).into_iter().enumerate() {
        // As many in one alone as the union is too long by, so that neither list is.
        let side = match i {
            _ if i < over => [true, false],
            _ if i < 2 * over => [false, true],
            _ => random.pick(sides),
        };
        for (list, in_it) in pair.iter_mut().zip(side) {
            list.extend(in_it.then_some(number));
        }
    }
    if random.one_in(2) {
        pair.reverse();
    }
    pair
}

/// So many numbers, from 0 on or up to the greatest, close together or far apart.
fn ascending(random: &mut Random, size: usize) -> Vec<u32> {
    let widest = random.pick(&[1, 2, 9, 30_000]);
    let mut number = 0;
    let mut numbers = vec![0];
    for _ in 1..size {
        number += random.between(1, widest) as u32;
        numbers.push(number);
    }
    if random.one_in(2) {
        numbers.iter_mut().for_each(|other| *other += u32::MAX - number);
    }
    numbers
}
