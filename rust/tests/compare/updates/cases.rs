//! Cases: lists, an expression, a change that can mostly be made, and the row of members, mostly current.

use super::Update;
use crate::evaluator::lists::{self, Lists};
use crate::evaluator::update::{Change, Kept};
use crate::evaluator::{self, Begin};
use crate::inputs::{
    far_lists, lend, lent_lists, long_list, name_delivered, number, number_near, packed, packed_anyway, some_lists,
};
use crate::random::{seed, Random};

/// Lists, and a packed expression over them.
fn source(random: &mut Random) -> (Lists, Vec<u8>) {
    let lists = if random.one_in(16) {
        let lists = far_lists(random);
        lend(random, &lists)
    } else if random.one_in(2) {
        let lists = some_lists(random);
        lend(random, &lists)
    } else {
        lent_lists(random)
    };
    let packed = if random.one_in(4) {
        subtracted(random, &lists)
    } else {
        packed(random, &lists)
    };
    (lists, packed)
}

/// A short difference: a member can come by removing a number from a list that is subtracted.
fn subtracted(random: &mut Random, lists: &Lists) -> Vec<u8> {
    let mut list = || random.below(lists.ends.len().clamp(1, 32)) as u8;
    let (first, second, third) = (list(), list(), list());
    let rows: [&[u8]; 3] = [
        &[64, first, second],
        &[64, 130, first, third, second],
        &[64, first, 194, second, third],
    ];
    let mut row = random.pick(&rows).to_vec();
    name_delivered(random, lists, &mut row);
    packed_anyway(&row)
}

/// Three lists of which list 1 is about as long as can be, and an expression that may name it.
fn long_source(random: &mut Random) -> (Lists, Vec<u8>) {
    let mut long = long_list(random);
    match random.below(8) {
        0 => {}
        1 | 2 => long.truncate(65_534),
        _ => long.truncate(65_535),
    }
    let mut other = || Some(random.pick(&[&[][..], &[3, 65_535]]).to_vec());
    let lists = vec![other(), Some(long), other()];
    let lists = lend(random, &lists);
    let rows: [&[u8]; 6] = [&[0], &[1], &[130, 0, 1], &[194, 1, 2], &[64, 1, 2], &[64, 2, 1]];
    (lists, packed_anyway(random.pick(&rows)))
}

fn list_number(random: &mut Random, lists: usize) -> usize {
    match random.below(24) {
        0 => lists,
        1 => random.pick(&[31, 32, 33, 1 << 32, (1 << 32) + 1, usize::MAX]),
        _ => random.below(lists.max(1)),
    }
}

/// Mostly a number of the list is removed, and another one added.
fn change(random: &mut Random, rows: &Lists, list: usize) -> Change {
    let part = &rows.numbers[lists::part(rows, list)];
    let number = match (random.below(6), part) {
        (0, [_, ..]) => random.pick(part),
        (1..=3, [first, .., last]) => number_near(random, &[*first, *last]),
        _ => number_near(random, &rows.numbers),
    };
    let adds = part.binary_search(&number).is_err() != random.one_in(6);
    Change { list, number, adds }
}

/// The row of the expression's members, with places behind them; sometimes another row, or another count.
fn kept(random: &mut Random, lists: &Lists, packed: &[u8], change: Change) -> Kept {
    let source = evaluator::source(lists, packed, Begin::default());
    let mut row: Vec<u32> = source.map_or(vec![], |source| source.set.into_iter().collect());
    let count = row.len();
    let behind = random.pick(&[0, 0, 1, 1, 3]);
    row.extend((0..behind).map(|_| number(random)));
    let mut kept = Kept { row, count };
    if random.one_in(5) {
        spoil(random, change, &mut kept);
    }
    kept
}

fn spoil(random: &mut Random, change: Change, Kept { row, count }: &mut Kept) {
    let at = random.below((*count).max(1));
    match random.below(11) {
        0 => *count += 1,
        1 => *count = count.wrapping_sub(1),
        2 => *count += random.pick(&[1 << 16, 1 << 32]),
        3 => *count = random.pick(&[0, row.len(), row.len() + 1, 1 << 32, usize::MAX]),
        4 if *count > 0 => row[at] = number_near(random, row),
        5 if *count > 0 => row[at] = row[at].wrapping_add(1),
        6 if *count > 1 => row.swap(at, (at + 1) % *count),
        7 if *count > 1 => row[(at + 1) % *count] = row[at],
        8 if *count > 0 => {
            row.remove(at);
            *count -= random.below(2);
        }
        9 => row.truncate(random.below(*count + 1)),
        // As if the change had been made already.
        _ => match row[..*count].binary_search(&change.number) {
            Ok(place) => {
                row.remove(place);
                *count -= 1;
            }
            Err(place) => {
                row.insert(place, change.number);
                *count += 1;
            }
        },
    }
}

pub fn case(number: u64) -> Update {
    let mut random = Random::of_case(seed() ^ 8, number);
    let long = random.one_in(350);
    let (mut lists, packed) = if long { long_source(&mut random) } else { source(&mut random) };
    let behind = random.pick(&[0, 1, 1, 2, 4]);
    lists.numbers.extend(random.bytes(behind).into_iter().map(u32::from));
    let list = if long {
        random.pick(&[0, 1, 1, 1, 1, 1, 1, 2])
    } else {
        list_number(&mut random, lists.ends.len())
    };
    let change = change(&mut random, &lists, list);
    let kept = kept(&mut random, &lists, &packed, change);
    Update {
        number,
        lists,
        packed,
        change,
        add: if change.adds { random.between(1, 255) as u8 } else { 0 },
        kept,
    }
}
