//! Inputs: good ones, ones at a limit, and damaged ones.

use std::collections::BTreeSet;

use crate::evaluator::bits::Writer;
use crate::evaluator::delivery::{least_width, write_list, Form};
use crate::evaluator::lists::{delivered, lent, Each, Lists};
use crate::random::Random;

/// Lengths about what is needed: too short, exact, longer.
pub fn room(random: &mut Random, needed: usize) -> usize {
    match random.below(8) {
        0 => needed.saturating_sub(1),
        1 => random.below(needed + 1),
        2 | 3 => needed,
        _ => needed + random.between(1, 5),
    }
}

/// How many lists an expression is read over: mostly so many, sometimes about the limits or absurd.
pub fn list_count(random: &mut Random, usual: usize) -> usize {
    match random.below(20) {
        0 => random.pick(&[0, 33, 1 << 32, (1 << 32) + 1, usize::MAX]),
        1 => random.pick(&[1, 31, 32]),
        _ => usual,
    }
}

/// The bits of a word for which no list is there.
pub fn absent_bits(lists: usize) -> u32 {
    let lists = u32::try_from(lists).unwrap_or(u32::MAX);
    u32::MAX.checked_shr(lists).unwrap_or(0)
}

/// The word of so many lists with any bits for those that are not there.
pub fn any_absent_bits(random: &mut Random, word: u32, lists: usize) -> u32 {
    let any = random.next() as u32;
    let bits = random.pick(&[0, u32::MAX, any, any]);
    word & !absent_bits(lists) | bits & absent_bits(lists)
}

/// A word that says the same of so many lists: every bit of a list that is not there is turned.
pub fn same_word(word: u32, lists: usize) -> u32 {
    word ^ absent_bits(lists)
}

/// An expression's nodes in row form, over so many lists.
pub fn expression_row(random: &mut Random, lists: usize) -> Vec<u8> {
    let mut row = Vec::new();
    match random.below(16) {
        0 => tree(random, 48, lists, &mut row),
        1 => {
            let nodes = random.between(49, 60);
            tree(random, nodes, lists, &mut row)
        }
        2 | 3 => deep(random, lists, &mut row),
        4 if random.one_in(4) => deep_and_wide(random, lists, &mut row),
        4 | 5 => {
            let nodes = random.between(8, 47);
            tree(random, nodes, lists, &mut row)
        }
        _ => {
            let nodes = random.between(1, 8);
            tree(random, nodes, lists, &mut row)
        }
    }
    row
}

/// A tree of exactly so many nodes.
fn tree(random: &mut Random, nodes: usize, lists: usize, row: &mut Vec<u8>) {
    if nodes == 1 {
        row.push(random.below(lists.clamp(1, 32)) as u8);
        return;
    }
    let members = if nodes > 12 {
        random.between(3, 8)
    } else {
        random.between(1, 8.min(nodes - 1))
    };
    let operator = match random.below(3) {
        _ if members == 2 && random.one_in(2) => 64,
        0 | 1 => 128 + members,
        _ => 192 + members,
    };
    row.push(operator as u8);
    let mut left = nodes - 1;
    for others in (0..members).rev() {
        let own = if others == 0 { left } else { 1 + random.below(left - others) };
        tree(random, own, lists, row);
        left -= own;
    }
}

/// A chain of 9 to 12 operators, so that its last node is about depth 12.
fn deep(random: &mut Random, lists: usize, row: &mut Vec<u8>) {
    let mut behind = 0;
    for _ in 0..random.between(9, 12) {
        let (operator, others) = random.pick(&[(129, 0), (193, 0), (64, 1), (130, 1), (194, 1)]);
        row.push(operator);
        if others == 1 && random.one_in(2) {
            tree(random, 1, lists, row);
        } else {
            behind += others;
        }
    }
    for _ in 0..=behind {
        tree(random, 1, lists, row);
    }
}

/// A chain of 12 operators with lists before each next one, so that its node at depth 13 is about the 49th.
fn deep_and_wide(random: &mut Random, lists: usize, row: &mut Vec<u8>) {
    let mut before = [3; 11];
    for _ in 0..random.between(2, 4) {
        before[random.below(11)] += 1;
    }
    for leaves in before {
        row.push(random.pick(&[129, 193]) + leaves);
        (0..leaves).for_each(|_| tree(random, 1, lists, row));
    }
    row.push(random.pick(&[129, 193]));
    tree(random, 1, lists, row);
}

/// The row form's bits without any test, so that bad expressions can be packed too.
pub fn packed_anyway(row: &[u8]) -> Vec<u8> {
    let mut bits = Writer::default();
    for byte in row.iter().map(|byte| u64::from(*byte)) {
        match byte {
            0..=63 => bits.put(byte & 31, 7),
            64..=127 => bits.put(1, 2),
            _ => bits.put(byte >> 6 << 3 | (byte - 1) & 7, 5),
        }
    }
    bits.bytes()
}

/// Has every leaf that names a list which was not delivered name one that was, if there is any.
pub fn name_delivered(random: &mut Random, lists: &Lists, row: &mut [u8]) {
    let there = 0..lists.ends.len().min(32) as u8;
    let came = |list: &u8| delivered(lists.word, usize::from(*list));
    let all: Vec<u8> = there.clone().filter(came).collect();
    for leaf in row.iter_mut().filter(|node| there.contains(node) && !came(node)) {
        *leaf = if all.is_empty() { *leaf } else { random.pick(&all) };
    }
}

/// A packed expression over lists: mostly good, sometimes over one list more or one that was not delivered, or damaged.
pub fn packed(random: &mut Random, lists: &Lists) -> Vec<u8> {
    let over = lists.ends.len() + usize::from(random.one_in(20));
    let mut row = expression_row(random, over);
    if !random.one_in(4) {
        name_delivered(random, lists, &mut row);
    }
    let mut bytes = packed_anyway(&row);
    if random.one_in(12) {
        damage(random, &mut bytes);
    }
    bytes
}

/// Bytes with something done to them: a bit turned, an end cut off or put on, a byte changed.
pub fn damage(random: &mut Random, bytes: &mut Vec<u8>) {
    match random.below(8) {
        0 | 1 if !bytes.is_empty() => {
            let at = random.below(bytes.len());
            bytes[at] ^= 1 << random.below(8);
        }
        2 if !bytes.is_empty() => bytes.truncate(bytes.len() - 1),
        3 => bytes.truncate(random.below(bytes.len() + 1)),
        4 if !bytes.is_empty() => {
            let at = random.below(bytes.len());
            bytes[at] = random.byte();
        }
        5 if !bytes.is_empty() => {
            // A fill bit, if there is one.
            let last = bytes.len() - 1;
            bytes[last] |= 1;
        }
        // Behind bits that fill their last byte these are just eight too many.
        6 => bytes.push(0),
        _ => {
            let end = random.between(1, 3);
            let end = random.bytes(end);
            bytes.extend(end);
        }
    }
}

/// A number where lists overlap, at either end, or anywhere.
pub fn number(random: &mut Random) -> u32 {
    match random.below(10) {
        0..=5 => random.below(24) as u32,
        6 | 7 => u32::MAX - random.below(12) as u32,
        8 => random.below(5000) as u32,
        _ => random.next() as u32,
    }
}

/// A number among the lent ones and beside them, or anywhere.
pub fn number_near(random: &mut Random, numbers: &[u32]) -> u32 {
    if numbers.is_empty() || random.one_in(3) {
        return number(random);
    }
    let lent = random.pick(numbers);
    random.pick(&[lent, lent, lent.wrapping_add(1), lent.wrapping_sub(1)])
}

/// An ascending list, seldom long.
pub fn list(random: &mut Random) -> Vec<u32> {
    let size = match random.below(12) {
        0 | 1 => 0,
        2 => 1,
        3 => random.between(10, 40),
        _ => random.between(2, 9),
    };
    let near = random.one_in(2);
    let numbers: BTreeSet<u32> = (0..size)
        .map(|_| if near { random.below(20) as u32 } else { number(random) })
        .collect();
    numbers.into_iter().collect()
}

/// 1 to 32 lists, sometimes none or 33; one time in three some were not delivered.
pub fn some_lists(random: &mut Random) -> Each {
    let count = match random.below(40) {
        0 => random.pick(&[0, 33, 33]),
        1 => 32,
        2 => random.between(8, 31),
        _ => random.between(1, 5),
    };
    let failed = random.pick(&[None, None, None, None, Some(2), Some(4)]);
    let came = |random: &mut Random| !failed.is_some_and(|times| random.one_in(times));
    (0..count).map(|_| came(random).then(|| list(random))).collect()
}

/// Lists as they are lent, with any bits for lists that are not there.
pub fn lend(random: &mut Random, lists: &Each) -> Lists {
    let lists = lent(lists);
    Lists {
        word: any_absent_bits(random, lists.word, lists.ends.len()),
        ..lists
    }
}

/// Lengths on both sides of a hop and of several, and others beyond one.
fn far_length(random: &mut Random) -> usize {
    match random.below(4) {
        0 => random.pick(&[63, 64, 65]),
        1 => random.pick(&[127, 128, 129]),
        2 => random.pick(&[62, 66, 126, 130, 191, 192, 193]),
        _ => random.between(64, 200),
    }
}

/// A list that readers hop over, its numbers close together.
fn far_list(random: &mut Random) -> Vec<u32> {
    let length = far_length(random);
    let widest = random.pick(&[1, 1, 2, 3, 9]);
    let mut number = random.below(4) as u32;
    let mut list = Vec::new();
    for _ in 0..length {
        list.push(number);
        number += random.between(1, widest) as u32;
    }
    list
}

/// 1 to 4 lists at either end of the numbers, one of them or more so long that readers hop; seldom one was not delivered.
pub fn far_lists(random: &mut Random) -> Each {
    let count = random.between(1, 4);
    let far = random.below(count);
    let mut lists: Each = (0..count)
        .map(|k| match random.below(12) {
            _ if k == far => Some(far_list(random)),
            0 => None,
            1..=4 => Some((0..random.below(200) as u32).step_by(random.between(7, 90)).collect()),
            _ => Some(far_list(random)),
        })
        .collect();
    if random.one_in(3) {
        // Turned round, so that the last numbers are about 4,294,967,295.
        for list in lists.iter_mut().flatten() {
            *list = list.iter().rev().map(|number| u32::MAX - number).collect();
        }
    }
    lists
}

/// Calls that go up a list by steps on both sides of a hop and of two.
pub fn far_calls(random: &mut Random, list: &[u32]) -> (Vec<u8>, Vec<u32>) {
    let checks_alone = random.one_in(4);
    let mut place = 0;
    let mut codes = Vec::new();
    let mut arguments = Vec::new();
    for _ in 0..random.between(1, 6) {
        place += random.pick(&[0, 1, 2, 31, 62, 63, 63, 64, 64, 65, 66, 127, 128, 129]);
        let number = match list.get(place) {
            Some(number) => *number,
            None => random.pick(&[u32::MAX, u32::MAX, list[list.len() - 1]]),
        };
        codes.push(if checks_alone { 3 } else { random.pick(&[0, 1, 1, 2, 3]) });
        arguments.push(random.pick(&[number, number, number.saturating_add(1), number.saturating_sub(1)]));
    }
    (codes, arguments)
}

/// A list of about the greatest length: 65,535 is accepted, 65,536 is not.
pub fn long_list(random: &mut Random) -> Vec<u32> {
    let size = random.pick(&[65_535, 65_536, 65_537]);
    let high = u32::MAX - 3 * 65_536 - random.below(9) as u32;
    let first = random.pick(&[0, high]);
    let step = random.between(1, 2) as u32;
    (0..size).map(|i| first + step * i).collect()
}

/// The longest list's length, of accepted lists.
pub fn longest(Lists { ends, .. }: &Lists) -> u32 {
    let starts = std::iter::once(&0).chain(ends);
    ends.iter().zip(starts).map(|(end, start)| end - start).max().unwrap_or(0)
}

/// Lists as they are lent: mostly good, else with something wrong, or two things.
pub fn lent_lists(random: &mut Random) -> Lists {
    let lists = some_lists(random);
    let mut lists = lend(random, &lists);
    if random.one_in(6) {
        let behind = random.between(1, 3);
        lists.numbers.extend((0..behind).map(|_| number(random)));
    }
    if random.one_in(5) {
        for _ in 0..random.between(1, 2) {
            spoil(random, &mut lists);
        }
    }
    lists
}

fn spoil(random: &mut Random, Lists { numbers, ends, word }: &mut Lists) {
    match random.below(7) {
        0 if !ends.is_empty() => {
            let at = random.below(ends.len());
            ends[at] = ends[at].wrapping_add(random.pick(&[1, 2, u32::MAX, u32::MAX - 1, 1 << 31]));
        }
        1 if ends.len() > 1 => {
            let at = random.below(ends.len() - 1);
            ends.swap(at, at + 1);
        }
        2 if numbers.len() > 1 => {
            let at = random.below(numbers.len() - 1);
            numbers[at + 1] = numbers[at];
        }
        3 if !numbers.is_empty() => {
            let at = random.below(numbers.len());
            numbers[at] = number(random);
        }
        4 if !ends.is_empty() => *word ^= 1 << (31 - random.below(ends.len().min(32))),
        5 => *word = random.pick(&[0, u32::MAX, word.reverse_bits(), !*word]),
        _ => {
            numbers.pop();
        }
    }
}

/// A delivery in a form: mostly well packed, else with a wrong count, a wrong width, or gaps that pass the top.
pub fn delivery(random: &mut Random, form: Form) -> Vec<u8> {
    let lists = some_lists(random);
    delivery_of(random, lists, form)
}

/// The same, of these lists.
pub fn delivery_of(random: &mut Random, lists: Each, form: Form) -> Vec<u8> {
    let mut bits = Writer::default();
    let count = if random.one_in(30) { random.below(64) } else { lists.len() };
    bits.put(count as u64, 6);
    for list in lists {
        if form == Form::New {
            bits.put(u64::from(list.is_some()), 1);
        }
        match list {
            None if form == Form::New => {}
            Some(list) if random.one_in(10) => odd_list(random, &list, &mut bits),
            list => write_list(&mut bits, &list.unwrap_or_default()),
        }
    }
    let mut bytes = bits.bytes();
    if random.one_in(5) {
        damage(random, &mut bytes);
    }
    bytes
}

/// A list's fields with a width of any size, or a first number so high that the gaps pass the top.
fn odd_list(random: &mut Random, list: &[u32], bits: &mut Writer) {
    let count = list.len().max(2);
    let raised = random.one_in(2);
    let first = if raised {
        u32::MAX - random.below(30) as u32
    } else {
        number(random)
    };
    let largest = random.pick(&[0, 1, 2, 3, 7, 8, 255, 65_536, (1 << 32) - 1]);
    let width = (least_width(largest) + random.pick(&[0, 0, 1, 2])).min(32);
    bits.put(count as u64, 16);
    bits.put(u64::from(first), 32);
    bits.put(u64::from(width) - 1, 5);
    for _ in 1..count {
        bits.put(random.next() % (largest + 1), width);
    }
}
