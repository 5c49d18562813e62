//! Before anything is timed: the hand-written peers and the engine agree on small inputs, good and bad, with every refusal
//! that the calls have. A peer that tests less would be no fair measure.

use crate::inputs::{Dice, Tree, SEED};
use crate::peers::{bits, same_change, same_steps};
use std::collections::BTreeMap;
use zwailmoor::{Change, ALL_DELIVERED};

const INPUTS: usize = 50_000;
const FILLED: u8 = 0xa5;

/// How often each number came back, 0 for success.
type Met = BTreeMap<u32, usize>;

/// Expressions at the bounds, to be damaged or not: 48 nodes and 49, depth 12 and 13.
fn expressions() -> Vec<Vec<u8>> {
    let chain = |depth: usize| (1..depth).fold(Tree::List(0), |tree, _| Tree::Union(vec![tree]));
    let wide = |last: usize| {
        let mut members = vec![Tree::union_of(8); 5];
        members.push(Tree::Intersection(vec![Tree::List(1); last]));
        Tree::Union(members)
    };
    let many = [
        Tree::console(),
        Tree::union_of(8),
        Tree::intersection_of(3),
        Tree::difference(Tree::List(0), Tree::List(1)),
    ];
    let bounds = [chain(12), chain(13), wide(1), wide(2)];
    many.iter().chain(&bounds).map(Tree::packed).collect()
}

/// Changes a bit, cuts or lengthens, about every second time.
fn damaged(dice: &mut Dice, mut bytes: Vec<u8>) -> Vec<u8> {
    match dice.below(8) {
        0 => bytes.truncate(dice.below(bytes.len() as u64 + 1) as usize),
        1 => bytes.push(dice.below(2) as u8),
        2 | 3 if !bytes.is_empty() => {
            let at = dice.below(bytes.len() as u64) as usize;
            bytes[at] ^= 1 << dice.below(8);
        }
        _ => (),
    }
    bytes
}

/// Rows of up to 33 short lists and their word; sometimes lists were not delivered, or an end, a number or a bit is wrong.
fn rows(dice: &mut Dice) -> (Vec<u32>, Vec<u32>, u32) {
    let lists = if dice.below(20) == 0 { dice.below(34) } else { 8 };
    let base = if dice.below(8) == 0 { u32::MAX - 29 } else { 0 };
    let (mut numbers, mut ends) = (Vec::new(), Vec::new());
    let incomplete = dice.below(4) == 0;
    // Bits of lists that are not there too.
    let mut word = dice.next() as u32;
    for list in 0..lists {
        let came = !incomplete || dice.below(8) > 0;
        let bit = (1u64 << 31 >> list) as u32;
        word = if came { word | bit } else { word & !bit };
        let size = dice.below(20) as usize * usize::from(came);
        numbers.extend(dice.subset(size, 30).into_iter().map(|x| base + x));
        ends.push(numbers.len() as u32);
    }
    if dice.below(16) == 0 && !ends.is_empty() {
        let at = dice.below(lists) as usize;
        ends[at] = dice.below(numbers.len() as u64 + 3) as u32;
    }
    if dice.below(16) == 0 && !numbers.is_empty() {
        let at = dice.below(numbers.len() as u64) as usize;
        numbers[at] = dice.next() as u32;
    }
    if dice.below(32) == 0 {
        word ^= 1 << (24 + dice.below(8));
    }
    (numbers, ends, word)
}

/// Up to how far the numbers of the lists below go.
const FAR: usize = 256;

/// Rows of 8 lists, all delivered, on both sides of the lengths that readers hop over.
fn far_rows(dice: &mut Dice) -> (Vec<u32>, Vec<u32>, u32) {
    let base = if dice.below(8) == 0 { u32::MAX - (FAR as u32 - 1) } else { 0 };
    let (mut numbers, mut ends) = (Vec::new(), Vec::new());
    for _ in 0..8 {
        let size = match dice.below(3) {
            0 => 63 + dice.below(3),
            1 => 127 + dice.below(3),
            _ => dice.below(FAR as u64 + 1),
        };
        numbers.extend(dice.subset(size as usize, FAR).into_iter().map(|x| base + x));
        ends.push(numbers.len() as u32);
    }
    (numbers, ends, ALL_DELIVERED)
}

/// Either rows, and how far their numbers go.
fn any_rows(dice: &mut Dice) -> ((Vec<u32>, Vec<u32>, u32), u64) {
    if dice.below(8) == 0 {
        (far_rows(dice), FAR as u64)
    } else {
        (rows(dice), 30)
    }
}

/// The number that came back, and whether readers hopped.
fn one_run(dice: &mut Dice, expressions: &[Vec<u8>]) -> (u32, bool) {
    let ((numbers, ends, word), universe) = any_rows(dice);
    let packed = expressions[dice.below(expressions.len() as u64) as usize].clone();
    let packed = damaged(dice, packed);
    let bookmark = if dice.below(8) == 0 {
        (1 << 32) - 1 + dice.below(3)
    } else {
        dice.below(10)
    };
    let calls = dice.below(40) as usize;
    let codes: Vec<u8> = (0..calls).map(|_| dice.below(5) as u8).collect();
    let base = numbers.first().copied().unwrap_or(0);
    let uneven = usize::from(dice.below(16) == 0);
    let arguments: Vec<u32> = (0..calls + uneven)
        .map(|_| base.saturating_add(dice.below(universe) as u32))
        .collect();
    let room = (calls + 1).saturating_sub(2 * usize::from(dice.below(16) == 0));
    let (mut a, mut b) = (vec![u64::MAX; room], vec![u64::MAX; room]);
    let engine = zwailmoor::run(&numbers, &ends, word, &packed, bookmark, &codes, &arguments, &mut a);
    let peer = same_steps::run(&numbers, &ends, word, &packed, bookmark, &codes, &arguments, &mut b);
    let engine = engine.map_err(|refusal| refusal.number());
    let engine = engine.map(|r| same_steps::RunResult {
        moves: r.moves,
        places: r.places,
        bookmark: r.bookmark,
    });
    let case = || format!("{packed:02x?} over {word:08x}, {ends:?} of {numbers:?}");
    assert_eq!(engine, peer, "a run differs: {}", case());
    assert_eq!(a, b, "replies differ: {}", case());
    (engine.err().unwrap_or(0), engine.is_ok_and(|r| r.moves < r.passed()))
}

/// Free places behind the numbers and the members, or none; sometimes the members are not those of the expression.
fn one_change(dice: &mut Dice, expressions: &[Vec<u8>]) -> u32 {
    let ((mut numbers, ends, word), universe) = any_rows(dice);
    let packed = expressions[dice.below(expressions.len() as u64) as usize].clone();
    let packed = damaged(dice, packed);
    let drawn = zwailmoor::members(&numbers, &ends, word, &packed, 0, 1000);
    let mut members: Vec<u32> = drawn.map_or(Vec::new(), Iterator::collect);
    let count = members.len() + usize::from(dice.below(16) == 0);
    if dice.below(16) == 0 && !members.is_empty() {
        members[0] ^= 1;
    }
    let first = numbers.first().copied().unwrap_or(0);
    let number = first.saturating_add(dice.below(universe) as u32);
    let change = [Change::Add(number), Change::Remove(number)][dice.below(2) as usize];
    let list = dice.below(9) as usize;
    numbers.resize(numbers.len() + dice.below(3) as usize, 7);
    members.resize(members.len() + dice.below(3) as usize, 7);
    let (mut a, mut b) = (
        (numbers.clone(), ends.clone(), members.clone(), count),
        (numbers.clone(), ends.clone(), members, count),
    );
    let engine = zwailmoor::update(&mut a.0, &mut a.1, word, &packed, list, change, &mut a.2, &mut a.3);
    let peer = same_change::update(&mut b.0, &mut b.1, word, &packed, list, change, &mut b.2, &mut b.3);
    let engine = engine.map_err(|refusal| refusal.number());
    let case = || format!("{change:?}, list {list}, {packed:02x?} over {word:08x}, {ends:?} of {numbers:?}");
    assert_eq!(engine, peer, "a change differs: {}", case());
    assert_eq!(a, b, "what a change leaves differs: {}", case());
    engine.err().unwrap_or(0)
}

/// Writes a delivery by both; hands back what was written.
fn one_encode(dice: &mut Dice) -> (u32, Vec<u8>) {
    let (numbers, ends, word) = rows(dice);
    let room = if dice.below(16) == 0 { 30 } else { 2000 };
    let (mut a, mut b) = (vec![FILLED; room], vec![FILLED; room]);
    let engine = zwailmoor::encode_delivery(&numbers, &ends, word, &mut a).map_err(|refusal| refusal.number());
    assert_eq!(
        engine,
        bits::encode(&numbers, &ends, word, &mut b),
        "writing differs: {word:08x}, {ends:?} of {numbers:?}"
    );
    assert_eq!(a, b, "what is written differs: {word:08x}, {ends:?} of {numbers:?}");
    a.truncate(engine.unwrap_or(0));
    (engine.err().unwrap_or(0), a)
}

fn one_decode(dice: &mut Dice, delivery: &[u8]) -> u32 {
    let delivery = damaged(dice, delivery.to_vec());
    let rooms = if dice.below(16) == 0 {
        (40, 8)
    } else {
        (700, 8 + 24 * dice.below(2) as usize)
    };
    let (mut a, mut b) = (vec![7; rooms.0], vec![7; rooms.0]);
    let (mut a_ends, mut b_ends) = (vec![7; rooms.1], vec![7; rooms.1]);
    let engine = zwailmoor::decode_delivery(&delivery, &mut a, &mut a_ends);
    let engine = engine
        .map(|d| (d.word, d.lists, d.numbers))
        .map_err(|refusal| refusal.number());
    assert_eq!(
        engine,
        bits::decode(&delivery, &mut b, &mut b_ends),
        "reading differs: {delivery:02x?}"
    );
    assert!(a == b && a_ends == b_ends, "what is read differs: {delivery:02x?}");
    engine.err().unwrap_or(0)
}

type EngineMove = fn(&[u8], &mut [u8]) -> Result<usize, zwailmoor::Refusal>;
type PeerMove = fn(&[u8], &mut [u8]) -> Result<usize, u32>;

/// Moves bytes to the other form by both.
fn one_move(dice: &mut Dice, bytes: &[u8], by_engine: EngineMove, by_peer: PeerMove) -> u32 {
    let bytes = damaged(dice, bytes.to_vec());
    let room = if dice.below(16) == 0 { 30 } else { 2000 };
    let (mut a, mut b) = (vec![FILLED; room], vec![FILLED; room]);
    let engine = by_engine(&bytes, &mut a).map_err(|refusal| refusal.number());
    assert_eq!(engine, by_peer(&bytes, &mut b), "a move differs: {bytes:02x?}");
    assert_eq!(a, b, "what is moved differs: {bytes:02x?}");
    engine.err().unwrap_or(0)
}

/// A delivery in the old form, or no bytes if it cannot be: what is moved from there.
fn old_form(delivery: &[u8]) -> Vec<u8> {
    let mut old = vec![0; delivery.len()];
    let size = bits::downgrade(delivery, &mut old).unwrap_or(0);
    old.truncate(size);
    old
}

/// No number is added to a list of 65,535.
fn full_list() {
    let (mut numbers, mut ends, packed) = ((0..65_536).collect::<Vec<u32>>(), [65_535, 65_535], Tree::List(1).packed());
    let add = Change::Add(65_536);
    let engine = zwailmoor::update(&mut numbers, &mut ends, ALL_DELIVERED, &packed, 0, add, &mut [], &mut 0)
        .map_err(|refusal| refusal.number());
    let peer = same_change::update(&mut numbers, &mut ends, ALL_DELIVERED, &packed, 0, add, &mut [], &mut 0);
    assert_eq!([engine, peer], [Err(16); 2], "a number more than 65,535");
}

/// A list of 65,535 numbers is taken, one of 65,536 is not.
fn longest_list() {
    for (size, number) in [(65_535, 0), (65_536, 10)] {
        let numbers: Vec<u32> = (0..size).collect();
        let (ends, packed) = ([size], Tree::List(0).packed());
        let engine =
            zwailmoor::run(&numbers, &ends, ALL_DELIVERED, &packed, 0, &[], &[], &mut []).map_err(|refusal| refusal.number());
        let steps = same_steps::run(&numbers, &ends, ALL_DELIVERED, &packed, 0, &[], &[], &mut []);
        let written = bits::encode(&numbers, &ends, ALL_DELIVERED, &mut vec![0; 9_000]);
        let numbers = [engine.err(), steps.err(), written.err()].map(|e| e.unwrap_or(0));
        assert_eq!(numbers, [number; 3], "a list of {size} numbers");
    }
}

fn report(call: &str, met: &Met, wanted: &[u32]) {
    assert!(
        met.keys().copied().eq(wanted.iter().copied()),
        "{call}: not every refusal was met, or another: {met:?}"
    );
    let refusals: Vec<String> = met.iter().map(|(number, times)| format!("{number} {times} times")).collect();
    println!("  {call}: {}", refusals.join(", "));
}

pub fn demand() {
    longest_list();
    full_list();
    let mut dice = Dice::new(SEED + 3);
    let expressions = expressions();
    let (mut runs, mut encodes, mut decodes, mut changes) = (Met::new(), Met::new(), Met::new(), Met::new());
    let (mut upgrades, mut downgrades) = (Met::new(), Met::new());
    let mut hopped = 0;
    for _ in 0..INPUTS {
        let (number, hops) = one_run(&mut dice, &expressions);
        *runs.entry(number).or_default() += 1;
        hopped += usize::from(hops);
        let (number, delivery) = one_encode(&mut dice);
        *encodes.entry(number).or_default() += 1;
        *decodes.entry(one_decode(&mut dice, &delivery)).or_default() += 1;
        let number = one_move(&mut dice, &delivery, zwailmoor::downgrade_delivery, bits::downgrade);
        *downgrades.entry(number).or_default() += 1;
        let number = one_move(&mut dice, &old_form(&delivery), zwailmoor::upgrade_delivery, bits::upgrade);
        *upgrades.entry(number).or_default() += 1;
    }
    for _ in 0..INPUTS {
        *changes.entry(one_change(&mut dice, &expressions)).or_default() += 1;
    }
    println!(
        "- the engine and the hand-written peers agree on {INPUTS} small inputs of each call, good and damaged. Numbers met:"
    );
    report("run", &runs, &[0, 1, 2, 3, 4, 5, 7, 10, 11, 12, 13, 18]);
    assert!(hopped * 50 > INPUTS, "readers hopped in {hopped} runs alone");
    println!("  in {hopped} runs readers hopped");
    report("encode", &encodes, &[0, 6, 7, 10, 11]);
    report("decode", &decodes, &[0, 1, 5, 6, 7, 8, 9]);
    report("upgrade", &upgrades, &[0, 1, 5, 6, 7, 8, 9]);
    report("downgrade", &downgrades, &[0, 1, 5, 6, 7, 8, 9, 19]);
    // And 16, by the list of 65,535 above.
    report("change", &changes, &[0, 1, 2, 3, 4, 5, 6, 7, 10, 11, 15, 17, 18]);
}
