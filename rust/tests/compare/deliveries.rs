//! Deliveries read and written, and the part of one list.

use crate::evaluator::delivery as model;
use crate::evaluator::lists::{self, delivered, lent, Lists};
use crate::ffi;
use crate::inputs::{absent_bits, delivery, lend, lent_lists, long_list, longest, room, same_word, some_lists};
use crate::random::{cases, seed, Random};
use crate::rows::Lent;
use crate::tally::Tally;

/// The refusals that each call can give.
pub const DECODE_REFUSALS: &[usize] = &[1, 5, 6, 7, 8, 9];
pub const ENCODE_REFUSALS: &[usize] = &[6, 7, 10, 11];

// The case's number is only printed.
#[allow(dead_code)]
#[derive(Debug)]
struct Delivery {
    number: u64,
    bytes: Vec<u8>,
    numbers_room: usize,
    ends_room: usize,
}

fn delivery_case(number: u64) -> Delivery {
    let mut random = Random::of_case(seed() ^ 3, number);
    let bytes = if random.one_in(20) {
        let count = random.below(20);
        random.bytes(count)
    } else if random.one_in(2000) {
        let long = long_list(&mut random)[..65_535].to_vec();
        let lists = [some_lists(&mut random), vec![Some(long)]].concat();
        model::encode(&lent(&lists), usize::MAX).unwrap_or_default()
    } else {
        delivery(&mut random, model::Form::New)
    };
    let (numbers, ends) = match model::decode(&bytes, usize::MAX, 64) {
        Ok(lists) => (lists.numbers.len(), lists.ends.len()),
        Err(_) => (random.below(60), random.below(40)),
    };
    // One row at a time is too short, so that the order of the other tests is seen.
    let generous = random.one_in(3);
    Delivery {
        number,
        bytes,
        numbers_room: if generous { numbers + 100 } else { room(&mut random, numbers) },
        ends_room: if random.one_in(2) { 33 } else { room(&mut random, ends) },
    }
}

fn compare_delivery(case: &Delivery, expected: &Result<Lists, u32>) {
    let none = Lists::default();
    let number = expected.as_ref().err().copied().unwrap_or(0);
    let Lists { numbers, ends, word } = expected.as_ref().unwrap_or(&none);

    let (mut numbers_lent, mut ends_lent) = (Lent::new(case.numbers_room), Lent::new(case.ends_room));
    let sent = ffi::decode_delivery(&case.bytes, numbers_lent.row(), ends_lent.row());
    let parts = ffi::DecodeResult {
        number,
        word: *word,
        lists: ends.len(),
        numbers: numbers.len(),
    };
    assert_eq!(sent, parts, "{case:#?}");
    numbers_lent.assert_holds(numbers, "the numbers", case);
    ends_lent.assert_holds(ends, "the ends", case);

    let (mut numbers_lent, mut ends_lent) = (Lent::new(case.numbers_room), Lent::new(case.ends_room));
    let result = zwailmoor::decode_delivery(&case.bytes, numbers_lent.row(), ends_lent.row());
    let parts = result
        .map(|result| (result.word, result.lists, result.numbers))
        .map_err(|refusal| refusal.number());
    assert_eq!(
        parts,
        if number == 0 {
            Ok((*word, ends.len(), numbers.len()))
        } else {
            Err(number)
        },
        "{case:#?}"
    );
    numbers_lent.assert_holds(numbers, "the numbers by the wrapper", case);
    ends_lent.assert_holds(ends, "the ends by the wrapper", case);
}

/// Accepted lists of each kind: not delivered, and delivered but empty.
fn delivered_edges(tally: &mut Tally, lists: &Lists) {
    let count = lists.ends.len();
    let came = |k: &usize| delivered(lists.word, *k);
    let empty = |k: &usize| lists::part(lists, *k).is_empty();
    tally.edge("all delivered", (0..count).all(|k| came(&k)));
    tally.edge("none delivered", !(0..count).any(|k| came(&k)));
    tally.edge("the first list not delivered", count > 1 && !came(&0));
    tally.edge("the last list not delivered", count > 1 && !came(&(count - 1)));
    tally.edge("delivered and empty", (0..count).any(|k| came(&k) && empty(&k)));
    tally.edge("32 lists, some not delivered", count == 32 && lists.word != u32::MAX);
}

#[test]
fn decode_delivery() {
    let mut tally = Tally::default();
    for number in 0..cases() {
        let case = delivery_case(number);
        let expected = model::decode(&case.bytes, case.numbers_room, case.ends_room);
        compare_delivery(&case, &expected);
        if let Ok(lists) = &expected {
            let Lists { numbers, ends, word } = lists;
            let mut back = vec![0; case.bytes.len()];
            let length = zwailmoor::encode_delivery(numbers, ends, *word, &mut back);
            assert_eq!((length, &back), (Ok(back.len()), &case.bytes), "written back: {case:#?}");
            tally.edge("32 lists", ends.len() == 32);
            tally.edge("a list of 65,535", longest(lists) == 65_535);
            delivered_edges(&mut tally, lists);
            tally.edge(
                "both rows exact",
                numbers.len() == case.numbers_room && ends.len() == case.ends_room,
            );
        }
        tally.count(&expected);
    }
    tally.close("decode_delivery", seed(), DECODE_REFUSALS);
}

// The case's number is only printed.
#[allow(dead_code)]
#[derive(Debug)]
struct Case {
    number: u64,
    lists: Lists,
    room: usize,
    list: usize,
}

fn lists_case(salt: u64, number: u64) -> Case {
    let mut random = Random::of_case(seed() ^ salt, number);
    let lists = if random.one_in(2000) {
        let place = random.below(3);
        let mut lists = some_lists(&mut random);
        lists.insert(place.min(lists.len()), Some(long_list(&mut random)));
        lend(&mut random, &lists)
    } else {
        lent_lists(&mut random)
    };
    let needed = model::encode(&lists, usize::MAX).map_or(random.below(80), |bytes| bytes.len());
    let room = room(&mut random, needed);
    let list = match random.below(12) {
        0 => lists.ends.len(),
        1 => random.pick(&[31, 32, 33, 1 << 32, usize::MAX]),
        _ => random.below(lists.ends.len().max(1)),
    };
    Case {
        number,
        lists,
        room,
        list,
    }
}

/// The C call is given the word, and the wrapper another one that says the same.
fn compare_lists(case: &Case, expected: &Result<Vec<u8>, u32>) {
    let Lists { numbers, ends, word } = &case.lists;
    let (number, written): (u32, &[u8]) = match expected {
        Ok(written) => (0, written),
        Err(number) => (*number, &[]),
    };
    let mut lent = Lent::new(case.room);
    let sent = ffi::encode_delivery(numbers, ends, *word, lent.row());
    assert_eq!((sent.number, sent.count), (number, written.len()), "{case:#?}");
    lent.assert_holds(written, "the bytes", case);

    let mut lent = Lent::new(case.room);
    let result = zwailmoor::encode_delivery(numbers, ends, same_word(*word, ends.len()), lent.row());
    let count = if number == 0 { Ok(written.len()) } else { Err(number) };
    assert_eq!(result.map_err(|refusal| refusal.number()), count, "{case:#?}");
    lent.assert_holds(written, "the bytes by the wrapper", case);
}

fn compare_read_back(case: &Case, written: &[u8]) {
    let lists = &case.lists;
    let (mut numbers, mut ends) = (vec![0; lists.numbers.len()], [0; 32]);
    let read = zwailmoor::decode_delivery(written, &mut numbers, &mut ends).expect("what was written reads");
    let (numbers, ends) = (&numbers[..read.numbers], &ends[..read.lists]);
    let used = *lists.ends.last().expect("accepted lists") as usize;
    assert_eq!(
        (numbers, ends),
        (&lists.numbers[..used], &lists.ends[..]),
        "read back: {case:#?}"
    );
    let word = lists.word & !absent_bits(lists.ends.len());
    assert_eq!(read.word, word, "read back: {case:#?}");
}

/// What the word alone refuses.
fn word_edges(tally: &mut Tally, lists: &Lists) {
    let all_came = Lists {
        word: u32::MAX,
        ..lists.clone()
    };
    let refused = lists::accepted(lists).err();
    let otherwise = lists::accepted(&all_came).err();
    tally.edge("10 by the word", refused == Some(10) && otherwise.is_none());
    tally.edge("10 by the word ahead of 11", refused == Some(10) && otherwise == Some(11));
    tally.edge("7 ahead of 10 by the word", refused == Some(7) && lists.word == 0);
}

#[test]
fn encode_delivery() {
    let mut tally = Tally::default();
    for number in 0..cases() {
        let case = lists_case(4, number);
        let lists = &case.lists;
        let expected = model::encode(lists, case.room);
        compare_lists(&case, &expected);
        if let Ok(written) = &expected {
            compare_read_back(&case, written);
            tally.edge("32 lists", lists.ends.len() == 32);
            tally.edge("a list of 65,535", longest(lists) == 65_535);
            tally.edge(
                "numbers behind the last end",
                lists.ends.last() < Some(&(lists.numbers.len() as u32)),
            );
            tally.edge("an exact row", written.len() == case.room);
            delivered_edges(&mut tally, lists);
        }
        word_edges(&mut tally, lists);
        tally.count(&expected);
    }
    tally.close("encode_delivery", seed(), ENCODE_REFUSALS);
}

#[test]
fn list_part() {
    let mut tally = Tally::default();
    for number in 0..cases() {
        let case = lists_case(5, number);
        let Lists { numbers, ends, word } = &case.lists;
        let expected = lists::part(&case.lists, case.list);
        let span = ffi::list_span(numbers, ends, *word, case.list);
        assert_eq!((span.start, span.size), (expected.start, expected.len()), "{case:#?}");
        let part = zwailmoor::list_part(numbers, ends, same_word(*word, ends.len()), case.list);
        assert_eq!(part.as_ptr_range(), numbers[expected.clone()].as_ptr_range(), "{case:#?}");
        let accepted = lists::accepted(&case.lists);
        tally.edge("no such list", accepted.is_ok() && case.list >= ends.len());
        let there = accepted.is_ok() && case.list < ends.len();
        let inside = expected.start > 0;
        tally.edge(
            "not delivered, at its own place",
            there && inside && !delivered(*word, case.list),
        );
        word_edges(&mut tally, &case.lists);
        tally.count(&accepted);
    }
    // No refusal comes of this call: these are the lists' own, for which the part is empty.
    tally.close("list_part", seed(), &[7, 10, 11]);
}
