//! Runs, whole and broken off, and the iterator over pages.

use crate::evaluator::lists::{Each, Lists};
use crate::evaluator::steps::{Sought, HOP};
use crate::evaluator::{self, Begin, RunResult, TOP};
use crate::ffi;
use crate::inputs::{
    absent_bits, far_calls, far_lists, lend, lent_lists, long_list, longest, number, number_near, packed, same_word, some_lists,
};
use crate::random::{cases, seed, Random};
use crate::rows::Lent;
use crate::tally::Tally;
use zwailmoor::Reply;

/// The refusals that a run can give.
pub const REFUSALS: &[usize] = &[1, 2, 3, 4, 5, 7, 10, 11, 12, 13, 18];

/// What is replied where it is no member.
pub const REPLIES: [(&str, u64); 4] = [("no", TOP), ("yes", TOP + 1), ("finished", TOP + 2), ("unknown", TOP + 3)];

// The case's number is only printed.
#[allow(dead_code)]
#[derive(Debug, Clone)]
pub struct Run {
    pub number: u64,
    pub lists: Lists,
    pub packed: Vec<u8>,
    pub begin: Begin,
    pub codes: Vec<u8>,
    pub arguments: Vec<u32>,
    pub room: usize,
}

fn bookmark(random: &mut Random) -> u64 {
    match random.below(16) {
        0..=7 => 0,
        8..=11 => random.below(24) as u64,
        12 => TOP - random.below(14) as u64,
        13 => random.next() % TOP,
        14 => random.pick(&[TOP, TOP, TOP + 1, TOP + 2, 1 << 33, u64::MAX]),
        _ => u64::from(number(random)) + 1,
    }
}

pub fn begin(random: &mut Random) -> Begin {
    Begin {
        bookmark: bookmark(random),
    }
}

pub fn calls(random: &mut Random, numbers: &[u32]) -> (Vec<u8>, Vec<u32>) {
    let count = if random.one_in(20) {
        random.between(20, 60)
    } else {
        random.below(13)
    };
    let mostly_next = random.one_in(3);
    let call = |random: &mut Random| match random.below(14) {
        0 => random.pick(&[4, 5, 7, 128, 252, 255]),
        _ if mostly_next => 0,
        _ => random.below(4) as u8,
    };
    let mut codes = Vec::new();
    let mut arguments = Vec::new();
    for _ in 0..count {
        codes.push(call(random));
        arguments.push(number_near(random, numbers));
    }
    (codes, arguments)
}

/// The length of the replies' row; sometimes it is too short, or a code or an argument too many comes.
pub fn lengths(random: &mut Random, codes: &mut Vec<u8>, arguments: &mut Vec<u32>) -> usize {
    let mut room = codes.len() + random.pick(&[0, 0, 1, 4]);
    match random.below(40) {
        0 => codes.push(0),
        1 => arguments.push(0),
        2 => room = random.below(codes.len() + 1),
        _ => {}
    }
    room
}

/// Calls and where they begin, over lists of which one or more are about so long that readers hop.
pub fn far_run(random: &mut Random, lists: &Each) -> (Begin, Vec<u8>, Vec<u32>) {
    let far: Vec<&Vec<u32>> = lists.iter().flatten().filter(|list| list.len() > 60).collect();
    let list = random.pick(&far);
    let (codes, arguments) = far_calls(random, list);
    let inside = u64::from(random.pick(list)) + random.below(2) as u64;
    let bookmark = random.pick(&[0, 0, 0, inside]);
    (Begin { bookmark }, codes, arguments)
}

fn case(number: u64) -> Run {
    let mut random = Random::of_case(seed() ^ 6, number);
    let lists = if random.one_in(4000) {
        let lists = [some_lists(&mut random), vec![Some(long_list(&mut random))]].concat();
        lend(&mut random, &lists)
    } else if random.one_in(6) {
        return far_case(&mut random, number);
    } else if random.one_in(2) {
        let lists = some_lists(&mut random);
        lend(&mut random, &lists)
    } else {
        lent_lists(&mut random)
    };
    let packed = packed(&mut random, &lists);
    let (mut codes, mut arguments) = calls(&mut random, &lists.numbers);
    let room = lengths(&mut random, &mut codes, &mut arguments);
    Run {
        number,
        lists,
        packed,
        begin: begin(&mut random),
        codes,
        arguments,
        room,
    }
}

/// Nothing is wrong with it but, at times, its expression or a list that was not delivered.
fn far_case(random: &mut Random, number: u64) -> Run {
    let each = far_lists(random);
    let lists = lend(random, &each);
    let packed = packed(random, &lists);
    let (begin, codes, arguments) = far_run(random, &each);
    let room = codes.len();
    Run {
        number,
        lists,
        packed,
        begin,
        codes,
        arguments,
        room,
    }
}

impl Run {
    pub fn expected(&self) -> Result<RunResult, u32> {
        evaluator::run(&self.lists, &self.packed, self.begin, &self.codes, &self.arguments, self.room)
    }

    /// Every part of what both interfaces send back, and the whole row of replies. The C call is given the word, and the wrapper
    /// another one that says the same.
    pub fn compare(&self, expected: &Result<RunResult, u32>) {
        let refused = RunResult {
            replies: vec![],
            moves: 0,
            places: [0; 48],
            last: Begin::default(),
        };
        let number = expected.as_ref().err().copied().unwrap_or(0);
        let expected = expected.as_ref().unwrap_or(&refused);
        self.compare_raw(number, expected);
        self.compare_wrapper(number, expected);
    }

    /// What the C call sends back, and the row of replies as it leaves it.
    pub fn sent(&self) -> (ffi::RunResult, Lent<u64>) {
        let Run {
            lists: Lists { numbers, ends, word },
            packed,
            begin: Begin { bookmark },
            codes,
            arguments,
            ..
        } = self;
        let mut lent = Lent::new(self.room);
        let sent = ffi::run(numbers, ends, *word, packed, *bookmark, codes, arguments, lent.row());
        (sent, lent)
    }

    fn compare_raw(&self, number: u32, expected: &RunResult) {
        let (sent, lent) = self.sent();
        let parts = ffi::RunResult {
            number,
            moves: expected.moves,
            places: expected.places,
            bookmark: expected.last.bookmark,
        };
        assert_eq!(sent, parts, "{self:#?}");
        lent.assert_holds(&expected.replies, "the replies", self);
    }

    fn compare_wrapper(&self, number: u32, expected: &RunResult) {
        let Run {
            lists: Lists { numbers, ends, word },
            packed,
            begin: Begin { bookmark },
            codes,
            arguments,
            ..
        } = self;
        let mut lent = Lent::new(self.room);
        let word = same_word(*word, ends.len());
        let result = zwailmoor::run(numbers, ends, word, packed, *bookmark, codes, arguments, lent.row());
        let sent = result
            .map(|result| (result.moves, result.places, result.bookmark))
            .map_err(|refusal| refusal.number());
        let parts = (expected.moves, expected.places, expected.last.bookmark);
        let parts = if number == 0 { Ok(parts) } else { Err(number) };
        assert_eq!(sent, parts, "{self:#?}");
        lent.assert_holds(&expected.replies, "the replies by the wrapper", self);
    }

    /// Broken off before call k and taken up from the bookmark: the same replies and the same last bookmark.
    fn compare_broken_off(&self, whole: &RunResult, k: usize) {
        let part = |begin, calls: std::ops::Range<usize>| {
            let part = Run {
                begin,
                codes: self.codes[calls.clone()].to_vec(),
                arguments: self.arguments[calls.clone()].to_vec(),
                room: calls.len(),
                ..self.clone()
            };
            let expected = part.expected();
            part.compare(&expected);
            expected.expect("a part of an accepted run is accepted")
        };
        let first = part(self.begin, 0..k);
        let rest = part(first.last, k..self.codes.len());
        assert_eq!(
            [first.replies, rest.replies].concat(),
            whole.replies,
            "broken off before {k}: {self:#?}"
        );
        assert_eq!(rest.last, whole.last, "broken off before {k}: {self:#?}");
    }

    /// The iterator, in pages of some size, against the set.
    fn compare_members(&self, page: usize) {
        let Lists { numbers, ends, word } = &self.lists;
        let Begin { bookmark } = self.begin;
        let members = zwailmoor::members(numbers, ends, *word, &self.packed, bookmark, page);
        // One more than there can be, so that an iterator that does not end is seen.
        let most = numbers.len() + 1;
        let drawn = members.map(|members| members.take(most).collect::<Vec<u32>>());
        let drawn = drawn.map_err(|refusal| refusal.number());
        let source = evaluator::source(&self.lists, &self.packed, self.begin);
        let above = |member: &u32| u64::from(*member) >= bookmark;
        let expected = source.map(|source| source.set.into_iter().filter(above).collect::<Vec<u32>>());
        assert_eq!(drawn, expected, "in pages of {page}: {self:#?}");
    }
}

/// What a good many cases must have had, all accepted.
fn edges(tally: &mut Tally, case: &Run, result: &RunResult) {
    let lists = case.lists.ends.len();
    let word = case.lists.word;
    let tree = evaluator::expression::read_packed(&case.packed, lists, word).expect("an accepted expression");
    tally.edge("a list not named and not delivered", word | absent_bits(lists) != u32::MAX);
    tally.edge("32 lists", lists == 32);
    tally.edge("a list of 65,535", longest(&case.lists) == 65_535);
    tally.edge("bookmark at the top", case.begin.bookmark == TOP);
    tally.edge("48 nodes", tree.row().len() == 48);
    tally.edge("depth 12", tree.depth() == 12);
    tally.edge("4,294,967,295 drawn", result.replies.contains(&(TOP - 1)));
    for (name, reply) in REPLIES {
        tally.edge(name, result.replies.contains(&reply));
    }
}

/// The sum of the places.
pub fn sum(places: &[u16; 48]) -> u32 {
    places.iter().map(|place| u32::from(*place)).sum()
}

/// A run whose readers hopped makes fewer moves than its places say.
pub const HOPPED: &str = "hopped";

/// Of runs over lists that readers may hop over: how they did, and how they just did not.
fn hop_edges(tally: &mut Tally, case: &Run, result: &RunResult) {
    let all = sum(&result.places);
    assert!(
        result.moves <= all && (all - result.moves).is_multiple_of(63),
        "a hop is one move for 64 places: {case:#?}"
    );
    tally.edge(HOPPED, result.moves < all);
    if longest(&case.lists) < 63 {
        return;
    }
    let source = evaluator::source(&case.lists, &case.packed, case.begin).expect("an accepted run");
    let calls: Vec<(u8, u32)> = case.codes.iter().copied().zip(case.arguments.iter().copied()).collect();
    let seeks = evaluator::steps::walk(&source.tree, &source.lists, case.begin, &calls).seeks;
    let leaves = source.tree.leaves();
    for (list, seeks) in leaves.iter().zip(&seeks) {
        let list = source.lists[*list].as_deref().expect("a list that is named");
        seeks.iter().for_each(|sought| sought_edges(tally, list, sought));
    }
    let hopped = |seeks: &[Sought]| seeks.iter().any(|sought| sought.hops > 0);
    let in_checks = result.moves < all && case.codes.iter().all(|code| *code == 3);
    tally.edge("hops, in checks alone", in_checks);
    let mut hoppers: Vec<usize> = leaves
        .iter()
        .zip(&seeks)
        .filter(|(_, seeks)| hopped(seeks))
        .map(|(list, _)| *list)
        .collect();
    hoppers.sort();
    tally.edge(
        "hops, over one list at two leaves",
        hoppers.windows(2).any(|pair| pair[0] == pair[1]),
    );
    tally.edge("hops, over two lists", hoppers.windows(2).any(|pair| pair[0] != pair[1]));
}

fn sought_edges(tally: &mut Tally, list: &[u32], sought: &Sought) {
    let Sought { from, e, hops, singles } = *sought;
    let left = list.len() - from;
    let last = list.get(from + HOP - 1).map(|number| u64::from(*number));
    tally.edge("hops, two in one seek", hops > 1);
    tally.edge("hops, from inside the list", hops > 0 && from > 0);
    tally.edge("hops, to the list's end", hops > 0 && left == HOP * hops as usize);
    tally.edge("hops, then single moves", hops > 0 && singles > 0);
    tally.edge("hops, then 63 single moves", hops > 0 && singles == 63);
    tally.edge("hops, to 4,294,967,296", hops > 0 && e == TOP);
    tally.edge(
        "hops, the 64th just below E",
        hops > 0 && last.is_some_and(|last| last + 1 == e),
    );
    tally.edge("no hop, the 64th being E", last == Some(e) && singles == 63);
    tally.edge("no hop, 63 being left", left == 63 && singles == 63);
}

/// What would have been refused if every list had been delivered.
fn refused_edges(tally: &mut Tally, case: &Run, refused: u32) {
    if refused != 10 && refused != 18 {
        return;
    }
    let mut all_came = case.clone();
    all_came.lists.word = u32::MAX;
    let otherwise = all_came.expected().err();
    tally.edge("10 by the word", refused == 10 && otherwise.is_none());
    tally.edge("10 by the word ahead of 11", refused == 10 && otherwise == Some(11));
    tally.edge("18 and nothing else", refused == 18 && otherwise.is_none());
    tally.edge("18 ahead of 12", refused == 18 && otherwise == Some(12));
    tally.edge("18 ahead of 13", refused == 18 && otherwise == Some(13));
}

/// The package has no reply that the runs here need not meet.
#[test]
fn every_reply_is_an_edge() {
    let replies = (TOP..TOP + 99).map_while(Reply::from_row);
    let names = replies.map(|reply| format!("{reply:?}").to_lowercase());
    assert_eq!(names.collect::<Vec<_>>(), REPLIES.map(|(name, _)| name));
}

#[test]
fn run() {
    let mut tally = Tally::default();
    for number in 0..cases() {
        let case = case(number);
        let expected = case.expected();
        case.compare(&expected);
        let mut random = Random::of_case(seed() ^ 7, number);
        if let Ok(whole) = &expected {
            case.compare_broken_off(whole, random.below(case.codes.len() + 1));
            edges(&mut tally, &case, whole);
            hop_edges(&mut tally, &case, whole);
        }
        refused_edges(&mut tally, &case, expected.as_ref().err().copied().unwrap_or(0));
        let iterated = random.one_in(4) && case.lists.numbers.len() < 2000;
        if iterated {
            case.compare_members(random.pick(&[0, 1, 2, 3, 7, 1000]));
        }
        tally.edge("also drawn by the iterator", iterated);
        tally.count(&expected);
    }
    tally.close("run", seed(), REFUSALS);
    tally.demand(HOPPED, 20);
}
