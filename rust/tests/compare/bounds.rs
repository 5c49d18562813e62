//! How large it can get: what is said from the lengths alone, and runs and deliveries of lists that have them.

use crate::evaluator::bounds::{self as model, lengths, Bounds};
use crate::evaluator::expression::{read_packed, Tree};
use crate::evaluator::lists::{delivered, Lists};
use crate::evaluator::{self, steps, Begin, Source, TOP};
use crate::ffi;
use crate::inputs::{any_absent_bits, far_lists, lend, lent_lists, long_list, longest, packed, some_lists};
use crate::random::{cases, seed, Random};
use crate::runs::{begin, calls, far_run, sum, HOPPED};
use crate::tally::Tally;

/// The refusals that the call can give.
pub const REFUSALS: &[usize] = &[1, 2, 3, 4, 5, 7, 10];

const FINISHED: u64 = TOP + 2;

// The case's number is only printed.
#[allow(dead_code)]
#[derive(Debug)]
struct Case {
    number: u64,
    // The call has their ends alone; the numbers need not be there.
    lists: Lists,
    packed: Vec<u8>,
}

/// Ends of up to 32 lists of any length, sometimes of none or 33, or spoilt. The numbers are not there.
fn ends_alone(random: &mut Random) -> Lists {
    let count = match random.below(20) {
        0 => random.pick(&[0, 33, 33]),
        1 | 2 => random.between(30, 32),
        3 => random.between(6, 29),
        _ => random.between(1, 5),
    };
    let full = random.one_in(8);
    let too_long = random.one_in(12);
    let length = |random: &mut Random| match random.below(8) {
        _ if full => 65_535,
        0 => 0,
        1 => 1,
        2 => 2,
        3 => random.pick(&[65_534, 65_535]),
        4 if too_long => random.pick(&[65_536, 65_537, 131_071]),
        5 | 6 => random.below(65_536),
        _ => random.below(60),
    };
    let mut end = 0;
    let mut ends = Vec::new();
    for _ in 0..count {
        end += length(random) as u32;
        ends.push(end);
    }
    if random.one_in(8) && !ends.is_empty() {
        let at = random.below(ends.len());
        let others = [
            0,
            1,
            65_536,
            u32::MAX,
            ends[at].wrapping_sub(1),
            ends[at] + 1,
            ends[at] + 65_536,
        ];
        ends[at] = random.pick(&others);
    }
    let word = random.next() as u32;
    Lists {
        numbers: vec![],
        ends,
        word: random.pick(&[u32::MAX, 0, word]),
    }
}

/// Lists of which each of two numbers or more needs the width of 32, all delivered.
fn widest_lists(random: &mut Random) -> Lists {
    let count = random.pick(&[1, 2, 3, 4, 5, 32]);
    let lengths: Vec<usize> = (0..count).map(|_| random.pick(&[0, 1, 2, 2, 3, 9])).collect();
    widest(&lengths)
}

/// Lists of these lengths whose delivery is as long as can be: a gap of more than 2^31 behind low numbers.
fn widest(lengths: &[usize]) -> Lists {
    let mut lists = Lists {
        word: u32::MAX,
        ..Lists::default()
    };
    for length in lengths {
        lists.numbers.extend(0..length.saturating_sub(1) as u32);
        lists.numbers.extend((*length > 0).then_some(u32::MAX));
        lists.ends.push(lists.numbers.len() as u32);
    }
    lists
}

fn case(number: u64) -> Case {
    let mut random = Random::of_case(seed() ^ 11, number);
    let lists = match random.below(8) {
        _ if random.one_in(4000) => {
            let lists = [some_lists(&mut random), vec![Some(long_list(&mut random))]].concat();
            lend(&mut random, &lists)
        }
        0..=2 => ends_alone(&mut random),
        3 => widest_lists(&mut random),
        4 => lent_lists(&mut random),
        5 => {
            let lists = far_lists(&mut random);
            lend(&mut random, &lists)
        }
        _ => {
            let lists = some_lists(&mut random);
            lend(&mut random, &lists)
        }
    };
    let packed = packed(&mut random, &lists);
    Case { number, lists, packed }
}

/// What a run comes to: its replies that are members, its last reply, its moves, and whether readers hopped.
struct Ran {
    members: usize,
    last: Option<u64>,
    moves: usize,
    hopped: bool,
}

impl Case {
    fn expected(&self) -> Result<Bounds, u32> {
        model::bounds(&self.lists.ends, &self.packed)
    }

    /// All that both interfaces send back.
    fn compare(&self, expected: &Result<Bounds, u32>) {
        let sent = ffi::bounds(&self.lists.ends, &self.packed);
        let most = expected.unwrap_or_default();
        let parts = ffi::BoundsResult {
            number: expected.err().unwrap_or(0),
            members: most.members as u32,
            moves: most.moves as u32,
            bytes: most.bytes,
        };
        assert_eq!(sent, parts, "{self:#?}");

        let result = zwailmoor::bounds(&self.lists.ends, &self.packed);
        let sent = result.map(|most| Bounds {
            members: most.members as usize,
            moves: most.moves as usize,
            bytes: most.bytes,
        });
        assert_eq!(
            sent.map_err(|refusal| refusal.number()),
            *expected,
            "by the wrapper: {self:#?}"
        );
    }

    /// A run of accepted lists, whose moves are the steps' and within both the bound and the places.
    fn run(&self, source: &Source, most: &Bounds, begin: Begin, codes: &[u8], arguments: &[u32]) -> Ran {
        let Lists { numbers, ends, word } = &self.lists;
        let Begin { bookmark } = begin;
        let mut replies = vec![0; codes.len()];
        let result = zwailmoor::run(numbers, ends, *word, &self.packed, bookmark, codes, arguments, &mut replies);
        let result = result.expect("an accepted run");
        let calls: Vec<(u8, u32)> = codes.iter().copied().zip(arguments.iter().copied()).collect();
        let walk = steps::walk(&source.tree, &source.lists, begin, &calls);
        let case = || format!("{codes:?}, {arguments:?} from {bookmark}: {self:#?}");
        assert_eq!((result.moves, result.places), (walk.moves(), walk.places), "{}", case());
        let (moves, all) = (result.moves as usize, sum(&result.places) as usize);
        assert!(
            moves <= all && all <= most.moves,
            "{moves} moves over {all} places by {}",
            case()
        );
        Ran {
            members: replies.iter().filter(|reply| **reply < TOP).count(),
            last: replies.last().copied(),
            moves,
            hopped: moves < all,
        }
    }

    /// Runs over the lists, if they have accepted numbers and the expression names none that was not delivered.
    fn compare_runs(&self, random: &mut Random, most: &Bounds, tally: &mut Tally) {
        let Ok(source) = evaluator::source(&self.lists, &self.packed, Default::default()) else {
            return;
        };
        let members = source.set.len();
        assert!(members <= most.members, "{members} members: {self:#?}");
        tally.edge("as many members", members == most.members);
        tally.edge("fewer members", members < most.members);

        // What is reserved for next calls is enough to draw everything from any bookmark.
        let room = most.members + 1;
        for bookmark in [0, begin(random).bookmark.min(TOP)] {
            let begin = Begin { bookmark };
            let all = self.run(&source, most, begin, &vec![0; room], &vec![0; room]);
            let left = source.set.iter().filter(|member| u64::from(**member) >= bookmark).count();
            assert_eq!((all.members, all.last), (left, Some(FINISHED)), "from {bookmark}: {self:#?}");
            tally.edge("as many moves", all.moves == most.moves);
            tally.edge("fewer moves", all.moves < most.moves);
        }

        let (begin, codes, arguments) = if longest(&self.lists) as usize >= steps::HOP {
            far_run(random, &source.lists)
        } else {
            let (codes, arguments) = calls(random, &self.lists.numbers);
            (Begin::default(), codes, arguments)
        };
        let Ran { members, hopped, .. } = self.run(&source, most, begin, &codes, &arguments);
        assert!(
            members <= most.members,
            "{members} members by {codes:?}, {arguments:?}: {self:#?}"
        );
        tally.edge(HOPPED, hopped);
    }

    /// The delivery of the lists, if they are accepted, with any word that they can have; read back into rows by the ends.
    fn compare_delivery(&self, random: &mut Random, most: &Bounds, tally: &mut Tally) {
        if evaluator::lists::accepted(&self.lists).is_err() {
            return;
        }
        let Lists { numbers, ends, .. } = &self.lists;
        let lengths = lengths(ends).expect("accepted lists");
        let all = random.one_in(2);
        let came = |random: &mut Random, length: usize| length > 0 || all || random.one_in(2);
        let word = (0..ends.len()).fold(0, |word, k| word | u32::from(came(random, lengths[k])) << (31 - k));
        let word = any_absent_bits(random, word, ends.len());

        let mut delivery = vec![0; most.bytes];
        let written = zwailmoor::encode_delivery(numbers, ends, word, &mut delivery);
        let length = written.unwrap_or_else(|refusal| panic!("word {word:x}, {refusal}: {self:#?}"));
        let (mut numbers_back, mut ends_back) = (vec![0; ends[ends.len() - 1] as usize], vec![0; ends.len()]);
        let read = zwailmoor::decode_delivery(&delivery[..length], &mut numbers_back, &mut ends_back);
        assert!(read.is_ok(), "read back, word {word:x}: {self:#?}");

        let wide = |part: &[u32]| part.len() < 2 || part.windows(2).any(|pair| pair[1] - pair[0] > 1 << 31);
        let part = |k| &numbers[evaluator::lists::part(&self.lists, k)];
        let filled = (0..ends.len()).all(|k| delivered(word, k) && wide(part(k)));
        assert!(!filled || length == most.bytes, "{length} bytes: {self:#?}");
        tally.edge(
            "as many bytes, each width 32",
            filled && lengths.iter().any(|length| *length > 1),
        );
        tally.edge("fewer bytes", length < most.bytes);
    }

    /// The widest lists of the same lengths fill exactly the bytes that are said.
    fn compare_widest(&self, most: &Bounds) {
        let Lists { numbers, ends, word } = widest(&lengths(&self.lists.ends).expect("accepted ends"));
        assert_eq!(ends, self.lists.ends);
        let mut delivery = vec![0; most.bytes];
        let written = zwailmoor::encode_delivery(&numbers, &ends, word, &mut delivery);
        assert_eq!(written, Ok(most.bytes), "the widest lists: {self:#?}");
    }
}

/// What a good many accepted cases must have had.
fn accepted_edges(tally: &mut Tally, case: &Case, most: &Bounds) {
    let ends = &case.lists.ends;
    let lengths = lengths(ends).expect("accepted ends");
    let tree = read_packed(&case.packed, ends.len(), u32::MAX).expect("an accepted expression");
    let mut leaves = tree.leaves();
    leaves.sort();
    let several = leaves.windows(2).any(|pair| pair[0] == pair[1]);
    tally.edge("a single list", matches!(tree, Tree::List(_)));
    tally.edge("a list at two leaves", several);
    tally.edge("a list not named", (0..ends.len()).any(|list| !leaves.contains(&list)));
    for (name, length) in [
        ("a length of 0", 0),
        ("a length of 1", 1),
        ("a length of 2", 2),
        ("a length of 65,535", 65_535),
    ] {
        tally.edge(name, lengths.contains(&length));
    }
    tally.edge("32 lists", ends.len() == 32);
    tally.edge("32 lists of 65,535", lengths == [65_535; 32]);
    tally.edge("48 nodes", tree.row().len() == 48);
    tally.edge("depth 12", tree.depth() == 12);
    tally.edge("moves above 65,535", most.moves > 65_535);
    tally.edge("members above 65,535", most.members > 65_535);
    let ran = evaluator::source(&case.lists, &case.packed, Default::default()).err();
    tally.edge("ends that pass the row", ran == Some(10) && case.lists.word == u32::MAX);
    tally.edge("numbers that do not ascend", ran == Some(11));
    tally.edge("18 for a run", ran == Some(18));
}

const BEHIND_10: [(u32, &str); 5] = [
    (1, "10 ahead of 1"),
    (2, "10 ahead of 2"),
    (3, "10 ahead of 3"),
    (4, "10 ahead of 4"),
    (5, "10 ahead of 5"),
];

fn refused_edges(tally: &mut Tally, case: &Case, refused: u32) {
    let ends = &case.lists.ends;
    let falls = ends.windows(2).any(|pair| pair[1] < pair[0]);
    let too_long = std::iter::once(&0)
        .chain(ends)
        .zip(ends)
        .any(|(start, end)| end.saturating_sub(*start) > 65_535);
    let expression = read_packed(&case.packed, ends.len().clamp(1, 32), u32::MAX).err();
    match refused {
        7 => {
            tally.edge("7, no lists", ends.is_empty());
            tally.edge("7, too many", ends.len() > 32);
            tally.edge("7 ahead of 10", falls || too_long);
            tally.edge("7 ahead of the expression", expression.is_some());
        }
        10 => {
            tally.edge("10, an end falls", falls && !too_long);
            tally.edge("10, a list too long", too_long && !falls);
            for (number, name) in BEHIND_10 {
                tally.edge(name, expression == Some(number));
            }
        }
        _ => {}
    }
}

#[test]
fn bounds() {
    let mut tally = Tally::default();
    for number in 0..cases() {
        let case = case(number);
        let expected = case.expected();
        case.compare(&expected);
        let mut random = Random::of_case(seed() ^ 12, number);
        match &expected {
            Ok(most) => {
                case.compare_runs(&mut random, most, &mut tally);
                case.compare_delivery(&mut random, most, &mut tally);
                // The longest take long to write.
                if most.bytes < 2000 || random.one_in(100) {
                    case.compare_widest(most);
                }
                accepted_edges(&mut tally, &case, most);
            }
            Err(refused) => refused_edges(&mut tally, &case, *refused),
        }
        tally.count(&expected);
    }
    tally.close("bounds", seed(), REFUSALS);
    tally.demand(HOPPED, 20);
}
