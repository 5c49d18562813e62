//! What must have been met among the cases.

use super::Case;
use crate::evaluator::delivery::least_width;
use crate::evaluator::lists::Each;
use crate::tally::Tally;

const OF_THE_FULL_ONE: [(u32, &str); 5] = [
    (1, "1 of the full one"),
    (5, "5 of the full one"),
    (7, "7 of the full one"),
    (8, "8 of the full one"),
    (9, "9 of the full one"),
];
const OF_THE_DAILY_ONE: [(u32, &str); 5] = [
    (1, "1 of the daily one"),
    (5, "5 of the daily one"),
    (7, "7 of the daily one"),
    (8, "8 of the daily one"),
    (9, "9 of the daily one"),
];

/// Which delivery is refused, and ahead of what.
pub fn refused(tally: &mut Tally, case: &Case, [full, daily]: &[Result<Each, u32>; 2]) {
    for (number, name) in OF_THE_FULL_ONE {
        tally.edge(name, *full == Err(number));
    }
    for (number, name) in OF_THE_DAILY_ONE {
        tally.edge(name, full.is_ok() && *daily == Err(number));
    }
    tally.edge(
        "the full one's ahead of the daily one's",
        matches!((full, daily), (Err(a), Err(b)) if a != b),
    );
    // The number of lists is the first six bits.
    let lists = case.daily.first().map(|byte| usize::from(byte >> 2));
    let differ = full.as_ref().is_ok_and(|full| lists.is_some_and(|lists| lists != full.len()));
    tally.edge("the daily one's ahead of 20", differ && matches!(daily, Err(5 | 8 | 9)));
}

/// Of deliveries that are both read: 20, 21 and 6, and the lengths beside 65,535.
pub fn lengths(tally: &mut Tally, [full, daily, unions]: [&Each; 3], expected: &Result<Vec<u8>, u32>) {
    let length = |list: &Option<Vec<u32>>| list.as_ref().map_or(0, Vec::len);
    let longest = unions.iter().map(length).max().unwrap_or(0);
    tally.edge("20 ahead of 21", *expected == Err(20) && longest > 65_535);
    tally.edge("a union of 65,535", expected.is_ok() && longest == 65_535);
    tally.edge("a union of 65,536", *expected == Err(21) && longest == 65_536);
    let mut pairs = full.iter().zip(daily).map(|(one, other)| (length(one), length(other)));
    tally.edge(
        "a sum above 65,535",
        expected.is_ok() && pairs.clone().any(|(one, other)| one + other > 65_535),
    );
    let both = pairs.any(|pair| pair == (65_535, 65_535));
    tally.edge("65,535 twice, the same", expected.is_ok() && both);
    tally.edge(
        "65,535 twice, a union of 65,536",
        *expected == Err(21) && both && longest == 65_536,
    );
    tally.edge(
        "21 behind a list that is not too long",
        *expected == Err(21) && length(&unions[0]) <= 65_535,
    );
}

/// Of what was joined: each way for a list to come, widths, and the row.
pub fn accepted(tally: &mut Tally, case: &Case, [full, daily, unions]: [&Each; 3], joined: &[u8]) {
    for ((one, other), union) in full.iter().zip(daily).zip(unions) {
        tally.edge("a list of the full one alone", one.is_some() && other.is_none());
        tally.edge("a list of the daily one alone", one.is_none() && other.is_some());
        tally.edge("a list of neither", one.is_none() && other.is_none());
        let empty = [one, other].map(|list| list.as_ref().is_some_and(Vec::is_empty));
        tally.edge(
            "empty, and not delivered in the other",
            empty != [false, false] && (one.is_none() || other.is_none()),
        );
        tally.edge("empty in both", empty == [true, true]);
        let (Some(one), Some(other), Some(union)) = (one, other, union) else {
            continue;
        };
        tally.edge("a number in both", union.len() < one.len() + other.len());
        tally.edge(
            "no number in both",
            !one.is_empty() && !other.is_empty() && union.len() == one.len() + other.len(),
        );
        tally.edge(
            "4,294,967,295 in both",
            one.last() == Some(&u32::MAX) && other.last() == Some(&u32::MAX),
        );
        let [one, other, union] = [one, other, union].map(|list| width(list));
        tally.edge("narrower gaps than either has", 0 < union && union < one.min(other));
        tally.edge("wider gaps than either has", 0 < one.min(other) && one.max(other) < union);
    }
    tally.edge("32 lists", unions.len() == 32);
    tally.edge("an exact row", joined.len() == case.room);
    tally.edge("longer than both together", joined.len() > case.full.len() + case.daily.len());
}

/// The width of a list's gaps, 0 where there are none.
fn width(list: &[u32]) -> u32 {
    let gaps = list.windows(2).map(|pair| u64::from(pair[1] - pair[0]) - 1);
    gaps.max().map_or(0, least_width)
}

/// The names of 1 and 5 ahead of a later refusal, and of that one ahead of 6.
fn names(later: u32) -> [&'static str; 3] {
    match later {
        20 => ["1 ahead of 20", "5 ahead of 20", "20 ahead of 6"],
        21 => ["1 ahead of 21", "5 ahead of 21", "21 ahead of 6"],
        _ => ["1 ahead of 6", "5 ahead of 6", "6, into no bytes"],
    }
}

/// Two good deliveries that are refused together, with either of them a byte shorter and longer: the tests of reading come first, those
/// of the full one ahead of the daily one's.
pub fn compare_spoilt(tally: &mut Tally, case: &Case, later: u32) {
    let shorter = |bytes: &[u8]| bytes[..bytes.len() - 1].to_vec();
    let longer = |bytes: &[u8]| [bytes, &[0]].concat();
    let [name_1, name_5, name_6] = names(later);
    tally.edge(name_6, case.room == 0);
    let (full, daily) = (&case.full, &case.daily);
    for (full, daily, number, name) in [
        (full.clone(), shorter(daily), 1, name_1),
        (full.clone(), longer(daily), 5, name_5),
        (
            shorter(full),
            longer(daily),
            1,
            "1 of the full one ahead of 5 of the daily one",
        ),
        (
            longer(full),
            shorter(daily),
            5,
            "5 of the full one ahead of 1 of the daily one",
        ),
    ] {
        let spoilt = Case { full, daily, ..*case };
        let expected = spoilt.expected();
        spoilt.compare(&expected);
        tally.edge(name, expected == Err(number));
    }
}
