//! Drawing every member of an expression.

use crate::inputs::{self, Case, Tree};
#[cfg(before)]
use crate::peers::before;
#[cfg(peer_roaring)]
use crate::peers::croaring;
use crate::peers::same_steps::{self, RunResult};
#[cfg(peer_sqlite3)]
use crate::peers::sqlite;
use crate::peers::{btree, merges};
use crate::table::{grouped, micros, peer, ratio, Table};
#[cfg(before)]
use crate::timing::BEFORE;
use crate::timing::{Contest, Ratio, Results, Timed};
use zwailmoor::ALL_DELIVERED;

const FINISHED: u64 = 4_294_967_298;
/// What stands in a reply row before a run that is compared.
const UNTOUCHED: u64 = u64::MAX;

/// A case in the form that a run takes: rows, packed expression, and one next call for each member and one more.
pub struct Prepared {
    pub numbers: Vec<u32>,
    pub ends: Vec<u32>,
    pub packed: Vec<u8>,
    pub codes: Vec<u8>,
    pub arguments: Vec<u32>,
}

impl Prepared {
    pub fn new(case: &Case, codes: Vec<u8>, arguments: Vec<u32>) -> Prepared {
        let (numbers, ends) = inputs::rows(&case.lists);
        Prepared {
            numbers,
            ends,
            packed: case.tree.packed(),
            codes,
            arguments,
        }
    }

    /// The next calls that draw so many members, and one more.
    pub fn drawing(case: &Case, members: usize) -> Prepared {
        Prepared::new(case, vec![0; members + 1], vec![0; members + 1])
    }

    /// So many of the calls, from a bookmark on.
    pub fn engine(&self, bookmark: u64, calls: usize, replies: &mut [u64]) -> RunResult {
        let (codes, arguments) = (&self.codes[..calls], &self.arguments[..calls]);
        let result = zwailmoor::run(
            &self.numbers,
            &self.ends,
            ALL_DELIVERED,
            &self.packed,
            bookmark,
            codes,
            arguments,
            replies,
        );
        let result = result.unwrap_or_else(|refusal| panic!("the engine refuses with {}", refusal.number()));
        RunResult {
            moves: result.moves,
            places: result.places,
            bookmark: result.bookmark,
        }
    }

    pub fn same_steps(&self, bookmark: u64, calls: usize, replies: &mut [u64]) -> RunResult {
        let (codes, arguments) = (&self.codes[..calls], &self.arguments[..calls]);
        let result = same_steps::run(
            &self.numbers,
            &self.ends,
            ALL_DELIVERED,
            &self.packed,
            bookmark,
            codes,
            arguments,
            replies,
        );
        result.unwrap_or_else(|number| panic!("the same steps refuse with {number}"))
    }

    #[cfg(before)]
    pub fn before(&self, bookmark: u64, calls: usize, replies: &mut [u64]) -> RunResult {
        let (codes, arguments) = (&self.codes[..calls], &self.arguments[..calls]);
        let result = before::run(
            &self.numbers,
            &self.ends,
            ALL_DELIVERED,
            &self.packed,
            bookmark,
            codes,
            arguments,
            replies,
        );
        result.unwrap_or_else(|number| panic!("the engine of before refuses with {number}"))
    }

    /// Has all run all calls from a bookmark, and demands equal replies, places and bookmarks, and equal moves but of the engine of
    /// before.
    pub fn verified(&self, bookmark: u64) -> Verified {
        let calls = self.codes.len();
        let mut replies = vec![UNTOUCHED; calls + 1];
        let mut same_replies = replies.clone();
        let result = self.engine(bookmark, calls, &mut replies);
        assert_eq!(
            result,
            self.same_steps(bookmark, calls, &mut same_replies),
            "moves, places or bookmark differ"
        );
        assert!(replies == same_replies, "replies differ");
        #[cfg(before)]
        let moves_before = {
            let mut replies_before = vec![UNTOUCHED; calls + 1];
            let before = self.before(bookmark, calls, &mut replies_before);
            let moves = result.moves;
            assert_eq!(RunResult { moves, ..before }, result, "places or bookmark of before differ");
            assert!(replies == replies_before, "replies of before differ");
            Some(before.moves)
        };
        #[cfg(not(before))]
        let moves_before = None;
        assert_eq!(replies.pop(), Some(UNTOUCHED), "something was written behind the replies");
        Verified {
            replies,
            result,
            moves_before,
        }
    }

    /// The engine and the same steps, each with all calls and with none: the tests alone.
    pub fn contest(&self) -> Contest<'_> {
        let calls = self.codes.len();
        let mut contest = Contest::default();
        let (mut a, mut b) = (vec![0; calls], vec![0; calls]);
        contest.add("engine", move || self.engine(0, calls, &mut a));
        contest.add("same steps", move || self.same_steps(0, calls, &mut b));
        contest.add("engine, tests", || self.engine(0, 0, &mut []));
        contest.add("same steps, tests", || self.same_steps(0, 0, &mut []));
        contest
    }

    /// The engine of before too, with all calls and with none.
    #[cfg(before)]
    pub fn add_before<'a>(&'a self, contest: &mut Contest<'a>) {
        let calls = self.codes.len();
        let mut replies = vec![0; calls];
        contest.add(BEFORE, move || self.before(0, calls, &mut replies));
        contest.add("before, tests", || self.before(0, 0, &mut []));
    }
}

/// What every run of the same calls has to come to.
pub struct Verified {
    pub replies: Vec<u64>,
    pub result: RunResult,
    pub moves_before: Option<u32>,
}

impl Verified {
    pub fn moves(&self) -> Moves {
        Moves {
            made: self.result.moves.into(),
            places: self.result.passed().into(),
            before: self.moves_before.map(u64::from),
        }
    }
}

/// The moves of a run or of some, what they would be if all were single, which is the sum of the places, and what the engine of before
/// says.
#[derive(Clone, Copy)]
pub struct Moves {
    pub made: u64,
    pub places: u64,
    pub before: Option<u64>,
}

/// A case, what it draws, and every contender's time.
pub struct Drawn {
    pub case: Case,
    pub members: usize,
    pub moves: Moves,
    pub results: Results,
}

impl Drawn {
    /// How many times as long as the same steps the engine takes: whole, and without the tests.
    pub fn ratios(&self) -> [Option<Ratio>; 2] {
        let whole = self.results.ratio(&[(1.0, "engine")], &[(1.0, "same steps")]);
        let engine = [(1.0, "engine"), (-1.0, "engine, tests")];
        let same = [(1.0, "same steps"), (-1.0, "same steps, tests")];
        [whole, self.results.ratio(&engine, &same)]
    }
}

/// All members by the merges, with which every other contender is compared.
fn expected(case: &Case) -> Vec<u32> {
    merges::members(&case.tree, &case.lists).into_owned()
}

fn verify_engine(prepared: &Prepared, expected: &[u32]) -> Moves {
    let verified = prepared.verified(0);
    let (last, members) = verified.replies.split_last().expect("there is one call more than members");
    assert_eq!(*last, FINISHED);
    assert!(
        members.iter().copied().eq(expected.iter().map(|&x| u64::from(x))),
        "the engine's members differ"
    );
    verified.moves()
}

fn add_std<'a>(contest: &mut Contest<'a>, case: &'a Case, expected: &[u32]) {
    contest.add("merges", || merges::members(&case.tree, &case.lists));
    let sets = btree::build(&case.lists);
    assert!(btree::members(&case.tree, &sets) == expected, "BTreeSet differs");
    contest.add("BTreeSet", move || btree::members(&case.tree, &sets));
    contest.add("BTreeSet, building", || btree::build(&case.lists));
}

#[cfg(peer_roaring)]
fn add_roaring<'a>(contest: &mut Contest<'a>, case: &'a Case, expected: &[u32]) {
    let bitmaps = croaring::build(&case.lists);
    let mut row = vec![0; expected.len()];
    assert_eq!(croaring::members(&case.tree, &bitmaps, &mut row), expected.len());
    assert!(row == expected, "CRoaring differs");
    contest.add("CRoaring", move || croaring::members(&case.tree, &bitmaps, &mut row));
    contest.add("CRoaring, building", || croaring::build(&case.lists));
}

#[cfg(peer_sqlite3)]
fn add_sqlite<'a>(contest: &mut Contest<'a>, case: &'a Case, database: &'a sqlite::Database, expected: &[u32]) {
    let mut statement = database.prepare(&sqlite::query(&case.tree));
    let mut row = Vec::with_capacity(expected.len());
    statement.members(&mut row);
    assert!(row == expected, "sqlite3 differs");
    contest.add("sqlite3", move || statement.members(&mut row));
    contest.add("sqlite3, filling", || sqlite::fill(&case.lists));
}

fn draw(case: Case) -> Drawn {
    let expected = expected(&case);
    let prepared = Prepared::drawing(&case, expected.len());
    let moves = verify_engine(&prepared, &expected);
    #[cfg(peer_sqlite3)]
    let database = sqlite::fill(&case.lists);
    let mut contest = prepared.contest();
    #[cfg(before)]
    prepared.add_before(&mut contest);
    add_std(&mut contest, &case, &expected);
    #[cfg(peer_roaring)]
    add_roaring(&mut contest, &case, &expected);
    #[cfg(peer_sqlite3)]
    add_sqlite(&mut contest, &case, &database, &expected);
    let results = contest.run();
    Drawn {
        members: expected.len(),
        moves,
        results,
        case,
    }
}

pub fn all() -> Vec<Drawn> {
    let drawn: Vec<Drawn> = inputs::drawing_cases().into_iter().map(draw).collect();
    print_same_steps(&drawn);
    print_moves(&drawn);
    print_peers(&drawn);
    print_spread(&drawn);
    drawn
}

fn print_same_steps(drawn: &[Drawn]) {
    let mut table = Table::new(&[
        "case",
        "members",
        "moves",
        "engine",
        "same steps",
        "ratio",
        "engine, tests",
        "same, tests",
        "ratio, drawing alone",
    ]);
    for d in drawn {
        let time = |name| micros(d.results.best(name));
        let [whole, alone] = d.ratios().map(|r| r.map_or(String::new(), |r| format!("{:.2}", r.best)));
        table.row(vec![
            d.case.name.clone(),
            grouped(d.members as u64),
            grouped(d.moves.made),
            time("engine"),
            time("same steps"),
            whole,
            time("engine, tests"),
            time("same steps, tests"),
            alone,
        ]);
    }
    table.print("Drawing all members: the engine and the same steps by hand (best, microseconds)");
}

/// Whether a list is so much shorter than another that the readers of the other go far at each seek.
pub fn selective(case: &Case) -> bool {
    let lengths = case.lists.iter().map(Vec::len);
    matches!(case.tree, Tree::Intersection(_)) && lengths.clone().min().unwrap_or(0) * 100 < lengths.max().unwrap_or(0)
}

/// How many seeks go far, over 64 numbers or more, where all members of an intersection of lists are drawn: the candidate goes from list
/// to list, and from the first again where it grew.
fn far_seeks(lists: &[Vec<u32>]) -> u64 {
    let (mut far, mut candidate, mut places) = (0, 0, vec![0; lists.len()]);
    loop {
        let mut at = 0;
        while let Some(list) = lists.get(at) {
            let place = list.partition_point(|&x| x < candidate);
            far += u64::from(place - places[at] >= 64);
            places[at] = place;
            let Some(&answer) = list.get(place) else {
                return far;
            };
            at = if answer > candidate && at > 0 { 0 } else { at + 1 };
            candidate = answer;
        }
        candidate += 1;
    }
}

fn print_moves(drawn: &[Drawn]) {
    let mut table = Table::new(&[
        "case",
        "seeks over 64 numbers or more",
        "sum of the places",
        "to such a seek",
        "moves",
        "to such a seek",
        "times fewer",
    ]);
    for d in drawn.iter().filter(|d| selective(&d.case)) {
        let (Moves { made, places, .. }, far) = (d.moves, far_seeks(&d.case.lists));
        let each = |moves: u64| format!("{:.1}", moves as f64 / far as f64);
        table.row(vec![
            d.case.name.clone(),
            grouped(far),
            grouped(places),
            each(places),
            grouped(made),
            each(made),
            format!("{:.1}", places as f64 / made as f64),
        ]);
    }
    table.print("Moves where a list is short: with hops, and as many as the places if all were single");
}

fn print_peers(drawn: &[Drawn]) {
    let names = [
        "merges",
        "BTreeSet",
        "BTreeSet, building",
        "CRoaring",
        "CRoaring, building",
        "sqlite3",
        "sqlite3, filling",
    ];
    let mut head = vec!["case", "engine"];
    head.extend(names);
    let mut table = Table::new(&head);
    for d in drawn {
        let engine = d.results.best("engine");
        let mut row = vec![d.case.name.clone(), micros(engine)];
        row.extend(names.map(|name| with_ratio(engine, name, d.results.find(name))));
        table.row(row);
    }
    table.print("Drawing all members: other ways (best, microseconds; in brackets engine / that way)");
}

fn with_ratio(engine: f64, name: &str, timed: Option<Timed>) -> String {
    match timed {
        Some(t) if !name.contains(',') => format!("{} ({})", micros(t.best), ratio(engine, t.best)),
        _ => peer(timed),
    }
}

fn print_spread(drawn: &[Drawn]) {
    let mut table = Table::new(&["case, contender", "best", "median", "worst"]);
    for d in drawn {
        for (name, t) in d.results.iter() {
            let label = format!("{}: {name}", d.case.name);
            table.row(vec![label, micros(t.best), micros(t.median), micros(t.worst)]);
        }
    }
    table.print("Drawing all members: the spread (microseconds)");
}
