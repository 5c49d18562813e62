//! 100,000 checks over the console's expression, at ascending numbers.

use crate::drawing::{Moves, Prepared};
use crate::inputs::{self, Case};
#[cfg(peer_roaring)]
use crate::peers::croaring;
#[cfg(peer_sqlite3)]
use crate::peers::sqlite;
use crate::peers::{btree, merges};
use crate::table::{grouped, micros, ratio, Table};
use crate::timing::{Contest, Results};

const NO: u64 = 4_294_967_296;
const YES: u64 = 4_294_967_297;
const CHECK: u8 = 3;

/// The contenders in the order of the table; those on a finished set have drawn it before.
const NAMES: [&str; 9] = [
    "engine",
    "same steps",
    "engine, tests",
    "same steps, tests",
    "BTreeSet, finished set",
    "BTreeSet, each expression",
    "CRoaring, finished bitmap",
    "CRoaring, each expression",
    "sqlite3, each expression",
];

/// Asks about every number and demands the expected answers; then the question is a contender.
fn add<'a>(
    contest: &mut Contest<'a>,
    name: &'static str,
    asked: &'a [u32],
    expected: &[bool],
    mut ask: impl FnMut(u32) -> bool + 'a,
) {
    assert!(asked.iter().map(|&d| ask(d)).eq(expected.iter().copied()), "{name} differs");
    let mut answers = vec![false; asked.len()];
    contest.add(name, move || {
        for (answer, &d) in answers.iter_mut().zip(asked) {
            *answer = ask(d);
        }
    });
}

/// Every contender's time, and the moves.
pub struct Checked {
    pub results: Results,
    pub moves: Moves,
}

/// Whether each number asked is a member, by the merges; the engine's replies have to say the same.
fn expected(case: &Case, prepared: &Prepared) -> (Vec<bool>, Moves) {
    let members = merges::members(&case.tree, &case.lists);
    let expected: Vec<bool> = prepared.arguments.iter().map(|d| members.binary_search(d).is_ok()).collect();
    let verified = prepared.verified(0);
    assert!(
        verified
            .replies
            .iter()
            .copied()
            .eq(expected.iter().map(|&yes| if yes { YES } else { NO })),
        "the engine's replies differ"
    );
    (expected, verified.moves())
}

fn add_btree<'a>(contest: &mut Contest<'a>, case: &'a Case, asked: &'a [u32], expected: &[bool]) {
    let sets = btree::build(&case.lists);
    let finished = btree::set(&case.tree, &sets).into_owned();
    let in_finished = move |d| finished.contains(&d);
    let in_each = move |d| btree::contains(&case.tree, &sets, d);
    add(contest, "BTreeSet, finished set", asked, expected, in_finished);
    add(contest, "BTreeSet, each expression", asked, expected, in_each);
}

#[cfg(peer_roaring)]
fn add_roaring<'a>(contest: &mut Contest<'a>, case: &'a Case, asked: &'a [u32], expected: &[bool]) {
    let bitmaps = croaring::build(&case.lists);
    let finished = croaring::bitmap(&case.tree, &bitmaps);
    let in_finished = move |d| finished.contains(d);
    let in_each = move |d| croaring::contains(&case.tree, &bitmaps, d);
    add(contest, "CRoaring, finished bitmap", asked, expected, in_finished);
    add(contest, "CRoaring, each expression", asked, expected, in_each);
}

pub fn run() -> Checked {
    let (case, asked) = inputs::checking_case();
    let prepared = Prepared::new(&case, vec![CHECK; asked.len()], asked.clone());
    let (expected, moves) = expected(&case, &prepared);
    #[cfg(peer_sqlite3)]
    let database = sqlite::fill(&case.lists);
    let mut contest = prepared.contest();
    #[cfg(before)]
    prepared.add_before(&mut contest);
    add_btree(&mut contest, &case, &asked, &expected);
    #[cfg(peer_roaring)]
    add_roaring(&mut contest, &case, &asked, &expected);
    #[cfg(peer_sqlite3)]
    {
        let mut statement = database.prepare(&sqlite::question(&case.tree));
        let ask = move |d| statement.holds(d);
        add(&mut contest, "sqlite3, each expression", &asked, &expected, ask);
    }
    let results = contest.run();
    print(&results, expected.iter().filter(|&&yes| yes).count());
    Checked { results, moves }
}

fn print(results: &Results, yes: usize) {
    let yes = grouped(yes as u64);
    let engine = results.best("engine");
    let mut table = Table::new(&["contender", "best", "median", "worst", "engine / this"]);
    for name in NAMES {
        table.row(match results.find(name) {
            Some(t) => vec![
                name.into(),
                micros(t.best),
                micros(t.median),
                micros(t.worst),
                ratio(engine, t.best),
            ],
            None => vec![
                name.into(),
                "not installed".into(),
                String::new(),
                String::new(),
                String::new(),
            ],
        });
    }
    table.print(&format!(
        "100,000 checks over the console's expression, {yes} of them yes (microseconds)"
    ));
}
