//! One change in the console's lists, with its members kept current.

use crate::inputs::{self, Case, Change};
use crate::peers::{btree, merges, same_change};
use crate::table::{grouped, micros, ratio, Table};
use crate::timing::{Contest, Results};
use crate::verdict::waited;
use std::collections::BTreeSet;
use zwailmoor::ALL_DELIVERED;

const PAGE: usize = 1000;

/// Lists and the members over them, in the form that a contender keeps them in.
trait Kept {
    fn change(&mut self, change: Change);
    fn members(&self) -> Vec<u32>;
}

/// Rows as they are lent, with a free place for each change.
#[derive(Clone)]
struct Rows {
    numbers: Vec<u32>,
    ends: Vec<u32>,
    packed: Vec<u8>,
    members: Vec<u32>,
    count: usize,
}

impl Rows {
    fn new(case: &Case, free: usize) -> Rows {
        let (mut numbers, ends) = inputs::rows(&case.lists);
        let mut members = merges::members(&case.tree, &case.lists).into_owned();
        let count = members.len();
        numbers.resize(numbers.len() + free, 0);
        members.resize(count + free, 0);
        Rows {
            numbers,
            ends,
            packed: case.tree.packed(),
            members,
            count,
        }
    }

    fn update(&mut self, list: usize, change: zwailmoor::Change) -> Result<(), zwailmoor::Refusal> {
        let (numbers, ends, members) = (&mut self.numbers, &mut self.ends, &mut self.members);
        zwailmoor::update(
            numbers,
            ends,
            ALL_DELIVERED,
            &self.packed,
            list,
            change,
            members,
            &mut self.count,
        )
    }
}

fn as_called(change: Change) -> zwailmoor::Change {
    if change.adds {
        zwailmoor::Change::Add(change.number)
    } else {
        zwailmoor::Change::Remove(change.number)
    }
}

struct Engine(Rows);

impl Kept for Engine {
    fn change(&mut self, change: Change) {
        let result = self.0.update(change.list, as_called(change));
        result.unwrap_or_else(|refusal| panic!("the engine refuses with {}", refusal.number()));
    }

    fn members(&self) -> Vec<u32> {
        self.0.members[..self.0.count].to_vec()
    }
}

/// The same tests, draws and rows by hand.
struct SameSteps(Rows);

impl Kept for SameSteps {
    fn change(&mut self, change: Change) {
        let Rows {
            numbers,
            ends,
            packed,
            members,
            count,
        } = &mut self.0;
        let result = same_change::update(
            numbers,
            ends,
            ALL_DELIVERED,
            packed,
            change.list,
            as_called(change),
            members,
            count,
        );
        result.unwrap_or_else(|number| panic!("the same steps refuse with {number}"));
    }

    fn members(&self) -> Vec<u32> {
        self.0.members[..self.0.count].to_vec()
    }
}

/// The change made by hand, and all members drawn again by the engine's runs, so many calls in each.
struct Afresh {
    rows: Rows,
    codes: Vec<u8>,
    arguments: Vec<u32>,
    replies: Vec<u64>,
}

impl Afresh {
    fn new(rows: Rows, page: usize) -> Afresh {
        Afresh {
            rows,
            codes: vec![0; page],
            arguments: vec![0; page],
            replies: vec![0; page],
        }
    }

    fn draw(&mut self) {
        let Rows {
            numbers,
            ends,
            packed,
            members,
            count,
        } = &mut self.rows;
        let (mut bookmark, mut shown) = (0, 0);
        loop {
            let run = zwailmoor::run(
                numbers,
                ends,
                ALL_DELIVERED,
                packed,
                bookmark,
                &self.codes,
                &self.arguments,
                &mut self.replies,
            );
            bookmark = run
                .unwrap_or_else(|refusal| panic!("the engine refuses with {}", refusal.number()))
                .bookmark;
            for &reply in &self.replies {
                let Ok(member) = u32::try_from(reply) else {
                    *count = shown;
                    return;
                };
                members[shown] = member;
                shown += 1;
            }
        }
    }
}

impl Kept for Afresh {
    fn change(&mut self, Change { list, number, adds }: Change) {
        let Rows { numbers, ends, .. } = &mut self.rows;
        let start = list.checked_sub(1).map_or(0, |before| ends[before] as usize);
        let part = &numbers[start..ends[list] as usize];
        let at = start + part.partition_point(|&x| x < number);
        let used = ends[ends.len() - 1] as usize;
        same_change::shift(numbers, at, used, number, adds);
        same_change::move_ends(&mut ends[list..], adds);
        self.draw();
    }

    fn members(&self) -> Vec<u32> {
        self.rows.members[..self.rows.count].to_vec()
    }
}

/// Sorted vectors, changed in place; nothing is tested.
struct Vectors<'a> {
    case: &'a Case,
    lists: Vec<Vec<u32>>,
    members: Vec<u32>,
}

/// Puts a number into a sorted vector or takes it out, if it is not so already.
fn set(row: &mut Vec<u32>, number: u32, to_be_in: bool) {
    match (row.binary_search(&number), to_be_in) {
        (Err(place), true) => row.insert(place, number),
        (Ok(place), false) => {
            row.remove(place);
        }
        _ => (),
    }
}

impl Kept for Vectors<'_> {
    fn change(&mut self, Change { list, number, adds }: Change) {
        set(&mut self.lists[list], number, adds);
        let member = merges::contains(&self.case.tree, &self.lists, number);
        set(&mut self.members, number, member);
    }

    fn members(&self) -> Vec<u32> {
        self.members.clone()
    }
}

/// Sets of the standard library; nothing is tested.
struct Sets<'a> {
    case: &'a Case,
    sets: Vec<BTreeSet<u32>>,
    members: BTreeSet<u32>,
}

impl Kept for Sets<'_> {
    fn change(&mut self, Change { list, number, adds }: Change) {
        if adds {
            self.sets[list].insert(number);
        } else {
            self.sets[list].remove(&number);
        }
        if btree::contains(&self.case.tree, &self.sets, number) {
            self.members.insert(number);
        } else {
            self.members.remove(&number);
        }
    }

    fn members(&self) -> Vec<u32> {
        self.members.iter().copied().collect()
    }
}

/// The changes one after the other, then each taken back, and so on.
fn in_turn(changes: &[Change], at: usize) -> Change {
    let change = changes[at % changes.len()];
    let back = at / changes.len() % 2 == 1;
    Change {
        adds: change.adds != back,
        ..change
    }
}

/// Demands the right members after every change and after every one taken back; then the changes are a contender.
fn add<'a>(
    contest: &mut Contest<'a>,
    name: &'static str,
    changes: &'a [Change],
    expected: &[Vec<u32>],
    mut kept: impl Kept + 'a,
) {
    for (at, members) in expected.iter().enumerate() {
        kept.change(in_turn(changes, at));
        assert!(kept.members() == *members, "{name} differs");
    }
    let mut at = 0;
    contest.add(name, move || {
        kept.change(in_turn(changes, at));
        at += 1;
    });
}

/// The members after each change and after each taken back, by the merges.
fn expected(case: &Case, changes: &[Change]) -> Vec<Vec<u32>> {
    let mut lists = case.lists.clone();
    let mut members = |at| {
        let Change { list, number, adds } = in_turn(changes, at);
        set(&mut lists[list], number, adds);
        merges::members(&case.tree, &lists).into_owned()
    };
    (0..2 * changes.len()).map(&mut members).collect()
}

/// How long the tests take: as far as 4, of lists and expression; and as far as 15, with the members drawn to test 17.
fn add_refused(contest: &mut Contest, rows: &Rows) {
    let (mut to_4, mut to_15) = (rows.clone(), rows.clone());
    let present = zwailmoor::Change::Add(rows.numbers[0]);
    contest.add("engine, refused 4", move || to_4.update(4, present).expect_err("no list 4"));
    contest.add("engine, refused 15", move || {
        to_15.update(0, present).expect_err("it is there")
    });
}

pub fn run() {
    let (case, changes) = inputs::changing_case();
    let expected = expected(&case, &changes);
    let rows = Rows::new(&case, changes.len());
    let (whole, pages) = (
        Afresh::new(rows.clone(), rows.members.len() + 1),
        Afresh::new(rows.clone(), PAGE),
    );
    let vectors = Vectors {
        case: &case,
        lists: case.lists.clone(),
        members: rows.members[..rows.count].to_vec(),
    };
    let sets = Sets {
        case: &case,
        sets: btree::build(&case.lists),
        members: rows.members[..rows.count].iter().copied().collect(),
    };
    let mut contest = Contest::default();
    let c = &mut contest;
    add(c, "engine", &changes, &expected, Engine(rows.clone()));
    add(c, "same steps", &changes, &expected, SameSteps(rows.clone()));
    add(c, "engine, drawn afresh in one run", &changes, &expected, whole);
    add(c, "engine, drawn afresh in pages of 1,000", &changes, &expected, pages);
    add(c, "sorted vectors, no tests", &changes, &expected, vectors);
    add(c, "BTreeSet, no tests", &changes, &expected, sets);
    add_refused(c, &rows);
    print(&contest.run(), rows.count);
}

fn print(results: &Results, members: usize) {
    let engine = results.best("engine");
    let mut table = Table::new(&["contender", "best", "median", "worst", "engine / this"]);
    for (name, t) in results.iter() {
        table.row(vec![
            name.into(),
            micros(t.best),
            micros(t.median),
            micros(t.worst),
            ratio(engine, t.best),
        ]);
    }
    let mut last = vec![String::new(); 5];
    last[..2].clone_from_slice(&["waited".into(), waited(results)]);
    table.row(last);
    let members = grouped(members as u64);
    table.print(&format!(
        "One change in the console's lists, {members} members kept current (microseconds)"
    ));
}
