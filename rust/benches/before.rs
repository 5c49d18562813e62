//! The engine of an earlier landing beside the one of today, where ZWAILMOOR_BEFORE_DIR names its folder.

use crate::checking::Checked;
use crate::drawing::{selective, Drawn, Moves};
use crate::paging::Paged;
use crate::table::{grouped, micros, Table};
use crate::timing::{Ratio, Results, BEFORE};
use crate::verdict::{waited, word};

/// Where a list is short, drawing alone is at least so many times as fast as before, and makes so many times fewer moves.
const TIMES_AS_FAST: f64 = 3.0;
const TIMES_FEWER: f64 = 12.0;
/// These take at most so many times as long.
const NOT_SLOWER: f64 = 1.05;
const NOT_TO_BE_SLOWER: [&str; 4] = ["union of 8", "difference", "console", CHECKS];
const CHECKS: &str = "100,000 checks";

/// A case that both engines were given.
struct Both<'a> {
    name: String,
    selective: bool,
    results: &'a Results,
    moves: Moves,
}

/// A contender without its tests.
const AFTER_ALONE: &[(f64, &str)] = &[(1.0, "engine"), (-1.0, "engine, tests")];
const BEFORE_ALONE: &[(f64, &str)] = &[(1.0, BEFORE), (-1.0, "before, tests")];

impl Both<'_> {
    /// After / before, of whole runs.
    fn whole(&self) -> Option<Ratio> {
        self.results.ratio(&[(1.0, "engine")], &[(1.0, BEFORE)])
    }

    /// The same without the runs' tests.
    fn alone(&self) -> Option<Ratio> {
        self.results.ratio(AFTER_ALONE, BEFORE_ALONE)
    }

    fn times_fewer(&self) -> Option<f64> {
        self.moves.before.map(|before| before as f64 / self.moves.made as f64)
    }
}

fn both<'a>(drawn: &'a [Drawn], checked: &'a Checked, paged: &'a [Paged]) -> Vec<Both<'a>> {
    let drawn = drawn.iter().map(|d| Both {
        name: d.case.name.clone(),
        selective: selective(&d.case),
        results: &d.results,
        moves: d.moves,
    });
    let checked = Both {
        name: CHECKS.into(),
        selective: false,
        results: &checked.results,
        moves: checked.moves,
    };
    let paged = paged.iter().map(|p| Both {
        name: format!("pages of {}", p.page),
        selective: false,
        results: &p.results,
        moves: p.moves,
    });
    drawn.chain([checked]).chain(paged).collect()
}

/// To a thousandth, since what is asked about is a twentieth.
fn shown(ratio: Option<Ratio>) -> String {
    ratio.map_or(String::new(), |r| format!("{:.3} ({:.3})", r.best, r.rounds))
}

/// The same, and whether both keep the mark.
fn judged(ratio: Option<Ratio>, mark: f64) -> String {
    let reached = ratio.is_some_and(|r| r.best <= mark && r.rounds <= mark);
    format!("{} {}", shown(ratio), word(reached))
}

fn print_times(cases: &[Both]) {
    let mut table = Table::new(&[
        "case",
        "before",
        "after",
        "after / before",
        "before, drawing alone",
        "after, drawing alone",
        "after / before",
        "moves before",
        "moves after",
        "waited",
    ]);
    for case in cases {
        let time = |terms| case.results.best_of(terms).map_or(String::new(), micros);
        table.row(vec![
            case.name.clone(),
            time(&[(1.0, BEFORE)]),
            time(&[(1.0, "engine")]),
            shown(case.whole()),
            time(BEFORE_ALONE),
            time(AFTER_ALONE),
            shown(case.alone()),
            case.moves.before.map_or(String::new(), grouped),
            grouped(case.moves.made),
            waited(case.results),
        ]);
    }
    table.print("Before and after: whole runs, and without their tests (best, microseconds; in brackets by rounds)");
}

fn print_verdict(cases: &[Both]) {
    let mut table = Table::new(&["case", "asked for", "whole", "drawing alone", "times fewer moves"]);
    for case in cases {
        let fewer = case.times_fewer().map_or(String::new(), |times| format!("{times:.1}"));
        let (asked, whole, alone, fewer) = if case.selective {
            let reached = word(case.times_fewer().is_some_and(|times| times >= TIMES_FEWER));
            (
                format!("alone at most 1/{TIMES_AS_FAST}, moves {TIMES_FEWER} times fewer"),
                shown(case.whole()),
                judged(case.alone(), 1.0 / TIMES_AS_FAST),
                format!("{fewer} {reached}"),
            )
        } else if NOT_TO_BE_SLOWER.contains(&&case.name[..]) {
            (
                format!("at most {NOT_SLOWER}"),
                judged(case.whole(), NOT_SLOWER),
                judged(case.alone(), NOT_SLOWER),
                fewer,
            )
        } else {
            ("nothing".into(), shown(case.whole()), shown(case.alone()), fewer)
        };
        table.row(vec![case.name.clone(), asked, whole, alone, fewer]);
    }
    table.print("Verdict: after / before");
}

pub fn print(drawn: &[Drawn], checked: &Checked, paged: &[Paged]) {
    if !cfg!(before) {
        return;
    }
    let cases = both(drawn, checked, paged);
    print_times(&cases);
    print_verdict(&cases);
}
