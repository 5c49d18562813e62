//! The end of the output: what was asked for, and whether it was reached.

use crate::deliveries::Speed;
use crate::drawing::Drawn;
use crate::joining::Joined;
use crate::table::Table;
use crate::timing::{Ratio, Results};

/// Drawing takes at most so many times as long as the same steps by hand, the whole run and without its tests.
const DRAWING_MARK: f64 = 1.70;
/// The same of checks, the whole run.
const CHECKING_MARK: f64 = 1.80;
/// MB of the numbers row a second, at least.
const MEGABYTES: f64 = 100.0;
/// MB of the bytes that a move reads a second, at least.
const MOVED_MEGABYTES: f64 = 200.0;
/// A join takes at most so many times as long as reading both deliveries and writing the outcome.
const JOINING_MARK: f64 = 2.00;

pub fn word(reached: bool) -> &'static str {
    if reached {
        "reached"
    } else {
        "missed"
    }
}

/// Reached where both ratios are, else missed: one lucky sample is not enough.
fn judged(ratio: Option<Ratio>, holds: impl Fn(f64) -> bool) -> String {
    ratio.map_or("not installed".into(), |r| {
        format!("{:.2} ({:.2}) {}", r.best, r.rounds, word(holds(r.best) && holds(r.rounds)))
    })
}

pub fn waited(results: &Results) -> String {
    results
        .waited
        .map_or("not known".into(), |share| format!("{:.0}%", share * 100.0))
}

/// Engine / same steps.
fn against_same(ratio: Option<Ratio>, mark: f64) -> String {
    judged(ratio, |r| r <= mark)
}

/// Engine / peer, here the sum of some contenders: reached where the engine is ahead.
fn against(results: &Results, peer: &[&str]) -> String {
    let below: Vec<(f64, &str)> = peer.iter().map(|&name| (1.0, name)).collect();
    judged(results.ratio(&[(1.0, "engine")], &below), |r| r < 1.0)
}

fn title(what: &str, mark: f64) -> String {
    format!("Verdict: {what} (same steps: at most {mark:.2}; the others: below 1)")
}

fn print_drawing(drawn: &[Drawn]) {
    let mut table = Table::new(&[
        "case",
        "same steps, whole",
        "same steps, drawing alone",
        "BTreeSet",
        "BTreeSet with building",
        "sqlite3",
        "waited",
    ]);
    for d in drawn {
        let [whole, alone] = d.ratios();
        table.row(vec![
            d.case.name.clone(),
            against_same(whole, DRAWING_MARK),
            against_same(alone, DRAWING_MARK),
            against(&d.results, &["BTreeSet"]),
            against(&d.results, &["BTreeSet", "BTreeSet, building"]),
            against(&d.results, &["sqlite3"]),
            waited(&d.results),
        ]);
    }
    table.print(&title("engine / peer", DRAWING_MARK));
}

fn print_checks(checks: &Results) {
    let mut table = Table::new(&["100,000 checks against", "engine / peer"]);
    let same = checks.ratio(&[(1.0, "engine")], &[(1.0, "same steps")]);
    table.row(vec!["same steps, whole".into(), against_same(same, CHECKING_MARK)]);
    for name in [
        "BTreeSet, finished set",
        "BTreeSet, each expression",
        "sqlite3, each expression",
    ] {
        table.row(vec![name.into(), against(checks, &[name])]);
    }
    table.row(vec!["waited".into(), waited(checks)]);
    table.print(&title("checks", CHECKING_MARK));
}

fn print_speeds(what: &str, speeds: &[Speed], mark: f64) {
    let mut table = Table::new(&["delivery", "MB/s"]);
    for speed in speeds.iter().filter(|speed| speed.work.contains("engine")) {
        let verdict = word(speed.best() >= mark);
        table.row(vec![speed.work.clone(), format!("{:.0} {verdict}", speed.best())]);
    }
    table.print(&format!("Verdict: {what} (at least {mark} MB/s)"));
}

fn print_joined(joined: &[Joined]) {
    let mut table = Table::new(&["joined", "join / reading both and writing the outcome"]);
    for one in joined {
        table.row(vec![one.gaps.into(), judged(one.ratio, |r| r <= JOINING_MARK)]);
    }
    table.print(&format!(
        "Verdict: full and daily delivery joined (at most {JOINING_MARK:.2})"
    ));
}

const NOTE: &str = "
In the verdicts the first figure is the ratio of best times, the one in brackets the median of the ratios within each
round of samples. \"Reached\" asks that both keep the mark; anything else is \"missed\".
\"Waited\" is the share of the time in which other programs had the processor: above a few in 100 the case should be
timed again on a quieter machine.";

pub fn print(drawn: &[Drawn], checks: &Results, [coded, moved]: &[Vec<Speed>; 2], joined: &[Joined]) {
    println!("{NOTE}");
    print_drawing(drawn);
    print_checks(checks);
    print_speeds("deliveries", coded, MEGABYTES);
    print_speeds(
        "deliveries moved between the forms, by the bytes read",
        moved,
        MOVED_MEGABYTES,
    );
    print_joined(joined);
}
