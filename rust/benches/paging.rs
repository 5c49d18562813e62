//! All members of the console's expression in pages, each page a run of its own from the bookmark of the one before: so its readers
//! begin at place 0, and go to the bookmark first.

use crate::drawing::{Moves, Prepared};
use crate::inputs;
use crate::peers::merges;
use crate::peers::same_steps::RunResult;
use crate::table::{grouped, micros, ratio, Table};
#[cfg(before)]
use crate::timing::BEFORE;
use crate::timing::{Contest, Results};

const PAGES: [usize; 2] = [50, 500];

/// All pages of one size: how many, their moves in all, and every contender's time for all of them.
pub struct Paged {
    pub page: usize,
    pub pages: usize,
    pub moves: Moves,
    pub results: Results,
}

/// Draws page by page until one ends with finished; answers how many pages.
fn draw(page: &mut [u64], mut run: impl FnMut(u64, &mut [u64]) -> RunResult) -> usize {
    let (mut bookmark, mut pages) = (0, 0);
    loop {
        bookmark = run(bookmark, page).bookmark;
        pages += 1;
        if page.last().is_none_or(|&reply| u32::try_from(reply).is_err()) {
            return pages;
        }
    }
}

/// Has all draw each page, and demands that together they are the members; how many pages, and their moves.
fn verified(prepared: &Prepared, expected: &[u32]) -> (usize, Moves) {
    let mut members = Vec::new();
    let mut moves = Moves {
        made: 0,
        places: 0,
        before: cfg!(before).then_some(0),
    };
    let mut page = vec![0; prepared.codes.len()];
    let pages = draw(&mut page, |bookmark, page| {
        let verified = prepared.verified(bookmark);
        let own = verified.moves();
        moves.made += own.made;
        moves.places += own.places;
        moves.before = moves.before.zip(own.before).map(|(all, own)| all + own);
        members.extend(verified.replies.iter().filter_map(|&reply| u32::try_from(reply).ok()));
        page.copy_from_slice(&verified.replies);
        verified.result
    });
    assert!(members == expected, "the members page by page differ");
    (pages, moves)
}

/// A contender with all pages, and one with as many runs of no calls: the tests alone.
fn add<'a>(
    contest: &mut Contest<'a>,
    [name, tests]: [&'static str; 2],
    prepared: &'a Prepared,
    pages: usize,
    run: fn(&Prepared, u64, usize, &mut [u64]) -> RunResult,
) {
    let calls = prepared.codes.len();
    let mut page = vec![0; calls];
    contest.add(name, move || {
        draw(&mut page, |bookmark, page| run(prepared, bookmark, calls, page))
    });
    contest.add(tests, move || {
        (0..pages).map(|_| run(prepared, 0, 0, &mut []).bookmark).sum::<u64>()
    });
}

pub fn all() -> Vec<Paged> {
    let case = inputs::paging_case();
    let expected = merges::members(&case.tree, &case.lists).into_owned();
    let paged = PAGES.map(|page| {
        let prepared = Prepared::new(&case, vec![0; page], vec![0; page]);
        let (pages, moves) = verified(&prepared, &expected);
        let mut contest = Contest::default();
        let c = &mut contest;
        add(c, ["engine", "engine, tests"], &prepared, pages, Prepared::engine);
        #[cfg(before)]
        add(c, [BEFORE, "before, tests"], &prepared, pages, Prepared::before);
        add(c, ["same steps", "same steps, tests"], &prepared, pages, Prepared::same_steps);
        let results = contest.run();
        Paged {
            page,
            pages,
            moves,
            results,
        }
    });
    print(&paged, expected.len());
    paged.into()
}

fn print(paged: &[Paged], members: usize) {
    let mut table = Table::new(&[
        "members a page, contender",
        "pages",
        "best",
        "median",
        "worst",
        "ns a page",
        "tests, ns a page",
        "engine / this",
    ]);
    for p in paged {
        let engine = p.results.best("engine");
        let each = |seconds: f64| grouped((seconds * 1e9 / p.pages as f64).round() as u64);
        for (name, t) in p.results.iter().filter(|(name, _)| !name.ends_with("tests")) {
            table.row(vec![
                format!("{}: {name}", p.page),
                grouped(p.pages as u64),
                micros(t.best),
                micros(t.median),
                micros(t.worst),
                each(t.best),
                each(p.results.best(&format!("{name}, tests"))),
                ratio(engine, t.best),
            ]);
        }
    }
    let members = grouped(members as u64);
    table.print(&format!(
        "{members} members of the console's expression over 4 lists of 30,000, page by page (microseconds for all pages)"
    ));

    let mut table = Table::new(&[
        "members a page",
        "pages",
        "sum of the places",
        "a page",
        "moves",
        "a page",
        "times fewer",
    ]);
    for p in paged {
        let Moves { made, places, .. } = p.moves;
        table.row(vec![
            p.page.to_string(),
            grouped(p.pages as u64),
            grouped(places),
            grouped(places / p.pages as u64),
            grouped(made),
            grouped(made / p.pages as u64),
            format!("{:.1}", places as f64 / made as f64),
        ]);
    }
    table.print("Moves of all pages: with hops, and as many as the places if all were single");
}
