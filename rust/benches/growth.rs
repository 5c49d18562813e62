//! How the time of drawing grows with the lists.

use crate::drawing::Prepared;
use crate::inputs::{self, Tree};
use crate::peers::merges;
use crate::table::{grouped, micros, ratio, Table};

const SIZES: [usize; 8] = [1_000, 2_000, 4_000, 8_000, 16_000, 32_000, 64_000, 65_535];

/// Short lists are drawn so often in a row that the processor learns their branches; the long ones show the true cost.
pub fn all() {
    table("union of 8", 8, &Tree::union_of(8));
    table("console", 4, &Tree::console());
}

fn table(name: &str, lists: usize, tree: &Tree) {
    let mut table = Table::new(&[
        "numbers a list",
        "members",
        "engine",
        "ns a number",
        "same steps",
        "ns a number",
        "ratio",
    ]);
    for size in SIZES {
        let case = inputs::growth_case(lists, size, tree);
        let members = merges::members(tree, &case.lists).len();
        let prepared = Prepared::drawing(&case, members);
        prepared.verified(0);
        let results = prepared.contest().run();
        let (engine, same) = (results.best("engine"), results.best("same steps"));
        let each = |seconds: f64| format!("{:.1}", seconds * 1e9 / (lists * size) as f64);
        table.row(vec![
            grouped(size as u64),
            grouped(members as u64),
            micros(engine),
            each(engine),
            micros(same),
            each(same),
            ratio(engine, same),
        ]);
    }
    table.print(&format!(
        "Growth, {name}: the whole run (best, microseconds; ns for each number of all lists)"
    ));
}
