//! Tables that read as plain text and as Markdown.

use crate::timing::Timed;

pub struct Table {
    rows: Vec<Vec<String>>,
}

impl Table {
    pub fn new(head: &[&str]) -> Table {
        Table {
            rows: vec![head.iter().map(|cell| cell.to_string()).collect()],
        }
    }

    pub fn row(&mut self, cells: Vec<String>) {
        assert_eq!(cells.len(), self.rows[0].len(), "a row has as many cells as the head");
        self.rows.push(cells);
    }

    pub fn print(&self, title: &str) {
        println!("\n## {title}\n");
        let width = |column: usize| self.rows.iter().map(|row| row[column].chars().count()).max().unwrap_or(0);
        let widths: Vec<usize> = (0..self.rows[0].len()).map(width).collect();
        for (i, row) in self.rows.iter().enumerate() {
            let cells = row.iter().zip(&widths).enumerate();
            let padded: Vec<String> = cells.map(|(column, (cell, &width))| pad(cell, width, column == 0)).collect();
            println!("| {} |", padded.join(" | "));
            if i == 0 {
                let line: Vec<String> = widths.iter().map(|&width| "-".repeat(width)).collect();
                println!("|-{}-|", line.join("-|-"));
            }
        }
    }
}

/// The first column stands left, the others right.
fn pad(cell: &str, width: usize, left: bool) -> String {
    if left {
        format!("{cell:<width$}")
    } else {
        format!("{cell:>width$}")
    }
}

/// Seconds as microseconds.
pub fn micros(seconds: f64) -> String {
    let us = seconds * 1e6;
    if us < 100.0 {
        format!("{us:.1}")
    } else {
        grouped(us.round() as u64)
    }
}

pub fn ratio(a: f64, b: f64) -> String {
    format!("{:.2}", a / b)
}

/// A whole number with its thousands set apart.
pub fn grouped(n: u64) -> String {
    if n < 1000 {
        return n.to_string();
    }
    format!("{},{:03}", grouped(n / 1000), n % 1000)
}

/// A peer's best time, or that it is not there.
pub fn peer(timed: Option<Timed>) -> String {
    timed.map_or("not installed".to_string(), |t| micros(t.best))
}
