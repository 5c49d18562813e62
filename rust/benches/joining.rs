//! A full and a daily delivery of 32 lists joined, beside reading both and writing the outcome.

use crate::inputs::{self, Pair};
use crate::table::{micros, ratio, Table};
use crate::timing::{Contest, Ratio, Results};
use std::collections::BTreeSet;
use zwailmoor::ALL_DELIVERED;

const JOIN: &str = "join";
const APART: [&str; 3] = ["decode, the full one", "decode, the daily one", "encode, the outcome"];

/// How many times as long as the three apart the join takes.
pub struct Joined {
    pub gaps: &'static str,
    pub ratio: Option<Ratio>,
}

struct Rows {
    numbers: Vec<u32>,
    ends: Vec<u32>,
}

impl Rows {
    fn of(lists: &[Vec<u32>]) -> Rows {
        let (numbers, ends) = inputs::rows(lists);
        Rows { numbers, ends }
    }

    fn decode(&mut self, delivery: &[u8]) {
        let read = zwailmoor::decode_delivery(delivery, &mut self.numbers, &mut self.ends);
        read.unwrap_or_else(|refusal| panic!("the engine refuses with {}", refusal.number()));
    }

    fn encode(&self, delivery: &mut [u8]) -> usize {
        let size = zwailmoor::encode_delivery(&self.numbers, &self.ends, ALL_DELIVERED, delivery);
        size.unwrap_or_else(|refusal| panic!("the engine refuses with {}", refusal.number()))
    }

    fn delivery(&self) -> Vec<u8> {
        let mut bytes = vec![0; self.numbers.len() * 4 + 300];
        let size = self.encode(&mut bytes);
        bytes.truncate(size);
        bytes
    }
}

fn join(full: &[u8], daily: &[u8], joined: &mut [u8]) -> usize {
    let size = zwailmoor::join_deliveries(full, daily, joined);
    size.unwrap_or_else(|refusal| panic!("the engine refuses with {}", refusal.number()))
}

fn unions(full: &[Vec<u32>], daily: &[Vec<u32>]) -> Vec<Vec<u32>> {
    let union = |(one, other): (&Vec<u32>, &Vec<u32>)| one.iter().chain(other).copied().collect::<BTreeSet<u32>>();
    full.iter().zip(daily).map(|pair| union(pair).into_iter().collect()).collect()
}

fn contest(pair: &Pair) -> Results {
    let outcome = Rows::of(&unions(&pair.full, &pair.daily));
    let [full, daily] = [&pair.full, &pair.daily].map(|lists| Rows::of(lists));
    let [full_bytes, daily_bytes, joined] = [&full, &daily, &outcome].map(Rows::delivery);
    let mut room = vec![0xa5; joined.len()];
    assert_eq!(join(&full_bytes, &daily_bytes, &mut room), joined.len(), "the sizes differ");
    assert!(room == joined, "what is joined differs from what is encoded");

    let mut contest = Contest::default();
    contest.add_prepared(JOIN, room.clone(), |_| (), |to| join(&full_bytes, &daily_bytes, to));
    contest.add_prepared(APART[0], full, |_| (), |rows| rows.decode(&full_bytes));
    contest.add_prepared(APART[1], daily, |_| (), |rows| rows.decode(&daily_bytes));
    contest.add_prepared(APART[2], room, |_| (), |to| outcome.encode(to));
    contest.run()
}

pub fn all() -> Vec<Joined> {
    let mut table = Table::new(&["work", "best", "median", "worst", "this / the three apart"]);
    let mut joined = Vec::new();
    for pair in inputs::joined_lists() {
        let results = contest(&pair);
        let apart = APART.map(|name| (1.0, name));
        let below = results.best_of(&apart).expect("all three were added");
        for (name, t) in results.iter() {
            table.row(vec![
                format!("{name}, {}", pair.gaps),
                micros(t.best),
                micros(t.median),
                micros(t.worst),
                ratio(t.best, below),
            ]);
        }
        joined.push(Joined {
            gaps: pair.gaps,
            ratio: results.ratio(&[(1.0, JOIN)], &apart),
        });
    }
    table.print("Full and daily delivery of 32 lists of 60,000 joined, 64,000 in each union (microseconds; the ratio of times)");
    joined
}
