//! Deliveries of 32 lists, all delivered: read, written, and moved between the two forms.

use crate::inputs;
use crate::peers::bits;
use crate::table::{micros, ratio, Table};
use crate::timing::{Contest, Results, Timed};
use zwailmoor::ALL_DELIVERED;

/// MB for each second: of the numbers row, 4 bytes a number, and of a move the bytes that are read.
pub struct Speed {
    pub work: String,
    pub timed: Timed,
    pub megabytes: f64,
}

impl Speed {
    pub fn best(&self) -> f64 {
        self.megabytes / self.timed.best
    }
}

struct Rows {
    numbers: Vec<u32>,
    ends: Vec<u32>,
}

impl Rows {
    fn zeroed(numbers: usize, ends: usize) -> Rows {
        Rows {
            numbers: vec![0; numbers],
            ends: vec![0; ends],
        }
    }

    fn clear(&mut self) {
        self.numbers.fill(0);
        self.ends.fill(0);
    }

    fn engine_decode(&mut self, delivery: &[u8]) {
        let decoded = zwailmoor::decode_delivery(delivery, &mut self.numbers, &mut self.ends);
        let decoded = decoded.unwrap_or_else(|refusal| panic!("the engine refuses with {}", refusal.number()));
        let decoded = (decoded.word, decoded.lists, decoded.numbers);
        assert_eq!(decoded, (ALL_DELIVERED, self.ends.len(), self.numbers.len()));
    }

    fn rust_decode(&mut self, delivery: &[u8]) {
        let decoded = bits::decode(delivery, &mut self.numbers, &mut self.ends).expect("the delivery is good");
        assert_eq!(decoded, (ALL_DELIVERED, self.ends.len(), self.numbers.len()));
    }

    fn engine_encode(&self, delivery: &mut [u8]) -> usize {
        let size = zwailmoor::encode_delivery(&self.numbers, &self.ends, ALL_DELIVERED, delivery);
        size.unwrap_or_else(|refusal| panic!("the engine refuses with {}", refusal.number()))
    }

    fn rust_encode(&self, delivery: &mut [u8]) -> usize {
        bits::encode(&self.numbers, &self.ends, ALL_DELIVERED, delivery).expect("the lists are good")
    }
}

/// The delivery of the rows, which both write alike and both read back.
fn verified(rows: &Rows) -> Vec<u8> {
    let mut delivery = vec![0xa5; rows.numbers.len() * 4 + 300];
    let mut other = delivery.clone();
    let size = rows.engine_encode(&mut delivery);
    assert_eq!(size, rows.rust_encode(&mut other), "the deliveries' sizes differ");
    assert!(delivery == other, "the deliveries differ");
    delivery.truncate(size);
    for decode in [Rows::engine_decode, Rows::rust_decode] {
        let mut read = Rows::zeroed(rows.numbers.len(), rows.ends.len());
        decode(&mut read, &delivery);
        assert!(
            read.numbers == rows.numbers && read.ends == rows.ends,
            "what is read back differs"
        );
    }
    delivery
}

fn engine_upgrade(old: &[u8], delivery: &mut [u8]) -> usize {
    let size = zwailmoor::upgrade_delivery(old, delivery);
    size.unwrap_or_else(|refusal| panic!("the engine refuses with {}", refusal.number()))
}

fn engine_downgrade(delivery: &[u8], old: &mut [u8]) -> usize {
    let size = zwailmoor::downgrade_delivery(delivery, old);
    size.unwrap_or_else(|refusal| panic!("the engine refuses with {}", refusal.number()))
}

fn rust_upgrade(old: &[u8], delivery: &mut [u8]) -> usize {
    bits::upgrade(old, delivery).expect("the bytes are good")
}

fn rust_downgrade(delivery: &[u8], old: &mut [u8]) -> usize {
    bits::downgrade(delivery, old).expect("the delivery is good")
}

/// The delivery in the old form, which both write alike and both move back.
fn verified_old(delivery: &[u8]) -> Vec<u8> {
    let mut old = vec![0xa5; delivery.len()];
    let mut other = old.clone();
    let size = engine_downgrade(delivery, &mut old);
    assert_eq!(size, rust_downgrade(delivery, &mut other), "the old forms' sizes differ");
    assert!(old == other, "the old forms differ");
    old.truncate(size);
    for upgrade in [engine_upgrade, rust_upgrade] {
        let mut back = vec![0xa5; delivery.len()];
        assert_eq!(upgrade(&old, &mut back), delivery.len(), "the size there and back differs");
        assert!(back == delivery, "there and back differs");
    }
    old
}

fn speeds(results: &Results, gaps: &str, megabytes: f64) -> Vec<Speed> {
    let speed = |(name, timed)| Speed {
        work: format!("{name}, {gaps}"),
        timed,
        megabytes,
    };
    results.iter().map(speed).collect()
}

/// The two moves, by the bytes that are read: for both those of the old form, which has 4 fewer.
fn time_moves(gaps: &str, delivery: &[u8]) -> Vec<Speed> {
    let old = verified_old(delivery);
    let room = vec![0; delivery.len()];
    let mut contest = Contest::default();
    contest.add_prepared("upgrade, engine", room.clone(), |_| (), |to| engine_upgrade(&old, to));
    contest.add_prepared("upgrade, Rust by hand", room.clone(), |_| (), |to| rust_upgrade(&old, to));
    contest.add_prepared("downgrade, engine", room.clone(), |_| (), |to| engine_downgrade(delivery, to));
    contest.add_prepared("downgrade, Rust by hand", room, |_| (), |to| rust_downgrade(delivery, to));
    speeds(&contest.run(), gaps, old.len() as f64 / 1e6)
}

/// Reading and writing, and the moves.
fn time(gaps: &str, lists: &[Vec<u32>]) -> [Vec<Speed>; 2] {
    let (numbers, ends) = inputs::rows(lists);
    let rows = Rows { numbers, ends };
    let delivery = verified(&rows);
    let fresh = || Rows::zeroed(rows.numbers.len(), rows.ends.len());
    let mut contest = Contest::default();
    contest.add_prepared("decode, engine", fresh(), |_| (), |r| r.engine_decode(&delivery));
    contest.add_prepared("decode, Rust bit reader", fresh(), |_| (), |r| r.rust_decode(&delivery));
    contest.add_prepared("decode into zeroed rows, engine", fresh(), Rows::clear, |r| {
        r.engine_decode(&delivery)
    });
    contest.add_prepared("decode into zeroed rows, Rust bit reader", fresh(), Rows::clear, |r| {
        r.rust_decode(&delivery)
    });
    let room = vec![0; delivery.len()];
    contest.add_prepared("encode, engine", room.clone(), |_| (), |bytes| rows.engine_encode(bytes));
    contest.add_prepared("encode, Rust bit writer", room, |_| (), |bytes| rows.rust_encode(bytes));
    let megabytes = rows.numbers.len() as f64 * 4.0 / 1e6;
    let read_and_written = speeds(&contest.run(), gaps, megabytes);
    [read_and_written, time_moves(gaps, &delivery)]
}

/// The speeds of reading and writing, and those of the moves.
pub fn all() -> [Vec<Speed>; 2] {
    let (narrow, wide) = inputs::delivery_lists();
    let [mut coded, mut moved] = time("narrow gaps", &narrow);
    let [coded_wide, moved_wide] = time("wide gaps", &wide);
    coded.extend(coded_wide);
    moved.extend(moved_wide);
    print("Deliveries of 32 lists of 60,000 (MB/s of the numbers row", &coded);
    print("The same moved between the two forms (MB/s of the bytes read", &moved);
    [coded, moved]
}

fn print(title: &str, speeds: &[Speed]) {
    let mut table = Table::new(&["work", "best MB/s", "best", "median", "worst", "this / Rust"]);
    for pair in speeds.chunks(2) {
        for speed in pair {
            let t = speed.timed;
            table.row(vec![
                speed.work.clone(),
                format!("{:.0}", speed.best()),
                micros(t.best),
                micros(t.median),
                micros(t.worst),
                ratio(t.best, pair[1].timed.best),
            ]);
        }
    }
    table.print(&format!("{title}; microseconds; the ratio of times)"));
}
