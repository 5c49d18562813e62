//! Timing: a sample repeats the work for a while, and the contenders of one case take turns, so that a disturbance of the
//! machine falls on all of them.

use std::hint::black_box;
use std::time::{Duration, Instant};

pub const SAMPLES: usize = 11;
/// Where an engine of an earlier landing takes part: what is asked about is then a twentieth.
pub const SAMPLES_BEFORE: usize = 41;
pub const SAMPLE_MILLISECONDS: u64 = 25;
/// The contender that is an engine of an earlier landing.
pub const BEFORE: &str = "before";

/// Seconds for one repeat: the best, the median and the worst sample.
#[derive(Clone, Copy)]
pub struct Timed {
    pub best: f64,
    pub median: f64,
    pub worst: f64,
}

/// One repeat of a contender's work: how long it took.
type Work<'a> = Box<dyn FnMut() -> Duration + 'a>;

/// The contenders of one case.
#[derive(Default)]
pub struct Contest<'a> {
    works: Vec<(&'static str, Work<'a>)>,
}

/// What each contender that was there needed: seconds for one repeat, a sample for each round.
pub struct Results {
    samples: Vec<(&'static str, Vec<f64>)>,
    /// The share of the time in which the program was ready to run, but another one had the processor.
    pub waited: Option<f64>,
}

impl<'a> Contest<'a> {
    /// Adds a contender. What its work hands back is dropped off the clock.
    pub fn add<R>(&mut self, name: &'static str, mut work: impl FnMut() -> R + 'a) {
        self.add_prepared(name, (), |()| (), move |()| work());
    }

    /// Adds a contender with a state that is prepared, off the clock, before each repeat.
    pub fn add_prepared<S: 'a, R>(
        &mut self,
        name: &'static str,
        mut state: S,
        mut prepare: impl FnMut(&mut S) + 'a,
        mut work: impl FnMut(&mut S) -> R + 'a,
    ) {
        let timed = move || {
            prepare(&mut state);
            let start = Instant::now();
            let result = black_box(work(black_box(&mut state)));
            let time = start.elapsed();
            drop(result);
            time
        };
        self.works.push((name, Box::new(timed)));
    }

    pub fn run(mut self) -> Results {
        let (start, before) = (Instant::now(), time_waited());
        let repeats: Vec<u32> = self.works.iter_mut().map(|(_, work)| repeats_for(work)).collect();
        let rounds = if self.works.iter().any(|(name, _)| *name == BEFORE) {
            SAMPLES_BEFORE
        } else {
            SAMPLES
        };
        let mut samples = vec![Vec::with_capacity(rounds); self.works.len()];
        for _ in 0..rounds {
            for (((_, work), &repeats), samples) in self.works.iter_mut().zip(&repeats).zip(&mut samples) {
                // One repeat off the clock: the contender before has left the caches full of its own rows.
                work();
                samples.push(sample(repeats, work).as_secs_f64() / f64::from(repeats));
            }
        }
        let names = self.works.iter().map(|(name, _)| *name);
        let waited = before
            .zip(time_waited())
            .map(|(before, after)| (after - before) / start.elapsed().as_secs_f64());
        Results {
            samples: names.zip(samples).collect(),
            waited,
        }
    }
}

impl Results {
    fn samples(&self, name: &str) -> Option<&[f64]> {
        self.samples.iter().find(|(n, _)| *n == name).map(|(_, samples)| &samples[..])
    }

    /// The times of a contender, if it was there.
    pub fn find(&self, name: &str) -> Option<Timed> {
        self.samples(name).map(spread)
    }

    /// The best time of a contender that is always there.
    pub fn best(&self, name: &str) -> f64 {
        self.find(name).expect("the contender was added").best
    }

    pub fn iter(&self) -> impl Iterator<Item = (&'static str, Timed)> + '_ {
        self.samples.iter().map(|(name, samples)| (*name, spread(samples)))
    }

    /// How many times as long as `below` `above` takes, each a sum of contenders, some to be taken off. A disturbance of the
    /// machine may spare one contender's best sample, but falls on a whole round: so both ratios are made.
    pub fn ratio(&self, above: &[(f64, &str)], below: &[(f64, &str)]) -> Option<Ratio> {
        let best = self.best_of(above)? / self.best_of(below)?;
        let rounds = self.samples.first()?.1.len();
        let each = (0..rounds).map(|round| Some(self.in_round(round, above)? / self.in_round(round, below)?));
        let rounds = spread(&each.collect::<Option<Vec<f64>>>()?).median;
        Some(Ratio { best, rounds })
    }

    /// The best times of some contenders added up, some to be taken off.
    pub fn best_of(&self, terms: &[(f64, &str)]) -> Option<f64> {
        terms.iter().map(|(factor, name)| Some(factor * self.find(name)?.best)).sum()
    }

    fn in_round(&self, round: usize, terms: &[(f64, &str)]) -> Option<f64> {
        terms
            .iter()
            .map(|(factor, name)| Some(factor * self.samples(name)?[round]))
            .sum()
    }
}

/// The ratio of best times, and the median of the ratios within each round.
#[derive(Clone, Copy)]
pub struct Ratio {
    pub best: f64,
    pub rounds: f64,
}

/// Seconds that this program has waited for a processor, where the system tells (Linux does).
fn time_waited() -> Option<f64> {
    let text = std::fs::read_to_string("/proc/self/schedstat").ok()?;
    let nanoseconds: f64 = text.split_whitespace().nth(1)?.parse().ok()?;
    Some(nanoseconds / 1e9)
}

fn sample(repeats: u32, work: &mut Work) -> Duration {
    (0..repeats).map(|_| work()).sum()
}

/// How many repeats fill a sample; it warms the caches on the way.
fn repeats_for(work: &mut Work) -> u32 {
    let full = Duration::from_millis(SAMPLE_MILLISECONDS);
    let mut repeats = 1;
    loop {
        let time = sample(repeats, work);
        if time >= full {
            return repeats;
        }
        let factor = full.as_secs_f64() / time.as_secs_f64().max(1e-9);
        repeats = (f64::from(repeats) * factor.clamp(1.1, 10.0)).ceil() as u32;
    }
}

fn spread(samples: &[f64]) -> Timed {
    let mut samples = samples.to_vec();
    samples.sort_by(f64::total_cmp);
    Timed {
        best: samples[0],
        median: samples[samples.len() / 2],
        worst: samples[samples.len() - 1],
    }
}
