//! Timing: both queues in turn, the best of several parts.

use std::time::Duration;
use std::time::Instant;

const PARTS: usize = 41;
const PART: Duration = Duration::from_millis(20);

/// Time spent in one kind of call.
#[derive(Clone, Copy, Default)]
pub struct Lap {
    time: Duration,
    calls: u64,
}

impl Lap {
    /// Times what the function does, which says how many calls it made.
    pub fn run(&mut self, f: impl FnOnce() -> u64) {
        let start = Instant::now();
        let calls = f();
        self.time += start.elapsed();
        self.calls += calls;
    }

    /// The time of both, for each call of the first.
    pub fn with(&self, other: &Lap) -> Lap {
        Lap { time: self.time + other.time, calls: self.calls }
    }
}

/// A round of calls on one queue, which times its kinds of calls.
pub type Round<'a, const KINDS: usize> = &'a mut dyn FnMut(&mut [Lap; KINDS]);

/// Nanoseconds of a call, of the proved queue and of the original.
#[derive(Clone, Copy)]
pub struct Times {
    pub ours: f64,
    pub theirs: f64,
}

impl Times {
    pub fn ratio(&self) -> f64 {
        self.ours / self.theirs
    }
}

/// Nanoseconds a call of each kind, over one part.
fn part<const KINDS: usize>(round: &mut Round<'_, KINDS>) -> [f64; KINDS] {
    let mut laps = [Lap::default(); KINDS];
    let start = Instant::now();
    while start.elapsed() < PART {
        round(&mut laps);
    }
    laps.map(|lap| lap.time.as_nanos() as f64 / lap.calls.max(1) as f64)
}

/// The best part of each side, for each kind of call. The first part of each only warms up.
pub fn best_of<const SIDES: usize, const KINDS: usize>(mut rounds: [Round<'_, KINDS>; SIDES]) -> [[f64; SIDES]; KINDS] {
    let mut best = [[f64::MAX; SIDES]; KINDS];
    for k in 0..PARTS {
        for (side, round) in rounds.iter_mut().enumerate() {
            let times = part(round);
            if k > 0 {
                best.iter_mut().zip(times).for_each(|(kind, time)| kind[side] = kind[side].min(time));
            }
        }
    }
    best
}

/// The same of the proved queue and the original.
pub fn best<const KINDS: usize>(ours: Round<'_, KINDS>, theirs: Round<'_, KINDS>) -> [Times; KINDS] {
    best_of([theirs, ours]).map(|[theirs, ours]| Times { ours, theirs })
}

/// Prints a row of the table.
pub fn row(what: &str, times: Times) {
    println!("| {what} | {:.1} | {:.1} | {:.2} |", times.ours, times.theirs, times.ratio());
}
