//! Queues that never run empty: messages wait all the time, and each time one is added, as many fragments are sent as it has.

use crate::clock::Lap;
use crate::clock::best;
use crate::clock::row;
use crate::sides::Ours;
use crate::sides::SIZE;
use crate::sides::Theirs;
use crate::sides::payload;
use std::hint::black_box;
use std::time::Instant;

const STREAMS: usize = 16;
/// The stream of the long-lived message; its message waits while the others send 65,535 of theirs.
const SLOW: u16 = 100;
const FAST_PRIORITY: u16 = 65_535;
const SLOW_PRIORITY: u16 = 1;
/// So many turns a round; for the longest call, so many turns on a new queue, so many times over.
const TURNS: usize = 4_000;
const WATCHED: usize = 8_000;
const TIMES: usize = 25;
/// Payloads start at places of the caller's buffer that differ, as in `sending`.
const PLACES: usize = 4_096;
const STEP: usize = 208;

/// What both queues offer here.
trait Queue {
    fn create(interleaved: bool) -> Self;
    fn put(&mut self, stream: u16, payload: &[u8]);
    fn send(&mut self, buffer: &mut [u8]) -> bool;
    fn set_priority(&mut self, stream: u16, priority: u16);
    fn waits(&self, stream: u16) -> bool;
}

macro_rules! is_queue {
    ($side:ident, $id:path) => {
        impl Queue for $side {
            fn create(interleaved: bool) -> Self {
                $side::new(interleaved)
            }
            fn put(&mut self, stream: u16, payload: &[u8]) {
                self.add(stream, payload);
            }
            fn send(&mut self, buffer: &mut [u8]) -> bool {
                self.produce(buffer)
            }
            fn set_priority(&mut self, stream: u16, priority: u16) {
                let _ = self.queue.set_priority($id(stream), priority);
            }
            fn waits(&self, stream: u16) -> bool {
                self.queue.buffered_amount($id(stream)) > 0
            }
        }
    };
}

is_queue!(Ours, desqariy::StreamId);
is_queue!(Theirs, crate::api::StreamId);

/// So many messages wait, of lengths that come again and again; interleaved or by turns; with a message that stays, or without.
struct Flow {
    what: String,
    waiting: usize,
    lengths: Vec<usize>,
    interleaved: bool,
    slow: bool,
}

impl Flow {
    fn new(what: &str, waiting: usize, lengths: Vec<usize>, interleaved: bool, slow: bool) -> Self {
        Flow { what: what.to_string(), waiting, lengths, interleaved, slow }
    }

    fn length(&self, i: usize) -> usize {
        self.lengths[i % self.lengths.len()]
    }

    fn fragments(&self, i: usize) -> usize {
        self.length(i).div_ceil(SIZE)
    }

    fn put<Q: Queue>(&self, queue: &mut Q, bytes: &[u8], i: usize) {
        let place = i * STEP % PLACES;
        queue.put((i % STREAMS) as u16, &bytes[place..place + self.length(i)]);
    }

    /// The message that stays, where it has left at last.
    fn stay<Q: Queue>(&self, queue: &mut Q, bytes: &[u8]) {
        if self.slow && !queue.waits(SLOW) {
            queue.put(SLOW, &bytes[..SIZE]);
        }
    }

    /// A queue with the messages that wait; the one that stays has half of them before it.
    fn start<Q: Queue>(&self, bytes: &[u8]) -> Q {
        let mut queue = Q::create(self.interleaved);
        for i in 0..self.waiting {
            self.put(&mut queue, bytes, i);
            if i == self.waiting / 2 {
                self.stay(&mut queue, bytes);
            }
        }
        if self.slow {
            (0..STREAMS).for_each(|i| queue.set_priority(i as u16, FAST_PRIORITY));
            queue.set_priority(SLOW, SLOW_PRIORITY);
        }
        queue
    }

    fn bytes(&self) -> Vec<u8> {
        payload(self.lengths.iter().max().unwrap() + PLACES)
    }
}

/// A round: message by message one is added and as many fragments are sent.
fn round<'a, Q: Queue>(flow: &'a Flow, bytes: &'a [u8]) -> impl FnMut(&mut [Lap; 1]) + 'a + use<'a, Q>
where
    Q: 'a,
{
    let mut queue: Q = flow.start(bytes);
    let mut i = flow.waiting;
    move |laps: &mut [Lap; 1]| {
        let mut buffer = [0; SIZE];
        flow.stay(&mut queue, bytes);
        laps[0].run(|| {
            for _ in 0..TURNS {
                flow.put(&mut queue, bytes, i);
                for _ in 0..flow.fragments(i) {
                    assert!(queue.send(&mut buffer));
                    black_box(&mut buffer);
                }
                i += 1;
            }
            TURNS as u64
        });
    }
}

/// Nanoseconds of one call, the clock's own taken off.
fn timed(own: f64, call: impl FnOnce()) -> f64 {
    let start = Instant::now();
    call();
    (start.elapsed().as_nanos() as f64 - own).max(1.0)
}

/// The same turns on a new queue again and again: of each add, and of each produce, the shortest time. So what remains long is the queue's.
fn watch<Q: Queue>(flow: &Flow) -> [Vec<f64>; 2] {
    let bytes = flow.bytes();
    let own = (0..1_000).map(|_| timed(0.0, || ())).fold(f64::MAX, f64::min);
    let mut least = [Vec::new(), Vec::new()];
    for time in 0..=TIMES {
        let mut queue: Q = flow.start(&bytes);
        let mut calls = [Vec::new(), Vec::new()];
        let mut buffer = [0; SIZE];
        for i in flow.waiting..flow.waiting + WATCHED {
            calls[0].push(timed(own, || flow.put(&mut queue, &bytes, i)));
            for _ in 0..flow.fragments(i) {
                calls[1].push(timed(own, || assert!(black_box(queue.send(&mut buffer)))));
            }
        }
        // the first time only warms up
        for (kept, new) in least.iter_mut().zip(calls) {
            match time {
                0 | 1 => *kept = new,
                _ => kept.iter_mut().zip(new).for_each(|(a, b)| *a = a.min(b)),
            }
        }
    }
    least
}

/// The middle one and the longest.
fn ends(mut times: Vec<f64>) -> (f64, f64) {
    times.sort_by(f64::total_cmp);
    (times[times.len() / 2], times[times.len() - 1])
}

fn longest(flow: &Flow) {
    let (ours, theirs) = (watch::<Ours>(flow), watch::<Theirs>(flow));
    for (call, (o, t)) in ["add", "produce"].iter().zip(ours.into_iter().zip(theirs)) {
        let ((om, ol), (tm, tl)) = (ends(o), ends(t));
        println!("| 9: {}: {call} | {om:.0} | {ol:.0} | {:.1} | {tm:.0} | {tl:.0} | {:.1} |", flow.what, ol / om, tl / tm);
    }
}

/// Lengths from 100 to 20,000 bytes, in an order without a pattern.
fn mixed() -> Vec<usize> {
    let mut state = 1u32;
    let mut next = || {
        state = state.wrapping_mul(1_103_515_245).wrapping_add(12_345);
        100 + (state >> 8) as usize % 19_901
    };
    (0..1_021).map(|_| next()).collect()
}

fn flows() -> Vec<Flow> {
    let mut flows: Vec<Flow> = [(1, "1"), (16, "16"), (400, "400"), (800, "800"), (1_000, "1,000")]
        .map(|(n, name)| Flow::new(&format!("{name} of 1,200 bytes waiting"), n, vec![SIZE], false, false))
        .into();
    flows.push(Flow::new("100 of 100 to 20,000 bytes waiting", 100, mixed(), false, false));
    flows.push(Flow::new("100 of 100 to 20,000 bytes waiting, interleaved", 100, mixed(), true, false));
    flows.push(Flow::new("400 of 1,200 bytes waiting, and one that stays", 400, vec![SIZE], true, true));
    flows.push(Flow::new("1,000 of 1,200 bytes waiting, and one that stays", 1_000, vec![SIZE], true, true));
    flows.push(Flow::new("1,000 of 1,990 bytes waiting, 0.5 % of the store free", 1_000, vec![1_990], false, false));
    flows
}

pub fn steady() {
    for flow in flows() {
        let bytes = flow.bytes();
        let [turn] = best(&mut round::<Ours>(&flow, &bytes), &mut round::<Theirs>(&flow, &bytes));
        row(&format!("9: {}: add and produce in turn", flow.what), turn);
    }
}

/// A table of its own: the longest single call, in the same flows.
pub fn longest_calls() {
    println!("\n| the longest single call | ours: middle, ns | longest, ns | longest to middle | the Rust: middle, ns | longest, ns | longest to middle |\n|---|---|---|---|---|---|---|");
    flows().iter().for_each(longest);
}
