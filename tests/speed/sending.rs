//! Adding messages and sending them, fragment by fragment.

use crate::clock::Lap;
use crate::clock::Times;
use crate::clock::best;
use crate::clock::row;
use crate::sides::Ours;
use crate::sides::SIZE;
use crate::sides::Theirs;
use crate::sides::payload;
use std::hint::black_box;

/// A payload starts at another place of the caller's buffer with each message, all multiples of 16 within a page in turn: how fast the C library
/// copies hangs on how source and destination lie to each other.
const PLACES: usize = 4_096;
const STEP: usize = 208;

pub struct Load {
    streams: usize,
    messages: usize,
    payload: usize,
    interleaved: bool,
}

macro_rules! round {
    ($queue:expr, $load:expr, $bytes:expr, $timed:expr) => {{
        let mut place = 0;
        move |laps: &mut [Lap; 3]| {
            let mut buffer = [0; SIZE];
            laps[0].run(|| {
                for i in 0..$load.messages {
                    $queue.add((i % $load.streams) as u16, &$bytes[place..place + $load.payload]);
                    place = (place + STEP) % PLACES;
                }
                $load.messages as u64
            });
            laps[1].run(|| {
                let mut fragments = 0;
                while fragments < $timed && $queue.produce(&mut buffer) {
                    black_box(&mut buffer);
                    fragments += 1;
                }
                fragments
            });
            laps[2] = laps[0].with(&laps[1]);
            while $queue.produce(&mut buffer) {}
        }
    }};
}

/// Times of add, of produce, and of a message in all; of the fragments of a round at most so many are timed.
fn measure(load: &Load, timed: u64) -> [Times; 3] {
    let bytes = &payload(load.payload + PLACES);
    let (mut ours, mut theirs) = (Ours::new(load.interleaved), Theirs::new(load.interleaved));
    best(&mut round!(ours, load, bytes, timed), &mut round!(theirs, load, bytes, timed))
}

/// Profile 3 has 600 messages and not 1,024: so many of 3,000 bytes do not fit into the largest store.
pub fn profiles() {
    let profiles = [
        (
            "1: 64 streams, 64 messages of 1,200 bytes",
            Load { streams: 64, messages: 64, payload: 1_200, interleaved: false },
        ),
        (
            "2: 1 stream, 7 messages of 262,144 bytes",
            Load { streams: 1, messages: 7, payload: 262_144, interleaved: false },
        ),
        (
            "3: 256 streams interleaved, 600 messages of 3,000 bytes",
            Load { streams: 256, messages: 600, payload: 3_000, interleaved: true },
        ),
    ];
    for (name, load) in &profiles {
        let [add, produce, message] = measure(load, u64::MAX);
        row(&format!("{name}: a message, buffer to buffer"), message);
        row(&format!("{name}: produce"), produce);
        row(&format!("{name}: add"), add);
    }
}

/// Produce with so many streams waiting all the time; the last message of each stream is not timed.
pub fn growth() {
    let whole = Load { streams: 0, messages: 1_024, payload: 1_200, interleaved: false };
    let halves = Load { streams: 0, messages: 768, payload: 2_400, interleaved: true };
    for (how, load) in [("messages of 1,200 bytes", whole), ("interleaved, messages of 2,400 bytes", halves)] {
        for streams in [1, 4, 16, 64, 256] {
            let timed = (load.messages - streams) * load.payload / SIZE;
            let [_, produce, _] = measure(&Load { streams, ..load }, timed as u64);
            row(&format!("6: {how}, {streams} waiting: produce"), produce);
        }
    }
}
