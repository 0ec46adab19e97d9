//! A produce with so many messages waiting on one stream: the head is found without a walk.

use crate::clock::Lap;
use crate::clock::best;
use crate::clock::row;
use crate::sides::Ours;
use crate::sides::SIZE;
use crate::sides::Theirs;
use crate::sides::payload;
use std::hint::black_box;

/// Messages of 100 bytes; so many are sent in a round, which are then added again behind the others.
const PAYLOAD: usize = 100;
const SENT: usize = 16;

macro_rules! round {
    ($queue:expr, $waiting:expr, $bytes:expr) => {{
        (0..$waiting).for_each(|_| $queue.add(0, $bytes));
        move |laps: &mut [Lap; 1]| {
            let mut buffer = [0; SIZE];
            (0..SENT).for_each(|_| $queue.add(0, $bytes));
            laps[0].run(|| {
                for _ in 0..SENT {
                    assert!($queue.produce(&mut buffer));
                    black_box(&mut buffer);
                }
                SENT as u64
            });
        }
    }};
}

/// So many messages wait behind those that are sent.
pub fn depth() {
    let bytes = &payload(PAYLOAD);
    for (waiting, name) in [(1, "1"), (16, "16"), (64, "64"), (256, "256"), (1_000, "1,000")] {
        let (mut ours, mut theirs) = (Ours::new(false), Theirs::new(false));
        let [produce] = best(&mut round!(ours, waiting, bytes), &mut round!(theirs, waiting, bytes));
        row(&format!("10: 1 stream, {name} messages waiting: produce"), produce);
    }
}
