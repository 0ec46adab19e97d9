//! Discarding messages; closing streams and restarting them.

use crate::api;
use crate::clock::Lap;
use crate::clock::best;
use crate::clock::row;
use crate::sides::Ours;
use crate::sides::Theirs;
use crate::sides::payload;
use crate::types;
use std::hint::black_box;

const MESSAGES: u32 = 1_024;
const STREAMS: u16 = 256;

/// 1,024 messages on 64 streams; the head of a stream is discarded, and so on until none is left.
pub fn discarding() {
    let bytes = payload(100);
    let (mut ours, mut theirs) = (Ours::new(false), Theirs::new(false));
    let (mut our_id, mut their_id) = (0u32, 0u32);
    let [discard] = best(
        &mut |laps: &mut [Lap; 1]| {
            for i in 0..MESSAGES {
                ours.add((i % 64) as u16, &bytes);
            }
            laps[0].run(|| {
                for i in 0..MESSAGES {
                    ours.queue.discard(desqariy::StreamId((i % 64) as u16), desqariy::OutgoingMessageId(our_id));
                    our_id = our_id.wrapping_add(1);
                }
                u64::from(MESSAGES)
            });
            assert!(ours.queue.is_empty());
        },
        &mut |laps: &mut [Lap; 1]| {
            for i in 0..MESSAGES {
                theirs.add((i % 64) as u16, &bytes);
            }
            laps[0].run(|| {
                for i in 0..MESSAGES {
                    theirs.queue.discard(api::StreamId((i % 64) as u16), types::OutgoingMessageId(their_id));
                    their_id = their_id.wrapping_add(1);
                }
                u64::from(MESSAGES)
            });
            theirs.forget_events();
            assert!(theirs.queue.is_empty());
        },
    );
    row("4: discard, 64 streams, 1,024 messages of 100 bytes", discard);
}

/// Lets the allocator put what was freed in order now, so that the next timed call does not pay for it.
pub fn settle() {
    drop(black_box(vec![0u8; 65_536]));
}

/// 256 streams with four messages each are closed; all are ready; the reset is committed.
pub fn closing() {
    let bytes = payload(100);
    let (mut ours, mut theirs) = (Ours::new(false), Theirs::new(false));
    let [close, ready, commit] = best(
        &mut |laps: &mut [Lap; 3]| {
            for i in 0..4 * STREAMS {
                ours.add(i % STREAMS, &bytes);
            }
            laps[0].run(|| {
                for i in 0..STREAMS {
                    ours.queue.prepare_reset_stream(desqariy::StreamId(i)).unwrap();
                }
                u64::from(STREAMS)
            });
            settle();
            let mut ids = Vec::new();
            laps[1].run(|| {
                ids = ours.queue.get_streams_ready_to_reset();
                1
            });
            assert_eq!(ids.len(), usize::from(STREAMS));
            laps[2].run(|| {
                ours.queue.commit_reset_streams();
                1
            });
        },
        &mut |laps: &mut [Lap; 3]| {
            for i in 0..4 * STREAMS {
                theirs.add(i % STREAMS, &bytes);
            }
            laps[0].run(|| {
                for i in 0..STREAMS {
                    theirs.queue.prepare_reset_stream(api::StreamId(i));
                }
                u64::from(STREAMS)
            });
            theirs.forget_events();
            settle();
            let mut ids = Vec::new();
            laps[1].run(|| {
                ids = theirs.queue.get_streams_ready_to_reset();
                1
            });
            assert_eq!(ids.len(), usize::from(STREAMS));
            laps[2].run(|| {
                theirs.queue.commit_reset_streams();
                1
            });
        },
    );
    row("4: close, 256 streams with 4 messages of 100 bytes each", close);
    row("4: ready ids, 256 of them", ready);
    row("4: commit of 256 streams", commit);
}
