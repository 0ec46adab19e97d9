//! Saving a full queue and restoring it: the image beside the original's record.

use crate::api::SocketTime;
use crate::api::handover::SocketHandoverState;
use crate::clock::Lap;
use crate::clock::best;
use crate::clock::row;
use crate::sides::Ours;
use crate::sides::Theirs;
use crate::sides::payload;
use std::hint::black_box;

/// 256 streams, 1,024 messages of 1,953 bytes: 1,999,872 bytes of 2,000,000. Only the calls are timed, not the creation of the queue that
/// is restored into, nor the end of a queue, an image or a record.
pub fn saving_and_restoring() {
    let bytes = payload(1_953);
    let (mut ours, mut theirs) = (Ours::new(true), Theirs::new(true));
    for i in 0..1_024 {
        ours.add(i % 256, &bytes);
        theirs.add(i % 256, &bytes);
    }
    let mut image = vec![0; 2_048_660];
    let now = desqariy::SocketTime::zero();
    let [save, restore] = best(
        &mut |laps: &mut [Lap; 2]| {
            let mut length = 0;
            laps[0].run(|| {
                length = ours.queue.save_into(now, &mut image).unwrap();
                1
            });
            let mut other = Ours::new(true);
            laps[1].run(|| {
                other.queue.restore(now, &image[..length]).unwrap();
                1
            });
            assert_eq!(other.queue.total_buffered_amount(), 1_999_872);
        },
        &mut |laps: &mut [Lap; 2]| {
            let mut record = SocketHandoverState::default();
            laps[0].run(|| {
                theirs.queue.add_to_handover_state(SocketTime::zero(), black_box(&mut record));
                1
            });
            let mut other = Theirs::new(true);
            laps[1].run(|| {
                other.queue.restore_from_state(SocketTime::zero(), &record);
                1
            });
            assert_eq!(other.queue.total_buffered_amount(), 1_999_872);
        },
    );
    row("5: save, 256 streams, 1,024 messages of 1,953 bytes", save);
    row("5: restore of the same", restore);
}
