//! Reset requests. The original's handler is not among its files: beside ours stand its queue's calls for the ready ids and for a commit, which any
//! handler has to make.

use crate::api;
use crate::clock::Lap;
use crate::clock::best;
use crate::clock::row;
use crate::sides::Ours;
use crate::sides::Theirs;
use desqariy::MAX_RESET_REQUEST;
use desqariy::StreamResetHandler;
use desqariy::Tsn;
use std::hint::black_box;

/// Streams are closed, counted, asked for and committed, so many a round. All 256 are known before: a reset walks the known ones.
fn requests(streams: u16) {
    let (mut ours, mut theirs) = (Ours::new(false), Theirs::new(false));
    for i in 0..256 {
        ours.queue.set_priority(desqariy::StreamId(i), 256).unwrap();
        theirs.queue.set_priority(api::StreamId(i), 256);
    }
    let mut handler = StreamResetHandler::new(0);
    let mut output = [0; MAX_RESET_REQUEST];
    let mut response = *b"\x82\x00\x00\x10\x00\x10\x00\x0c\x00\x00\x00\x00\x00\x00\x00\x01";
    let [count, request, commit] = best(
        &mut |laps: &mut [Lap; 3]| {
            for i in 0..streams {
                ours.queue.prepare_reset_stream(desqariy::StreamId(i)).unwrap();
            }
            laps[0].run(|| {
                black_box(ours.queue.count_streams_ready_to_reset());
                1
            });
            laps[1].run(|| {
                black_box(handler.make_stream_reset_request(&mut ours.queue, &mut output, 0, Tsn(9)).unwrap());
                1
            });
            response[8..12].copy_from_slice(&output[8..12]);
            laps[2].run(|| {
                black_box(handler.handle_response(&mut ours.queue, &response).unwrap());
                1
            });
            assert_eq!(handler.request_underway(), None);
        },
        &mut |laps: &mut [Lap; 3]| {
            for i in 0..streams {
                theirs.queue.prepare_reset_stream(api::StreamId(i));
            }
            theirs.forget_events();
            laps[0].run(|| {
                black_box(theirs.queue.has_streams_ready_to_be_reset());
                1
            });
            laps[1].run(|| {
                black_box(theirs.queue.get_streams_ready_to_reset());
                1
            });
            laps[2].run(|| {
                theirs.queue.commit_reset_streams();
                1
            });
        },
    );
    row(&format!("12: how many of 256 streams are ready, {streams} (beside whether one is)"), count);
    row(&format!("12: a reset request for {streams} of 256 streams (beside the bare ready ids)"), request);
    row(&format!("12: a response that commits it (beside the bare commit of {streams} streams)"), commit);
}

pub fn resets() {
    requests(1);
    requests(256);
}
