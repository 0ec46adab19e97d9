//! How much stack a call takes, as the README tells it: each case runs on a thread with little more, and a call that took more would end the
//! process.

use desqariy::*;
use std::thread;
use std::time::Duration;

/// A thread's own need and the test's, beside the 4 KB of a call.
const LITTLE: usize = 48 * 1024;
/// Where the checked functions are called and messages have expired.
const DEEP: usize = LITTLE + 256 * 1024;

fn with_stack(bytes: usize, run: impl FnOnce() + Send + 'static) {
    thread::Builder::new().stack_size(bytes).spawn(run).unwrap().join().unwrap();
}

/// A queue with so many messages, all of which have expired at `LATER`.
fn expired(count: usize) -> SendQueue {
    let mut queue = SendQueue::new(1_200, &Options::default()).unwrap();
    let options =
        SendOptions { lifetime: Some(Duration::ZERO), lifecycle_id: LifecycleId::new(7), ..SendOptions::default() };
    for k in 0..count {
        let message = Message::new(StreamId((k % 256) as u16), PpId(53), &[1; 50]);
        queue.add(SocketTime::zero(), message, &options).unwrap();
    }
    queue
}

const LATER: SocketTime = SocketTime(10_000_000);

#[test]
fn a_next_fragment_past_expired_messages() {
    let mut queue = expired(1_024);
    let mut buffer = vec![0; 1_200];
    with_stack(if cfg!(debug_assertions) { DEEP } else { LITTLE }, move || {
        assert_eq!(queue.produce_into(LATER, &mut buffer).unwrap(), None);
        // of each message that it expired and that this was its end, and of each stream that it is low
        assert_eq!(queue.events().count(), 2 * 1_024 + 256);
    });
}

#[test]
fn a_packet_past_expired_messages() {
    let mut queue = expired(1_024);
    let mut buffer = vec![0; 1_200];
    with_stack(if cfg!(debug_assertions) { DEEP } else { LITTLE }, move || {
        let packet = Packet { limit: 1_200, source_port: 1, destination_port: 2, verification_tag: 3, tsn: Tsn(4) };
        assert_eq!(queue.fill_packet(LATER, &mut buffer, &packet).unwrap(), None);
        assert_eq!(queue.waiting_messages(), 0);
    });
}

#[test]
fn the_other_calls() {
    let mut queue = expired(1_023);
    let mut other = SendQueue::new(1_200, &Options::default()).unwrap();
    let mut receiver = Receiver::new(ChunkKind::Data, Tsn(0), 2_000_000).unwrap();
    with_stack(LITTLE, move || {
        let now = SocketTime::zero();
        queue.add(now, Message::new(StreamId(0), PpId(53), &[1; 3_000]), &SendOptions::default()).unwrap();
        let image = queue.save(now).unwrap();
        other.restore(now, &image).unwrap();
        other.enable_message_interleaving(true);
        other.set_priority(StreamId(1), 3).unwrap();
        other.set_buffered_amount_low_threshold(StreamId(1), 60_000).unwrap();
        other.discard(StreamId(1), OutgoingMessageId(1));
        other.reset();
        let fragment = other.produce(now, 1_200).unwrap().unwrap();
        let mut chunk = vec![0; 1_220];
        let written = write_chunk(&mut chunk, ChunkKind::Data, Tsn(0), &fragment.data).unwrap();
        assert_eq!(receiver.receive(&chunk[..written]).unwrap(), Received::Accepted);
        assert!(receiver.fetch(&mut chunk).unwrap().is_some());
        for id in 0..256 {
            queue.prepare_reset_stream(StreamId(id)).unwrap();
        }
        let mut handler = StreamResetHandler::new(1);
        let mut request = vec![0; 600];
        assert!(handler.make_stream_reset_request(&mut queue, &mut request, 1, Tsn(2)).unwrap().is_some());
        handler.reset(&mut queue);
    });
}
