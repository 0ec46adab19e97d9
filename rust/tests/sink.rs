//! The queue with a sink, fragments that own their bytes, and clones.

use desqariy::*;
use std::cell::RefCell;
use std::collections::VecDeque;
use std::rc::Rc;
use std::time::Duration;

const NOW: SocketTime = SocketTime(5);
const LATER: SocketTime = SocketTime(9_000_000);

fn options() -> Options {
    Options {
        default_stream_buffered_amount_low_threshold: 4,
        total_buffered_amount_low_threshold: 0,
        ..Options::default()
    }
}

fn with_lifetime(id: u64) -> SendOptions {
    SendOptions { lifetime: Some(Duration::ZERO), lifecycle_id: LifecycleId::new(id), ..SendOptions::default() }
}

fn taken(sink: &Rc<RefCell<VecDeque<SocketEvent>>>) -> Vec<SocketEvent> {
    std::iter::from_fn(|| sink.borrow_mut().next_event()).collect()
}

/// The same calls on a queue with a sink and on one whose events are listed: the sink gets what the lists have, call by call, and keeps it.
#[test]
fn the_sink_gets_the_events_in_order() {
    let sink = Rc::new(RefCell::new(VecDeque::new()));
    let mut ours = sink::SendQueue::new(100, &options(), sink.clone()).unwrap();
    let mut listed = SendQueue::new(100, &options()).unwrap();
    let mut wanted = Vec::new();
    for (id, stream) in [(1, 1), (2, 1), (3, 2), (4, 3)] {
        let message = Message::new(StreamId(stream), PpId(53), b"0123456789");
        ours.add(NOW, message, &with_lifetime(id)).unwrap();
        listed.add(NOW, message, &with_lifetime(id)).unwrap();
    }
    let owned = ours.produce(NOW, 6).unwrap().unwrap();
    assert_eq!(owned, listed.produce(NOW, 6).unwrap().unwrap().into_owned());
    wanted.extend(listed.events());
    ours.prepare_reset_stream(StreamId(2)).unwrap();
    listed.prepare_reset_stream(StreamId(2)).unwrap();
    wanted.extend(listed.events());
    ours.set_buffered_amount_low_threshold(StreamId(3), 10).unwrap();
    listed.set_buffered_amount_low_threshold(StreamId(3), 10).unwrap();
    wanted.extend(listed.events());
    assert_eq!(ours.produce(NOW, 0).unwrap_err(), Refusal::SizeWrong);
    ours.discard(StreamId(3), OutgoingMessageId(3));
    listed.discard(StreamId(3), OutgoingMessageId(3));
    wanted.extend(listed.events());
    assert!(ours.produce(LATER, 6).unwrap().is_none() && listed.produce(LATER, 6).unwrap().is_none());
    wanted.extend(listed.events());
    assert!(wanted.len() > 8, "the calls report something");
    assert_eq!(taken(&sink), wanted);
    assert_eq!(ours.get_streams_ready_to_reset(), [StreamId(2)]);
    ours.commit_reset_streams();
    ours.rollback_reset_streams();
    ours.set_priority(StreamId(1), 3).unwrap();
    ours.enable_message_interleaving(true);
    ours.reset();
    assert_eq!((ours.get_priority(StreamId(1)), ours.is_empty(), taken(&sink)), (3, true, vec![]));
    let image = ours.save(NOW).unwrap();
    let mut other = sink::SendQueue::new(100, &options(), sink).unwrap();
    other.restore(NOW, &image).unwrap();
    assert_eq!(other.queue_mut().save(NOW).unwrap(), image);
}

/// An owned fragment is kept past the next call, and written as a chunk like the lent one.
#[test]
fn a_fragment_can_be_kept() {
    let mut queue = SendQueue::new(100, &options()).unwrap();
    queue.add(NOW, Message::new(StreamId(1), PpId(53), b"0123456789"), &SendOptions::default()).unwrap();
    let (mut lent, mut kept) = ([0; 40], [0; 40]);
    let first = queue.produce(NOW, 6).unwrap().unwrap();
    let length = write_chunk(&mut lent, ChunkKind::Data, Tsn(1), &first.data).unwrap();
    let mut unacked: Vec<DataToSend> = vec![first.into_owned()];
    unacked.push(queue.produce(NOW, 6).unwrap().unwrap().into_owned());
    assert_eq!(unacked[0].data.payload, b"012345");
    assert_eq!(unacked[1].data.payload, b"6789");
    assert_eq!(write_chunk(&mut kept, ChunkKind::Data, Tsn(1), &unacked[0].data), Ok(length));
    assert_eq!(lent, kept);
}

#[test]
fn a_clone_goes_its_own_way() {
    fn with<T: Send + Sync + Clone>(_: &T) {}
    let mut queue = SendQueue::new(100, &options()).unwrap();
    queue.add(NOW, Message::new(StreamId(1), PpId(53), b"0123456789"), &SendOptions::default()).unwrap();
    with(&queue);
    let mut ahead = queue.clone();
    assert_eq!(ahead.produce(NOW, 10).unwrap().unwrap().data.payload, b"0123456789");
    assert!(ahead.is_empty() && queue.total_buffered_amount() == 10);
    assert_eq!(queue.produce(NOW, 10).unwrap().unwrap().data.payload, b"0123456789");
    assert_eq!(queue.save(NOW), ahead.save(NOW));
}
