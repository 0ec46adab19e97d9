//! Document 01's examples, as far as they can be seen from outside.

use desqariy::*;
use std::time::Duration;

const NOW: SocketTime = SocketTime::zero();

fn options() -> Options {
    Options { max_send_buffer_size: 100_000, total_buffered_amount_low_threshold: 0, ..Options::default() }
}

fn queue() -> SendQueue {
    SendQueue::new(1_000, &options()).unwrap()
}

fn add(queue: &mut SendQueue, stream: u16, length: usize) {
    queue.add(NOW, Message::new(StreamId(stream), PpId(53), &vec![1; length]), &SendOptions::default()).unwrap();
}

fn low(stream: u16, amount: usize) -> Event {
    Event::OnBufferedAmountLow { stream_id: StreamId(stream), amount }
}

/// Stream and length of every fragment until nothing waits.
fn sent(queue: &mut SendQueue) -> Vec<(u16, usize)> {
    let mut list = Vec::new();
    while let Some(d) = queue.produce(NOW, 1_000).unwrap() {
        list.push((d.data.stream_key.id().0, d.data.payload.len()));
    }
    list
}

#[test]
fn two_messages_without_interleaving() {
    let mut q = queue();
    add(&mut q, 5, 1_500);
    add(&mut q, 3, 1_500);
    assert_eq!(sent(&mut q), [(3, 1_000), (3, 500), (5, 1_000), (5, 500)]);
}

#[test]
fn two_messages_with_interleaving_and_weights() {
    let mut q = queue();
    q.enable_message_interleaving(true);
    q.set_priority(StreamId(5), 512).unwrap();
    q.set_priority(StreamId(3), 256).unwrap();
    add(&mut q, 5, 1_500);
    add(&mut q, 3, 1_500);
    assert_eq!(sent(&mut q), [(5, 1_000), (5, 500), (3, 1_000), (3, 500)]);
}

#[test]
fn weight_0_counts_as_1() {
    let mut q = queue();
    q.enable_message_interleaving(true);
    for (stream, weight) in [(8, 1), (9, 0), (10, 1)] {
        q.set_priority(StreamId(stream), weight).unwrap();
        add(&mut q, stream, 7);
    }
    assert_eq!(sent(&mut q), [(8, 7), (9, 7), (10, 7)]);
}

#[test]
fn a_lifetime_of_0_ends_a_millisecond_later() {
    let added = SocketTime(5_000_000);
    let options =
        SendOptions { lifetime: Some(Duration::ZERO), lifecycle_id: LifecycleId::new(7), ..Default::default() };
    for (now, waits) in [(5_999_999, true), (6_000_000, false)] {
        let mut q = queue();
        q.add(added, Message::new(StreamId(1), PpId(53), &[0; 10]), &options).unwrap();
        assert_eq!(q.produce(SocketTime(now), 1_000).unwrap().is_some(), waits);
        let id = LifecycleId::new(7).unwrap();
        let dropped = [Event::OnLifecycleMessageExpired(id), Event::OnLifecycleEnd(id)];
        assert_eq!(q.events().skip(2).collect::<Vec<_>>(), if waits { &[][..] } else { &dropped });
    }
}

#[test]
fn the_time_left_is_rounded_down() {
    let mut q = queue();
    let options = SendOptions { lifetime: Some(Duration::ZERO), ..Default::default() };
    q.add(SocketTime(5_000_000), Message::new(StreamId(1), PpId(53), &[0; 10]), &options).unwrap();
    let left = |now| q.save(SocketTime(now)).unwrap()[8..12].to_vec();
    assert_eq!(left(5_500_000), [0, 0, 0, 0]);
    assert_eq!(left(5_000_000), [0, 0, 0, 1]);
}

#[test]
fn low_when_the_amount_falls_to_its_threshold() {
    let mut q = queue();
    q.set_buffered_amount_low_threshold(StreamId(1), 4).unwrap();
    add(&mut q, 1, 10);
    assert_eq!(q.produce(NOW, 6).unwrap().unwrap().data.payload.len(), 6);
    assert_eq!(q.events().collect::<Vec<_>>(), [low(1, 4)]);
}

#[test]
fn low_when_the_threshold_rises_to_the_amount() {
    let mut q = queue();
    q.set_buffered_amount_low_threshold(StreamId(1), 4).unwrap();
    add(&mut q, 1, 10);
    q.set_buffered_amount_low_threshold(StreamId(1), 10).unwrap();
    assert_eq!(q.events().collect::<Vec<_>>(), [low(1, 10)]);
    q.set_buffered_amount_low_threshold(StreamId(1), 12).unwrap();
    assert_eq!(q.events().len(), 0);
}

#[test]
fn counters_wrap() {
    // An image of a stream whose counters are at their ends: id, SSN, both MIDs, another priority than the default.
    let mut q = queue();
    q.set_priority(StreamId(1), 5).unwrap();
    let mut image = q.save(NOW).unwrap();
    image[2..12].fill(255);
    let mut q = queue();
    q.restore(NOW, &image).unwrap();
    for unordered in [false, true, false, true] {
        let options = SendOptions { unordered, ..Default::default() };
        q.add(NOW, Message::new(StreamId(1), PpId(53), b"m"), &options).unwrap();
    }
    let mut counters = Vec::new();
    while let Some(d) = q.produce(NOW, 1_000).unwrap() {
        counters.push((d.data.mid, d.data.ssn));
    }
    let last = Mid(4_294_967_295);
    assert_eq!(counters, [(last, Ssn(65_535)), (last, Ssn(0)), (Mid(0), Ssn(0)), (Mid(0), Ssn(0))]);
    assert_eq!((last.add_to(1), Ssn(65_535).add_to(1), Fsn(u32::MAX).add_to(1)), (Mid(0), Ssn(0), Fsn(0)));
}

#[test]
fn a_reset_puts_the_head_back_whole() {
    let mut q = queue();
    add(&mut q, 1, 1_500);
    assert_eq!(q.produce(NOW, 1_000).unwrap().unwrap().data.fsn, Fsn(0));
    q.reset();
    assert_eq!(q.buffered_amount(StreamId(1)), 1_500);
    let data = q.produce(NOW, 1_000).unwrap().unwrap().data;
    assert!(data.is_beginning && data.fsn == Fsn(1));
}

#[test]
fn the_image_of_a_new_queue() {
    let want = [0, 0, 0, 0, 1, 0, 0, 0, 0, 0, 0, 1, 0, 0, 0, 0, 0, 0, 0, 0];
    assert_eq!(queue().save(NOW).unwrap(), want);
}

#[test]
fn the_longest_payload() {
    let mut q = SendQueue::new(1_000, &Options::default()).unwrap();
    let bytes = vec![1; MAX_PAYLOAD + 1];
    let mut add = |n| q.add(NOW, Message::new(StreamId(1), PpId(53), &bytes[..n]), &SendOptions::default());
    assert_eq!(add(262_144), Ok(()));
    assert_eq!(add(262_145), Err(Refusal::PayloadWrong));
}

#[test]
fn the_256th_stream() {
    let mut q = queue();
    for id in 1..=256 {
        q.set_priority(StreamId(id), 1).unwrap();
    }
    assert_eq!(q.set_priority(StreamId(257), 1), Err(Refusal::StreamsFull));
}
