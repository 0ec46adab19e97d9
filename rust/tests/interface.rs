//! The crate's own part: refusals, events, buffers.

use desqariy::*;
use std::time::Duration;

const NOW: SocketTime = SocketTime::zero();

fn message(stream: u16, payload: &[u8]) -> Message<'_> {
    Message::new(StreamId(stream), PpId(53), payload)
}

fn queue() -> SendQueue {
    SendQueue::new(1_000, &Options::default()).unwrap()
}

fn low(stream: u16, amount: usize) -> Event {
    Event::OnBufferedAmountLow { stream_id: StreamId(stream), amount }
}

#[test]
fn a_queue_can_go_to_another_thread() {
    fn check<T: Send + Sync + 'static>() {}
    check::<SendQueue>();
    check::<StreamResetHandler>();
    check::<Receiver>();
    check::<Refusal>();
}

#[test]
fn refusals_have_their_numbers_and_a_text() {
    // 16 is for words that are not a queue's: here a queue owns its words
    for n in [0, 16, 30, 255] {
        assert_eq!(Refusal::from_number(n), None);
    }
    for n in (1..=29).filter(|n| *n != 16) {
        let refusal = Refusal::from_number(n).unwrap();
        assert_eq!(refusal.number(), n);
        let error: &dyn std::error::Error = &refusal;
        assert!(error.to_string().len() > 20);
    }
}

#[test]
fn a_lifecycle_id_is_not_0() {
    assert_eq!(LifecycleId::new(0), None);
    assert_eq!(LifecycleId::from(9), LifecycleId::new(9).unwrap());
    assert!(std::panic::catch_unwind(|| LifecycleId::from(0)).is_err());
}

#[test]
fn creation_is_refused_with_1_before_2() {
    let store = |n| Options { max_send_buffer_size: n, ..Options::default() };
    let new = |limit, bytes| SendQueue::new(limit, &store(bytes)).map(|_| ()).map_err(Refusal::number);
    assert_eq!(new(0, 1), Err(1));
    assert_eq!(new(65_536, 0), Err(1));
    assert_eq!(new(1, 0), Err(2));
    assert_eq!(new(1, 2_000_001), Err(2));
    assert_eq!(new(1, usize::MAX), Err(2));
    assert_eq!(new(1, 1), Ok(()));
    assert_eq!(new(65_535, 2_000_000), Ok(()));
}

#[test]
fn what_a_message_can_be_refused_for() {
    let mut q = SendQueue::new(1_000, &Options { max_send_buffer_size: 2_000, ..Options::default() }).unwrap();
    let none = SendOptions::default();
    let late = SendOptions { lifetime: Some(Duration::MAX), ..Default::default() };
    assert_eq!(q.add(SocketTime(MAX_TIME + 1), message(1, b"m"), &none), Err(Refusal::TimeLate));
    assert_eq!(q.add(NOW, message(1, b"m"), &late), Err(Refusal::TimeLate));
    assert_eq!(q.add(SocketTime::infinite_future(), message(1, b""), &none), Err(Refusal::TimeLate));
    assert_eq!(q.add(NOW, message(1, b""), &none), Err(Refusal::PayloadWrong));
    assert_eq!(q.add(NOW, message(1, &[0; 2_001]), &none), Err(Refusal::StoreFull));
    for _ in 0..1_024 {
        q.add(NOW, message(1, b"m"), &none).unwrap();
    }
    assert_eq!(q.add(NOW, message(1, b"m"), &none), Err(Refusal::MessagesFull));
    assert_eq!(q.total_buffered_amount(), 1_024);
}

#[test]
fn a_refused_fragment_leaves_the_buffer_and_has_no_events() {
    let mut q = queue();
    q.set_buffered_amount_low_threshold(StreamId(1), 0).unwrap();
    q.add(NOW, message(1, b"12345"), &SendOptions::default()).unwrap();
    let mut buffer = [9; 4];
    assert_eq!(q.produce_into(SocketTime(MAX_TIME + 1), &mut buffer), Err(Refusal::TimeLate));
    assert_eq!((buffer, q.events().len()), ([9; 4], 0));
    assert_eq!(q.produce_into(NOW, &mut []), Err(Refusal::SizeWrong));
    assert_eq!(q.produce(NOW, 0), Err(Refusal::SizeWrong));
    assert_eq!(q.produce(NOW, usize::MAX), Err(Refusal::SizeWrong));
    assert_eq!(q.produce(NOW, MAX_PAYLOAD + 1), Err(Refusal::SizeWrong));
    assert_eq!(q.produce_into(NOW, &mut buffer).unwrap().unwrap().data.payload, b"1234");
    assert_eq!(q.produce_into(NOW, &mut buffer).unwrap().unwrap().data.payload, b"5");
    assert_eq!(&buffer, b"5234");
    assert_eq!(q.events().collect::<Vec<_>>(), [low(1, 0)]);
    assert_eq!(q.produce(NOW, MAX_PAYLOAD), Ok(None));
}

/// A feeder sees 6, 7 and 8 coming: a message occupies its full length until its last fragment, a setting makes its stream known.
#[test]
fn what_there_is_room_for() {
    let options = Options { max_send_buffer_size: 1_000, ..Default::default() };
    let mut q = SendQueue::new(1_000, &options).unwrap();
    let all = 1_000;
    assert_eq!((q.free_bytes(), q.waiting_messages(), q.known_streams()), (all, 0, 0));
    q.set_priority(StreamId(3), 7).unwrap();
    assert_eq!((q.free_bytes(), q.waiting_messages(), q.known_streams()), (all, 0, 1));
    q.add(NOW, message(1, b"12345"), &SendOptions::default()).unwrap();
    let room = (all - 5, 1, 2);
    assert_eq!((q.free_bytes(), q.waiting_messages(), q.known_streams()), room);
    q.produce(NOW, 3).unwrap().unwrap();
    assert_eq!((q.free_bytes(), q.waiting_messages(), q.known_streams()), room, "half-sent");
    q.produce(NOW, 2).unwrap().unwrap();
    assert_eq!((q.free_bytes(), q.waiting_messages(), q.known_streams()), (all, 0, 2));
    let too_long = vec![0; all + 1];
    assert_eq!(q.add(NOW, message(1, &too_long), &SendOptions::default()), Err(Refusal::StoreFull));
    assert_eq!(q.add(NOW, message(1, &too_long[1..]), &SendOptions::default()), Ok(()));
    assert_eq!(q.free_bytes(), 0);
}

#[test]
fn events_are_those_of_the_last_call() {
    let mut q = queue();
    let id = LifecycleId::new(9);
    let options = SendOptions { lifecycle_id: id, ..Default::default() };
    q.add(NOW, message(1, b"12345"), &options).unwrap();
    q.discard(StreamId(1), OutgoingMessageId(0));
    let id = id.unwrap();
    let want = [low(1, 0), Event::OnLifecycleMessageExpired(id), Event::OnLifecycleEnd(id)];
    assert_eq!(q.events().collect::<Vec<_>>(), want);
    assert_eq!(q.events().len(), 3, "asking again, or for something else, changes nothing");
    assert!(q.is_empty() && q.events().len() == 3);
    q.discard(StreamId(1), OutgoingMessageId(0));
    assert_eq!(q.events().len(), 0);
}

/// Document 02, 2/13: "the amount after the fall, stepped as in the Rust, or the raise that fires it".
#[test]
fn a_low_mark_tells_the_amount_at_which_it_fired() {
    let total = |amount| Event::OnTotalBufferedAmountLow { amount };
    let options = Options { total_buffered_amount_low_threshold: 115, ..Options::default() };
    let three_of_ten = |lifetime| {
        let mut q = SendQueue::new(1_000, &options).unwrap();
        q.set_buffered_amount_low_threshold(StreamId(1), 15).unwrap();
        let options = SendOptions { lifetime, ..Default::default() };
        for _ in 0..3 {
            q.add(NOW, message(1, &[0; 10]), &options).unwrap();
        }
        q.add(NOW, message(2, &[0; 100]), &SendOptions::default()).unwrap();
        q
    };

    let mut q = three_of_ten(None);
    q.prepare_reset_stream(StreamId(1)).unwrap();
    assert_eq!(q.events().collect::<Vec<_>>(), [low(1, 10), total(110)], "closing steps message by message");
    assert_eq!((q.buffered_amount(StreamId(1)), q.total_buffered_amount()), (0, 100));

    let mut q = three_of_ten(Some(Duration::ZERO));
    assert_eq!(q.produce(SocketTime(1_000_000), 40).unwrap().unwrap().data.payload.len(), 40);
    assert_eq!(q.events().collect::<Vec<_>>(), [total(110), low(1, 10)], "passing over expired heads does too");
    assert_eq!((q.buffered_amount(StreamId(1)), q.total_buffered_amount()), (0, 60));

    let mut q = three_of_ten(None);
    q.discard(StreamId(1), OutgoingMessageId(0));
    assert_eq!(q.events().len(), 0);
    assert!(q.produce(NOW, 7).unwrap().is_some());
    assert_eq!(q.events().collect::<Vec<_>>(), [total(113), low(1, 13)], "a fragment is one step");

    let mut q = three_of_ten(None);
    q.set_buffered_amount_low_threshold(StreamId(1), 31).unwrap();
    assert_eq!(q.events().collect::<Vec<_>>(), [low(1, 30)], "a raise tells the amount, not the threshold");
}

#[test]
fn what_goes_with_a_fragment() {
    let mut q = queue();
    let options = SendOptions {
        unordered: true,
        lifetime: Some(Duration::from_millis(2)),
        max_retransmissions: Some(3),
        lifecycle_id: LifecycleId::new(8),
    };
    q.add(SocketTime(5), Message::new(StreamId(65_535), PpId(u32::MAX), b"abc"), &options).unwrap();
    let first = q.produce(SocketTime(5), 2).unwrap().unwrap();
    let data = Data {
        stream_key: StreamKey::Unordered(StreamId(65_535)),
        ssn: Ssn(0),
        mid: Mid(0),
        fsn: Fsn(0),
        ppid: PpId(u32::MAX),
        payload: &b"ab"[..],
        is_beginning: true,
        is_end: false,
    };
    let expires_at = SocketTime(5) + Duration::from_millis(3);
    let message_id = OutgoingMessageId(0);
    assert_eq!(first, DataToSend { message_id, data, max_retransmissions: 3, expires_at, lifecycle_id: None });
    let last = q.produce(SocketTime(5), 2).unwrap().unwrap();
    let data = Data { fsn: Fsn(1), payload: &b"c"[..], is_beginning: false, is_end: true, ..data };
    let lifecycle_id = LifecycleId::new(8);
    assert_eq!(last, DataToSend { message_id, data, max_retransmissions: 3, expires_at, lifecycle_id });
    q.add(NOW, message(1, b"m"), &SendOptions::default()).unwrap();
    let plain = q.produce(NOW, 2).unwrap().unwrap();
    assert_eq!(plain.expires_at, SocketTime::infinite_future());
    assert_eq!((plain.max_retransmissions, plain.lifecycle_id), (65_535, None));
    assert_eq!(plain.data.stream_key, StreamKey::Ordered(StreamId(1)));
}

#[test]
fn closing_ready_and_commit() {
    let mut q = queue();
    for stream in [7, 3, 5] {
        for _ in 0..2 {
            q.add(NOW, message(stream, &[0; 1_500]), &SendOptions::default()).unwrap();
        }
    }
    assert_eq!(q.produce(NOW, 1_000).unwrap().unwrap().data.stream_key.id(), StreamId(3));
    for stream in [3, 7] {
        q.prepare_reset_stream(StreamId(stream)).unwrap();
    }
    assert_eq!(q.buffered_amount(StreamId(3)), 500, "the half-sent message stays");
    assert!(q.has_streams_ready_to_be_reset());
    assert_eq!(q.get_streams_ready_to_reset(), [StreamId(7)]);
    assert!(q.produce(NOW, 1_000).unwrap().unwrap().data.is_end);
    assert_eq!(q.get_streams_ready_to_reset(), [StreamId(3)]);
    q.commit_reset_streams();
    assert!(!q.has_streams_ready_to_be_reset());
    q.add(NOW, message(3, b"m"), &SendOptions::default()).unwrap();
    assert_eq!(q.produce(NOW, 1_000).unwrap().unwrap().data.mid, Mid(0));
    q.rollback_reset_streams();
    assert!(q.has_data_to_send());
}

#[test]
fn an_image_is_restored_once() {
    let mut q = queue();
    q.set_priority(StreamId(2), 7).unwrap();
    q.add(NOW, message(1, &[5; 1_500]), &SendOptions::default()).unwrap();
    assert!(q.produce(NOW, 1_000).unwrap().is_some());
    let image = q.save(NOW).unwrap();
    let mut short = vec![0; image.len() - 1];
    assert_eq!(q.save_into(NOW, &mut short), Err(Refusal::ImageBufferShort));
    assert!(short.iter().all(|b| *b == 0));
    assert_eq!(q.save(SocketTime(MAX_TIME + 1)), Err(Refusal::TimeLate));

    let mut other = queue();
    assert_eq!(other.restore(NOW, &image[1..]), Err(Refusal::ImageWrong));
    assert_eq!(other.restore(NOW, &[]), Err(Refusal::ImageWrong));
    other.restore(NOW, &image).unwrap();
    assert_eq!(other.restore(NOW, &image), Err(Refusal::QueueUsed));
    assert_eq!(other.get_priority(StreamId(2)), 7);
    assert_eq!(other.save(NOW).unwrap(), image);
    assert_eq!(other.produce(NOW, 1_000).unwrap().unwrap().data.payload, [5; 500]);

    let new = |options: Options| SendQueue::new(1_000, &options).unwrap().restore(NOW, &image);
    assert_eq!(new(Options { default_stream_priority: 1, ..Options::default() }), Err(Refusal::PriorityOther));
    assert_eq!(new(Options { max_send_buffer_size: 1_499, ..Options::default() }), Err(Refusal::ImageLarge));
}

/// A queue by a rule of a restart whose second message on stream 1 is half-sent.
fn half_sent(restart_rule: RestartRule, unordered: bool, interleaved: bool) -> SendQueue {
    let mut q = SendQueue::new(1_000, &Options { restart_rule, ..Options::default() }).unwrap();
    q.enable_message_interleaving(interleaved);
    for length in [10, 1_500, 20] {
        q.add(NOW, message(1, &vec![5; length]), &SendOptions { unordered, ..Default::default() }).unwrap();
    }
    assert!(q.produce(NOW, 1_000).unwrap().unwrap().data.is_end);
    assert!(!q.produce(NOW, 1_000).unwrap().unwrap().data.is_end);
    q
}

/// SSN, MID and FSN of every fragment that waits.
fn numbers(mut q: SendQueue) -> Vec<(u16, u32, u32)> {
    let mut found = Vec::new();
    while let Some(d) = q.produce(NOW, 1_000).unwrap() {
        found.push((d.data.ssn.0, d.data.mid.0, d.data.fsn.0));
    }
    found
}

/// Document 02, 6/13: "a message put back starts with FSN 0 and with numbers from the zeroed counters".
#[test]
fn a_strict_reset_gives_new_numbers() {
    assert_eq!(Options::default().restart_rule, RestartRule::Dcsctp);
    for interleaved in [false, true] {
        let reset = |rule, unordered| {
            let mut q = half_sent(rule, unordered, interleaved);
            q.reset();
            assert_eq!(q.buffered_amount(StreamId(1)), 1_520);
            numbers(q)
        };
        assert_eq!(reset(RestartRule::Dcsctp, false), [(1, 1, 1), (1, 1, 2), (0, 0, 0)]);
        assert_eq!(reset(RestartRule::Dcsctp, true), [(0, 1, 1), (0, 1, 2), (0, 0, 0)]);
        assert_eq!(reset(RestartRule::Strict, false), [(0, 0, 0), (0, 0, 1), (1, 1, 0)]);
        assert_eq!(reset(RestartRule::Strict, true), [(0, 0, 0), (0, 0, 1), (0, 1, 0)]);
    }
}

/// "Strict restoring answers 13 also to a MID on a message at offset 0."
#[test]
fn a_strict_queue_refuses_a_message_put_back_with_its_numbers() {
    let restored = |rule, image: &[u8]| {
        let mut q = SendQueue::new(1_000, &Options { restart_rule: rule, ..Options::default() }).unwrap();
        q.restore(NOW, image).map(|()| numbers(q))
    };
    for rule in [RestartRule::Dcsctp, RestartRule::Strict] {
        let image = half_sent(rule, false, false).save(NOW).unwrap();
        for other in [RestartRule::Dcsctp, RestartRule::Strict] {
            assert_eq!(
                restored(other, &image),
                Ok(vec![(1, 1, 1), (2, 2, 0)]),
                "a half-sent message keeps its numbers"
            );
        }
    }
    let put_back = |rule| {
        let mut q = half_sent(rule, false, false);
        q.reset();
        q.save(NOW).unwrap()
    };
    let kept = put_back(RestartRule::Dcsctp);
    assert_eq!(restored(RestartRule::Dcsctp, &kept), Ok(vec![(1, 1, 1), (1, 1, 2), (0, 0, 0)]));
    assert_eq!(restored(RestartRule::Strict, &kept), Err(Refusal::ImageWrong));
    let anew = put_back(RestartRule::Strict);
    for rule in [RestartRule::Dcsctp, RestartRule::Strict] {
        assert_eq!(restored(rule, &anew), Ok(vec![(0, 0, 0), (0, 0, 1), (1, 1, 0)]));
    }
}

/// Stream, first mark and last mark of all fragments.
fn fragments(q: &mut SendQueue) -> Vec<(u16, bool, bool)> {
    let mut all = Vec::new();
    while let Some(d) = q.produce(NOW, 1_000).unwrap() {
        all.push((d.data.stream_key.id().0, d.data.is_beginning, d.data.is_end));
    }
    all
}

fn restored(image: &[u8], interleaved: bool) -> SendQueue {
    let mut q = queue();
    q.enable_message_interleaving(interleaved);
    q.restore(NOW, image).unwrap();
    q
}

/// "Restoring without interleaving shall remember the stream whose first message is half-sent, .. and send its rest first."
#[test]
fn the_rest_of_a_half_sent_message_comes_first_after_a_changeover() {
    let mut q = queue();
    q.add(NOW, message(5, &[5; 2_500]), &SendOptions::default()).unwrap();
    q.produce(NOW, 1_000).unwrap();
    q.add(NOW, message(3, &[3; 1_500]), &SendOptions::default()).unwrap();
    let image = q.save(NOW).unwrap();
    let rest_first = [(5, false, false), (5, false, true), (3, true, false), (3, false, true)];

    let mut second = restored(&image, false);
    assert_eq!(second.save(NOW).unwrap(), image);
    let mut third = restored(&second.save(NOW).unwrap(), false);
    assert_eq!(fragments(&mut second), rest_first);
    third.add(NOW, message(1, b"m"), &SendOptions::default()).unwrap();
    let ones = [(1, true, true)];
    assert_eq!(fragments(&mut third), [&rest_first[..2], &ones, &rest_first[2..]].concat());
    let by_turns = [(3, true, false), (5, false, false), (3, false, true), (5, false, true)];
    assert_eq!(fragments(&mut restored(&image, true)), by_turns);
}

/// ".. the smallest id if several are .."
#[test]
fn of_several_half_sent_messages_the_smallest_stream_goes_on() {
    let mut q = queue();
    q.enable_message_interleaving(true);
    for stream in [7, 5] {
        q.add(NOW, message(stream, &[1; 2_500]), &SendOptions::default()).unwrap();
        q.produce(NOW, 1_000).unwrap();
    }
    q.add(NOW, message(3, b"m"), &SendOptions::default()).unwrap();
    let image = q.save(NOW).unwrap();
    let seen = fragments(&mut restored(&image, false));
    assert_eq!(
        seen,
        [(5, false, false), (5, false, true), (3, true, true), (7, false, false), (7, false, true)],
        "the rest of 7 comes in its turn"
    );
}

#[test]
fn readiness_is_the_choice_at_creation() {
    for (choice, ready) in [(false, HandoverReadiness::SEND_QUEUE_NOT_EMPTY), (true, HandoverReadiness::READY)] {
        let options = Options { enable_handover_with_outstanding_data: choice, ..Options::default() };
        let mut q = SendQueue::new(1_000, &options).unwrap();
        assert!(q.get_handover_readiness().is_ready());
        q.add(NOW, message(1, b"m"), &SendOptions::default()).unwrap();
        assert_eq!(q.get_handover_readiness(), ready);
        assert_eq!(q.get_handover_readiness().contains(HandoverReadiness::SEND_QUEUE_NOT_EMPTY), !choice);
        assert_eq!(q.get_handover_readiness().to_string(), if choice { "" } else { "send_queue_not_empty" });
    }
}

#[test]
fn questions_about_an_unknown_stream_get_the_defaults() {
    let options = Options { default_stream_buffered_amount_low_threshold: 77, ..Options::default() };
    let q = SendQueue::new(1_000, &options).unwrap();
    let stream = StreamId(12);
    assert_eq!(
        (q.buffered_amount(stream), q.buffered_amount_low_threshold(stream), q.get_priority(stream)),
        (0, 77, 256)
    );
    assert!(!q.has_data_to_send() && q.is_empty());
    assert_eq!(format!("{q:?}"), "SendQueue { store: 2000000, total_buffered_amount: 0, .. }");
}

#[test]
fn times_stop_at_their_ends() {
    assert_eq!(SocketTime(5) + Duration::from_nanos(7), SocketTime(12));
    assert_eq!(SocketTime(5) + Duration::MAX, SocketTime::infinite_future());
    assert_eq!(SocketTime(5) - Duration::MAX, SocketTime::zero());
    assert_eq!(SocketTime(5) - SocketTime(3), Duration::from_nanos(2));
    assert_eq!(SocketTime(3) - SocketTime(5), Duration::ZERO);
}
