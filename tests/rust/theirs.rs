//! The original queue. It has no refusals and no image; what document 01 adds is added here, by document 01's rules.

use crate::EventSink;
use crate::Sink;
use crate::api::LifecycleId;
use crate::api::Message;
use crate::api::Options;
use crate::api::PpId;
use crate::api::SendOptions;
use crate::api::SocketEvent;
use crate::api::SocketTime;
use crate::api::StreamId;
use crate::api::handover::SocketHandoverState;
use crate::calls::Adding;
use crate::calls::Answer;
use crate::calls::Call;
use crate::calls::questions;
use crate::payload::payload;
use crate::image;
use crate::tx::send_queue::SendQueue;
use crate::types::OutgoingMessageId;
use bytes::Bytes;
use std::cell::RefCell;
use std::collections::BTreeSet;
use std::rc::Rc;
use std::time::Duration;

const MAX_TIME: u64 = 4_611_686_018_427_387_903;
const MAX_PAYLOAD: u64 = 262_144;

pub struct Theirs {
    queue: SendQueue,
    sink: Rc<RefCell<Sink>>,
    /// The original does not tell which streams it knows, nor refuse the 257th.
    known: BTreeSet<u16>,
    store: usize,
    priority: u16,
    total_threshold: u64,
}

fn time(ns: u64) -> SocketTime {
    SocketTime::zero() + Duration::from_nanos(ns)
}

/// The first refusal that applies.
fn first(rules: &[(u8, bool)]) -> u8 {
    rules.iter().find(|r| r.1).map_or(0, |r| r.0)
}

impl Theirs {
    pub fn new(call: &Call) -> Result<Self, u8> {
        let Call::New { limit, store, priority, threshold, total, handover } = *call else { panic!("not a creation") };
        let refusal = first(&[(1, !(1..=65_535).contains(&limit)), (2, !(1..=2_000_000).contains(&store))]);
        if refusal != 0 {
            return Err(refusal);
        }
        let options = Options {
            default_stream_priority: priority,
            default_stream_buffered_amount_low_threshold: threshold as usize,
            total_buffered_amount_low_threshold: total as usize,
            enable_handover_with_outstanding_data: handover,
            ..Options::default()
        };
        let sink = Rc::new(RefCell::new(Sink::default()));
        let queue = SendQueue::new(limit as usize, &options, sink.clone());
        Ok(Theirs { queue, sink, known: BTreeSet::new(), store, priority, total_threshold: total })
    }

    pub fn interleave(&mut self, on: bool) {
        self.queue.enable_message_interleaving(on);
    }

    pub fn record(&self, now: u64) -> SocketHandoverState {
        let mut record = SocketHandoverState::default();
        self.queue.add_to_handover_state(time(now), &mut record);
        record
    }

    /// How many messages are half-sent.
    pub fn half_sent(&self) -> usize {
        self.record(0).tx.queued_messages.iter().filter(|m| m.remaining_offset > 0).count()
    }

    fn too_many(&self, stream: u16) -> bool {
        self.known.len() >= 256 && !self.known.contains(&stream)
    }

    fn events(&self) -> Vec<(u8, u64)> {
        let mut sink = self.sink.borrow_mut();
        let mut list = Vec::new();
        while let Some(event) = sink.next_event() {
            list.push(match event {
                SocketEvent::OnBufferedAmountLow(id) => (1, u64::from(id.0)),
                SocketEvent::OnTotalBufferedAmountLow() => (2, 0),
                SocketEvent::OnLifecycleMessageExpired(id) => (3, id.value()),
                SocketEvent::OnLifecycleEnd(id) => (4, id.value()),
                other => panic!("the queue reported {other:?}"),
            });
        }
        list
    }

    pub fn questions(&self, stream: u16) -> [u64; 8] {
        questions!(&self.queue, StreamId(stream))
    }

    pub fn total(&self) -> u64 {
        self.queue.total_buffered_amount() as u64
    }

    /// The amount and the threshold of a stream, or of all of them together.
    pub fn watched(&self, stream: Option<u16>) -> (u64, u64) {
        let Some(stream) = stream else { return (self.total(), self.total_threshold) };
        let [amount, _, _, threshold, ..] = self.questions(stream);
        (amount, threshold)
    }

    /// The answer to any call but creation and what concerns the current image alone.
    pub fn answer(&mut self, call: &Call, image: &[u8]) -> Answer {
        let mut answer = Answer::default();
        match *call {
            Call::Add(ref a) => answer.refusal = self.add(a),
            Call::Produce { now, size, .. } => return self.produce(now, size),
            Call::Discard { stream, id } => self.queue.discard(StreamId(stream), OutgoingMessageId(id)),
            Call::Close { stream } | Call::Threshold { stream, .. } | Call::Priority { stream, .. } => {
                if self.too_many(stream) {
                    return Answer::refused(6);
                }
                self.known.insert(stream);
                match *call {
                    Call::Close { .. } => self.queue.prepare_reset_stream(StreamId(stream)),
                    Call::Threshold { value, .. } => {
                        self.queue.set_buffered_amount_low_threshold(StreamId(stream), value as usize);
                    }
                    Call::Priority { value, .. } => self.queue.set_priority(StreamId(stream), value),
                    _ => unreachable!(),
                }
            }
            Call::Ready => {
                let mut ids = self.queue.get_streams_ready_to_reset();
                ids.sort();
                answer.numbers = ids.iter().map(|id| u64::from(id.0)).collect();
            }
            Call::Commit => self.queue.commit_reset_streams(),
            Call::Rollback => self.queue.rollback_reset_streams(),
            Call::Reset => self.queue.reset(),
            Call::Interleave { on } => self.interleave(on),
            Call::Ask { stream } => answer.numbers = self.questions(stream).to_vec(),
            Call::Save { now, room } => return self.save(now, room),
            Call::Over { now } | Call::Restore { now } => answer.refusal = self.restore(now, image),
            Call::New { .. } | Call::Put { .. } | Call::Cut { .. } => panic!("not a call on a queue"),
        }
        answer.events = self.events();
        answer
    }

    fn add(&mut self, a: &Adding) -> u8 {
        // The stand-in for `bytes` counts the buffers alive: one for each message that waits.
        let (messages, used) = bytes::live();
        let length = a.length as u64;
        let refusal = first(&[
            (4, a.now > MAX_TIME || a.lifetime.is_some_and(|l| l > MAX_TIME)),
            (5, !(1..=MAX_PAYLOAD).contains(&length)),
            (6, self.too_many(a.stream)),
            (7, messages >= 1_024),
            (8, a.length > self.store - used),
        ]);
        if refusal != 0 {
            return refusal;
        }
        let options = SendOptions {
            unordered: a.unordered,
            lifetime: a.lifetime.map(Duration::from_nanos),
            max_retransmissions: a.retransmissions,
            lifecycle_id: LifecycleId::new(a.lifecycle),
        };
        let bytes = Bytes::from(payload(a.length, a.seed));
        self.queue.add(time(a.now), Message::new(StreamId(a.stream), PpId(a.ppid), bytes), &options);
        self.known.insert(a.stream);
        0
    }

    fn produce(&mut self, now: u64, size: u64) -> Answer {
        let refusal = first(&[(4, now > MAX_TIME), (9, !(1..=MAX_PAYLOAD).contains(&size))]);
        if refusal != 0 {
            return Answer::refused(refusal);
        }
        let mut answer = Answer::default();
        if let Some(d) = self.queue.produce(time(now), size as usize) {
            let never = d.expires_at == SocketTime::infinite_future();
            let expiry = if never { 0 } else { (d.expires_at - SocketTime::zero()).as_nanos() as u64 };
            answer.numbers = vec![
                u64::from(d.message_id.0),
                u64::from(d.data.stream_key.id().0),
                u64::from(d.data.stream_key.is_unordered()),
                u64::from(d.data.ssn.0),
                u64::from(d.data.mid.0),
                u64::from(d.data.fsn.0),
                u64::from(d.data.ppid.0),
                u64::from(d.data.is_beginning),
                u64::from(d.data.is_end),
                u64::from(d.max_retransmissions),
                u64::from(!never),
                expiry,
                d.lifecycle_id.map_or(0, |id| id.value()),
            ];
            answer.bytes = d.data.payload.to_vec();
        }
        answer.events = self.events();
        answer
    }

    fn save(&self, now: u64, room: Option<usize>) -> Answer {
        if now > MAX_TIME {
            return Answer::refused(4);
        }
        let image = image::write(&self.record(now), self.priority).expect("a queue within the domain has an image");
        if room.is_some_and(|n| n < image.len()) {
            return Answer::refused(11);
        }
        Answer { bytes: image, ..Answer::default() }
    }

    fn restore(&mut self, now: u64, image: &[u8]) -> u8 {
        if now > MAX_TIME {
            return 4;
        }
        let before = self.record(0);
        if !before.tx.streams.is_empty() || before.tx.next_outgoing_message_id != 0 {
            return 12;
        }
        match image::read(image, self.priority, self.store) {
            Err(refusal) => refusal,
            Ok(record) => {
                self.queue.restore_from_state(time(now), &record);
                self.known.extend(record.tx.streams.iter().map(|s| s.id));
                self.known.extend(record.tx.queued_messages.iter().map(|m| m.stream_id));
                0
            }
        }
    }
}
