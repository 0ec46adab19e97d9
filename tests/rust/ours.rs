//! The proved queue, through the safe crate.

use crate::calls::Adding;
use crate::calls::Answer;
use crate::calls::Call;
use crate::calls::questions;
use crate::payload::payload;
use desqariy::*;
use std::time::Duration;

/// What lent buffers are filled with, so that a byte written past its place is seen.
const FILL: u8 = 0x5a;

pub struct Ours {
    queue: SendQueue,
    buffer: Vec<u8>,
}

fn number<T>(answer: Result<T, Refusal>) -> u8 {
    answer.map_or_else(Refusal::number, |_| 0)
}

fn shown(fragment: Result<Option<DataToSend<&[u8]>>, Refusal>) -> Answer {
    let mut answer = Answer::default();
    match fragment {
        Err(refusal) => answer.refusal = refusal.number(),
        Ok(None) => {}
        Ok(Some(d)) => {
            let never = d.expires_at == SocketTime::infinite_future();
            answer.numbers = vec![
                u64::from(d.message_id.0),
                u64::from(d.data.stream_key.id().0),
                u64::from(d.data.stream_key.is_unordered()),
                u64::from(d.data.ssn.0),
                u64::from(d.data.mid.0),
                u64::from(d.data.fsn.0),
                u64::from(d.data.ppid.0),
                u64::from(d.data.is_beginning),
                u64::from(d.data.is_end),
                u64::from(d.max_retransmissions),
                u64::from(!never),
                if never { 0 } else { d.expires_at.0 },
                d.lifecycle_id.map_or(0, |id| id.value()),
            ];
            answer.bytes = d.data.payload.to_vec();
        }
    }
    answer
}

impl Ours {
    pub fn new(call: &Call) -> Result<Self, u8> {
        let Call::New { limit, store, priority, threshold, total, handover } = *call else { panic!("not a creation") };
        let options = Options {
            max_send_buffer_size: store,
            default_stream_priority: priority,
            default_stream_buffered_amount_low_threshold: threshold as usize,
            total_buffered_amount_low_threshold: total as usize,
            enable_handover_with_outstanding_data: handover,
            // The original has no other.
            restart_rule: RestartRule::Dcsctp,
        };
        let queue = SendQueue::new(limit as usize, &options).map_err(Refusal::number)?;
        Ok(Ours { queue, buffer: vec![FILL; MAX_PAYLOAD + 1] })
    }

    pub fn interleave(&mut self, on: bool) {
        self.queue.enable_message_interleaving(on);
    }

    pub fn questions(&self, stream: u16) -> [u64; 8] {
        questions!(&self.queue, StreamId(stream))
    }

    pub fn answer(&mut self, call: &Call, image: &[u8]) -> Answer {
        let q = &mut self.queue;
        let mut answer = Answer::default();
        match *call {
            Call::Add(ref a) => answer.refusal = self.add(a),
            Call::Produce { now, size, into } => answer = self.produce(now, size, into),
            Call::Discard { stream, id } => q.discard(StreamId(stream), OutgoingMessageId(id)),
            Call::Close { stream } => answer.refusal = number(q.prepare_reset_stream(StreamId(stream))),
            Call::Threshold { stream, value } => {
                answer.refusal = number(q.set_buffered_amount_low_threshold(StreamId(stream), value as usize));
            }
            Call::Priority { stream, value } => answer.refusal = number(q.set_priority(StreamId(stream), value)),
            Call::Ready => answer.numbers = q.get_streams_ready_to_reset().iter().map(|id| u64::from(id.0)).collect(),
            Call::Commit => q.commit_reset_streams(),
            Call::Rollback => q.rollback_reset_streams(),
            Call::Reset => q.reset(),
            Call::Interleave { on } => q.enable_message_interleaving(on),
            Call::Ask { stream } => {
                answer.numbers = self.questions(stream).to_vec();
                return answer;
            }
            Call::Save { now, room } => return self.save(now, room),
            Call::Over { now } | Call::Restore { now } => answer.refusal = number(q.restore(SocketTime(now), image)),
            Call::New { .. } | Call::Put { .. } | Call::Cut { .. } => panic!("not a call on a queue"),
        }
        answer.events = self.events();
        answer
    }

    /// Kind and number of each event. That an event of kind 3 or 4 has no amount the crate asserts.
    fn events(&self) -> Vec<(u8, u64)> {
        let pair = |event| match event {
            Event::OnBufferedAmountLow { stream_id, .. } => (1, u64::from(stream_id.0)),
            Event::OnTotalBufferedAmountLow { .. } => (2, 0),
            Event::OnLifecycleMessageExpired(id) => (3, id.value()),
            Event::OnLifecycleEnd(id) => (4, id.value()),
        };
        self.queue.events().map(pair).collect()
    }

    /// The low marks of the last call that reports: a stream, or none for the total; and the amount.
    pub fn low_marks(&self) -> Vec<(Option<u16>, u64)> {
        let mark = |event| match event {
            Event::OnBufferedAmountLow { stream_id, amount } => Some((Some(stream_id.0), amount as u64)),
            Event::OnTotalBufferedAmountLow { amount } => Some((None, amount as u64)),
            _ => None,
        };
        self.queue.events().filter_map(mark).collect()
    }

    fn add(&mut self, a: &Adding) -> u8 {
        let options = SendOptions {
            unordered: a.unordered,
            lifetime: a.lifetime.map(Duration::from_nanos),
            max_retransmissions: a.retransmissions,
            lifecycle_id: LifecycleId::new(a.lifecycle),
        };
        let bytes = payload(a.length, a.seed);
        number(self.queue.add(SocketTime(a.now), Message::new(StreamId(a.stream), PpId(a.ppid), &bytes), &options))
    }

    fn produce(&mut self, now: u64, size: u64, into: bool) -> Answer {
        let now = SocketTime(now);
        if !into || size > self.buffer.len() as u64 {
            return shown(self.queue.produce(now, size as usize));
        }
        let lent = &mut self.buffer[..size as usize];
        let answer = shown(self.queue.produce_into(now, lent));
        lent[..answer.bytes.len()].fill(FILL);
        assert!(lent.iter().all(|b| *b == FILL), "a byte past the fragment was written");
        answer
    }

    fn save(&self, now: u64, room: Option<usize>) -> Answer {
        let Some(room) = room else {
            return match self.queue.save(SocketTime(now)) {
                Err(refusal) => Answer::refused(refusal.number()),
                Ok(bytes) => Answer { bytes, ..Answer::default() },
            };
        };
        let mut lent = vec![FILL; room];
        let answer = self.queue.save_into(SocketTime(now), &mut lent);
        let length = *answer.as_ref().unwrap_or(&0);
        assert!(lent[length..].iter().all(|b| *b == FILL), "a byte past the image was written");
        lent.truncate(length);
        Answer { refusal: number(answer), bytes: lent, ..Answer::default() }
    }
}
