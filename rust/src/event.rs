//! What a call reports beside its answer.

use crate::ids::StreamId;
use crate::limits::PLACE_WORDS;
use crate::message::LifecycleId;
use std::collections::VecDeque;
use std::slice::ChunksExact;

/// Something that a call reports. The names are those of dcSCTP's `SocketEvent`, whose low marks have no amount.
///
/// An amount is the one at which the event fired. It need not be the amount after the whole call: a call that drops several messages steps
/// message by message, so three messages of 10 bytes, closed with the threshold 15, report 10 and not 0.
#[derive(Clone, Copy, Debug, Eq, PartialEq)]
pub enum Event {
    /// The stream's buffered amount fell to its threshold or below, or a threshold below it was raised to it or past it.
    OnBufferedAmountLow {
        /// The stream.
        stream_id: StreamId,
        /// Its buffered amount after the fall, or at the raise.
        amount: usize,
    },
    /// The total buffered amount fell to its threshold or below.
    OnTotalBufferedAmountLow {
        /// The total after the fall.
        amount: usize,
    },
    /// The message with this id was dropped: its time was over, or it was discarded, or its stream was closed.
    OnLifecycleMessageExpired(LifecycleId),
    /// Nothing more will be reported of this id.
    OnLifecycleEnd(LifecycleId),
}

impl Event {
    /// The event in a place of the list.
    fn of(place: &[u64]) -> Self {
        let [kind, number, amount] = *place else { unreachable!("a place has three words") };
        let amount = amount as usize;
        let id = || {
            assert!(amount == 0, "an event of a message has no amount");
            LifecycleId::new(number).expect("an event of a message names its lifecycle id")
        };
        match kind {
            1 => Self::OnBufferedAmountLow { stream_id: StreamId(number as u16), amount },
            2 => Self::OnTotalBufferedAmountLow { amount },
            3 => Self::OnLifecycleMessageExpired(id()),
            4 => Self::OnLifecycleEnd(id()),
            _ => unreachable!("an event has a kind from 1 to 4"),
        }
    }
}

/// dcSCTP's name of it.
pub type SocketEvent = Event;

/// Where a [`sink::SendQueue`](crate::sink::SendQueue) hands its events: dcSCTP's trait, with its two methods.
pub trait EventSink {
    /// Takes an event; a queue hands them over in order.
    fn add(&mut self, event: SocketEvent);

    /// The oldest event that was taken and not yet given.
    fn next_event(&mut self) -> Option<SocketEvent>;
}

/// First in, first out.
impl EventSink for VecDeque<SocketEvent> {
    fn add(&mut self, event: SocketEvent) {
        self.push_back(event);
    }

    fn next_event(&mut self) -> Option<SocketEvent> {
        self.pop_front()
    }
}

/// The events of a queue's last call, in order.
#[derive(Clone, Debug)]
pub struct Events<'a>(ChunksExact<'a, u64>);

impl<'a> Events<'a> {
    /// The events in these words, place by place.
    pub(crate) fn new(words: &'a [u64]) -> Self {
        Self(words.chunks_exact(PLACE_WORDS))
    }
}

impl Iterator for Events<'_> {
    type Item = Event;

    fn next(&mut self) -> Option<Event> {
        self.0.next().map(Event::of)
    }

    fn size_hint(&self) -> (usize, Option<usize>) {
        self.0.size_hint()
    }
}

impl ExactSizeIterator for Events<'_> {}
