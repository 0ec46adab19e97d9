//! The queue for a program that was written for dcSCTP's: events go to a sink, and fragments own their bytes.

use crate::event::EventSink;
use crate::fragment::DataToSend;
use crate::ids::OutgoingMessageId;
use crate::ids::StreamId;
use crate::message::Message;
use crate::message::SendOptions;
use crate::options::Options;
use crate::refusal::Refusal;
use crate::time::SocketTime;
use std::cell::RefCell;
use std::fmt;
use std::ops::Deref;
use std::rc::Rc;

/// A [`SendQueue`](crate::SendQueue) that hands the events of each call to a sink, in order, as dcSCTP's does; the methods are the same.
///
/// The questions and saving are those of the queue inside. A refused call hands over nothing.
pub struct SendQueue {
    queue: crate::SendQueue,
    events: Rc<RefCell<dyn EventSink>>,
}

impl SendQueue {
    /// A new queue; see [`SendQueue::new`](crate::SendQueue::new).
    ///
    /// # Errors
    ///
    /// [`Refusal::PayloadLimitWrong`], [`Refusal::StoreWrong`].
    pub fn new(
        max_payload_bytes: usize,
        options: &Options,
        events: Rc<RefCell<dyn EventSink>>,
    ) -> Result<Self, Refusal> {
        Ok(Self { queue: crate::SendQueue::new(max_payload_bytes, options)?, events })
    }

    /// Hands over what the last call reported.
    fn report(&self) {
        let mut events = self.events.borrow_mut();
        self.queue.events().for_each(|event| events.add(event));
    }

    /// Adds a message; see [`SendQueue::add`](crate::SendQueue::add).
    ///
    /// # Errors
    ///
    /// As there.
    pub fn add(&mut self, now: SocketTime, message: Message<'_>, send_options: &SendOptions) -> Result<(), Refusal> {
        self.queue.add(now, message, send_options)
    }

    /// The next fragment, with bytes of its own; see [`SendQueue::produce`](crate::SendQueue::produce).
    ///
    /// # Errors
    ///
    /// As there.
    pub fn produce(&mut self, now: SocketTime, max_size: usize) -> Result<Option<DataToSend>, Refusal> {
        let fragment = self.queue.produce(now, max_size)?.map(DataToSend::into_owned);
        self.report();
        Ok(fragment)
    }

    /// Drops a message; see [`SendQueue::discard`](crate::SendQueue::discard).
    pub fn discard(&mut self, stream_id: StreamId, message_id: OutgoingMessageId) {
        self.queue.discard(stream_id, message_id);
        self.report();
    }

    /// Closes a stream; see [`SendQueue::prepare_reset_stream`](crate::SendQueue::prepare_reset_stream).
    ///
    /// # Errors
    ///
    /// As there.
    pub fn prepare_reset_stream(&mut self, stream_id: StreamId) -> Result<(), Refusal> {
        self.queue.prepare_reset_stream(stream_id)?;
        self.report();
        Ok(())
    }

    /// The streams that can be reset; see [`SendQueue::get_streams_ready_to_reset`](crate::SendQueue::get_streams_ready_to_reset).
    pub fn get_streams_ready_to_reset(&mut self) -> Vec<StreamId> {
        self.queue.get_streams_ready_to_reset()
    }

    /// The peer has accepted the reset.
    pub fn commit_reset_streams(&mut self) {
        self.queue.commit_reset_streams();
    }

    /// The peer has not accepted the reset.
    pub fn rollback_reset_streams(&mut self) {
        self.queue.rollback_reset_streams();
    }

    /// The peer has restarted; see [`SendQueue::reset`](crate::SendQueue::reset).
    pub fn reset(&mut self) {
        self.queue.reset();
    }

    /// Sets a low mark; see [`SendQueue::set_buffered_amount_low_threshold`](crate::SendQueue::set_buffered_amount_low_threshold).
    ///
    /// # Errors
    ///
    /// As there.
    pub fn set_buffered_amount_low_threshold(&mut self, stream_id: StreamId, threshold: usize) -> Result<(), Refusal> {
        self.queue.set_buffered_amount_low_threshold(stream_id, threshold)?;
        self.report();
        Ok(())
    }

    /// Sets a priority; see [`SendQueue::set_priority`](crate::SendQueue::set_priority).
    ///
    /// # Errors
    ///
    /// As there.
    pub fn set_priority(&mut self, stream_id: StreamId, priority: u16) -> Result<(), Refusal> {
        self.queue.set_priority(stream_id, priority)
    }

    /// Chooses interleaving; see [`SendQueue::enable_message_interleaving`](crate::SendQueue::enable_message_interleaving).
    pub fn enable_message_interleaving(&mut self, enable: bool) {
        self.queue.enable_message_interleaving(enable);
    }

    /// Makes a new queue the one of the image; see [`SendQueue::restore`](crate::SendQueue::restore).
    ///
    /// # Errors
    ///
    /// As there.
    pub fn restore(&mut self, now: SocketTime, image: &[u8]) -> Result<(), Refusal> {
        self.queue.restore(now, image)
    }

    /// The queue inside, for calls that are not here, as a packet or the reset handler's. What they report is not handed to the sink.
    pub fn queue_mut(&mut self) -> &mut crate::SendQueue {
        &mut self.queue
    }
}

impl Deref for SendQueue {
    type Target = crate::SendQueue;

    fn deref(&self) -> &crate::SendQueue {
        &self.queue
    }
}

impl fmt::Debug for SendQueue {
    fn fmt(&self, f: &mut fmt::Formatter<'_>) -> fmt::Result {
        self.queue.fmt(f)
    }
}
