//! The queue with its buffers; messages in, fragments out.

use crate::event::Events;
use crate::ffi;
use crate::ffi::EventWords;
use crate::ffi::Given;
use crate::ffi::Out;
use crate::ffi::Queue;
use crate::fragment;
use crate::fragment::DataToSend;
use crate::ids::OutgoingMessageId;
use crate::ids::StreamId;
use crate::limits::EVENT_WORDS;
use crate::limits::LAYOUT;
use crate::limits::MAX_PAYLOAD;
use crate::limits::MAX_STORE;
use crate::limits::OUT_WORDS;
use crate::limits::PLACE_WORDS;
use crate::message::Message;
use crate::message::SendOptions;
use crate::options::Options;
use crate::refusal::Refusal;
use crate::time::SocketTime;
use crate::time::nanoseconds;
use std::fmt;

/// The send queue: messages go in whole, fragments come out, stream by stream as the scheduler chooses.
///
/// It has the methods of dcSCTP's `SendQueue`, and they mean the same. What differs: the room for its state and for payloads is settled at
/// creation, so a call can be refused ([`Refusal`]); and events are not called back but listed, by [`events`](SendQueue::events), after the
/// call ([`sink::SendQueue`](crate::sink::SendQueue) hands them to a sink, as dcSCTP does).
///
/// A clone is a second queue with the same messages: only one of the two may send them. It is for looking ahead.
///
/// Some methods answer without a `Result`, as dcSCTP's do: nothing refuses them, and they do not panic. (In C they can be handed words that are
/// not a queue's, and answer 16. A `SendQueue` owns its words, and it is proved that its calls keep them a queue's. A debug build asks anew at
/// each call.)
#[derive(Clone)]
pub struct SendQueue {
    pub(crate) queue: Queue,
    pub(crate) events: Box<EventWords>,
    pub(crate) event_count: usize,
    fragment: Vec<u8>,
}

/// A boxed array of zeros, made on the heap.
#[allow(clippy::unnecessary_box_returns, reason = "an array of this length is not to pass over the stack")]
pub(crate) fn zeros<const N: usize>() -> Box<[u64; N]> {
    vec![0; N].into_boxed_slice().try_into().expect("the length is the array's")
}

impl SendQueue {
    /// A new queue. Fragments of up to `max_payload_bytes` are meant to be sent: the scheduler reckons with that size.
    ///
    /// # Errors
    ///
    /// [`Refusal::PayloadLimitWrong`], [`Refusal::StoreWrong`].
    ///
    /// # Panics
    ///
    /// Where a linked library tells another layout than the one that its symbols name; none that `rt` has made does.
    pub fn new(max_payload_bytes: usize, options: &Options) -> Result<Self, Refusal> {
        let layouts = ffi::layouts();
        assert!(
            layouts == [LAYOUT; 4],
            "the proved libraries tell layouts {layouts:?}, this crate is written for {LAYOUT}"
        );
        // A longer store than any queue takes need not be had for it to be refused.
        let store = vec![0; options.max_send_buffer_size.min(MAX_STORE + 1)].into_boxed_slice();
        let queue = Queue::create(store, max_payload_bytes as u64, options).map_err(Refusal::of)?;
        Ok(Self { queue, events: zeros::<EVENT_WORDS>(), event_count: 0, fragment: Vec::new() })
    }

    /// Adds a message behind the others of its stream. The payload is copied.
    ///
    /// # Errors
    ///
    /// [`Refusal::TimeLate`], [`Refusal::PayloadWrong`], [`Refusal::StreamsFull`], [`Refusal::MessagesFull`],
    /// [`Refusal::StoreFull`].
    pub fn add(&mut self, now: SocketTime, message: Message<'_>, send_options: &SendOptions) -> Result<(), Refusal> {
        self.event_count = 0;
        let given = Given {
            time: now.0,
            stream_id: message.stream_id.0,
            ppid: message.ppid.0,
            unordered: send_options.unordered,
            lifetime: send_options.lifetime.map(nanoseconds),
            max_retransmissions: send_options.max_retransmissions,
            lifecycle_id: send_options.lifecycle_id.map_or(0, |id| id.value()),
        };
        Refusal::judge(self.queue.add(message.payload, &given))
    }

    /// The next fragment, of at most `max_size` bytes, or `None` if nothing waits. Messages whose time is over are dropped on the way.
    ///
    /// Its bytes are lent until the next call; [`produce_into`](SendQueue::produce_into) writes them straight to the caller's buffer.
    ///
    /// It takes at most 4 KB of stack (measured). A build with debug assertions calls the checked function, which takes 7 KB where it drops up
    /// to 17 messages, 37 KB for up to 128 of them, and 253 KB to drop more in one call: give a thread more.
    ///
    /// # Errors
    ///
    /// [`Refusal::TimeLate`], [`Refusal::SizeWrong`].
    pub fn produce(&mut self, now: SocketTime, max_size: usize) -> Result<Option<DataToSend<&[u8]>>, Refusal> {
        if self.fragment.len() < max_size.min(MAX_PAYLOAD) {
            self.fragment.resize(max_size.min(MAX_PAYLOAD), 0);
        }
        let mut buffer = std::mem::take(&mut self.fragment);
        let mut out = [0; OUT_WORDS];
        let answer = self.next(now, max_size as u64, &mut buffer, &mut out);
        self.fragment = buffer;
        Ok(answer?.then(|| fragment::told(&out, &self.fragment[..fragment::length(&out)])))
    }

    /// The next fragment, of at most the buffer's length, or `None` if nothing waits. Messages whose time is over are dropped on the way.
    ///
    /// The fragment's bytes are written to the buffer's start and lent from there; the rest of the buffer stays as it was. It takes as much
    /// stack as [`produce`](SendQueue::produce).
    ///
    /// # Errors
    ///
    /// [`Refusal::TimeLate`], [`Refusal::SizeWrong`] (a buffer outside 1 to 262,144 bytes).
    #[inline]
    pub fn produce_into<'a>(
        &mut self,
        now: SocketTime,
        buffer: &'a mut [u8],
    ) -> Result<Option<DataToSend<&'a [u8]>>, Refusal> {
        let size = buffer.len() as u64;
        let mut out = [0; OUT_WORDS];
        let waited = self.next(now, size, buffer, &mut out)?;
        Ok(waited.then(|| fragment::told(&out, &buffer[..fragment::length(&out)])))
    }

    /// Whether there is a next fragment; its bytes are put into the buffer, and what the call tells of it into `out`, which is read in place:
    /// a copy would wait for the words that the call has just written.
    #[inline]
    fn next(&mut self, now: SocketTime, size: u64, buffer: &mut [u8], out: &mut Out) -> Result<bool, Refusal> {
        let number = self.queue.produce(&mut self.events, buffer, out, now.0, size);
        self.reported(out);
        Refusal::judge(number)?;
        Ok(out[0] != 0)
    }

    /// Drops the stream's first message if it is the one with this id.
    pub fn discard(&mut self, stream_id: StreamId, message_id: OutgoingMessageId) {
        let mut out = [0; OUT_WORDS];
        let number = self.queue.discard(&mut self.events, &mut out, stream_id.0, message_id.0);
        self.reported(&out);
        debug_assert!(number == 0, "the queue's list has its length, so that nothing refuses the call");
    }

    /// What the last call reported, in order. The next call, whichever it is, replaces it; a call that was refused has reported nothing. Asking
    /// and saving do not count as calls. (A fragment lent by [`produce`](SendQueue::produce) must be let go of first.)
    #[must_use]
    pub fn events(&self) -> Events<'_> {
        Events::new(&self.events[..PLACE_WORDS * self.event_count])
    }

    /// Keeps the number of events that a call wrote; a refused one leaves its place at 0.
    #[inline]
    pub(crate) fn reported(&mut self, out: &Out) {
        self.event_count = out[1] as usize;
    }
}

impl fmt::Debug for SendQueue {
    fn fmt(&self, f: &mut fmt::Formatter<'_>) -> fmt::Result {
        f.debug_struct("SendQueue")
            .field("store", &self.queue.store_length())
            .field("total_buffered_amount", &self.total_buffered_amount())
            .finish_non_exhaustive()
    }
}
