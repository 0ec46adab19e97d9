//! The questions: they change nothing.

use crate::ids::StreamId;
use crate::queue::SendQueue;
use crate::readiness::HandoverReadiness;

impl SendQueue {
    /// The bytes of this stream that are still to be sent.
    #[must_use]
    pub fn buffered_amount(&self, stream_id: StreamId) -> usize {
        self.queue.buffered_amount(stream_id.0) as usize
    }

    /// The bytes of all streams that are still to be sent.
    #[must_use]
    pub fn total_buffered_amount(&self) -> usize {
        self.queue.total_buffered_amount() as usize
    }

    /// The bytes of the store that are free: a longer payload is refused, with [`Refusal::StoreFull`](crate::Refusal::StoreFull) where no other
    /// refusal comes before it. A message occupies its full length
    /// until its last fragment is handed out or it is dropped.
    #[must_use]
    pub fn free_bytes(&self) -> usize {
        self.queue.free_bytes() as usize
    }

    /// The messages that wait, 1,024 at most.
    #[must_use]
    pub fn waiting_messages(&self) -> usize {
        self.queue.waiting_messages() as usize
    }

    /// The streams that are known, 256 at most. A stream stays known after it was closed and reset.
    #[must_use]
    pub fn known_streams(&self) -> usize {
        self.queue.known_streams() as usize
    }

    /// Whether no byte is to be sent.
    #[must_use]
    pub fn is_empty(&self) -> bool {
        self.queue.is_empty()
    }

    /// The amount at or below which this stream's backlog counts as low.
    #[must_use]
    pub fn buffered_amount_low_threshold(&self, stream_id: StreamId) -> usize {
        self.queue.buffered_amount_low_threshold(stream_id.0) as usize
    }

    /// The stream's priority: the one last set or restored, or else the default.
    #[must_use]
    pub fn get_priority(&self, stream_id: StreamId) -> u16 {
        self.queue.get_priority(stream_id.0)
    }

    /// Whether a stream waits to be sent from. (It may be that all that waits has expired.)
    #[must_use]
    pub fn has_data_to_send(&self) -> bool {
        self.queue.has_data_to_send()
    }

    /// Whether [`get_streams_ready_to_reset`](SendQueue::get_streams_ready_to_reset) would name a stream.
    #[must_use]
    pub fn has_streams_ready_to_be_reset(&self) -> bool {
        self.queue.has_streams_ready_to_be_reset()
    }

    /// How many streams [`get_streams_ready_to_reset`](SendQueue::get_streams_ready_to_reset) would name. They are not taken.
    #[must_use]
    pub fn count_streams_ready_to_reset(&self) -> usize {
        self.queue.count_streams_ready_to_reset() as usize
    }

    /// Whether the queue may be carried to another host.
    #[must_use]
    pub fn get_handover_readiness(&self) -> HandoverReadiness {
        HandoverReadiness(self.queue.get_handover_readiness() as u32)
    }
}
