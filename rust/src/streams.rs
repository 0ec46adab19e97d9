//! Closing and restarting streams, and their settings.

use crate::ids::StreamId;
use crate::limits::MAX_STREAMS;
use crate::limits::OUT_WORDS;
use crate::queue::SendQueue;
use crate::refusal::Refusal;

impl SendQueue {
    /// Closes a stream, so that it can be reset: its waiting messages are dropped, but for one that is half-sent, which is sent to its end.
    ///
    /// # Errors
    ///
    /// [`Refusal::StreamsFull`].
    pub fn prepare_reset_stream(&mut self, stream_id: StreamId) -> Result<(), Refusal> {
        let mut out = [0; OUT_WORDS];
        let number = self.queue.prepare_reset_stream(&mut self.events, &mut out, stream_id.0);
        self.reported(&out);
        Refusal::judge(number)
    }

    /// The closed streams that have nothing half-sent, in ascending order. From now on they count as being reset, until
    /// [`commit_reset_streams`](SendQueue::commit_reset_streams) or [`rollback_reset_streams`](SendQueue::rollback_reset_streams).
    pub fn get_streams_ready_to_reset(&mut self) -> Vec<StreamId> {
        self.event_count = 0;
        let mut ids = [0; MAX_STREAMS];
        let count = self.queue.get_streams_ready_to_reset(&mut ids);
        ids.into_iter().take(count).map(StreamId).collect()
    }

    /// The peer has accepted the reset: the streams being reset count from 0 again and are open.
    pub fn commit_reset_streams(&mut self) {
        self.event_count = 0;
        self.queue.commit_reset_streams();
    }

    /// The peer has not accepted the reset: the streams being reset are open again, and count on.
    pub fn rollback_reset_streams(&mut self) {
        self.event_count = 0;
        self.queue.rollback_reset_streams();
    }

    /// The peer has restarted: all streams are open and count from 0, and a half-sent message is sent whole again, with the numbers that
    /// it had or with new ones ([`RestartRule`](crate::RestartRule)).
    pub fn reset(&mut self) {
        self.event_count = 0;
        self.queue.reset();
    }

    /// Sets the amount at or below which a stream's backlog counts as low.
    ///
    /// # Errors
    ///
    /// [`Refusal::StreamsFull`].
    pub fn set_buffered_amount_low_threshold(&mut self, stream_id: StreamId, threshold: usize) -> Result<(), Refusal> {
        let mut out = [0; OUT_WORDS];
        let number =
            self.queue.set_buffered_amount_low_threshold(&mut self.events, &mut out, stream_id.0, threshold as u64);
        self.reported(&out);
        Refusal::judge(number)
    }

    /// Sets a stream's priority, its weight when messages are interleaved. The scheduler reads it when the stream next begins to wait, and
    /// before that at a drop not made by closing, a reset, a commit, a rollback or a switch of interleaving.
    ///
    /// # Errors
    ///
    /// [`Refusal::StreamsFull`].
    pub fn set_priority(&mut self, stream_id: StreamId, priority: u16) -> Result<(), Refusal> {
        self.event_count = 0;
        Refusal::judge(self.queue.set_priority(stream_id.0, priority))
    }

    /// Chooses whether fragments of several messages may alternate (RFC 8260). Off at creation.
    pub fn enable_message_interleaving(&mut self, enable: bool) {
        self.event_count = 0;
        self.queue.enable_message_interleaving(enable);
    }
}
