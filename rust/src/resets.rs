//! Reset requests to the peer (RFC 6525).

use crate::ffi;
use crate::ffi::HandlerNumbers;
use crate::ids::Tsn;
use crate::limits::HANDLER_NUMBERS;
use crate::limits::OUT_WORDS;
use crate::queue::SendQueue;
use crate::refusal::Refusal;

/// Makes the reset requests of a queue, as RE-CONFIG chunks, and takes the peer's responses.
///
/// Start it on a new or restored queue. From then on, with
/// [`get_streams_ready_to_reset`](SendQueue::get_streams_ready_to_reset), [`commit_reset_streams`](SendQueue::commit_reset_streams),
/// [`rollback_reset_streams`](SendQueue::rollback_reset_streams) and [`reset`](SendQueue::reset) called only by it, exactly the streams of
/// the request underway are being reset, none without one.
///
/// It is not `Clone`: a copy that has a request underway would take its response a second time.
#[derive(Debug)]
pub struct StreamResetHandler {
    numbers: HandlerNumbers,
}

/// What a response led to.
#[derive(Clone, Copy, Debug, Eq, Hash, PartialEq)]
pub enum ResponseOutcome {
    /// It answers another request, or none is underway: nothing has changed.
    Ignored,
    /// The peer has reset the streams: they are open and count from 0.
    Committed,
    /// The peer has not: they are open and count on.
    RolledBack,
    /// The peer is at it: the request goes on waiting.
    StillWaiting,
}

impl StreamResetHandler {
    /// Without a request underway. The first request gets this number, each later one the next, modulo 2^32.
    #[must_use]
    pub fn new(first_number: u32) -> Self {
        let mut numbers = [0; HANDLER_NUMBERS];
        ffi::start_reset_handler(&mut numbers, first_number);
        StreamResetHandler { numbers }
    }

    /// The number that the next request gets.
    #[must_use]
    pub fn next_number(&self) -> u32 {
        self.numbers[0]
    }

    /// The number of the request underway.
    #[must_use]
    pub fn request_underway(&self) -> Option<u32> {
        (self.numbers[1] != 0).then_some(self.numbers[2])
    }

    /// Writes a request for all streams that are ready to be reset to the output's start, with its padding, and answers how many bytes it
    /// wrote: at most [`MAX_RESET_REQUEST`](crate::MAX_RESET_REQUEST). The request names the streams in ascending order; they are being
    /// reset from then on. With no stream ready nothing is written, and it answers `None`.
    ///
    /// # Errors
    ///
    /// [`Refusal::RequestUnderway`], [`Refusal::RequestOutputShort`].
    pub fn make_stream_reset_request(
        &mut self,
        queue: &mut SendQueue,
        output: &mut [u8],
        response_number: u32,
        last_tsn: Tsn,
    ) -> Result<Option<usize>, Refusal> {
        queue.event_count = 0;
        let mut out = [0; OUT_WORDS];
        let number = queue.queue.make_reset_request(&mut self.numbers, output, &mut out, response_number, last_tsn.0);
        Refusal::judge(number)?;
        Ok((out[0] != 0).then_some(out[0] as usize))
    }

    /// Takes the RE-CONFIG chunk that the bytes are, with the peer's response.
    ///
    /// # Errors
    ///
    /// [`Refusal::ResponseWrong`].
    pub fn handle_response(&mut self, queue: &mut SendQueue, bytes: &[u8]) -> Result<ResponseOutcome, Refusal> {
        queue.event_count = 0;
        let mut out = [0; OUT_WORDS];
        Refusal::judge(queue.queue.handle_reset_response(&mut self.numbers, bytes, &mut out))?;
        Ok(match out[0] {
            0 => ResponseOutcome::Ignored,
            1 => ResponseOutcome::Committed,
            2 => ResponseOutcome::RolledBack,
            _ => ResponseOutcome::StillWaiting,
        })
    }

    /// The peer has restarted: [`SendQueue::reset`], which ends the request underway. The numbers go on.
    pub fn reset(&mut self, queue: &mut SendQueue) {
        queue.event_count = 0;
        queue.queue.reset_through_handler(&mut self.numbers);
    }
}
