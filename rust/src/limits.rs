//! What a queue and a receiver take.

/// The largest payload limit; the smallest is 1.
pub const MAX_PAYLOAD_LIMIT: usize = 65_535;
/// The largest store in bytes, of a queue or a receiver; the smallest is 1.
pub const MAX_STORE: usize = 2_000_000;
/// The longest payload of a message, and the largest size that a fragment can be asked with; the smallest of both is 1.
pub const MAX_PAYLOAD: usize = 262_144;
/// A queue knows at most so many streams, and so does a receiver.
pub const MAX_STREAMS: usize = 256;
/// At most so many messages wait.
pub const MAX_MESSAGES: usize = 1_024;
/// The latest time, and the longest lifetime, in nanoseconds.
pub const MAX_TIME: u64 = 4_611_686_018_427_387_903;
/// The most streams that a wanted order names ([`plan_priorities`](crate::plan_priorities)).
pub const MAX_PLANNED: usize = 32;
/// The longest payload that is written into a chunk ([`write_chunk`](crate::write_chunk)).
pub const MAX_CHUNK_PAYLOAD: usize = 65_515;
/// The longest reset request, padding included ([`StreamResetHandler`](crate::StreamResetHandler)).
pub const MAX_RESET_REQUEST: usize = 20 + 2 * MAX_STREAMS;
/// The most fragments that a [`Receiver`](crate::Receiver) holds.
pub const MAX_FRAGMENTS: usize = 4_096;
/// How far a TSN may be past the last one that a [`Receiver`](crate::Receiver) has received without a gap.
pub const TSN_WINDOW: u32 = 1_024;

/// The layout of words, events and arguments that this crate is written for.
pub(crate) const LAYOUT: u64 = 5;
/// Words of a queue's state.
pub(crate) const QUEUE_WORDS: usize = 20_768;
/// No call reports more events.
pub(crate) const MAX_EVENTS: usize = 2_305;
/// Words of an event: kind, number and amount.
pub(crate) const PLACE_WORDS: usize = 3;
/// Words of the event list.
pub(crate) const EVENT_WORDS: usize = MAX_EVENTS * PLACE_WORDS;
/// Places of what a call tells beside its number.
pub(crate) const OUT_WORDS: usize = 16;
/// Places of what goes with a chunk read.
pub(crate) const CHUNK_WORDS: usize = 3;
/// Numbers of a stream reset handler.
pub(crate) const HANDLER_NUMBERS: usize = 3;
/// An image's bytes beside its payloads, at most: records of all streams and messages, and the trailer.
pub(crate) const MAX_IMAGE_RECORDS: usize = 14 * MAX_STREAMS + 44 * MAX_MESSAGES + 20;
/// The least packet limit.
pub const MIN_PACKET_LIMIT: usize = 36;
/// The greatest packet limit.
pub const MAX_PACKET_LIMIT: usize = 65_535;
/// The layout of words and arguments of a receiver that this crate is written for.
pub(crate) const RECEIVER_LAYOUT: u64 = 2;
/// Words of a receiver's state.
pub(crate) const RECEIVER_WORDS: usize = 83_472;
/// Places of what a receiver's call tells beside its number.
pub(crate) const RECEIVER_OUT_WORDS: usize = 5;
