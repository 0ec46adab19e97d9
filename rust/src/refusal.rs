//! Why a call was refused.

use std::error::Error;
use std::fmt;

/// Why a call was refused. Of several reasons the one that is checked first is given. A refused call has changed nothing, and has reported no
/// event.
#[derive(Clone, Copy, Debug, Eq, Hash, PartialEq)]
#[non_exhaustive]
#[repr(u8)]
pub enum Refusal {
    /// The payload limit is outside 1 to 65,535.
    PayloadLimitWrong = 1,
    /// The store is outside 1 to 2,000,000 bytes.
    StoreWrong = 2,
    /// The event list has fewer than 2,305 places. (A [`SendQueue`](crate::SendQueue) has a list of its own, so it never gives this.)
    EventListShort = 3,
    /// A time or lifetime is above 4,611,686,018,427,387,903 nanoseconds.
    TimeLate = 4,
    /// The payload is empty or above 262,144 bytes.
    PayloadWrong = 5,
    /// The call would make a 257th known stream. A stream is known from its first message, priority, threshold or closing on, and stays known
    /// when it was closed and reset: a queue takes 256 different ids in its life. Saving, and restoring into a new queue, forgets those
    /// without a message whose counters are 0 and whose priority is the default one.
    StreamsFull = 6,
    /// The message would be the 1,025th waiting.
    MessagesFull = 7,
    /// The payload is longer than the free bytes.
    StoreFull = 8,
    /// The size asked for is outside 1 to 262,144.
    SizeWrong = 9,
    /// The buffer is shorter than the message that a [`Receiver`](crate::Receiver) has ready. (Of a queue, the fragment buffer is shorter than the
    /// size asked for; a [`SendQueue`](crate::SendQueue) takes the buffer's length for the size, so it never gives this.)
    BufferShort = 10,
    /// The image buffer is shorter than the image.
    ImageBufferShort = 11,
    /// Restoring into a queue that knows a stream, or whose next message id is not 0.
    QueueUsed = 12,
    /// The image breaks a rule of its form; or, restored by [`RestartRule::Strict`](crate::RestartRule::Strict), it has a MID on a message of
    /// which nothing was sent.
    ImageWrong = 13,
    /// The image's default priority is not the queue's.
    PriorityOther = 14,
    /// The image passes 256 streams, 1,024 messages or the store.
    ImageLarge = 15,
    /// The payload to write into a chunk is empty or above 65,515 bytes.
    ChunkPayloadWrong = 17,
    /// The output is shorter than the padded chunk.
    ChunkOutputShort = 18,
    /// The bytes read are not one DATA or I-DATA chunk with payload and padding, or not one of the receiver's kind.
    ChunkWrong = 19,
    /// The packet limit is outside 36 to 65,535.
    PacketLimitWrong = 20,
    /// The packet buffer is shorter than the packet limit.
    PacketBufferShort = 21,
    /// The TSN is more than 1,024 past the last one received without a gap.
    TsnFar = 22,
    /// The payload is longer than the receiver's free store, or it would be the 4,097th held fragment or from the 257th stream.
    ReceiverFull = 23,
    /// A fragment at a TSN that is held differs in payload or a field read.
    FragmentOther = 24,
    /// A reset request is wanted while one is underway.
    RequestUnderway = 25,
    /// The output is shorter than the reset request.
    RequestOutputShort = 26,
    /// The bytes received are not one RE-CONFIG chunk with a response.
    ResponseWrong = 27,
    /// The wanted order is empty, has more than 32 ids or names one twice, or a size is outside 1 to 262,144, or ids and sizes differ in
    /// count.
    OrderWrong = 28,
    /// No set of priorities works for the wanted order.
    OrderImpossible = 29,
}

impl Refusal {
    const ALL: [Self; 28] = [
        Self::PayloadLimitWrong,
        Self::StoreWrong,
        Self::EventListShort,
        Self::TimeLate,
        Self::PayloadWrong,
        Self::StreamsFull,
        Self::MessagesFull,
        Self::StoreFull,
        Self::SizeWrong,
        Self::BufferShort,
        Self::ImageBufferShort,
        Self::QueueUsed,
        Self::ImageWrong,
        Self::PriorityOther,
        Self::ImageLarge,
        Self::ChunkPayloadWrong,
        Self::ChunkOutputShort,
        Self::ChunkWrong,
        Self::PacketLimitWrong,
        Self::PacketBufferShort,
        Self::TsnFar,
        Self::ReceiverFull,
        Self::FragmentOther,
        Self::RequestUnderway,
        Self::RequestOutputShort,
        Self::ResponseWrong,
        Self::OrderWrong,
        Self::OrderImpossible,
    ];

    /// Its number, 1 to 29. No refusal has 16, which says that words are not a queue's: a [`SendQueue`](crate::SendQueue) and a
    /// [`Receiver`](crate::Receiver) own theirs, and it is proved that their calls never lead to it.
    #[must_use]
    pub fn number(self) -> u8 {
        self as u8
    }

    /// The refusal of this number.
    #[must_use]
    pub fn from_number(number: u8) -> Option<Self> {
        Self::ALL.into_iter().find(|refusal| refusal.number() == number)
    }

    /// What a call's number says: 0 is accepted.
    #[inline]
    pub(crate) fn judge(number: u32) -> Result<(), Self> {
        if number == 0 { Ok(()) } else { Err(Self::of(number)) }
    }

    /// The refusal that a call's number says.
    pub(crate) fn of(number: u32) -> Self {
        Self::from_number(number as u8).expect("a call's number is a refusal's, and not 16: that is proved")
    }
}

impl fmt::Display for Refusal {
    fn fmt(&self, f: &mut fmt::Formatter<'_>) -> fmt::Result {
        f.write_str(match self {
            Self::PayloadLimitWrong => "the payload limit is outside 1 to 65,535",
            Self::StoreWrong => {
                "the store is outside 1 to 2,000,000 bytes at creation, or not of its creation length later"
            }
            Self::EventListShort => "the event list has fewer than 2,305 places",
            Self::TimeLate => "a time or lifetime is above 4,611,686,018,427,387,903",
            Self::PayloadWrong => "the payload is empty or above 262,144 bytes",
            Self::StreamsFull => "the call would make a 257th known stream",
            Self::MessagesFull => "the message would be the 1,025th waiting",
            Self::StoreFull => "the payload is longer than the free bytes",
            Self::SizeWrong => "the size asked for is outside 1 to 262,144",
            Self::BufferShort => {
                "the fragment buffer is shorter than the size asked for; of a receiver: the buffer is shorter than the message"
            }
            Self::ImageBufferShort => "the image buffer is shorter than the image",
            Self::QueueUsed => "restoring finds a queue that knows a stream, or whose next message id is not 0",
            Self::ImageWrong => "the image breaks a rule",
            Self::PriorityOther => "the image's default priority is not the queue's",
            Self::ImageLarge => {
                "the image, with the streams that only messages name, passes 256 streams, 1,024 messages or the store"
            }
            Self::ChunkPayloadWrong => "the payload to write into a chunk is empty or above 65,515 bytes",
            Self::ChunkOutputShort => "the output is shorter than the padded chunk",
            Self::ChunkWrong => {
                "the bytes read are not one DATA or I-DATA chunk with payload and padding; of a receiver: the bytes are not one \
                 chunk of the receiver's kind with payload and padding"
            }
            Self::PacketLimitWrong => "the packet limit is outside 36 to 65,535",
            Self::PacketBufferShort => "the packet buffer is shorter than the packet limit",
            Self::TsnFar => "the TSN is more than 1,024 past the last one received without a gap",
            Self::ReceiverFull => {
                "the payload is longer than the free store, or it would be the 4,097th held fragment or from the 257th stream"
            }
            Self::FragmentOther => "a fragment at a TSN that is held differs in payload or a field read",
            Self::RequestUnderway => "a reset request is wanted while one is underway",
            Self::RequestOutputShort => "the output is shorter than the reset request",
            Self::ResponseWrong => "the bytes received are not one RE-CONFIG chunk with a response",
            Self::OrderWrong => {
                "the wanted order is empty, has more than 32 ids or names one twice, or a size is outside 1 to 262,144, or ids and \
                 sizes differ in count"
            }
            Self::OrderImpossible => "no set of priorities works for the wanted order",
        })
    }
}

impl Error for Refusal {}
