//! Ids and counters. Each is a type of its own, so that none can be taken for another.

use std::fmt;

macro_rules! shown_as_its_number {
    ($name:ident) => {
        impl fmt::Display for $name {
            fn fmt(&self, f: &mut fmt::Formatter<'_>) -> fmt::Result {
                fmt::Display::fmt(&self.0, f)
            }
        }

        impl fmt::Debug for $name {
            fn fmt(&self, f: &mut fmt::Formatter<'_>) -> fmt::Result {
                fmt::Display::fmt(&self.0, f)
            }
        }
    };
}

macro_rules! counter {
    ($name:ident, $width:ident, $doc:expr) => {
        #[doc = $doc]
        #[derive(Clone, Copy, Default, Eq, Hash, PartialEq)]
        pub struct $name(pub $width);

        impl $name {
            /// The counter so many steps on; it wraps at its width.
            #[must_use]
            pub fn add_to(self, steps: $width) -> Self {
                Self(self.0.wrapping_add(steps))
            }
        }

        shown_as_its_number!($name);
    };
}

counter!(Ssn, u16, "Stream sequence number.");
counter!(Mid, u32, "Message identifier (RFC 8260).");
counter!(Fsn, u32, "Fragment sequence number (RFC 8260).");
counter!(Tsn, u32, "Transmission sequence number, which the association gives a chunk.");
counter!(OutgoingMessageId, u32, "The queue's own number of a message: 0 for the first, then one more for each.");

/// Stream identifier.
#[derive(Clone, Copy, Default, Eq, Hash, Ord, PartialEq, PartialOrd)]
pub struct StreamId(pub u16);

/// Payload protocol identifier.
#[derive(Clone, Copy, Default, Eq, Hash, PartialEq)]
pub struct PpId(pub u32);

shown_as_its_number!(StreamId);
shown_as_its_number!(PpId);

/// A stream, and whether its messages are meant in order or not: the two count their messages separately.
#[derive(Clone, Copy, Debug, Eq, Hash, Ord, PartialEq, PartialOrd)]
pub enum StreamKey {
    /// The stream's ordered messages.
    Ordered(StreamId),
    /// The stream's unordered messages.
    Unordered(StreamId),
}

impl StreamKey {
    /// The key of a message on this stream.
    #[must_use]
    pub fn new(is_unordered: bool, id: StreamId) -> Self {
        if is_unordered { Self::Unordered(id) } else { Self::Ordered(id) }
    }

    /// The stream.
    #[must_use]
    pub fn id(&self) -> StreamId {
        match *self {
            Self::Ordered(id) | Self::Unordered(id) => id,
        }
    }

    /// Whether ordered messages are meant.
    #[must_use]
    pub fn is_ordered(&self) -> bool {
        matches!(self, Self::Ordered(_))
    }

    /// Whether unordered messages are meant.
    #[must_use]
    pub fn is_unordered(&self) -> bool {
        matches!(self, Self::Unordered(_))
    }
}
