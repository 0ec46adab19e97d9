//! What is given with a message.

use crate::ids::PpId;
use crate::ids::StreamId;
use std::fmt;
use std::num::NonZeroU64;
use std::time::Duration;

/// A number of the caller's choice that comes back in a message's events and with its last fragment. Never 0.
#[derive(Clone, Copy, Eq, Hash, Ord, PartialEq, PartialOrd)]
pub struct LifecycleId(NonZeroU64);

impl LifecycleId {
    /// The id of this number; 0 is none.
    pub fn new(number: u64) -> Option<Self> {
        NonZeroU64::new(number).map(Self)
    }

    /// The id of a number that is not 0.
    ///
    /// # Panics
    ///
    /// If it is 0.
    #[allow(clippy::should_implement_trait)]
    #[must_use]
    pub fn from(number: u64) -> Self {
        Self::new(number).expect("a lifecycle id is not 0")
    }

    /// Its number.
    #[must_use]
    pub fn value(&self) -> u64 {
        self.0.get()
    }
}

impl fmt::Display for LifecycleId {
    fn fmt(&self, f: &mut fmt::Formatter<'_>) -> fmt::Result {
        fmt::Display::fmt(&self.0, f)
    }
}

impl fmt::Debug for LifecycleId {
    fn fmt(&self, f: &mut fmt::Formatter<'_>) -> fmt::Result {
        fmt::Display::fmt(&self.0, f)
    }
}

/// A message to be sent. The queue copies the payload; the caller keeps its buffer.
#[derive(Clone, Copy, Debug)]
pub struct Message<'a> {
    /// The stream on which it goes.
    pub stream_id: StreamId,
    /// Its payload protocol identifier.
    pub ppid: PpId,
    /// Its bytes, 1 to 262,144 of them.
    pub payload: &'a [u8],
}

impl<'a> Message<'a> {
    /// A message.
    #[must_use]
    pub fn new(stream_id: StreamId, ppid: PpId, payload: &'a [u8]) -> Self {
        Self { stream_id, ppid, payload }
    }
}

/// How a message is to be sent.
#[derive(Clone, Debug, Default)]
pub struct SendOptions {
    /// Whether the receiver may hand it on out of order.
    pub unordered: bool,
    /// So long after it was added, and one millisecond more, it is dropped when its turn comes, half-sent or not.
    pub lifetime: Option<Duration>,
    /// How often a fragment may be sent again; told with each fragment, 65,535 where none is given.
    pub max_retransmissions: Option<u16>,
    /// The number under which its end is reported.
    pub lifecycle_id: Option<LifecycleId>,
}
