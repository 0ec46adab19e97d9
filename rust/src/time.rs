//! Times, as the host's clock gives them.

use std::ops::Add;
use std::ops::Sub;
use std::time::Duration;

/// A point in time: nanoseconds since a start of the host's choice, the same for all calls on a queue.
///
/// A queue takes times up to [`MAX_TIME`](crate::MAX_TIME), some 146 years; a later one is refused.
#[derive(Clone, Copy, Debug, Default, Eq, Hash, Ord, PartialEq, PartialOrd)]
pub struct SocketTime(pub u64);

impl SocketTime {
    /// The start.
    #[must_use]
    pub const fn zero() -> Self {
        Self(0)
    }

    /// Later than every time: never.
    #[must_use]
    pub const fn infinite_future() -> Self {
        Self(u64::MAX)
    }
}

/// A length of time in nanoseconds; one that 64 bits cannot hold becomes the longest.
pub(crate) fn nanoseconds(length: Duration) -> u64 {
    u64::try_from(length.as_nanos()).unwrap_or(u64::MAX)
}

impl Add<Duration> for SocketTime {
    type Output = Self;

    /// So much later; at most [`SocketTime::infinite_future`].
    fn add(self, length: Duration) -> Self {
        Self(self.0.saturating_add(nanoseconds(length)))
    }
}

impl Sub<Duration> for SocketTime {
    type Output = Self;

    /// So much earlier; at least [`SocketTime::zero`].
    fn sub(self, length: Duration) -> Self {
        Self(self.0.saturating_sub(nanoseconds(length)))
    }
}

impl Sub<SocketTime> for SocketTime {
    type Output = Duration;

    /// The time from the other to this one; zero if this is the earlier.
    fn sub(self, earlier: Self) -> Duration {
        Duration::from_nanos(self.0.saturating_sub(earlier.0))
    }
}
