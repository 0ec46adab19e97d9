//! Whether a queue may be carried to another host.

use std::fmt;

/// Whether a queue may be carried to another host, as bits; 0 for yes. The numbers are dcSCTP's.
#[derive(Clone, Copy, Default, Eq, PartialEq)]
pub struct HandoverReadiness(pub u32);

impl HandoverReadiness {
    /// Nothing stands against it.
    pub const READY: Self = Self(0);
    /// Messages wait, and the queue was created without handover with waiting messages.
    pub const SEND_QUEUE_NOT_EMPTY: Self = Self(2);

    /// Whether nothing stands against it.
    #[must_use]
    pub fn is_ready(&self) -> bool {
        *self == Self::READY
    }

    /// Whether this reason stands against it.
    #[must_use]
    pub fn contains(&self, reason: Self) -> bool {
        self.0 & reason.0 != 0
    }
}

/// The reasons by dcSCTP's names; nothing where it is ready.
impl fmt::Display for HandoverReadiness {
    fn fmt(&self, f: &mut fmt::Formatter<'_>) -> fmt::Result {
        f.write_str(if self.contains(Self::SEND_QUEUE_NOT_EMPTY) { "send_queue_not_empty" } else { "" })
    }
}

impl fmt::Debug for HandoverReadiness {
    fn fmt(&self, f: &mut fmt::Formatter<'_>) -> fmt::Result {
        fmt::Display::fmt(self, f)
    }
}
