//! The choices made at creation.

use crate::limits::MAX_STORE;

/// The choices made when a queue is created. The names are those of dcSCTP's options, and so are the defaults.
#[derive(Clone, Debug)]
pub struct Options {
    /// Bytes for waiting payloads, 1 to 2,000,000. A message takes its whole payload length until its last fragment is handed out or it is
    /// dropped.
    pub max_send_buffer_size: usize,
    /// The priority of a stream for which none was set.
    pub default_stream_priority: u16,
    /// The low threshold of a stream for which none was set.
    pub default_stream_buffered_amount_low_threshold: usize,
    /// The low threshold of all streams together.
    pub total_buffered_amount_low_threshold: usize,
    /// Whether a queue with waiting messages counts as ready for the changeover.
    pub enable_handover_with_outstanding_data: bool,
    /// What a half-sent message keeps when the peer restarts. dcSCTP has no such option.
    pub restart_rule: RestartRule,
}

/// How [`reset`](crate::SendQueue::reset) puts a half-sent message back. It is sent whole again under either rule.
#[derive(Clone, Copy, Debug, Default, Eq, Hash, PartialEq)]
#[repr(u8)]
pub enum RestartRule {
    /// As dcSCTP does: the message keeps its MID and SSN and counts its FSN on, whatever its stream counts from then on.
    #[default]
    Dcsctp = 0,
    /// As RFC 8260 has it: the message starts with FSN 0, and with a MID and SSN from its stream's counters, which are 0 then.
    ///
    /// [`restore`](crate::SendQueue::restore) then refuses an image with a MID on a message of which nothing was sent, as a queue of the
    /// other rule may leave it ([`Refusal::ImageWrong`](crate::Refusal::ImageWrong)).
    Strict = 1,
}

impl Default for Options {
    fn default() -> Self {
        Self {
            max_send_buffer_size: MAX_STORE,
            default_stream_priority: 256,
            default_stream_buffered_amount_low_threshold: 0,
            total_buffered_amount_low_threshold: 1_800_000,
            enable_handover_with_outstanding_data: false,
            restart_rule: RestartRule::default(),
        }
    }
}
