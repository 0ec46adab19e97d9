//! A call, and its line in the format of the reference's trace tool.

use std::fmt;

#[derive(Clone, Debug)]
pub enum Call {
    New {
        limit: u64,
        store: usize,
        priority: u16,
        threshold: u64,
        total: u64,
        handover: bool,
    },
    Add(Adding),
    /// `into` the caller's buffer, or lent from the queue's.
    Produce {
        now: u64,
        size: u64,
        into: bool,
    },
    Discard {
        stream: u16,
        id: u32,
    },
    Close {
        stream: u16,
    },
    Ready,
    Commit,
    Rollback,
    Reset,
    Threshold {
        stream: u16,
        value: u64,
    },
    Priority {
        stream: u16,
        value: u16,
    },
    Interleave {
        on: bool,
    },
    Ask {
        stream: u16,
    },
    /// The image becomes the current one; `room` is the buffer's length, where one is lent.
    Save {
        now: u64,
        room: Option<usize>,
    },
    /// Changes of the current image.
    Put {
        place: usize,
        value: u8,
    },
    Cut {
        length: usize,
    },
    /// A queue created alike takes the place of the current one, and the current image is restored into it.
    Over {
        now: u64,
    },
    /// The current image is restored into the queue as it is.
    Restore {
        now: u64,
    },
}

#[derive(Clone, Debug)]
pub struct Adding {
    pub now: u64,
    pub stream: u16,
    pub ppid: u32,
    pub unordered: bool,
    pub lifetime: Option<u64>,
    pub retransmissions: Option<u16>,
    pub lifecycle: u64,
    pub length: usize,
    pub seed: u64,
}

impl fmt::Display for Call {
    fn fmt(&self, f: &mut fmt::Formatter<'_>) -> fmt::Result {
        let flag = u8::from;
        match self {
            Call::New { limit, store, priority, threshold, total, handover } => {
                write!(f, "n {limit} {store} {priority} {threshold} {total} {}", flag(*handover))
            }
            Call::Add(a) => write!(
                f,
                "a {} {} {} {} {} {} {} {} {} {} {}",
                a.now,
                a.stream,
                a.ppid,
                flag(a.unordered),
                flag(a.lifetime.is_some()),
                a.lifetime.unwrap_or(0),
                flag(a.retransmissions.is_some()),
                a.retransmissions.unwrap_or(0),
                a.lifecycle,
                a.length,
                a.seed
            ),
            Call::Produce { now, size, .. } => write!(f, "p {now} {size}"),
            Call::Discard { stream, id } => write!(f, "d {stream} {id}"),
            Call::Close { stream } => write!(f, "c {stream}"),
            Call::Ready => write!(f, "g"),
            Call::Commit => write!(f, "k"),
            Call::Rollback => write!(f, "b"),
            Call::Reset => write!(f, "r"),
            Call::Threshold { stream, value } => write!(f, "t {stream} {value}"),
            Call::Priority { stream, value } => write!(f, "y {stream} {value}"),
            Call::Interleave { on } => write!(f, "i {}", flag(*on)),
            Call::Ask { stream } => write!(f, "q {stream}"),
            Call::Save { now, .. } => write!(f, "s {now}"),
            Call::Put { place, value } => write!(f, "x {place} {value}"),
            Call::Cut { length } => write!(f, "l {length}"),
            Call::Over { now } => write!(f, "o {now}"),
            Call::Restore { now } => write!(f, "w {now}"),
        }
    }
}

/// What the questions answer of a stream, on either queue: both have the same methods, on types of their own.
macro_rules! questions {
    ($queue:expr, $stream:expr) => {{
        let (q, stream) = ($queue, $stream);
        [
            q.buffered_amount(stream) as u64,
            q.total_buffered_amount() as u64,
            u64::from(q.is_empty()),
            q.buffered_amount_low_threshold(stream) as u64,
            u64::from(q.get_priority(stream)),
            u64::from(q.has_streams_ready_to_be_reset()),
            u64::from(q.has_data_to_send()),
            u64::from(q.get_handover_readiness().0),
        ]
    }};
}
pub(crate) use questions;

/// What a call answers: 0 or the refusal; numbers; a fragment's or an image's bytes; events as kind and number (pair.rs judges amounts).
#[derive(Debug, Default, PartialEq)]
pub struct Answer {
    pub refusal: u8,
    pub numbers: Vec<u64>,
    pub bytes: Vec<u8>,
    pub events: Vec<(u8, u64)>,
}

impl Answer {
    pub fn refused(refusal: u8) -> Self {
        Answer { refusal, ..Answer::default() }
    }
}

impl Answer {
    /// The answer, and its bytes from the first one on that differs from the other's.
    pub fn beside(&self, other: &Answer) -> String {
        let at = self.bytes.iter().zip(&other.bytes).take_while(|(a, b)| a == b).count();
        let bytes: Vec<u8> = self.bytes.iter().skip(at).take(24).copied().collect();
        let events: String = self.events.iter().map(|e| format!(" ! {} {}", e.0, e.1)).collect();
        format!("{} {:?}, {} bytes, from {at} on {bytes:02x?}{events}", self.refusal, self.numbers, self.bytes.len())
    }
}
