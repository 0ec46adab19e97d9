//! The next fragment, with all that goes with it.

use crate::ffi::Out;
use crate::ids::Fsn;
use crate::ids::Mid;
use crate::ids::OutgoingMessageId;
use crate::ids::PpId;
use crate::ids::Ssn;
use crate::ids::StreamId;
use crate::ids::StreamKey;
use crate::message::LifecycleId;
use crate::time::SocketTime;

/// A fragment: what goes into a DATA or I-DATA chunk.
#[derive(Clone, Copy, Debug, Eq, PartialEq)]
pub struct Data<P = Vec<u8>> {
    /// Its stream, ordered or unordered.
    pub stream_key: StreamKey,
    /// The message's stream sequence number; 0 for an unordered one.
    pub ssn: Ssn,
    /// The message's identifier on its stream; ordered and unordered messages count separately.
    pub mid: Mid,
    /// The fragment's number in its message.
    pub fsn: Fsn,
    /// The message's payload protocol identifier.
    pub ppid: PpId,
    /// The fragment's bytes: lent (`&[u8]`), as [`produce`](crate::SendQueue::produce) gives them, or owned.
    pub payload: P,
    /// Whether it is the message's first.
    pub is_beginning: bool,
    /// Whether it is the message's last.
    pub is_end: bool,
}

/// A fragment and how it is to be sent.
#[derive(Clone, Copy, Debug, Eq, PartialEq)]
pub struct DataToSend<P = Vec<u8>> {
    /// The message that it was cut from.
    pub message_id: OutgoingMessageId,
    /// The fragment.
    pub data: Data<P>,
    /// How often it may be sent again; 65,535 where the message gave no limit.
    pub max_retransmissions: u16,
    /// When the message expires; [`SocketTime::infinite_future`] for never.
    pub expires_at: SocketTime,
    /// The message's lifecycle id; only the last fragment has it.
    pub lifecycle_id: Option<LifecycleId>,
}

impl Data<&[u8]> {
    /// The same with bytes of its own.
    #[must_use]
    pub fn into_owned(self) -> Data {
        let Self { stream_key, ssn, mid, fsn, ppid, payload, is_beginning, is_end } = self;
        Data { stream_key, ssn, mid, fsn, ppid, payload: payload.to_vec(), is_beginning, is_end }
    }
}

impl DataToSend<&[u8]> {
    /// The same with bytes of its own, to be kept past the next call, as for sending it again.
    #[must_use]
    pub fn into_owned(self) -> DataToSend {
        let Self { message_id, data, max_retransmissions, expires_at, lifecycle_id } = self;
        DataToSend { message_id, data: data.into_owned(), max_retransmissions, expires_at, lifecycle_id }
    }
}

/// The length of the fragment that a call told of.
#[inline]
pub(crate) fn length(out: &Out) -> usize {
    out[2] as usize
}

/// The fragment that a call told of, with these bytes.
#[inline]
pub(crate) fn told<'a>(out: &Out, payload: &'a [u8]) -> DataToSend<&'a [u8]> {
    let expires = out[13] != 0;
    DataToSend {
        message_id: OutgoingMessageId(out[3] as u32),
        data: Data {
            stream_key: StreamKey::new(out[5] != 0, StreamId(out[4] as u16)),
            ssn: Ssn(out[6] as u16),
            mid: Mid(out[7] as u32),
            fsn: Fsn(out[8] as u32),
            ppid: PpId(out[9] as u32),
            payload,
            is_beginning: out[10] != 0,
            is_end: out[11] != 0,
        },
        max_retransmissions: out[12] as u16,
        expires_at: if expires { SocketTime(out[14]) } else { SocketTime::infinite_future() },
        lifecycle_id: LifecycleId::new(out[15]),
    }
}
