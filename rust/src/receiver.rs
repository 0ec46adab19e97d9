//! The receiving head: chunks in, messages out.

use crate::chunk::ChunkKind;
use crate::ffi;
use crate::ffi::ReceiverWords;
use crate::ids::PpId;
use crate::ids::StreamId;
use crate::ids::StreamKey;
use crate::ids::Tsn;
use crate::limits::MAX_STORE;
use crate::limits::RECEIVER_LAYOUT;
use crate::limits::RECEIVER_OUT_WORDS;
use crate::limits::RECEIVER_WORDS;
use crate::queue::zeros;
use crate::refusal::Refusal;
use std::fmt;

/// The receiving head: DATA or I-DATA chunks go in, in any order and with repeats; the messages that they carry come out.
///
/// Proved of the library's calls: where all fragments of a new [`SendQueue`](crate::SendQueue), fewer than 2^31 of them, are written as chunks
/// with consecutive TSNs from the starting TSN on, and every message was sent whole, without a drop, reset, closing or restoring (for DATA
/// without interleaving), then, received in any order with repeats and none refused, each message is fetched exactly once, and the ordered
/// ones of a stream come in the order in which they were added.
///
/// An ordered message waits until it is next in its stream, by SSN (DATA) or MID (I-DATA) from 0. So after a stream's reset, from which on
/// its sender counts from 0 again, a new receiver is needed.
///
/// A clone is a second receiver with the same fragments: both hand out the same messages.
#[derive(Clone)]
pub struct Receiver {
    words: Box<ReceiverWords>,
    store: Box<[u8]>,
}

/// What became of a chunk that was not refused.
#[derive(Clone, Copy, Debug, Eq, Hash, PartialEq)]
#[must_use]
pub enum Received {
    /// Its fragment is held.
    Accepted,
    /// It had been received before: nothing has changed.
    Repeat,
}

/// A message that was fetched. The payload is borrowed from the buffer that it was fetched into.
#[derive(Clone, Copy, Debug, Eq, Hash, PartialEq)]
pub struct Delivery<'a> {
    /// Its stream, ordered or unordered.
    pub stream_key: StreamKey,
    /// Its first fragment's payload protocol identifier.
    pub ppid: PpId,
    /// Its bytes.
    pub payload: &'a [u8],
}

impl Receiver {
    /// A new receiver for chunks of this kind; its first TSN is `starting_tsn`. The payloads of all fragments that it holds are in a store of
    /// `store_length` bytes.
    ///
    /// # Errors
    ///
    /// [`Refusal::StoreWrong`].
    ///
    /// # Panics
    ///
    /// Where the linked library tells another layout than the one that its symbols name; none that `rt` has made does.
    pub fn new(kind: ChunkKind, starting_tsn: Tsn, store_length: usize) -> Result<Self, Refusal> {
        let layouts = ffi::receiver_layouts();
        assert!(
            layouts == [RECEIVER_LAYOUT; 2],
            "the proved receiver tells layouts {layouts:?}, this crate is written for {RECEIVER_LAYOUT}"
        );
        let mut receiver = Self {
            words: zeros::<RECEIVER_WORDS>(),
            // A longer store than any receiver takes need not be had for it to be refused.
            store: vec![0; store_length.min(MAX_STORE + 1)].into_boxed_slice(),
        };
        Refusal::judge(ffi::create_receiver(&mut receiver.words, &receiver.store, kind, starting_tsn))?;
        Ok(receiver)
    }

    /// Takes the chunk that the bytes are, with its padding, and nothing behind it. A refused chunk may be received again later: when
    /// messages were fetched there is room, and when a gap was closed a TSN is no longer far.
    ///
    /// # Errors
    ///
    /// In this order: [`Refusal::ChunkWrong`], [`Refusal::FragmentOther`]; and, where it is no repeat, [`Refusal::TsnFar`],
    /// [`Refusal::ReceiverFull`].
    #[inline]
    pub fn receive(&mut self, chunk: &[u8]) -> Result<Received, Refusal> {
        let mut out = [0; RECEIVER_OUT_WORDS];
        Refusal::judge(ffi::receive(&mut self.words, &mut self.store, chunk, &mut out))?;
        Ok(if out[0] == 0 { Received::Repeat } else { Received::Accepted })
    }

    /// Copies the message that is ready first to the buffer's start and frees it; `None` if none is ready. The rest of the buffer stays as it
    /// was. Unordered messages are ready when complete, ordered ones when also next in their stream; one chunk may make several ready.
    ///
    /// No message is longer than the store.
    ///
    /// # Errors
    ///
    /// [`Refusal::BufferShort`]: the message stays, to be fetched with a longer buffer.
    #[inline]
    pub fn fetch<'a>(&mut self, buffer: &'a mut [u8]) -> Result<Option<Delivery<'a>>, Refusal> {
        let mut out = [0; RECEIVER_OUT_WORDS];
        Refusal::judge(ffi::fetch(&mut self.words, &self.store, buffer, &mut out))?;
        let [value, length, stream_id, unordered, ppid] = out;
        Ok((value != 0).then(|| Delivery {
            stream_key: StreamKey::new(unordered != 0, StreamId(stream_id as u16)),
            ppid: PpId(ppid as u32),
            payload: &buffer[..length as usize],
        }))
    }
}

impl fmt::Debug for Receiver {
    fn fmt(&self, f: &mut fmt::Formatter<'_>) -> fmt::Result {
        f.debug_struct("Receiver").field("store", &self.store.len()).finish_non_exhaustive()
    }
}
