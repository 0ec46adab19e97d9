//! The C functions of the proved queue and receiver, each behind a safe function. All unsafe code of the crate is here and in ffi/queue.rs; ffi/c.rs
//! declares the functions.
//!
//! Why the calls are safe. The C functions ask for pointers that are valid for the lengths given, that do not overlap where one is written,
//! and that are aligned. Here every pointer is made from a reference of a fixed or given length, which lives through the call; Rust's rules
//! for `&mut` say that it overlaps nothing. The fixed lengths are those of the library's source (tests/header.rs compares them), and the linked
//! library is of that source's layout (`SendQueue::new` and `Receiver::new` ask it). Words and bytes have no forbidden values. The library reads and writes
//! inside its buffers only (that is proved), keeps no pointer and has no state of its own. It never unwinds. With too little stack the process
//! ends at the guard page: large frames touch their pages in order.
//!
//! The calls on a queue, which ask for more, are in ffi/queue.rs.

use crate::chunk::ChunkKind;
use crate::fragment::Data;
use crate::ids::Tsn;
use crate::limits::CHUNK_WORDS;
use crate::limits::EVENT_WORDS;
use crate::limits::HANDLER_NUMBERS;
use crate::limits::MAX_PLANNED;
use crate::limits::MAX_STREAMS;
use crate::limits::OUT_WORDS;
use crate::limits::QUEUE_WORDS;
use crate::limits::RECEIVER_OUT_WORDS;
use crate::limits::RECEIVER_WORDS;
use std::mem::MaybeUninit;

/// A queue's state.
pub(crate) type Words = [u64; QUEUE_WORDS];
/// An event list.
pub(crate) type EventWords = [u64; EVENT_WORDS];
/// What a call tells: 0 its value, 1 the number of events, 2 to 15 what goes with a fragment.
pub(crate) type Out = [u64; OUT_WORDS];
/// Room for all ready ids.
pub(crate) type ReadyIds = [u16; MAX_STREAMS];
/// Room for the priorities of a wanted order.
pub(crate) type Priorities = [u16; MAX_PLANNED];
/// A stream reset handler: 0 its next request number, 1 whether a request is underway, 2 that one's number.
pub(crate) type HandlerNumbers = [u32; HANDLER_NUMBERS];
/// What goes with a chunk read: 0 its kind, 1 its TSN, 2 where its payload begins.
pub(crate) type ChunkWords = [u64; CHUNK_WORDS];
/// A receiver's state.
pub(crate) type ReceiverWords = [u64; RECEIVER_WORDS];
/// What a receiver's call tells: 0 its value, 1 to 4 a message's length, stream, order mark and protocol id.
pub(crate) type ReceiverOut = [u64; RECEIVER_OUT_WORDS];

mod c;
mod queue;

pub(crate) use queue::Given;
pub(crate) use queue::Queue;

/// The libraries' layout, told by functions that have it in their names, and by one that has not: with a library of another layout the program does
/// not link.
pub(crate) fn layouts() -> [u64; 4] {
    // SAFETY: they take nothing and give a number.
    unsafe { [c::dsq_layout_5(), c::dsq_owned_layout_5(), c::dsq_owned_packets_layout_5(), c::dsq_layout()] }
}

pub(crate) fn plan_priorities(ids: &[u16], sizes: &[u64], priorities: &mut Priorities, payload_limit: u64) -> u32 {
    // SAFETY: all three are references, the lists' lengths are their own; there is room for every list that is not refused.
    unsafe {
        c::dsq_plan_priorities(
            ids.as_ptr(),
            ids.len(),
            sizes.as_ptr(),
            sizes.len(),
            priorities.as_mut_ptr(),
            payload_limit,
        )
    }
}

/// The number, and how many bytes were written, 0 where it is a refusal's.
#[inline]
pub(crate) fn write_chunk<P: AsRef<[u8]>>(output: &mut [u8], kind: ChunkKind, tsn: Tsn, data: &Data<P>) -> (u32, u64) {
    let payload = data.payload.as_ref();
    // not cleared: of these words the call reads none, and it writes the first where it accepts
    let mut out = MaybeUninit::<Out>::uninit();
    // SAFETY: output and payload are references, the bytes' lengths are their own; the payload is only read. The out-array has its length.
    let number = unsafe {
        c::dsq_write_chunk(
            output.as_mut_ptr(),
            output.len(),
            payload.as_ptr(),
            payload.len(),
            out.as_mut_ptr().cast(),
            kind as u8,
            tsn.0,
            data.stream_key.id().0,
            data.stream_key.is_unordered().into(),
            data.ssn.0,
            data.mid.0,
            data.fsn.0,
            data.ppid.0,
            data.is_beginning.into(),
            data.is_end.into(),
        )
    };
    // SAFETY: the call has accepted, so it has written the first word.
    let written = if number == 0 { unsafe { out.as_ptr().cast::<u64>().read() } } else { 0 };
    (number, written)
}

#[inline]
pub(crate) fn read_chunk(bytes: &[u8], out: &mut Out, chunk: &mut ChunkWords) -> u32 {
    // SAFETY: all three are references, the bytes' length is their own and they are only read.
    unsafe { c::dsq_read_chunk(bytes.as_ptr(), bytes.len(), out.as_mut_ptr(), chunk.as_mut_ptr()) }
}

pub(crate) fn start_reset_handler(handler: &mut HandlerNumbers, number: u32) {
    // SAFETY: handler is a reference of its length.
    let number = unsafe { c::dsq_start_reset_handler(handler.as_mut_ptr(), number) };
    debug_assert!(number == 0, "starting is never refused");
}

/// The receiver's layout, told twice as the queue's is.
pub(crate) fn receiver_layouts() -> [u64; 2] {
    // SAFETY: they take nothing and give a number.
    unsafe { [c::dsr_layout_2(), c::dsr_layout()] }
}

pub(crate) fn create_receiver(receiver: &mut ReceiverWords, store: &[u8], kind: ChunkKind, starting_tsn: Tsn) -> u32 {
    // SAFETY: receiver and store are references, the store's length is its own.
    unsafe { c::dsr_create(receiver.as_mut_ptr(), store.as_ptr(), store.len(), kind as u8, starting_tsn.0) }
}

#[inline]
pub(crate) fn receive(receiver: &mut ReceiverWords, store: &mut [u8], bytes: &[u8], out: &mut ReceiverOut) -> u32 {
    // SAFETY: all four are references, the lengths are their own; the bytes overlap nothing, since the others are `&mut`.
    unsafe {
        c::dsr_receive(
            receiver.as_mut_ptr(),
            store.as_mut_ptr(),
            store.len(),
            bytes.as_ptr(),
            bytes.len(),
            out.as_mut_ptr(),
        )
    }
}

#[inline]
pub(crate) fn fetch(receiver: &mut ReceiverWords, store: &[u8], buffer: &mut [u8], out: &mut ReceiverOut) -> u32 {
    // SAFETY: all four are references, the lengths are their own; the store is only read.
    unsafe {
        c::dsr_fetch(
            receiver.as_mut_ptr(),
            store.as_ptr(),
            store.len(),
            buffer.as_mut_ptr(),
            buffer.len(),
            out.as_mut_ptr(),
        )
    }
}
