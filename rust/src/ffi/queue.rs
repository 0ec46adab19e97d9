//! The words and the store of a queue, and the calls on them.
//!
//! Why the calls are safe. As in ffi.rs every pointer is made from a reference that lives through the call, with its own length. The owned
//! functions (`dsq_owned_..`) ask for more: that words and store are those of a queue, as creation, restoring and the calls leave it. A
//! [`Queue`] has such words and no others: they are private to this file, nothing in it lends them out, [`Queue::create`] is the one way to
//! have any, and from then on the library's calls alone change them. That creation and each call that is not refused leave words and store
//! such is proved, and a refused call changes nothing; a copy of both is as good as they are. So an owned function does not look whether the
//! words are a queue's, and has no answer 16.
//!
//! A debug build calls the checked function in place of the owned one, with the same arguments, and stops if it ever answers 16.

use super::EventWords;
use super::HandlerNumbers;
use super::Out;
use super::ReadyIds;
use super::Words;
use super::c;
use crate::limits::MAX_STREAMS;
use crate::limits::OUT_WORDS;
use crate::limits::QUEUE_WORDS;
use crate::options::Options;
use crate::packet::Packet;
use crate::queue::zeros;

/// Whether the checked function is called where there is an owned one.
const CHECKED: bool = cfg!(debug_assertions);

/// The refusal of words that are not a queue's.
const WORDS_BROKEN: u32 = 16;

/// The number of a checked function on a queue's own words.
fn unbroken(number: u32) -> u32 {
    debug_assert!(number != WORDS_BROKEN, "a queue that only its own calls have changed was found broken");
    number
}

/// The number of a checked function that is never refused on a queue's own words.
fn unrefused(number: u32) {
    debug_assert!(number == 0, "refusal {number} of a call that is proved never to be refused");
}

/// What a checked question tells in its out-array.
fn told(ask: impl FnOnce(*mut u64) -> u32) -> u64 {
    let mut out: Out = [0; OUT_WORDS];
    unrefused(ask(out.as_mut_ptr()));
    out[0]
}

/// The owned function, or the checked one with the same arguments.
macro_rules! either {
    ($owned:ident | $checked:ident ( $($argument:expr),* $(,)? )) => {
        if CHECKED { unbroken(c::$checked($($argument),*)) } else { c::$owned($($argument),*) }
    };
}

/// A queue's words and its store. See above for what holds of them.
#[derive(Clone)]
pub(crate) struct Queue {
    words: Box<Words>,
    store: Box<[u8]>,
}

/// What is given with a message, in the C functions' terms.
pub(crate) struct Given {
    pub time: u64,
    pub stream_id: u16,
    pub ppid: u32,
    pub unordered: bool,
    pub lifetime: Option<u64>,
    pub max_retransmissions: Option<u16>,
    pub lifecycle_id: u64,
}

impl Queue {
    /// A new queue with this store, or the refusal's number.
    pub(crate) fn create(store: Box<[u8]>, payload_limit: u64, options: &Options) -> Result<Self, u32> {
        let mut queue = Self { words: zeros::<QUEUE_WORDS>(), store };
        // SAFETY: words and store are references, the store's length is its own. Any words will do.
        let number = unsafe {
            c::dsq_create(
                queue.words.as_mut_ptr(),
                queue.store.as_ptr(),
                queue.store.len(),
                payload_limit,
                options.default_stream_priority,
                options.default_stream_buffered_amount_low_threshold as u64,
                options.total_buffered_amount_low_threshold as u64,
                u8::from(options.enable_handover_with_outstanding_data),
                options.restart_rule as u8,
            )
        };
        // words of a refused creation are dropped here
        if number == 0 { Ok(queue) } else { Err(number) }
    }

    pub(crate) fn store_length(&self) -> usize {
        self.store.len()
    }

    pub(crate) fn add(&mut self, payload: &[u8], given: &Given) -> u32 {
        // SAFETY: words, store and payload are references, the lengths are their own; the payload overlaps neither, since those are `&mut`.
        // Words and store are a queue's own.
        unsafe {
            either!(
                dsq_owned_add
                    | dsq_add(
                        self.words.as_mut_ptr(),
                        self.store.as_mut_ptr(),
                        self.store.len(),
                        payload.as_ptr(),
                        payload.len(),
                        given.time,
                        given.stream_id,
                        given.ppid,
                        u8::from(given.unordered),
                        u8::from(given.lifetime.is_some()),
                        given.lifetime.unwrap_or(0),
                        u8::from(given.max_retransmissions.is_some()),
                        given.max_retransmissions.unwrap_or(0),
                        given.lifecycle_id,
                    )
            )
        }
    }

    #[inline]
    pub(crate) fn produce(
        &mut self,
        events: &mut EventWords,
        buffer: &mut [u8],
        out: &mut Out,
        time: u64,
        size: u64,
    ) -> u32 {
        // SAFETY: all five are references, the lengths are their own. Words and store are a queue's own.
        unsafe {
            either!(
                dsq_owned_produce
                    | dsq_produce(
                        self.words.as_mut_ptr(),
                        self.store.as_ptr(),
                        self.store.len(),
                        events.as_mut_ptr(),
                        events.len(),
                        buffer.as_mut_ptr(),
                        buffer.len(),
                        out.as_mut_ptr(),
                        time,
                        size,
                    )
            )
        }
    }

    pub(crate) fn fill_packet(
        &mut self,
        events: &mut EventWords,
        buffer: &mut [u8],
        out: &mut Out,
        time: u64,
        packet: &Packet,
    ) -> u32 {
        // SAFETY: all five are references, the lengths are their own. Words and store are a queue's own.
        unsafe {
            either!(
                dsq_owned_fill_packet
                    | dsq_fill_packet(
                        self.words.as_mut_ptr(),
                        self.store.as_ptr(),
                        self.store.len(),
                        events.as_mut_ptr(),
                        events.len(),
                        buffer.as_mut_ptr(),
                        buffer.len(),
                        out.as_mut_ptr(),
                        time,
                        packet.limit as u64,
                        packet.source_port,
                        packet.destination_port,
                        packet.verification_tag,
                        packet.tsn.0,
                    )
            )
        }
    }

    pub(crate) fn discard(&mut self, events: &mut EventWords, out: &mut Out, stream_id: u16, message_id: u32) -> u32 {
        // SAFETY: all three are references, the list's length is its own. The words are a queue's own.
        unsafe {
            either!(
                dsq_owned_discard
                    | dsq_discard(
                        self.words.as_mut_ptr(),
                        events.as_mut_ptr(),
                        events.len(),
                        out.as_mut_ptr(),
                        stream_id,
                        message_id,
                    )
            )
        }
    }

    pub(crate) fn prepare_reset_stream(&mut self, events: &mut EventWords, out: &mut Out, stream_id: u16) -> u32 {
        // SAFETY: all three are references, the list's length is its own. The words are a queue's own.
        unsafe {
            either!(
                dsq_owned_prepare_reset_stream
                    | dsq_prepare_reset_stream(
                        self.words.as_mut_ptr(),
                        events.as_mut_ptr(),
                        events.len(),
                        out.as_mut_ptr(),
                        stream_id,
                    )
            )
        }
    }

    pub(crate) fn set_buffered_amount_low_threshold(
        &mut self,
        events: &mut EventWords,
        out: &mut Out,
        stream_id: u16,
        threshold: u64,
    ) -> u32 {
        // SAFETY: all three are references, the list's length is its own. The words are a queue's own.
        unsafe {
            either!(
                dsq_owned_set_buffered_amount_low_threshold
                    | dsq_set_buffered_amount_low_threshold(
                        self.words.as_mut_ptr(),
                        events.as_mut_ptr(),
                        events.len(),
                        out.as_mut_ptr(),
                        stream_id,
                        threshold,
                    )
            )
        }
    }

    pub(crate) fn set_priority(&mut self, stream_id: u16, priority: u16) -> u32 {
        // SAFETY: the words are a reference, and a queue's own.
        unsafe { either!(dsq_owned_set_priority | dsq_set_priority(self.words.as_mut_ptr(), stream_id, priority)) }
    }

    pub(crate) fn enable_message_interleaving(&mut self, enabled: bool) {
        let (words, enabled) = (self.words.as_mut_ptr(), u8::from(enabled));
        // SAFETY: the words are a reference, and a queue's own.
        unsafe {
            if CHECKED {
                unrefused(c::dsq_enable_message_interleaving(words, enabled));
            } else {
                c::dsq_owned_enable_message_interleaving(words, enabled);
            }
        }
    }

    /// The ready ids stand at the list's start; how many.
    pub(crate) fn get_streams_ready_to_reset(&mut self, ids: &mut ReadyIds) -> usize {
        let (words, ids) = (self.words.as_mut_ptr(), ids.as_mut_ptr());
        // SAFETY: both are references, and the ids have room for every stream that a queue can know. The words are a queue's own.
        let count = unsafe {
            if CHECKED {
                told(|out| c::dsq_get_streams_ready_to_reset(words, ids, out))
            } else {
                c::dsq_owned_get_streams_ready_to_reset(words, ids)
            }
        };
        (count as usize).min(MAX_STREAMS)
    }

    pub(crate) fn commit_reset_streams(&mut self) {
        let words = self.words.as_mut_ptr();
        // SAFETY: the words are a reference, and a queue's own.
        unsafe {
            if CHECKED {
                unrefused(c::dsq_commit_reset_streams(words));
            } else {
                c::dsq_owned_commit_reset_streams(words);
            }
        }
    }

    pub(crate) fn rollback_reset_streams(&mut self) {
        let words = self.words.as_mut_ptr();
        // SAFETY: the words are a reference, and a queue's own.
        unsafe {
            if CHECKED {
                unrefused(c::dsq_rollback_reset_streams(words));
            } else {
                c::dsq_owned_rollback_reset_streams(words);
            }
        }
    }

    pub(crate) fn reset(&mut self) {
        let words = self.words.as_mut_ptr();
        // SAFETY: the words are a reference, and a queue's own.
        unsafe {
            if CHECKED {
                unrefused(c::dsq_reset(words));
            } else {
                c::dsq_owned_reset(words);
            }
        }
    }

    pub(crate) fn make_reset_request(
        &mut self,
        handler: &mut HandlerNumbers,
        output: &mut [u8],
        out: &mut Out,
        response_number: u32,
        last_tsn: u32,
    ) -> u32 {
        // SAFETY: all four are references, the output's length is its own. The words are a queue's own.
        unsafe {
            either!(
                dsq_owned_make_reset_request
                    | dsq_make_reset_request(
                        self.words.as_mut_ptr(),
                        handler.as_mut_ptr(),
                        output.as_mut_ptr(),
                        output.len(),
                        out.as_mut_ptr(),
                        response_number,
                        last_tsn,
                    )
            )
        }
    }

    pub(crate) fn handle_reset_response(&mut self, handler: &mut HandlerNumbers, bytes: &[u8], out: &mut Out) -> u32 {
        // SAFETY: all four are references, the bytes' length is their own and they are only read. The words are a queue's own.
        unsafe {
            either!(
                dsq_owned_handle_reset_response
                    | dsq_handle_reset_response(
                        self.words.as_mut_ptr(),
                        handler.as_mut_ptr(),
                        bytes.as_ptr(),
                        bytes.len(),
                        out.as_mut_ptr(),
                    )
            )
        }
    }

    pub(crate) fn reset_through_handler(&mut self, handler: &mut HandlerNumbers) {
        let (words, handler) = (self.words.as_mut_ptr(), handler.as_mut_ptr());
        // SAFETY: both are references. The words are a queue's own.
        unsafe {
            if CHECKED {
                unrefused(c::dsq_reset_through_handler(words, handler));
            } else {
                c::dsq_owned_reset_through_handler(words, handler);
            }
        }
    }

    pub(crate) fn get_priority(&self, stream_id: u16) -> u16 {
        let words = self.words.as_ptr();
        // SAFETY: the words are a reference, which is only read, and a queue's own.
        unsafe {
            if CHECKED {
                told(|out| c::dsq_get_priority(words, out, stream_id)) as u16
            } else {
                c::dsq_owned_get_priority(words, stream_id)
            }
        }
    }

    pub(crate) fn buffered_amount(&self, stream_id: u16) -> u64 {
        let words = self.words.as_ptr();
        // SAFETY: the words are a reference, which is only read, and a queue's own.
        unsafe {
            if CHECKED {
                told(|out| c::dsq_buffered_amount(words, out, stream_id))
            } else {
                c::dsq_owned_buffered_amount(words, stream_id)
            }
        }
    }

    pub(crate) fn buffered_amount_low_threshold(&self, stream_id: u16) -> u64 {
        let words = self.words.as_ptr();
        // SAFETY: the words are a reference, which is only read, and a queue's own.
        unsafe {
            if CHECKED {
                told(|out| c::dsq_buffered_amount_low_threshold(words, out, stream_id))
            } else {
                c::dsq_owned_buffered_amount_low_threshold(words, stream_id)
            }
        }
    }

    pub(crate) fn has_data_to_send(&self) -> bool {
        let words = self.words.as_ptr();
        // SAFETY: the words are a reference, which is only read, and a queue's own.
        unsafe {
            if CHECKED {
                told(|out| c::dsq_has_data_to_send(words, out)) != 0
            } else {
                c::dsq_owned_has_data_to_send(words) != 0
            }
        }
    }

    pub(crate) fn has_streams_ready_to_be_reset(&self) -> bool {
        let words = self.words.as_ptr();
        // SAFETY: the words are a reference, which is only read, and a queue's own.
        unsafe {
            if CHECKED {
                told(|out| c::dsq_has_streams_ready_to_be_reset(words, out)) != 0
            } else {
                c::dsq_owned_has_streams_ready_to_be_reset(words) != 0
            }
        }
    }

    pub(crate) fn count_streams_ready_to_reset(&self) -> u64 {
        let words = self.words.as_ptr();
        // SAFETY: the words are a reference, which is only read, and a queue's own.
        unsafe {
            if CHECKED {
                told(|out| c::dsq_count_streams_ready_to_reset(words, out))
            } else {
                c::dsq_owned_count_streams_ready_to_reset(words)
            }
        }
    }

    pub(crate) fn total_buffered_amount(&self) -> u64 {
        // SAFETY: the words are a reference, which is only read.
        unsafe { c::dsq_total_buffered_amount(self.words.as_ptr()) }
    }

    pub(crate) fn is_empty(&self) -> bool {
        // SAFETY: the words are a reference, which is only read.
        unsafe { c::dsq_is_empty(self.words.as_ptr()) != 0 }
    }

    pub(crate) fn free_bytes(&self) -> u64 {
        // SAFETY: the words are a reference; a question reads them only.
        unsafe { c::dsq_free_bytes(self.words.as_ptr()) }
    }

    pub(crate) fn waiting_messages(&self) -> u64 {
        // SAFETY: the words are a reference; a question reads them only.
        unsafe { c::dsq_waiting_messages(self.words.as_ptr()) }
    }

    pub(crate) fn known_streams(&self) -> u64 {
        // SAFETY: the words are a reference; a question reads them only.
        unsafe { c::dsq_known_streams(self.words.as_ptr()) }
    }

    pub(crate) fn get_handover_readiness(&self) -> u64 {
        // SAFETY: the words are a reference, which is only read.
        unsafe { c::dsq_get_handover_readiness(self.words.as_ptr()) }
    }

    pub(crate) fn save(&self, image: &mut [u8], out: &mut Out, time: u64) -> u32 {
        // SAFETY: all four are references, the lengths are their own; saving reads words and store only. They are a queue's own.
        unsafe {
            either!(
                dsq_owned_save
                    | dsq_save(
                        self.words.as_ptr(),
                        self.store.as_ptr(),
                        self.store.len(),
                        image.as_mut_ptr(),
                        image.len(),
                        out.as_mut_ptr(),
                        time,
                    )
            )
        }
    }

    pub(crate) fn restore(&mut self, image: &[u8], time: u64) -> u32 {
        // SAFETY: all three are references, the lengths are their own; the image overlaps neither, since those are `&mut`. Accepted, it leaves
        // the words and the store of a queue; refused, those that there were.
        unsafe {
            c::dsq_restore(
                self.words.as_mut_ptr(),
                self.store.as_mut_ptr(),
                self.store.len(),
                image.as_ptr(),
                image.len(),
                time,
            )
        }
    }
}
