//! Packets on the wire: one call fills a whole packet.

use crate::ids::Tsn;
use crate::limits::OUT_WORDS;
use crate::queue::SendQueue;
use crate::refusal::Refusal;
use crate::time::SocketTime;

/// A packet as it is asked for.
#[derive(Clone, Copy, Debug, Eq, Hash, PartialEq)]
pub struct Packet {
    /// The most bytes that it may have: 36 to 65,535.
    pub limit: usize,
    /// The sender's port, of the common header.
    pub source_port: u16,
    /// The receiver's.
    pub destination_port: u16,
    /// The verification tag, of the common header.
    pub verification_tag: u32,
    /// The TSN of the first chunk; each chunk behind it has the next one.
    pub tsn: Tsn,
}

/// A packet that was filled.
#[derive(Clone, Copy, Debug, Eq, Hash, PartialEq)]
pub struct Filled {
    /// Its bytes, from the buffer's start on: the common header and the chunks with their padding.
    pub bytes: usize,
    /// How many chunks it has, at least one.
    pub chunks: usize,
}

impl SendQueue {
    /// Fills a packet: the common header with checksum 0 (RFC 9653), then a chunk for each fragment, I-DATA while interleaving is on, else
    /// DATA, until the packet is full or nothing waits. `None` if nothing waits: then no packet is written and the buffer stays as it was.
    /// Messages whose time is over are dropped on the way; what happened to them is in [`events`](SendQueue::events) either way.
    ///
    /// Each chunk carries what one [`produce`](SendQueue::produce) at this time would give; its payload is copied once, from the queue to its
    /// place. The buffer behind the packet stays as it was.
    ///
    /// It takes at most 4 KB of stack (measured). A build with debug assertions calls the checked function, which takes 7 KB where it drops up
    /// to 17 messages, 37 KB up to 128 of them, and 253 KB to drop more in one call.
    ///
    /// # Errors
    ///
    /// [`Refusal::PacketLimitWrong`], [`Refusal::PacketBufferShort`], [`Refusal::TimeLate`].
    pub fn fill_packet(
        &mut self,
        now: SocketTime,
        buffer: &mut [u8],
        packet: &Packet,
    ) -> Result<Option<Filled>, Refusal> {
        let mut out = [0; OUT_WORDS];
        let number = self.queue.fill_packet(&mut self.events, buffer, &mut out, now.0, packet);
        self.reported(&out);
        Refusal::judge(number)?;
        let [chunks, _, bytes, ..] = out;
        Ok((chunks != 0).then_some(Filled { bytes: bytes as usize, chunks: chunks as usize }))
    }
}
