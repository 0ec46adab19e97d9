//! The link to the heads: it loses packets, brings some twice and lets them overtake each other. At its other end is the receiving head.

use crate::Outcome;
use crate::capture::Capture;
use crate::capture::Side;
use crate::profiles::LONGEST;
use desqariy::ChunkKind;
use desqariy::Delivery;
use desqariy::MAX_STORE;
use desqariy::Received;
use desqariy::Receiver;
use desqariy::SocketTime;
use desqariy::StreamId;
use desqariy::Tsn;

/// Both ports and the verification tag of the common header, and its length.
pub const PORT: u16 = 5_000;
pub const TAG: u32 = 0x0102_0304;
const COMMON_HEADER: usize = 12;
const RE_CONFIG: u8 = 130;

/// So many packets are underway before one arrives.
const UNDERWAY: usize = 8;
/// Of so many packets one is lost, and one arrives twice.
const LOST: u64 = 8;
const TWICE: u64 = 6;
/// So many packets after a lost one the feeder has noticed.
const NOTICED: usize = 10;

/// The common header, with checksum 0 (RFC 9653), and a chunk.
fn packet_of(chunk: &[u8]) -> Vec<u8> {
    [&PORT.to_be_bytes()[..], &PORT.to_be_bytes(), &TAG.to_be_bytes(), &[0; 4], chunk].concat()
}

/// The chunks of a packet: behind the common header one after the other, up to its end.
pub fn chunks_of(packet: &[u8]) -> Outcome<Vec<&[u8]>> {
    let (header, mut rest) = packet.split_at_checked(COMMON_HEADER).ok_or("no packet")?;
    if header != packet_of(&[]) {
        return Err("another common header".into());
    }
    let mut chunks = Vec::new();
    while !rest.is_empty() {
        let length = usize::from(u16::from_be_bytes([rest[2], rest[3]]));
        let (chunk, behind) = rest.split_at_checked(length.next_multiple_of(4)).ok_or("a chunk is cut")?;
        chunks.push(chunk);
        rest = behind;
    }
    Ok(chunks)
}

/// The other end: the proved receiver, and what came out of it.
pub struct Heads {
    receiver: Receiver,
    pub accepted: usize,
    pub repeats: usize,
    pub whole: Vec<(StreamId, Vec<u8>)>,
}

impl Heads {
    fn new(kind: ChunkKind, first: Tsn) -> Outcome<Self> {
        let receiver = Receiver::new(kind, first, MAX_STORE)?;
        Ok(Self { receiver, accepted: 0, repeats: 0, whole: Vec::new() })
    }

    /// A stream counts from 0 again: so does a new receiver.
    pub fn begin_anew(&mut self, kind: ChunkKind, first: Tsn) -> Outcome<()> {
        self.receiver = Receiver::new(kind, first, MAX_STORE)?;
        Ok(())
    }

    /// Receives a chunk and fetches what it makes ready.
    fn take(&mut self, chunk: &[u8]) -> Outcome<()> {
        match self.receiver.receive(chunk)? {
            Received::Accepted => self.accepted += 1,
            Received::Repeat => self.repeats += 1,
        }
        let mut buffer = [0; LONGEST];
        while let Some(Delivery { stream_key, payload, .. }) = self.receiver.fetch(&mut buffer)? {
            self.whole.push((stream_key.id(), payload.to_vec()));
        }
        Ok(())
    }
}

/// A packet and its place in the order of sending.
#[derive(Clone)]
struct Sent {
    place: usize,
    packet: Vec<u8>,
}

/// What became of the packets.
#[derive(Default)]
pub struct Tally {
    pub sent: usize,
    pub lost: usize,
    pub twice: usize,
    pub overtaken: usize,
}

pub struct Link {
    pub heads: Heads,
    pub tally: Tally,
    capture: Capture,
    underway: Vec<Sent>,
    lost: Vec<Sent>,
    /// The packet that was sent last of those that have arrived.
    newest: usize,
    dice: u64,
}

impl Link {
    pub fn new(kind: ChunkKind, first: Tsn, capture: Capture) -> Outcome<Self> {
        let heads = Heads::new(kind, first)?;
        let (underway, lost) = (Vec::new(), Vec::new());
        Ok(Self { heads, tally: Tally::default(), capture, underway, lost, newest: 0, dice: 1 })
    }

    /// The capture goes on with the next link.
    pub fn end(self) -> Capture {
        self.capture
    }

    /// A number below this one (a linear congruential generator: every run is the same).
    fn draw(&mut self, below: u64) -> u64 {
        self.dice = self.dice.wrapping_mul(6_364_136_223_846_793_005).wrapping_add(1_442_695_040_888_963_407);
        (self.dice >> 33) % below
    }

    /// Takes a packet; what was lost some packets ago is sent again before it. When more than a few are underway one of them arrives.
    pub fn send(&mut self, now: SocketTime, packet: &[u8]) -> Outcome<()> {
        if self.lost.first().is_some_and(|lost| lost.place + NOTICED <= self.tally.sent) {
            let lost = self.lost.remove(0);
            self.carry(now, lost.packet)?;
        }
        self.carry(now, packet.to_vec())?;
        while self.underway.len() > UNDERWAY {
            self.arrive()?;
        }
        Ok(())
    }

    /// A packet is put on the link, which may lose it or bring it twice.
    fn carry(&mut self, now: SocketTime, packet: Vec<u8>) -> Outcome<()> {
        self.capture.keep(now, Side::Feeder, &packet)?;
        self.tally.sent += 1;
        let sent = Sent { place: self.tally.sent, packet };
        if self.draw(LOST) == 0 {
            self.tally.lost += 1;
            self.lost.push(sent);
            return Ok(());
        }
        if self.draw(TWICE) == 0 {
            self.tally.twice += 1;
            self.underway.push(sent.clone());
        }
        self.underway.push(sent);
        Ok(())
    }

    /// One of those underway arrives; which one is drawn.
    fn arrive(&mut self) -> Outcome<()> {
        let which = self.draw(self.underway.len() as u64) as usize;
        let Sent { place, packet } = self.underway.remove(which);
        self.tally.overtaken += usize::from(place < self.newest);
        self.newest = self.newest.max(place);
        chunks_of(&packet)?.into_iter().try_for_each(|chunk| self.heads.take(chunk))
    }

    /// All that was sent arrives; what is lost is sent again until it does.
    pub fn settle(&mut self, now: SocketTime) -> Outcome<()> {
        while !self.has_settled() {
            while !self.underway.is_empty() {
                self.arrive()?;
            }
            for lost in std::mem::take(&mut self.lost) {
                self.carry(now, lost.packet)?;
            }
        }
        Ok(())
    }

    pub fn has_settled(&self) -> bool {
        self.underway.is_empty() && self.lost.is_empty()
    }

    /// A reset request (RFC 6525) goes over the link, and the head's response comes back: that it is at it (6) while something up to the
    /// request's last TSN is underway, else that it has reset the stream (1).
    pub fn ask(&mut self, now: SocketTime, request: &[u8], closed: StreamId, last: Tsn) -> Outcome<[u8; 16]> {
        self.capture.keep(now, Side::Feeder, &packet_of(request))?;
        let (head, ids) = request.split_at_checked(20).ok_or("no reset request")?;
        let [id0, id1] = closed.0.to_be_bytes();
        if head[..6] != [RE_CONFIG, 0, 0, 22, 0, 13] || head[16..20] != last.0.to_be_bytes() || ids != [id0, id1, 0, 0]
        {
            return Err("another reset request than for the closed head".into());
        }
        let result = if self.has_settled() { 1 } else { 6 };
        let mut response = [RE_CONFIG, 0, 0, 16, 0, 16, 0, 12, 0, 0, 0, 0, 0, 0, 0, result];
        response[8..12].copy_from_slice(&head[8..12]);
        self.capture.keep(now, Side::Heads, &packet_of(&response))?;
        Ok(response)
    }
}
