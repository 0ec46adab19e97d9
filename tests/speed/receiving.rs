//! The receiving head beside a plain reassembly (reassembly.rs): chunks received, each followed by a fetch, in nanoseconds a chunk.

use crate::clock::Lap;
use crate::clock::Times;
use crate::clock::best;
use crate::clock::row;
use crate::reassembly::Reassembly;
use crate::sides::SIZE;
use desqariy::ChunkKind;
use desqariy::Data;
use desqariy::Fsn;
use desqariy::MAX_STORE;
use desqariy::Mid;
use desqariy::PpId;
use desqariy::Received;
use desqariy::Receiver;
use desqariy::Ssn;
use desqariy::StreamId;
use desqariy::StreamKey;
use desqariy::Tsn;
use desqariy::write_chunk;
use std::hint::black_box;

const STREAMS: u32 = 4;
/// The stream of the messages that are held: its message 0 never comes.
const HELD_STREAM: u16 = 9;
/// So many bytes each: all of them a fifth of the store, or four fifths, where a payload finds less room before the others are moved together.
const HELD: [usize; 2] = [100, 400];
/// Fragments that come in another order do so within so many.
const WITHIN: usize = 64;
/// The most fragments that a receiver holds.
const MOST: u32 = 4_096;
const START: u32 = u32::MAX - 500;

/// The fragments that are held all the time.
#[derive(Clone, Copy)]
struct Held {
    count: u32,
    length: usize,
}

/// What both sides do.
trait Side {
    fn receive(&mut self, chunk: &[u8]) -> bool;
    fn fetch(&mut self, buffer: &mut [u8]) -> Option<(u16, u32, usize)>;
}

impl Side for Receiver {
    fn receive(&mut self, chunk: &[u8]) -> bool {
        matches!(Receiver::receive(self, chunk), Ok(Received::Accepted))
    }

    fn fetch(&mut self, buffer: &mut [u8]) -> Option<(u16, u32, usize)> {
        let delivery = Receiver::fetch(self, buffer).unwrap()?;
        let StreamKey::Ordered(stream) = delivery.stream_key else { panic!("all are ordered") };
        Some((stream.0, delivery.ppid.0, delivery.payload.len()))
    }
}

impl Side for Reassembly {
    fn receive(&mut self, chunk: &[u8]) -> bool {
        Reassembly::receive(self, chunk)
    }

    fn fetch(&mut self, buffer: &mut [u8]) -> Option<(u16, u32, usize)> {
        Reassembly::fetch(self, buffer)
    }
}

/// A fragment as a chunk.
fn chunk(kind: ChunkKind, tsn: u32, stream: u16, id: u32, payload: &[u8], part: usize, parts: usize) -> Vec<u8> {
    let data = Data {
        stream_key: StreamKey::Ordered(StreamId(stream)),
        ssn: Ssn(id as u16),
        mid: Mid(id),
        fsn: Fsn(part as u32),
        ppid: PpId(53),
        payload,
        is_beginning: part == 0,
        is_end: part + 1 == parts,
    };
    let mut bytes = vec![0; payload.len() + 24];
    let n = write_chunk(&mut bytes, kind, Tsn(tsn), &data).unwrap();
    bytes.truncate(n);
    bytes
}

/// The chunks of one sender, round by round.
struct Sender {
    kind: ChunkKind,
    payload: Vec<u8>,
    messages: u32,
    reordered: bool,
    tsn: u32,
    id: u32,
}

impl Sender {
    /// The chunks of so many messages on each stream, with the next numbers.
    fn round(&mut self) -> Vec<Vec<u8>> {
        let parts = self.payload.len().div_ceil(SIZE);
        let mut chunks = Vec::new();
        for i in 0..self.messages {
            for (part, payload) in self.payload.chunks(SIZE).enumerate() {
                chunks.push(chunk(
                    self.kind,
                    self.tsn,
                    (i % STREAMS) as u16,
                    self.id + i / STREAMS,
                    payload,
                    part,
                    parts,
                ));
                self.tsn = self.tsn.wrapping_add(1);
            }
        }
        self.id += self.messages / STREAMS;
        if self.reordered {
            let mut dice = 1_u32;
            for block in chunks.chunks_mut(WITHIN) {
                for k in (1..block.len()).rev() {
                    dice = dice.wrapping_mul(1_664_525).wrapping_add(1_013_904_223);
                    block.swap(k, dice as usize / 65_536 % (k + 1));
                }
            }
        }
        chunks
    }
}

/// Each chunk is received, and what is ready then is fetched; tells the messages.
fn take(side: &mut impl Side, chunks: &[Vec<u8>], buffer: &mut [u8], mut each: impl FnMut(u16, u32, &[u8])) {
    for chunk in chunks {
        assert!(side.receive(black_box(chunk)));
        while let Some((stream, ppid, length)) = side.fetch(black_box(buffer)) {
            each(stream, ppid, &buffer[..length]);
        }
    }
}

/// A side that holds so many fragments, and what its sender sends then.
fn started<S: Side>(mut side: S, kind: ChunkKind, length: usize, reordered: bool, held: Held) -> (S, Sender) {
    let other = vec![9; held.length];
    let chunks: Vec<_> =
        (0..held.count).map(|k| chunk(kind, START.wrapping_add(k), HELD_STREAM, k + 1, &other, 0, 1)).collect();
    take(&mut side, &chunks, &mut [], |_, _, _| panic!("a held message came out"));
    let messages = if length > SIZE { STREAMS } else { 64 * STREAMS };
    let payload = (0..length).map(|i| (i % 251) as u8).collect();
    (side, Sender { kind, payload, messages, reordered, tsn: START.wrapping_add(held.count), id: 0 })
}

fn ours(kind: ChunkKind) -> Receiver {
    Receiver::new(kind, Tsn(START), MAX_STORE).unwrap()
}

fn theirs(kind: ChunkKind) -> Reassembly {
    Reassembly::new(kind == ChunkKind::IData, START)
}

/// The messages of some rounds.
fn delivered<S: Side>((mut side, mut sender): (S, Sender)) -> Vec<(u16, u32, Vec<u8>)> {
    let (mut buffer, mut messages) = (vec![0; sender.payload.len()], Vec::new());
    for _ in 0..3 {
        take(&mut side, &sender.round(), &mut buffer, |stream, ppid, payload| {
            messages.push((stream, ppid, payload.to_vec()))
        });
    }
    assert_eq!(messages.len() as u32, 3 * sender.messages);
    assert!(messages.iter().all(|(_, _, payload)| *payload == sender.payload));
    messages
}

/// A round of one side.
fn timed<S: Side>((mut side, mut sender): (S, Sender)) -> impl FnMut(&mut [Lap; 1]) {
    let mut buffer = vec![0; sender.payload.len()];
    move |laps| {
        let chunks = sender.round();
        laps[0].run(|| {
            take(&mut side, &chunks, &mut buffer, |_, _, payload| {
                black_box(payload);
            });
            chunks.len() as u64
        });
    }
}

fn receiving(kind: ChunkKind, length: usize, reordered: bool, held: Held) -> Times {
    let start =
        (started(ours(kind), kind, length, reordered, held), started(theirs(kind), kind, length, reordered, held));
    assert!(delivered(start.0) == delivered(start.1), "both deliver the same messages");
    let start =
        (started(ours(kind), kind, length, reordered, held), started(theirs(kind), kind, length, reordered, held));
    let [times] = best(&mut timed(start.0), &mut timed(start.1));
    let order = if reordered { "reordered within 64" } else { "in order" };
    let name = if kind == ChunkKind::Data { "a DATA" } else { "an I-DATA" };
    let others = if held.count == 0 { String::new() } else { format!(", {} of {} held", held.count, held.length) };
    row(&format!("13: {name} chunk received, and a fetch; messages of {length}, {order}{others}"), times);
    times
}

/// In order and not, with nothing else held; then how it grows with what is held.
fn rows(kind: ChunkKind, length: usize) {
    let none = Held { count: 0, length: 1 };
    receiving(kind, length, false, none);
    receiving(kind, length, true, none);
    let few = receiving(kind, length, false, Held { count: 1, length: HELD[0] });
    // Those of a long message are among the most that are held.
    let count = 4_000.min(MOST - length.div_ceil(SIZE) as u32);
    for other in HELD {
        let many = receiving(kind, length, false, Held { count, length: other });
        let growth = Times { ours: many.ours / few.ours, theirs: many.theirs / few.theirs };
        row(&format!("13: the same, times the row with 1 held ({count} of {other})"), growth);
    }
}

pub fn receiving_and_fetching() {
    for kind in [ChunkKind::Data, ChunkKind::IData] {
        for length in [SIZE, 262_144] {
            rows(kind, length);
        }
    }
}
