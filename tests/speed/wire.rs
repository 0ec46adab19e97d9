//! Chunks on the wire. The original's writer is not among its files: beside ours stands the bare copy of the payload, which both would make.

use crate::clock::Lap;
use crate::clock::best;
use crate::clock::row;
use desqariy::ChunkKind;
use desqariy::Data;
use desqariy::Fsn;
use desqariy::Mid;
use desqariy::PpId;
use desqariy::Ssn;
use desqariy::StreamId;
use desqariy::StreamKey;
use desqariy::Tsn;
use desqariy::read_chunk;
use desqariy::write_chunk;
use std::hint::black_box;

/// So many chunks a round, each from another place of the caller's buffer and to another.
const CHUNKS: usize = 64;

fn data(payload: &[u8]) -> Data<&[u8]> {
    Data {
        stream_key: StreamKey::Ordered(StreamId(1)),
        ssn: Ssn(2),
        mid: Mid(3),
        fsn: Fsn(4),
        ppid: PpId(53),
        payload,
        is_beginning: true,
        is_end: true,
    }
}

/// The room for a chunk of so many payload bytes.
fn room(size: usize) -> usize {
    (size + 23).next_multiple_of(64)
}

fn writing(kind: ChunkKind, name: &str, size: usize) {
    let payloads = vec![7; size * CHUNKS];
    let fragments: Vec<Data<&[u8]>> = payloads.chunks_exact(size).map(data).collect();
    let mut packets = vec![0; room(size) * CHUNKS];
    let mut copies = packets.clone();
    let [written] = best(
        &mut |laps: &mut [Lap; 1]| {
            laps[0].run(|| {
                for (packet, fragment) in packets.chunks_exact_mut(room(size)).zip(&fragments) {
                    black_box(write_chunk(black_box(packet), kind, black_box(Tsn(9)), black_box(fragment)).is_ok());
                }
                CHUNKS as u64
            })
        },
        &mut |laps: &mut [Lap; 1]| {
            laps[0].run(|| {
                for (packet, payload) in copies.chunks_exact_mut(room(size)).zip(payloads.chunks_exact(size)) {
                    black_box(&mut packet[20..20 + size]).copy_from_slice(black_box(payload));
                }
                CHUNKS as u64
            })
        },
    );
    row(&format!("11: {name} chunk of {size} bytes written (beside the bare copy of its payload)"), written);
}

fn reading(kind: ChunkKind, name: &str, size: usize) {
    let payload = vec![7; size];
    let mut packet = vec![0; room(size)];
    let n = write_chunk(&mut packet, kind, Tsn(9), &data(&payload)).unwrap();
    let mut copy = payload.clone();
    let [read] = best(
        &mut |laps: &mut [Lap; 1]| {
            laps[0].run(|| {
                for _ in 0..CHUNKS {
                    black_box(read_chunk(black_box(&packet[..n])).unwrap());
                }
                CHUNKS as u64
            })
        },
        &mut |laps: &mut [Lap; 1]| {
            laps[0].run(|| {
                for _ in 0..CHUNKS {
                    black_box(&mut copy).copy_from_slice(black_box(&payload));
                }
                CHUNKS as u64
            })
        },
    );
    row(&format!("11: {name} chunk of {size} bytes read, nothing copied (beside the bare copy of its payload)"), read);
}

pub fn chunks() {
    for (kind, name) in [(ChunkKind::Data, "a DATA"), (ChunkKind::IData, "an I-DATA")] {
        writing(kind, name, 1_200);
        reading(kind, name, 1_200);
    }
    writing(ChunkKind::IData, "an I-DATA", 1_197);
    reading(ChunkKind::IData, "an I-DATA", 65_515);
}
