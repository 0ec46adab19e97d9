//! Packets of 1,200 bytes: one filling beside the original's produce for the same fragments, which writes no header and no chunk.

use crate::clock::Lap;
use crate::clock::best;
use crate::clock::row;
use crate::sides::Ours;
use crate::sides::SIZE;
use crate::sides::Theirs;
use crate::sides::payload;
use std::hint::black_box;

const COMMON: usize = 12;
const STREAMS: u16 = 4;

/// Sends what the packet has room for, and says whether there was a fragment; `$packet` sends one.
macro_rules! round {
    ($queue:expr, $messages:expr, $bytes:expr, $packet:expr) => {
        move |laps: &mut [Lap; 1]| {
            let mut buffer = [0; SIZE];
            (0..$messages).for_each(|i| $queue.add((i % STREAMS as usize) as u16, $bytes));
            laps[0].run(|| {
                let mut packets = 0;
                while $packet(&mut $queue, &mut buffer) {
                    black_box(&mut buffer);
                    packets += 1;
                }
                packets
            });
        }
    };
}

/// The fragments of one packet, each copied to where the packet has it.
pub fn fragments(queue: &mut Theirs, buffer: &mut [u8], header: usize) -> bool {
    let mut at = COMMON;
    while SIZE - at >= header + 4 {
        let room = (SIZE - at - header) / 4 * 4;
        let Some(d) = queue.queue.produce(crate::api::SocketTime::zero(), room) else { break };
        let length = d.data.payload.len();
        buffer[at + header..][..length].copy_from_slice(&d.data.payload);
        at += (header + length).next_multiple_of(4);
    }
    queue.forget_events();
    at > COMMON
}

fn filled(queue: &mut Ours, buffer: &mut [u8]) -> bool {
    let packet = desqariy::Packet { limit: SIZE, source_port: 1, destination_port: 2, verification_tag: 3, tsn: desqariy::Tsn(4) };
    queue.queue.fill_packet(desqariy::SocketTime::zero(), buffer, &packet).unwrap().is_some()
}

pub fn packets() {
    for interleaved in [false, true] {
        for (length, messages) in [(64, 720), (300, 720), (1_164, 720), (4_000, 400)] {
            let bytes = &payload(length);
            let header = if interleaved { 20 } else { 16 };
            let (mut ours, mut theirs) = (Ours::new(interleaved), Theirs::new(interleaved));
            let [packet] = best(
                &mut round!(ours, messages, bytes, filled),
                &mut round!(theirs, messages, bytes, |q: &mut Theirs, b: &mut [u8]| fragments(q, b, header)),
            );
            row(&format!("5: packet of {SIZE}, messages of {length}{}", if interleaved { ", interleaved" } else { "" }), packet);
        }
    }
}
