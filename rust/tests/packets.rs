//! Packets: one call is the separate calls for the next fragment, each written as a chunk; the refusals and their order.

use desqariy::*;

const NOW: SocketTime = SocketTime::zero();

fn packet(limit: usize) -> Packet {
    Packet { limit, source_port: 5000, destination_port: 6000, verification_tag: 0xdead_beef, tsn: Tsn(0xffff_ffff) }
}

fn options() -> Options {
    Options { max_send_buffer_size: 100_000, ..Default::default() }
}

/// Messages of many sizes on a few streams.
fn queue(payload_limit: usize, interleaving: bool) -> SendQueue {
    let mut queue = SendQueue::new(payload_limit, &options()).unwrap();
    queue.enable_message_interleaving(interleaving);
    for i in 0..60u32 {
        let bytes: Vec<u8> = (0..i * i % 907 + 1).map(|k| (k * 7 + i) as u8).collect();
        let send = SendOptions { unordered: i % 3 == 0, ..Default::default() };
        queue.add(NOW, Message::new(StreamId((i % 7) as u16), PpId(i), &bytes), &send).unwrap();
    }
    queue
}

/// The same packet by separate calls.
fn by_hand(queue: &mut SendQueue, kind: ChunkKind, payload_limit: usize, p: &Packet) -> Option<(Vec<u8>, usize)> {
    let header = if kind == ChunkKind::Data { 16 } else { 20 };
    let mut bytes = Vec::new();
    bytes.extend_from_slice(&p.source_port.to_be_bytes());
    bytes.extend_from_slice(&p.destination_port.to_be_bytes());
    bytes.extend_from_slice(&p.verification_tag.to_be_bytes());
    bytes.extend_from_slice(&[0; 4]);
    let (mut tsn, mut chunks) = (p.tsn, 0);
    while bytes.len() + header < p.limit {
        let size = ((p.limit - bytes.len() - header) / 4 * 4).min(payload_limit);
        if size == 0 {
            break;
        }
        let Some(d) = queue.produce(NOW, size).unwrap() else { break };
        let mut chunk = vec![0; header + d.data.payload.len() + 3];
        let n = write_chunk(&mut chunk, kind, tsn, &d.data).unwrap();
        bytes.extend_from_slice(&chunk[..n]);
        tsn = tsn.add_to(1);
        chunks += 1;
    }
    (chunks > 0).then_some((bytes, chunks))
}

#[test]
fn a_filling_is_the_separate_calls() {
    for interleaving in [false, true] {
        for payload_limit in [1, 2, 3, 10, 100, 1_200] {
            for limit in [36, 37, 40, 41, 64, 100, 499, 1_200, 65_535] {
                let (mut one, mut other) = (queue(payload_limit, interleaving), queue(payload_limit, interleaving));
                let kind = if interleaving { ChunkKind::IData } else { ChunkKind::Data };
                let mut turns = 0;
                loop {
                    let mut buffer = vec![0xa5; limit + turns % 9];
                    let filled = one.fill_packet(NOW, &mut buffer, &packet(limit)).unwrap();
                    let wanted = by_hand(&mut other, kind, payload_limit, &packet(limit));
                    let bytes = filled.map_or(0, |f| f.bytes);
                    assert_eq!(filled.map(|f| (buffer[..f.bytes].to_vec(), f.chunks)), wanted);
                    assert!(buffer[bytes..].iter().all(|b| *b == 0xa5), "the buffer past the packet stays");
                    assert_eq!(one.total_buffered_amount(), other.total_buffered_amount());
                    turns += 1;
                    if filled.is_none() || turns == 40 {
                        break;
                    }
                }
            }
        }
    }
}

#[test]
fn the_events_of_all_its_calls() {
    let mut queue = SendQueue::new(1_000, &options()).unwrap();
    let send = SendOptions {
        lifecycle_id: LifecycleId::new(7),
        lifetime: Some(std::time::Duration::ZERO),
        ..Default::default()
    };
    queue.add(NOW, Message::new(StreamId(1), PpId(53), b"old"), &send).unwrap();
    let later = NOW + std::time::Duration::from_millis(1);
    let mut buffer = [0xa5; 36];
    assert_eq!(queue.fill_packet(later, &mut buffer, &packet(36)).unwrap(), None);
    assert_eq!(buffer, [0xa5; 36], "no packet is written");
    assert_eq!(queue.events().count(), 3, "low, expired, end");
    assert!(queue.is_empty());
}

#[test]
fn refusals() {
    let mut queue = queue(1_000, false);
    let amount = queue.total_buffered_amount();
    let mut refused = |length: usize, limit: usize, now: SocketTime| {
        let mut buffer = vec![0xa5; length];
        let refusal = queue.fill_packet(now, &mut buffer, &packet(limit)).unwrap_err();
        assert!(buffer.iter().all(|b| *b == 0xa5), "a refusal writes nothing");
        assert_eq!(queue.total_buffered_amount(), amount);
        refusal
    };
    let late = NOW + std::time::Duration::from_nanos(MAX_TIME) + std::time::Duration::from_nanos(1);
    assert_eq!(refused(100, 35, late), Refusal::PacketLimitWrong);
    assert_eq!(refused(70_000, 65_536, late), Refusal::PacketLimitWrong);
    assert_eq!(refused(0, 0, late), Refusal::PacketLimitWrong);
    assert_eq!(refused(35, 36, late), Refusal::PacketBufferShort);
    assert_eq!(refused(65_534, 65_535, late), Refusal::PacketBufferShort);
    assert_eq!(refused(36, 36, late), Refusal::TimeLate);
}
