//! The receiving head: chunks in any order and with repeats, messages out; the refusals and their order; from a queue's messages to the same
//! messages at the other end.

use desqariy::*;
use std::collections::BTreeMap;

const NOW: SocketTime = SocketTime::zero();
const START: Tsn = Tsn(u32::MAX - 2);
const ORDERED: StreamKey = StreamKey::Ordered(StreamId(7));
const UNORDERED: StreamKey = StreamKey::Unordered(StreamId(7));

/// A fragment of the message of this number (its SSN and its MID).
fn fragment(stream_key: StreamKey, number: u32, fsn: u32, last: bool, payload: &[u8]) -> Data<&[u8]> {
    let (ssn, mid) = (Ssn(number as u16), Mid(number));
    Data { stream_key, ssn, mid, fsn: Fsn(fsn), ppid: PpId(53), payload, is_beginning: fsn == 0, is_end: last }
}

/// A message of one fragment.
fn whole(stream_key: StreamKey, number: u32, payload: &[u8]) -> Data<&[u8]> {
    fragment(stream_key, number, 0, true, payload)
}

/// The fragment as a chunk with the TSN so many places behind the first.
fn chunk(kind: ChunkKind, place: u32, data: &Data<&[u8]>) -> Vec<u8> {
    let mut bytes = vec![0; 20 + data.payload.len() + 3];
    let written = write_chunk(&mut bytes, kind, START.add_to(place), data).unwrap();
    bytes.truncate(written);
    bytes
}

fn receiver(kind: ChunkKind) -> Receiver {
    Receiver::new(kind, START, 10_000).unwrap()
}

/// A message at the other end.
type Came = (StreamKey, PpId, Vec<u8>);

/// Fetches until none is ready.
fn all(receiver: &mut Receiver) -> Vec<Came> {
    let mut buffer = vec![0; MAX_STORE];
    let mut messages = Vec::new();
    while let Some(m) = receiver.fetch(&mut buffer).unwrap() {
        messages.push((m.stream_key, m.ppid, m.payload.to_vec()));
    }
    messages
}

fn payloads(receiver: &mut Receiver) -> Vec<Vec<u8>> {
    all(receiver).into_iter().map(|message| message.2).collect()
}

/// Numbers below a bound, always the same.
struct Draws(u32);

impl Draws {
    fn below(&mut self, bound: usize) -> usize {
        self.0 = self.0.wrapping_mul(1_664_525).wrapping_add(1_013_904_223);
        (self.0 >> 8) as usize % bound
    }

    /// In another order, and some of them again.
    fn shuffled(&mut self, chunks: &[Vec<u8>]) -> Vec<Vec<u8>> {
        let mut list = chunks.to_vec();
        for _ in 0..chunks.len() / 3 {
            list.push(chunks[self.below(chunks.len())].clone());
        }
        for i in (1..list.len()).rev() {
            list.swap(i, self.below(i + 1));
        }
        list
    }
}

#[test]
fn a_message_in_one_chunk() {
    for kind in [ChunkKind::Data, ChunkKind::IData] {
        let mut r = receiver(kind);
        let mut buffer = [0xa5; 8];
        assert_eq!(r.fetch(&mut buffer), Ok(None));
        let c = chunk(kind, 0, &whole(UNORDERED, 0, b"hello"));
        assert_eq!(r.receive(&c), Ok(Received::Accepted));
        assert_eq!(r.receive(&c), Ok(Received::Repeat));
        let wanted = Delivery { stream_key: UNORDERED, ppid: PpId(53), payload: b"hello" };
        assert_eq!(r.fetch(&mut buffer), Ok(Some(wanted)));
        assert_eq!(buffer, *b"hello\xa5\xa5\xa5", "the rest of the buffer stays");
        assert_eq!(r.fetch(&mut buffer), Ok(None));
        assert_eq!(r.receive(&c), Ok(Received::Repeat), "also when it was fetched");
        assert_eq!(r.fetch(&mut buffer), Ok(None));
    }
}

#[test]
fn fragments_in_any_order_with_repeats() {
    let bytes: Vec<u8> = (0..50).collect();
    for kind in [ChunkKind::Data, ChunkKind::IData] {
        for seed in 0..50 {
            let mut chunks = Vec::new();
            for (i, part) in (0_u32..).zip(bytes.chunks(7)) {
                chunks.push(chunk(kind, i, &fragment(ORDERED, 0, i, part.len() < 7, part)));
            }
            let mut r = receiver(kind);
            let (mut accepted, mut came) = (0, Vec::new());
            for c in Draws(seed).shuffled(&chunks) {
                accepted += usize::from(r.receive(&c).unwrap() == Received::Accepted);
                came.extend(all(&mut r));
                assert_eq!(came.len(), usize::from(accepted == chunks.len()), "it is ready when complete, and once");
            }
            assert_eq!(came, [(ORDERED, PpId(53), bytes.clone())]);
        }
    }
}

/// Messages of one chunk with these numbers, received one after the other: the numbers of those that came out after each.
fn by_number(kind: ChunkKind, sent: &[(StreamKey, u32)]) -> Vec<Vec<u32>> {
    let mut r = receiver(kind);
    let mut came = Vec::new();
    for (place, (key, number)) in (0..).zip(sent) {
        let payload = number.to_be_bytes();
        assert_eq!(r.receive(&chunk(kind, place, &whole(*key, *number, &payload))), Ok(Received::Accepted));
        let out = payloads(&mut r).into_iter().map(|p| u32::from_be_bytes(p.try_into().unwrap()));
        came.push(out.collect());
    }
    came
}

#[test]
fn ordered_messages_come_by_ssn_or_mid() {
    let other = StreamKey::Ordered(StreamId(8));
    for kind in [ChunkKind::Data, ChunkKind::IData] {
        let sent = [(ORDERED, 2), (ORDERED, 1), (other, 0), (ORDERED, 4), (ORDERED, 0), (ORDERED, 3)];
        let wanted: [&[u32]; 6] = [&[], &[], &[0], &[], &[0, 1, 2], &[3, 4]];
        assert_eq!(by_number(kind, &sent), wanted);
        let sent = [(UNORDERED, 2), (UNORDERED, 0), (ORDERED, 1), (ORDERED, 0)];
        let wanted: [&[u32]; 4] = [&[2], &[0], &[], &[0, 1]];
        assert_eq!(by_number(kind, &sent), wanted, "an unordered one does not wait");
    }
}

#[test]
fn ssns_and_tsns_wrap() {
    let mut r = receiver(ChunkKind::Data);
    let mut buffer = [0; 4];
    for i in 0..70_000_u32 {
        let payload = i.to_be_bytes();
        assert_eq!(r.receive(&chunk(ChunkKind::Data, i, &whole(ORDERED, i, &payload))), Ok(Received::Accepted));
        assert_eq!(r.fetch(&mut buffer).unwrap().unwrap().payload, payload);
    }
}

#[test]
fn a_store_of_no_receiver_is_refused() {
    for length in [0, MAX_STORE + 1, usize::MAX] {
        assert_eq!(Receiver::new(ChunkKind::Data, START, length).unwrap_err(), Refusal::StoreWrong);
    }
    for length in [1, MAX_STORE] {
        assert!(Receiver::new(ChunkKind::Data, START, length).is_ok());
    }
}

#[test]
fn a_short_buffer_leaves_the_message() {
    let mut r = receiver(ChunkKind::IData);
    assert_eq!(r.receive(&chunk(ChunkKind::IData, 0, &whole(ORDERED, 0, b"hello"))), Ok(Received::Accepted));
    let mut buffer = [0xa5; 5];
    assert_eq!(r.fetch(&mut buffer[..4]), Err(Refusal::BufferShort));
    assert_eq!(buffer, [0xa5; 5]);
    assert_eq!(r.fetch(&mut buffer).unwrap().unwrap().payload, b"hello");
    assert_eq!(r.fetch(&mut []), Ok(None), "none is ready: no buffer is too short");
}

#[test]
fn bytes_that_are_no_chunk_of_the_kind_are_refused() {
    for (kind, other) in [(ChunkKind::Data, ChunkKind::IData), (ChunkKind::IData, ChunkKind::Data)] {
        let mut r = receiver(kind);
        let data = whole(ORDERED, 0, b"hello");
        let c = chunk(kind, 0, &data);
        assert_eq!(r.receive(&chunk(other, 0, &data)), Err(Refusal::ChunkWrong));
        assert_eq!(r.receive(&[]), Err(Refusal::ChunkWrong));
        assert_eq!(r.receive(&c[..c.len() - 4]), Err(Refusal::ChunkWrong));
        assert_eq!(r.receive(&[&c[..], &c[..]].concat()), Err(Refusal::ChunkWrong));
        assert_eq!(r.receive(&c), Ok(Received::Accepted), "nothing had been received");
    }
}

#[test]
fn a_tsn_is_at_most_1024_ahead() {
    let kind = ChunkKind::IData;
    let mut r = receiver(kind);
    let at = |place| chunk(kind, place, &whole(UNORDERED, place, &[place as u8]));
    // the last one received without a gap is the one before the first
    assert_eq!(r.receive(&at(TSN_WINDOW)), Err(Refusal::TsnFar));
    assert_eq!(r.receive(&at(TSN_WINDOW - 1)), Ok(Received::Accepted));
    assert_eq!(r.receive(&at(0)), Ok(Received::Accepted));
    assert_eq!(r.receive(&at(TSN_WINDOW)), Ok(Received::Accepted));
    assert_eq!(r.receive(&at(TSN_WINDOW + 1)), Err(Refusal::TsnFar));
    // before the first, and 2^31 away: not after it
    assert_eq!(r.receive(&at(u32::MAX)), Ok(Received::Repeat));
    assert_eq!(r.receive(&at(1 << 31)), Ok(Received::Repeat));
    assert_eq!(r.receive(&at((1 << 31) - 1)), Err(Refusal::TsnFar), "2^31 - 1 after it");
}

#[test]
fn a_full_receiver_refuses_until_a_message_is_fetched() {
    let kind = ChunkKind::Data;
    let mut buffer = [0; 10_000];
    // the store
    let mut r = receiver(kind);
    assert_eq!(r.receive(&chunk(kind, 0, &whole(ORDERED, 0, &[1; 6_000]))), Ok(Received::Accepted));
    let next = chunk(kind, 1, &whole(ORDERED, 1, &[2; 4_001]));
    assert_eq!(r.receive(&next), Err(Refusal::ReceiverFull));
    assert_eq!(r.fetch(&mut buffer).unwrap().unwrap().payload, [1; 6_000]);
    assert_eq!(r.receive(&next), Ok(Received::Accepted));
    assert_eq!(payloads(&mut r), [[2; 4_001]]);
    // held fragments
    let mut r = receiver(kind);
    let at = |place: u32| chunk(kind, place, &whole(ORDERED, place, &[place as u8]));
    for place in 0..MAX_FRAGMENTS as u32 {
        assert_eq!(r.receive(&at(place)), Ok(Received::Accepted));
    }
    assert_eq!(r.receive(&at(MAX_FRAGMENTS as u32)), Err(Refusal::ReceiverFull));
    assert_eq!(r.fetch(&mut buffer).unwrap().unwrap().payload, [0]);
    assert_eq!(r.receive(&at(MAX_FRAGMENTS as u32)), Ok(Received::Accepted));
    // streams
    let mut r = receiver(kind);
    let of = |place: u32| chunk(kind, place, &whole(StreamKey::Ordered(StreamId(place as u16)), 0, &[1]));
    for place in 0..MAX_STREAMS as u32 {
        assert_eq!(r.receive(&of(place)), Ok(Received::Accepted));
    }
    assert_eq!(r.receive(&of(MAX_STREAMS as u32)), Err(Refusal::ReceiverFull));
    assert_eq!(all(&mut r).len(), MAX_STREAMS);
    assert_eq!(r.receive(&of(MAX_STREAMS as u32)), Err(Refusal::ReceiverFull), "a stream stays known");
}

#[test]
fn another_fragment_at_a_held_tsn_is_refused() {
    for kind in [ChunkKind::Data, ChunkKind::IData] {
        let mut r = receiver(kind);
        let held = fragment(ORDERED, 0, 0, false, b"hello");
        assert_eq!(r.receive(&chunk(kind, 0, &held)), Ok(Received::Accepted));
        let others = [
            Data { payload: &b"hellO"[..], ..held },
            Data { payload: b"hell", ..held },
            Data { stream_key: UNORDERED, ..held },
            Data { stream_key: StreamKey::Ordered(StreamId(8)), ..held },
            Data { ssn: Ssn(1), mid: Mid(1), ..held },
            Data { ppid: PpId(54), ..held },
            Data { is_end: true, ..held },
            Data { is_beginning: false, ..held },
        ];
        for other in others {
            assert_eq!(r.receive(&chunk(kind, 0, &other)), Err(Refusal::FragmentOther), "{other:?}");
        }
        assert_eq!(r.receive(&chunk(kind, 0, &held)), Ok(Received::Repeat));
    }
}

#[test]
fn the_first_refusal_of_several_is_given() {
    let kind = ChunkKind::IData;
    let mut r = Receiver::new(kind, START, 5).unwrap();
    assert_eq!(r.receive(&chunk(kind, 0, &whole(UNORDERED, 0, b"hello"))), Ok(Received::Accepted));
    // 24 before a repeat; a held MID and FSN at a far TSN is a repeat, before 22; 22 before 23
    assert_eq!(r.receive(&chunk(kind, 0, &whole(UNORDERED, 0, b"other"))), Err(Refusal::FragmentOther));
    assert_eq!(r.receive(&chunk(kind, 5_000, &whole(UNORDERED, 0, b"other"))), Ok(Received::Repeat));
    assert_eq!(r.receive(&chunk(kind, 5_000, &whole(UNORDERED, 1, b"other"))), Err(Refusal::TsnFar));
    assert_eq!(r.receive(&chunk(kind, 1, &whole(UNORDERED, 1, b"other"))), Err(Refusal::ReceiverFull));
    assert_eq!(payloads(&mut r), [b"hello"]);
}

/// Messages of many sizes on a few streams, ordered and unordered: the queue, and what is in it by stream.
fn queue(kind: ChunkKind) -> (SendQueue, BTreeMap<StreamKey, Vec<Came>>) {
    let options = Options { max_send_buffer_size: 100_000, ..Default::default() };
    let mut queue = SendQueue::new(100, &options).unwrap();
    queue.enable_message_interleaving(kind == ChunkKind::IData);
    let mut added: BTreeMap<StreamKey, Vec<Came>> = BTreeMap::new();
    for i in 0..90_u32 {
        let bytes: Vec<u8> = (0..i * i % 907 + 1).map(|k| (k * 7 + i) as u8).collect();
        let (stream, unordered) = (StreamId((i % 7) as u16), i % 3 == 0);
        let send = SendOptions { unordered, ..Default::default() };
        queue.add(NOW, Message::new(stream, PpId(i), &bytes), &send).unwrap();
        let key = StreamKey::new(unordered, stream);
        added.entry(key).or_default().push((key, PpId(i), bytes));
    }
    (queue, added)
}

/// Feeds the chunks in many orders with repeats, fetching now and then, and compares: each message exactly once, ordered ones in order.
fn arrives(kind: ChunkKind, chunks: &[Vec<u8>], added: &BTreeMap<StreamKey, Vec<Came>>) {
    assert!(chunks.len() > 300 && chunks.len() < TSN_WINDOW as usize);
    for seed in 0..20 {
        let mut draws = Draws(seed);
        let mut r = Receiver::new(kind, START, 100_000).unwrap();
        let (mut came, mut accepted) = (Vec::new(), 0);
        for c in draws.shuffled(chunks) {
            accepted += usize::from(r.receive(&c).unwrap() == Received::Accepted);
            if draws.below(10) == 0 {
                came.extend(all(&mut r));
            }
        }
        came.extend(all(&mut r));
        assert_eq!(accepted, chunks.len());
        let mut by_key: BTreeMap<StreamKey, Vec<Came>> = BTreeMap::new();
        for message in came {
            by_key.entry(message.0).or_default().push(message);
        }
        // unordered ones in any order: each has a ppid of its own, counting up
        for (_, list) in by_key.iter_mut().filter(|(key, _)| key.is_unordered()) {
            list.sort_by_key(|message| message.1.0);
        }
        assert_eq!(&by_key, added);
    }
}

#[test]
fn from_the_queue_s_fragments_to_its_messages() {
    for kind in [ChunkKind::Data, ChunkKind::IData] {
        let (mut queue, added) = queue(kind);
        let mut chunks = Vec::new();
        while let Some(d) = queue.produce(NOW, 100).unwrap() {
            chunks.push(chunk(kind, chunks.len() as u32, &d.data));
        }
        arrives(kind, &chunks, &added);
    }
}

#[test]
fn from_the_queue_s_packets_to_its_messages() {
    for kind in [ChunkKind::Data, ChunkKind::IData] {
        let (mut queue, added) = queue(kind);
        let mut chunks: Vec<Vec<u8>> = Vec::new();
        let mut buffer = [0; 500];
        loop {
            let tsn = START.add_to(chunks.len() as u32);
            let wanted = Packet { limit: 500, source_port: 1, destination_port: 2, verification_tag: 3, tsn };
            let Some(filled) = queue.fill_packet(NOW, &mut buffer, &wanted).unwrap() else { break };
            let before = chunks.len();
            let mut rest = &buffer[12..filled.bytes];
            while !rest.is_empty() {
                let length = usize::from(u16::from_be_bytes([rest[2], rest[3]])).next_multiple_of(4);
                chunks.push(rest[..length].to_vec());
                rest = &rest[length..];
            }
            assert_eq!(chunks.len() - before, filled.chunks);
        }
        arrives(kind, &chunks, &added);
    }
}
