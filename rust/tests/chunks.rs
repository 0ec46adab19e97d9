//! Chunks on the wire: their bytes, what comes back, the refusals and their order.

use desqariy::*;

const NOW: SocketTime = SocketTime::zero();

/// A fragment with a number of its own in every field.
fn data(payload: &[u8]) -> Data<&[u8]> {
    Data {
        stream_key: StreamKey::Ordered(StreamId(0x0102)),
        ssn: Ssn(0x0304),
        mid: Mid(0x0506_0708),
        fsn: Fsn(0x090a_0b0c),
        ppid: PpId(0x0d0e_0f10),
        payload,
        is_beginning: true,
        is_end: false,
    }
}

fn write(room: usize, kind: ChunkKind, data: &Data<&[u8]>) -> Result<Vec<u8>, u8> {
    let mut output = vec![0xa5; room];
    let n = write_chunk(&mut output, kind, Tsn(0xfffe_fdfc), data).map_err(|refusal| {
        assert!(output.iter().all(|b| *b == 0xa5), "a refusal writes nothing");
        refusal.number()
    })?;
    assert!(output[n..].iter().all(|b| *b == 0xa5), "the output past the chunk stays");
    output.truncate(n);
    Ok(output)
}

fn read(bytes: &[u8]) -> Result<Chunk<'_>, u8> {
    read_chunk(bytes).map_err(Refusal::number)
}

#[test]
fn the_bytes_of_a_data_chunk() {
    let wanted = b"\x00\x02\x00\x13\xff\xfe\xfd\xfc\x01\x02\x03\x04\x0d\x0e\x0f\x10abc\x00";
    assert_eq!(write(40, ChunkKind::Data, &data(b"abc")).unwrap(), wanted);
    let unordered =
        Data { stream_key: StreamKey::Unordered(StreamId(1)), is_beginning: false, is_end: true, ..data(b"abcd") };
    let wanted = b"\x00\x05\x00\x14\xff\xfe\xfd\xfc\x00\x01\x03\x04\x0d\x0e\x0f\x10abcd";
    assert_eq!(write(20, ChunkKind::Data, &unordered).unwrap(), wanted, "no padding");
}

#[test]
fn the_bytes_of_an_i_data_chunk() {
    let wanted = b"\x40\x02\x00\x15\xff\xfe\xfd\xfc\x01\x02\x00\x00\x05\x06\x07\x08\x0d\x0e\x0f\x10a\x00\x00\x00";
    assert_eq!(
        write(40, ChunkKind::IData, &data(b"a")).unwrap(),
        wanted,
        "the protocol identifier on a first fragment"
    );
    let later = Data { is_beginning: false, ..data(b"ab") };
    let wanted = b"\x40\x00\x00\x16\xff\xfe\xfd\xfc\x01\x02\x00\x00\x05\x06\x07\x08\x09\x0a\x0b\x0cab\x00\x00";
    assert_eq!(write(24, ChunkKind::IData, &later).unwrap(), wanted, "the FSN on others");
}

/// What a chunk carries of a fragment.
fn carried<'a>(kind: ChunkKind, data: &Data<&'a [u8]>) -> DataToSend<&'a [u8]> {
    let data = match (kind, data.is_beginning) {
        (ChunkKind::Data, _) => Data { mid: Mid(0), fsn: Fsn(0), ..*data },
        (ChunkKind::IData, true) => Data { ssn: Ssn(0), fsn: Fsn(0), ..*data },
        (ChunkKind::IData, false) => Data { ssn: Ssn(0), ppid: PpId(0), ..*data },
    };
    DataToSend { message_id: OutgoingMessageId(0), data, max_retransmissions: 0, expires_at: NOW, lifecycle_id: None }
}

#[test]
fn a_written_fragment_returns_but_for_what_its_chunk_does_not_carry() {
    let bytes: Vec<u8> = (0..65_515_u32).map(|i| (i * 7 + 1) as u8).collect();
    for kind in [ChunkKind::Data, ChunkKind::IData] {
        for marks in 0..8 {
            for length in [1, 2, 3, 4, 5, 1_200, 65_514, 65_515] {
                let id = StreamId(65_535);
                let fragment = Data {
                    stream_key: StreamKey::new(marks & 4 != 0, id),
                    is_beginning: marks & 2 != 0,
                    is_end: marks & 1 != 0,
                    ..data(&bytes[..length])
                };
                let chunk = write(length + 23, kind, &fragment).unwrap();
                let back = read(&chunk).unwrap();
                assert_eq!(back, Chunk { kind, tsn: Tsn(0xfffe_fdfc), fragment: carried(kind, &fragment) });
                let header = if kind == ChunkKind::Data { 16 } else { 20 };
                assert_eq!(back.fragment.data.payload.as_ptr(), chunk[header..].as_ptr(), "nothing is copied");
            }
        }
    }
}

#[test]
fn a_queue_s_fragments_go_over_the_wire() {
    let mut q = SendQueue::new(100, &Options::default()).unwrap();
    q.enable_message_interleaving(true);
    q.add(NOW, Message::new(StreamId(3), PpId(53), &[7; 250]), &SendOptions::default()).unwrap();
    let mut output = [0; 128];
    let mut tsn = Tsn(u32::MAX);
    let mut lengths = Vec::new();
    while let Some(fragment) = q.produce(NOW, 100).unwrap() {
        let n = write_chunk(&mut output, ChunkKind::IData, tsn, &fragment.data).unwrap();
        let chunk = read(&output[..n]).unwrap();
        assert_eq!((chunk.tsn, chunk.fragment), (tsn, carried(ChunkKind::IData, &fragment.data)));
        lengths.push(n);
        tsn = tsn.add_to(1);
    }
    assert_eq!((lengths, tsn), (vec![120, 120, 72], Tsn(2)));
}

#[test]
fn refusal_17_comes_before_18() {
    let long = vec![0; 65_516];
    for kind in [ChunkKind::Data, ChunkKind::IData] {
        for room in [0, 100, 70_000] {
            assert_eq!(write(room, kind, &data(&[])), Err(17));
            assert_eq!(write(room, kind, &data(&long)), Err(17));
        }
        assert!(write(70_000, kind, &data(&long[1..])).is_ok());
    }
}

#[test]
fn refusal_18_counts_the_padding() {
    for (kind, header) in [(ChunkKind::Data, 16), (ChunkKind::IData, 20)] {
        for (length, padded) in [(1, 4), (2, 4), (3, 4), (4, 4), (5, 8), (1_199, 1_200)] {
            let payload = vec![9; length];
            for room in [0, 3, header, header + length - 1, header + padded - 1] {
                assert_eq!(write(room, kind, &data(&payload)), Err(18));
            }
            assert_eq!(write(header + padded, kind, &data(&payload)).unwrap().len(), header + padded);
        }
    }
}

#[test]
fn refusal_19_for_all_that_is_not_one_chunk() {
    for kind in [ChunkKind::Data, ChunkKind::IData] {
        let chunk = write(64, kind, &data(b"abcde")).unwrap();
        assert!(read(&chunk).is_ok());
        for n in 0..chunk.len() {
            assert_eq!(read(&chunk[..n]), Err(19), "cut at {n}: the padding is wanted");
        }
        for more in 1..=4 {
            assert_eq!(read(&[chunk.clone(), vec![0; more]].concat()), Err(19), "{more} bytes behind it");
        }
        for other in (0..=255).filter(|t| ![0, 64].contains(t)) {
            let mut bytes = chunk.clone();
            bytes[0] = other;
            assert_eq!(read(&bytes), Err(19), "type {other}");
        }
        for length in (0..=64).filter(|n| usize::from(*n).next_multiple_of(4) != chunk.len()) {
            let mut bytes = chunk.clone();
            bytes[3] = length;
            assert_eq!(read(&bytes), Err(19), "length {length}");
        }
    }
    assert_eq!(read(b"\x00\x03\x00\x10\x00\x00\x00\x01\x00\x02\x00\x03\x00\x00\x00\x04"), Err(19), "no payload");
    let header = b"\x40\x03\x00\x14\x00\x00\x00\x01\x00\x02\x00\x03\x00\x00\x00\x04\x05\x06\x07\x08";
    assert_eq!(read(header), Err(19), "no payload");
    let data = [b"\x00".as_slice(), &header[1..]].concat();
    assert_eq!(read(&data).unwrap().fragment.data.payload, b"\x05\x06\x07\x08", "as DATA the same bytes have one");
}

#[test]
fn other_flags_reserved_bits_and_the_padding_s_value_are_ignored() {
    for kind in [ChunkKind::Data, ChunkKind::IData] {
        let chunk = write(64, kind, &data(b"abcde")).unwrap();
        let mut other = chunk.clone();
        other[1] |= 0xf8;
        *other.last_mut().unwrap() = 9;
        if kind == ChunkKind::IData {
            other[10..12].fill(0xff);
        }
        assert_ne!(chunk, other);
        assert_eq!(read(&other).unwrap(), read(&chunk).unwrap());
    }
}

/// The reader takes what the layout allows: DATA with 65,516 to 65,519 bytes, which the writer refuses.
#[test]
fn the_longest_chunks_read() {
    for (kind, most) in [(0, 65_519), (64, 65_515)] {
        let mut bytes = vec![1; 65_536];
        bytes[0] = kind;
        bytes[2..4].copy_from_slice(&[0xff, 0xff]);
        assert_eq!(read(&bytes).unwrap().fragment.data.payload.len(), most);
        let again = write_chunk(&mut vec![0; 65_536], ChunkKind::Data, Tsn(0), &read(&bytes).unwrap().fragment.data);
        assert_eq!(again.is_ok(), most == 65_515);
    }
}
