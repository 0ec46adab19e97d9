//! Reset requests to the peer: their bytes, what a response leads to, the refusals and their order.

use desqariy::*;

const NOW: SocketTime = SocketTime::zero();

fn queue() -> SendQueue {
    SendQueue::new(1_200, &Options::default()).unwrap()
}

/// A queue with these streams closed.
fn closed(ids: &[u16]) -> SendQueue {
    let mut queue = queue();
    for id in ids {
        queue.prepare_reset_stream(StreamId(*id)).unwrap();
    }
    queue
}

fn request(handler: &mut StreamResetHandler, queue: &mut SendQueue, room: usize) -> Result<Option<Vec<u8>>, u8> {
    let mut output = vec![0xa5; room];
    let before = (handler.next_number(), handler.request_underway());
    let written = handler.make_stream_reset_request(queue, &mut output, 9, Tsn(0x0102_0304)).map_err(|refusal| {
        assert!(output.iter().all(|b| *b == 0xa5), "a refusal writes nothing");
        assert_eq!((handler.next_number(), handler.request_underway()), before, "a refusal changes nothing");
        refusal.number()
    })?;
    let n = written.unwrap_or(0);
    assert!(output[n..].iter().all(|b| *b == 0xa5), "the output past the message stays");
    output.truncate(n);
    Ok(written.map(|_| output))
}

/// The peer's response to a request.
fn response(number: u32, result: u32) -> [u8; 16] {
    let mut bytes = *b"\x82\x00\x00\x10\x00\x10\x00\x0c\x00\x00\x00\x00\x00\x00\x00\x00";
    bytes[8..12].copy_from_slice(&number.to_be_bytes());
    bytes[12..].copy_from_slice(&result.to_be_bytes());
    bytes
}

#[test]
fn the_bytes_of_a_request() {
    let (mut queue, mut handler) = (closed(&[258, 5, 1]), StreamResetHandler::new(u32::MAX));
    assert_eq!(queue.count_streams_ready_to_reset(), 3);
    let wanted = b"\x82\x00\x00\x1a\x00\x0d\x00\x16\xff\xff\xff\xff\x00\x00\x00\x09\x01\x02\x03\x04\x00\x01\x00\x05\x01\x02\x00\x00";
    assert_eq!(request(&mut handler, &mut queue, 28).unwrap().unwrap(), wanted, "ids in ascending order, then padding");
    assert_eq!((handler.request_underway(), queue.count_streams_ready_to_reset()), (Some(u32::MAX), 0));
    assert_eq!(handler.handle_response(&mut queue, &response(u32::MAX, 0)), Ok(ResponseOutcome::Committed));
    queue.prepare_reset_stream(StreamId(7)).unwrap();
    queue.prepare_reset_stream(StreamId(9)).unwrap();
    let next = request(&mut handler, &mut queue, 24).unwrap().unwrap();
    assert_eq!((next.len(), &next[8..12]), (24, &[0, 0, 0, 0][..]), "numbers wrap; two ids need no padding");
}

#[test]
fn the_longest_request() {
    let ids: Vec<u16> = (0..256).map(|i| i * 256 + 255).collect();
    let (mut queue, mut handler) = (closed(&ids), StreamResetHandler::new(0));
    assert_eq!(request(&mut handler, &mut queue, MAX_RESET_REQUEST - 1), Err(26));
    let message = request(&mut handler, &mut queue, MAX_RESET_REQUEST).unwrap().unwrap();
    let named: Vec<u16> = message[20..].chunks(2).map(|b| u16::from_be_bytes([b[0], b[1]])).collect();
    assert_eq!(named, ids);
}

#[test]
fn no_stream_ready_writes_nothing_and_takes_no_number() {
    let (mut queue, mut handler) = (queue(), StreamResetHandler::new(7));
    assert_eq!(request(&mut handler, &mut queue, 0), Ok(None));
    assert_eq!(handler.request_underway(), None);
    queue.prepare_reset_stream(StreamId(1)).unwrap();
    assert_eq!(request(&mut handler, &mut queue, 0), Err(26));
    assert_eq!(request(&mut handler, &mut queue, 23), Err(26), "the padding counts");
    assert_eq!(queue.count_streams_ready_to_reset(), 1, "a refused request takes no stream");
    assert_eq!(request(&mut handler, &mut queue, 24).unwrap().unwrap()[8..12], [0, 0, 0, 7]);
    assert_eq!(request(&mut handler, &mut queue, 0), Err(25), "25 comes first");
}

#[test]
fn what_each_result_leads_to() {
    for (result, outcome) in [
        (0, Ok(ResponseOutcome::Committed)),
        (1, Ok(ResponseOutcome::Committed)),
        (2, Ok(ResponseOutcome::RolledBack)),
        (5, Ok(ResponseOutcome::RolledBack)),
        (6, Ok(ResponseOutcome::StillWaiting)),
        (7, Err(Refusal::ResponseWrong)),
        (u32::MAX, Err(Refusal::ResponseWrong)),
    ] {
        let (mut queue, mut handler) = (queue(), StreamResetHandler::new(3));
        queue.add(NOW, Message::new(StreamId(1), PpId(0), b"ab"), &SendOptions::default()).unwrap();
        queue.produce(NOW, 1_200).unwrap().unwrap();
        queue.prepare_reset_stream(StreamId(1)).unwrap();
        request(&mut handler, &mut queue, 24).unwrap().unwrap();
        assert_eq!(
            handler.handle_response(&mut queue, &response(2, 0)),
            Ok(ResponseOutcome::Ignored),
            "another number"
        );
        assert_eq!(handler.handle_response(&mut queue, &response(3, result)), outcome, "{result}");
        assert_eq!(handler.request_underway().is_none(), result <= 5);
        queue.add(NOW, Message::new(StreamId(1), PpId(0), b"cd"), &SendOptions::default()).unwrap();
        let ssn = queue.produce(NOW, 1_200).unwrap().map(|fragment| fragment.data.ssn.0);
        let wanted = if result <= 1 {
            Some(0)
        } else if result <= 5 {
            Some(1)
        } else {
            None
        };
        assert_eq!(ssn, wanted, "{result}: counters at 0, counting on, or not open yet");
        assert!(handler.handle_response(&mut queue, &response(3, 0)).is_ok());
    }
}

#[test]
fn a_late_response_to_an_ended_request_is_ignored() {
    let (mut queue, mut handler) = (closed(&[1]), StreamResetHandler::new(3));
    request(&mut handler, &mut queue, 24).unwrap().unwrap();
    handler.reset(&mut queue);
    assert_eq!(handler.request_underway(), None);
    assert_eq!(handler.handle_response(&mut queue, &response(3, 0)), Ok(ResponseOutcome::Ignored));
    queue.prepare_reset_stream(StreamId(1)).unwrap();
    assert_eq!(request(&mut handler, &mut queue, 24).unwrap().unwrap()[8..12], [0, 0, 0, 4], "the numbers go on");
    assert_eq!(handler.handle_response(&mut queue, &response(3, 0)), Ok(ResponseOutcome::Ignored));
    assert_eq!(handler.request_underway(), Some(4));
}

#[test]
fn bytes_that_break_the_layout() {
    let (mut queue, mut handler) = (closed(&[1]), StreamResetHandler::new(3));
    request(&mut handler, &mut queue, 24).unwrap().unwrap();
    let right = response(3, 6);
    for n in 0..right.len() {
        assert_eq!(handler.handle_response(&mut queue, &right[..n]), Err(Refusal::ResponseWrong), "{n} bytes");
    }
    for at in 0..16 {
        let mut bytes = right;
        bytes[at] ^= 1;
        let wanted = match at {
            1 => Ok(ResponseOutcome::StillWaiting),
            8..12 => Ok(ResponseOutcome::Ignored),
            _ => Err(Refusal::ResponseWrong),
        };
        assert_eq!(handler.handle_response(&mut queue, &bytes), wanted, "byte {at}");
    }
    let mut longer = right.to_vec();
    longer.extend([0; 4]);
    assert_eq!(handler.handle_response(&mut queue, &longer), Err(Refusal::ResponseWrong));
    assert_eq!(handler.request_underway(), Some(3));
}
