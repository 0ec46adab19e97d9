//! Plays a trace of calls on a `SendQueue` and a `Receiver` and writes the answers, in the format of the reference's trace tool.
//!
//! A trace can lend buffers of a wrong length. A `SendQueue` has a store and an event list of its own, and takes a fragment's size from the
//! buffer, and a `Receiver` has a store of its own, so a call with those wrong lengths cannot be made with them. The player answers such a
//! call by the rule (2, 3 or 10) and counts it.

mod head;
mod line;
mod payload;
mod wire;

use desqariy::*;
use head::Head;
use line::Line;
use line::sum;
use payload::payload;
use std::fmt::Write;
use std::time::Duration;

/// The calls that report nothing, so that the list is empty after them.
const SILENT: &str = "ygkbriowQZ";
/// What a buffer is filled with, so that a byte written past its place is seen.
const FILL: u8 = 0xa5;

struct Creation {
    limit: usize,
    options: Options,
}

impl Creation {
    fn queue(&self) -> Result<SendQueue, Refusal> {
        SendQueue::new(self.limit, &self.options)
    }
}

/// The lengths lent.
struct Lent {
    events: u64,
    fragment: u64,
    image: usize,
    store: usize,
}

pub struct Player {
    creation: Option<Creation>,
    interleaving: bool,
    queue: Option<SendQueue>,
    resets: Option<StreamResetHandler>,
    head: Option<Head>,
    lent: Lent,
    image: Vec<u8>,
    buffer: Vec<u8>,
    calls: u64,
    /// The calls that a `SendQueue` does not let a caller make.
    pub answered_by_rule: u64,
}

/// The number of an answer.
fn number<T>(answer: &Result<T, Refusal>) -> u8 {
    answer.as_ref().map_or_else(|refusal| refusal.number(), |_| 0)
}

/// A count, and so many numbers.
fn list<T: TryFrom<u64>>(line: &mut Line) -> Vec<T> {
    (0..line.take::<usize>()).map(|_| line.take()).collect()
}

fn plan(mut line: Line) -> String {
    let limit = line.take();
    let ids: Vec<u16> = list(&mut line);
    let sizes: Vec<usize> = list(&mut line);
    let ids: Vec<StreamId> = ids.into_iter().map(StreamId).collect();
    let answer = plan_priorities(limit, &ids, &sizes);
    let priorities: String = answer.iter().flatten().map(|p| format!(" {p}")).collect();
    format!("P {}{priorities}\n", number(&answer))
}

fn fragment_line(d: &DataToSend<&[u8]>) -> String {
    format!("p 0 1{}", fragment_fields(d))
}

/// All that goes with a fragment, and the line's end.
fn fragment_fields(d: &DataToSend<&[u8]>) -> String {
    let never = d.expires_at == SocketTime::infinite_future();
    format!(
        " {} {} {} {} {} {} {} {} {} {} {} {} {} {} {}\n",
        d.message_id,
        d.data.stream_key.id(),
        u8::from(d.data.stream_key.is_unordered()),
        d.data.ssn,
        d.data.mid,
        d.data.fsn,
        d.data.ppid,
        u8::from(d.data.is_beginning),
        u8::from(d.data.is_end),
        d.max_retransmissions,
        u8::from(!never),
        if never { 0 } else { d.expires_at.0 },
        d.lifecycle_id.map_or(0, |id| id.value()),
        d.data.payload.len(),
        sum(d.data.payload),
    )
}

impl Player {
    pub fn new() -> Self {
        Player {
            creation: None,
            interleaving: false,
            queue: None,
            resets: None,
            head: None,
            lent: Lent { events: 0, fragment: 0, image: 0, store: 0 },
            image: Vec::new(),
            buffer: vec![FILL; MAX_PAYLOAD],
            calls: 0,
            answered_by_rule: 0,
        }
    }

    fn queue(&mut self) -> &mut SendQueue {
        self.queue.as_mut().expect("there is a queue")
    }

    /// The answer of a call that only the rules can answer.
    fn by_rule(&mut self, letter: &str, refusal: Refusal) -> String {
        self.answered_by_rule += 1;
        format!("{letter} {}\n", refusal.number())
    }

    fn head(&mut self) -> &mut Head {
        self.head.as_mut().expect("there is a receiving head")
    }

    fn receive(&mut self, bytes: &[u8]) -> String {
        if self.head().other_store() {
            return self.by_rule("D", Refusal::StoreWrong);
        }
        self.head().receive(bytes)
    }

    fn fetch(&mut self, line: Line) -> String {
        if self.head().other_store() {
            return self.by_rule("G", Refusal::StoreWrong);
        }
        self.head().fetch(line)
    }

    fn other_store(&self) -> bool {
        self.lent.store != self.creation.as_ref().unwrap().options.max_send_buffer_size
    }

    fn few_events(&self) -> bool {
        self.lent.events < 2_305
    }

    fn events(&mut self, answer: &mut String) {
        for event in self.queue().events() {
            let (kind, number, amount) = match event {
                Event::OnBufferedAmountLow { stream_id, amount } => (1, u64::from(stream_id.0), amount),
                Event::OnTotalBufferedAmountLow { amount } => (2, 0, amount),
                Event::OnLifecycleMessageExpired(id) => (3, id.value(), 0),
                Event::OnLifecycleEnd(id) => (4, id.value(), 0),
            };
            writeln!(answer, "! {kind} {number} {amount}").unwrap();
        }
    }

    /// The answer's lines, each ended.
    pub fn call(&mut self, text: &str) -> String {
        self.calls += 1;
        if let Some(bytes) = text.strip_prefix("R ") {
            return wire::read(bytes);
        }
        if let Some(bytes) = text.strip_prefix("A ") {
            return self.response(&wire::given(bytes));
        }
        if let Some(bytes) = text.strip_prefix("D ") {
            return self.receive(&wire::given(bytes));
        }
        let mut line = Line::new(text);
        let (letter, by_rule) = (line.letter, self.answered_by_rule);
        let answer = match letter {
            "n" => self.create(line),
            "v" => {
                self.lent = Lent { events: line.take(), fragment: line.take(), image: line.take(), store: line.take() };
                "v\n".into()
            }
            "a" => self.add(line),
            "p" => self.produce(line),
            "F" => self.fill(line),
            "d" | "c" | "t" => self.change(line),
            "y" => {
                let answer = self.queue().set_priority(StreamId(line.take()), line.take());
                format!("y {}\n", number(&answer))
            }
            "g" => {
                let asked = self.queue().count_streams_ready_to_reset();
                let ids = self.queue().get_streams_ready_to_reset();
                assert_eq!(asked, ids.len());
                let names: String = ids.iter().map(|id| format!(" {id}")).collect();
                format!("g 0 {}{names}\n", ids.len())
            }
            "k" => {
                self.queue().commit_reset_streams();
                "k 0\n".into()
            }
            "b" => {
                self.queue().rollback_reset_streams();
                "b 0\n".into()
            }
            "r" => {
                self.queue().reset();
                "r 0\n".into()
            }
            "i" => {
                self.interleaving = line.flag();
                let on = self.interleaving;
                self.queue().enable_message_interleaving(on);
                "i 0\n".into()
            }
            "P" => plan(line),
            "W" => wire::write(line),
            "S" => {
                self.resets = Some(StreamResetHandler::new(line.take()));
                "S 0\n".into()
            }
            "Q" => self.request(line),
            "Z" => {
                let resets = self.resets.as_mut().expect("there is a start");
                resets.reset(self.queue.as_mut().expect("there is a queue"));
                "Z 0\n".into()
            }
            "H" => {
                let (head, answer) = Head::new(line);
                self.head = head;
                answer
            }
            "V" => {
                self.head().lent = line.take();
                "V\n".into()
            }
            "G" => self.fetch(line),
            "q" => self.questions(StreamId(line.take())),
            "s" => self.save(SocketTime(line.take())),
            "h" => self.show(line),
            "x" => {
                let place: u64 = line.take();
                if place < self.image.len() as u64 {
                    self.image[place as usize] = line.take();
                }
                "x\n".into()
            }
            "l" => {
                self.image.resize(line.take(), 0);
                "l\n".into()
            }
            "o" => {
                let mut queue = self.creation.as_ref().unwrap().queue().unwrap();
                queue.enable_message_interleaving(self.interleaving);
                self.queue = Some(queue);
                self.resets = None;
                self.restore("o", SocketTime(line.take()))
            }
            "w" => self.restore("w", SocketTime(line.take())),
            other => panic!("unknown call {other}"),
        };
        if SILENT.contains(letter) && self.answered_by_rule == by_rule {
            assert_eq!(self.queue().events().len(), 0, "`{text}` reports nothing");
        }
        answer
    }

    fn create(&mut self, mut line: Line) -> String {
        let creation = Creation {
            limit: line.take(),
            options: Options {
                max_send_buffer_size: line.take(),
                default_stream_priority: line.take(),
                default_stream_buffered_amount_low_threshold: line.take(),
                total_buffered_amount_low_threshold: line.take(),
                enable_handover_with_outstanding_data: line.flag(),
                restart_rule: if line.take_or_0() == 1 { RestartRule::Strict } else { RestartRule::Dcsctp },
            },
        };
        let store = creation.options.max_send_buffer_size;
        self.lent = Lent { events: 2_305, fragment: MAX_PAYLOAD as u64, image: 2_100_000, store };
        self.interleaving = false;
        self.resets = None;
        let answer = creation.queue();
        self.creation = Some(creation);
        let number = number(&answer);
        self.queue = answer.ok();
        format!("n {number}\n")
    }

    fn add(&mut self, mut line: Line) -> String {
        if self.other_store() {
            return self.by_rule("a", Refusal::StoreWrong);
        }
        let now = SocketTime(line.take());
        let (stream, ppid) = (StreamId(line.take()), PpId(line.take()));
        let unordered = line.flag();
        let has_lifetime = line.flag();
        let lifetime = Duration::from_nanos(line.take());
        let has_limit = line.flag();
        let limit = line.take();
        let options = SendOptions {
            unordered,
            lifetime: has_lifetime.then_some(lifetime),
            max_retransmissions: has_limit.then_some(limit),
            lifecycle_id: LifecycleId::new(line.take()),
        };
        let payload = payload(line.take(), line.take());
        let answer = self.queue().add(now, Message::new(stream, ppid, &payload), &options);
        assert_eq!(self.queue().events().len(), 0);
        format!("a {}\n", number(&answer))
    }

    fn produce(&mut self, mut line: Line) -> String {
        let now = SocketTime(line.take());
        let size: u64 = line.take();
        if self.other_store() {
            return self.by_rule("p", Refusal::StoreWrong);
        }
        if self.few_events() {
            return self.by_rule("p", Refusal::EventListShort);
        }
        let domain = now.0 <= MAX_TIME && (1..=MAX_PAYLOAD as u64).contains(&size);
        if self.lent.fragment < size && domain {
            return self.by_rule("p", Refusal::BufferShort);
        }
        // Both ways in turn, where a buffer of that size can be had.
        let into = self.calls % 2 == 0 && size <= MAX_PAYLOAD as u64;
        let mut answer =
            if into { self.produce_into(now, size as usize) } else { self.produce_lent(now, size as usize) };
        self.events(&mut answer);
        answer
    }

    fn produce_lent(&mut self, now: SocketTime, size: usize) -> String {
        match self.queue().produce(now, size) {
            Err(refusal) => format!("p {}\n", refusal.number()),
            Ok(None) => "p 0 0\n".into(),
            Ok(Some(d)) => fragment_line(&d),
        }
    }

    fn produce_into(&mut self, now: SocketTime, size: usize) -> String {
        let mut buffer = std::mem::take(&mut self.buffer);
        let mut written = 0;
        let answer = match self.queue().produce_into(now, &mut buffer[..size]) {
            Err(refusal) => format!("p {}\n", refusal.number()),
            Ok(None) => "p 0 0\n".into(),
            Ok(Some(d)) => {
                written = d.data.payload.len();
                fragment_line(&d)
            }
        };
        buffer[..written].fill(FILL);
        assert!(buffer[..size].iter().all(|b| *b == FILL), "a byte past the fragment was written");
        self.buffer = buffer;
        answer
    }

    fn fill(&mut self, mut line: Line) -> String {
        let now = SocketTime(line.take());
        let limit = line.take::<u64>() as usize;
        let mut buffer = vec![FILL; line.take()];
        let packet = Packet {
            limit,
            source_port: line.take(),
            destination_port: line.take(),
            verification_tag: line.take(),
            tsn: Tsn(line.take()),
        };
        let allowed = (MIN_PACKET_LIMIT..=MAX_PACKET_LIMIT).contains(&limit) && limit <= buffer.len();
        if allowed && self.other_store() {
            return self.by_rule("F", Refusal::StoreWrong);
        }
        if allowed && self.few_events() {
            return self.by_rule("F", Refusal::EventListShort);
        }
        let answer = self.queue().fill_packet(now, &mut buffer, &packet);
        let (bytes, chunks) = answer.ok().flatten().map_or((0, 0), |f| (f.bytes, f.chunks));
        assert!(buffer[bytes..].iter().all(|b| *b == FILL), "a byte past the packet was written");
        let mut lines = match answer {
            Err(refusal) => format!("F {}\n", refusal.number()),
            Ok(_) => format!("F 0 {bytes} {chunks} {}{}\n", sum(&buffer), wire::shown(&buffer[..bytes])),
        };
        self.events(&mut lines);
        lines
    }

    fn change(&mut self, mut line: Line) -> String {
        let letter = line.letter;
        if self.few_events() {
            return self.by_rule(letter, Refusal::EventListShort);
        }
        let stream = StreamId(line.take());
        let answer = match letter {
            "d" => {
                self.queue().discard(stream, OutgoingMessageId(line.take()));
                Ok(())
            }
            "c" => self.queue().prepare_reset_stream(stream),
            _ => self.queue().set_buffered_amount_low_threshold(stream, line.take()),
        };
        let mut lines = format!("{letter} {}\n", number(&answer));
        self.events(&mut lines);
        lines
    }

    fn questions(&mut self, stream: StreamId) -> String {
        let q = self.queue();
        format!(
            "q {} {} {} {} {} {} {} {}\n",
            q.buffered_amount(stream),
            q.total_buffered_amount(),
            u8::from(q.is_empty()),
            q.buffered_amount_low_threshold(stream),
            q.get_priority(stream),
            u8::from(q.has_streams_ready_to_be_reset()),
            u8::from(q.has_data_to_send()),
            q.get_handover_readiness().0,
        )
    }

    fn request(&mut self, mut line: Line) -> String {
        let mut output = vec![FILL; line.take()];
        let resets = self.resets.as_mut().expect("there is a start");
        let before = (resets.next_number(), resets.request_underway());
        let queue = self.queue.as_mut().expect("there is a queue");
        match resets.make_stream_reset_request(queue, &mut output, line.take(), Tsn(line.take())) {
            Err(refusal) => {
                assert_eq!((resets.next_number(), resets.request_underway()), before, "a refused call changes nothing");
                assert!(output.iter().all(|b| *b == FILL), "a refused call writes nothing");
                format!("Q {}\n", refusal.number())
            }
            Ok(written) => format!("Q 0 {}\n", wire::written(&output, written.unwrap_or(0))),
        }
    }

    fn response(&mut self, bytes: &[u8]) -> String {
        let resets = self.resets.as_mut().expect("there is a start");
        match resets.handle_response(self.queue.as_mut().expect("there is a queue"), bytes) {
            Err(refusal) => format!("A {}\n", refusal.number()),
            Ok(outcome) => format!("A 0 {}\n", outcome as u8),
        }
    }

    fn save(&mut self, now: SocketTime) -> String {
        if self.other_store() {
            return self.by_rule("s", Refusal::StoreWrong);
        }
        let mut lent = vec![FILL; self.lent.image];
        let answer = self.queue().save_into(now, &mut lent);
        let length = *answer.as_ref().unwrap_or(&0);
        assert!(lent[length..].iter().all(|b| *b == FILL), "a byte past the image was written");
        match answer {
            Err(refusal) => format!("s {}\n", refusal.number()),
            Ok(length) => {
                lent.truncate(length);
                assert!(self.queue().save(now).unwrap() == lent, "both ways of saving write the same image");
                self.image = lent;
                format!("s 0 {length} {}\n", sum(&self.image))
            }
        }
    }

    fn show(&self, mut line: Line) -> String {
        let bytes = self.image.iter().skip(line.take::<u64>().min(1 << 32) as usize);
        let hex: String = bytes.take(line.take::<u64>().min(1 << 32) as usize).map(|b| format!("{b:02x}")).collect();
        if hex.is_empty() { "h\n".into() } else { format!("h {hex}\n") }
    }

    fn restore(&mut self, letter: &str, now: SocketTime) -> String {
        if self.other_store() {
            return self.by_rule(letter, Refusal::StoreWrong);
        }
        let image = std::mem::take(&mut self.image);
        let answer = self.queue().restore(now, &image);
        self.image = image;
        format!("{letter} {}\n", number(&answer))
    }
}
