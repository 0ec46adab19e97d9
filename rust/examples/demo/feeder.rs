//! The feeder: queues profiles for the heads, fills packets and sends them, tops a head up when its backlog is low.

use crate::Outcome;
use crate::capture::Capture;
use crate::link::Link;
use crate::link::PORT;
use crate::link::TAG;
use crate::link::chunks_of;
use crate::profiles::head_of;
use crate::profiles::profile;
use desqariy::ChunkKind;
use desqariy::Event;
use desqariy::Filled;
use desqariy::LifecycleId;
use desqariy::MAX_RESET_REQUEST;
use desqariy::Message;
use desqariy::Options;
use desqariy::Packet;
use desqariy::PpId;
use desqariy::Refusal;
use desqariy::ResponseOutcome;
use desqariy::SendOptions;
use desqariy::SendQueue;
use desqariy::SocketTime;
use desqariy::StreamId;
use desqariy::StreamResetHandler;
use desqariy::Tsn;
use desqariy::read_chunk;
use std::collections::BTreeMap;
use std::time::Duration;

/// The most bytes of a packet, and of a fragment's payload.
pub const PACKET: usize = 1_200;
/// A head's backlog is low at so many bytes, all of them together at so many.
pub const MARK: usize = 3_000;
const TOTAL_MARK: usize = 20_000;
/// So many heads are shown when they are topped up; the others are counted.
const SHOWN: usize = 2;

pub fn options() -> Options {
    Options {
        default_stream_buffered_amount_low_threshold: MARK,
        total_buffered_amount_low_threshold: TOTAL_MARK,
        enable_handover_with_outstanding_data: true,
        ..Options::default()
    }
}

/// A new queue for chunks of this kind.
pub fn new_queue(kind: ChunkKind) -> Result<SendQueue, Refusal> {
    let mut queue = SendQueue::new(PACKET, &options())?;
    queue.enable_message_interleaving(kind == ChunkKind::IData);
    Ok(queue)
}

/// A fragment as it went over the wire: its head, and whether it is its profile's first and last.
#[derive(Clone, Copy)]
pub struct Fragment {
    pub head: StreamId,
    pub is_first: bool,
    pub is_last: bool,
}

pub struct Feeder {
    pub queue: SendQueue,
    pub link: Link,
    kind: ChunkKind,
    resets: StreamResetHandler,
    pub now: SocketTime,
    tsn: Tsn,
    pub packets: usize,
    /// All fragments, in the order of their TSNs.
    pub fragments: Vec<Fragment>,
    /// A head's next profile, which waits outside the queue until the head's backlog is low.
    pub next: BTreeMap<StreamId, u64>,
    pub queued: Vec<u64>,
    pub dropped: Vec<u64>,
    pub marks: usize,
    topped_up: usize,
}

impl Feeder {
    pub fn new(kind: ChunkKind, first: Tsn, now: SocketTime, capture: Capture) -> Outcome<Self> {
        Ok(Self {
            queue: new_queue(kind)?,
            link: Link::new(kind, first, capture)?,
            kind,
            resets: StreamResetHandler::new(u32::MAX),
            now,
            tsn: first,
            packets: 0,
            fragments: Vec::new(),
            next: BTreeMap::new(),
            queued: Vec::new(),
            dropped: Vec::new(),
            marks: 0,
            topped_up: 0,
        })
    }

    /// Queues a profile for its head; its length.
    pub fn add(&mut self, id: u64, lifetime: Option<Duration>) -> Outcome<usize> {
        let bytes = profile(id);
        let options = SendOptions { lifecycle_id: LifecycleId::new(id), lifetime, ..Default::default() };
        self.queue.add(self.now, Message::new(head_of(id), PpId(53), &bytes), &options)?;
        self.queued.push(id);
        Ok(bytes.len())
    }

    /// Fills a packet and sends it; `false` if nothing waits.
    pub fn send(&mut self) -> Outcome<bool> {
        let mut buffer = [0; PACKET];
        self.now = self.now + Duration::from_micros(100);
        let wanted =
            Packet { limit: PACKET, source_port: PORT, destination_port: PORT, verification_tag: TAG, tsn: self.tsn };
        let filled = self.queue.fill_packet(self.now, &mut buffer, &wanted)?;
        if let Some(Filled { bytes, chunks }) = filled {
            self.read_back(&buffer[..bytes], chunks)?;
            self.packets += 1;
            self.link.send(self.now, &buffer[..bytes])?;
        }
        self.tell()?;
        Ok(filled.is_some())
    }

    /// Sends until nothing waits and all has arrived.
    pub fn send_all(&mut self) -> Outcome<()> {
        while self.send()? {}
        self.link.settle(self.now)
    }

    /// The packet has so many chunks, with consecutive TSNs.
    fn read_back(&mut self, packet: &[u8], chunks: usize) -> Outcome<()> {
        let read = chunks_of(packet)?;
        if read.len() != chunks {
            return Err("the packet has another number of chunks".into());
        }
        for bytes in read {
            let chunk = read_chunk(bytes)?;
            if (chunk.kind, chunk.tsn) != (self.kind, self.tsn) {
                return Err("a chunk has another kind or TSN".into());
            }
            let data = chunk.fragment.data;
            let (is_first, is_last) = (data.is_beginning, data.is_end);
            self.fragments.push(Fragment { head: data.stream_key.id(), is_first, is_last });
            self.tsn = self.tsn.add_to(1);
        }
        Ok(())
    }

    /// Whether the head's last fragment so far is not its profile's last.
    pub fn is_in_mid_profile(&self, head: StreamId) -> bool {
        self.fragments.iter().rev().find(|fragment| fragment.head == head).is_some_and(|fragment| !fragment.is_last)
    }

    /// Takes what the last call reported.
    pub fn tell(&mut self) -> Outcome<()> {
        for event in self.queue.events().collect::<Vec<_>>() {
            match event {
                Event::OnBufferedAmountLow { stream_id, amount } => self.top_up(stream_id, amount)?,
                Event::OnTotalBufferedAmountLow { amount } => {
                    println!("  all backlogs together low: {amount} bytes left");
                }
                Event::OnLifecycleMessageExpired(_) => (),
                Event::OnLifecycleEnd(profile) => self.dropped.push(profile.value()),
            }
        }
        Ok(())
    }

    /// A head's backlog is low: its next profile is queued. The event tells what is left, so the queue need not be asked.
    fn top_up(&mut self, head: StreamId, left: usize) -> Outcome<()> {
        self.marks += 1;
        let Some(id) = self.next.remove(&head) else { return Ok(()) };
        let length = self.add(id, None)?;
        self.topped_up += 1;
        if self.topped_up <= SHOWN {
            println!("  head {head}: backlog low, {left} bytes left; profile {id} makes it {}", left + length);
        }
        if self.queue.buffered_amount(head) == left + length {
            Ok(())
        } else {
            Err("the mark told another backlog".into())
        }
    }

    /// Asks the other end to reset a closed head's stream, and takes its responses: it is at it while something is underway, then it has
    /// done so.
    pub fn reset(&mut self, head: StreamId) -> Outcome<usize> {
        let mut output = [0; MAX_RESET_REQUEST];
        let last = Tsn(self.tsn.0.wrapping_sub(1));
        let made = self.resets.make_stream_reset_request(&mut self.queue, &mut output, 0, last)?;
        let length = made.ok_or("no head is ready")?;
        for wanted in [ResponseOutcome::StillWaiting, ResponseOutcome::Committed] {
            let response = self.link.ask(self.now, &output[..length], head, last)?;
            if self.resets.handle_response(&mut self.queue, &response)? != wanted {
                return Err("the head answered otherwise".into());
            }
            self.link.settle(self.now)?;
        }
        Ok(length)
    }

    /// The other end begins anew: a stream counts from 0 again.
    pub fn begin_anew(&mut self) -> Outcome<()> {
        self.link.heads.begin_anew(self.kind, self.tsn)
    }

    /// Carries the queue to a second host, which has a clock of its own; the image's length.
    pub fn change_host(&mut self) -> Outcome<usize> {
        let image = self.queue.save(self.now)?;
        let mut second = new_queue(self.kind)?;
        let clock = self.now + Duration::from_secs(77);
        second.restore(clock, &image)?;
        if second.save(clock)? != image || second.total_buffered_amount() != self.queue.total_buffered_amount() {
            return Err("the second host has another queue than the first".into());
        }
        self.queue = second;
        self.resets = StreamResetHandler::new(self.resets.next_number());
        self.now = clock;
        Ok(image.len())
    }

    /// Every profile came whole, to its head and in order, but for the dropped ones; how many.
    pub fn compare(&self) -> Outcome<usize> {
        let heads = &self.link.heads;
        if !self.queue.is_empty() || !self.next.is_empty() || heads.accepted != self.fragments.len() {
            return Err("something was left over".into());
        }
        for head in self.queued.iter().map(|id| head_of(*id)) {
            let kept = self.queued.iter().filter(|id| head_of(**id) == head && !self.dropped.contains(id));
            let came = heads.whole.iter().filter(|(to, _)| *to == head).map(|(_, bytes)| bytes.clone());
            if !came.eq(kept.map(|id| profile(*id))) {
                return Err(format!("head {head} has not got its profiles").into());
            }
        }
        if heads.whole.len() + self.dropped.len() != self.queued.len() {
            return Err("a profile did not arrive".into());
        }
        Ok(heads.whole.len())
    }
}
