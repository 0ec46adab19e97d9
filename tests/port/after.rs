// A feeder, written for dcSCTP's SendQueue (before.rs) and ported to the crate of rust/ (after.rs): profiles go to heads, a stream each;
// fragments are kept until they are acknowledged; a head whose backlog is low is topped up; a job is closed and its stream reset.
use desqariy::sink::SendQueue;

use desqariy::{DataToSend, EventSink, LifecycleId, Message, Options, PpId, SendOptions, SocketEvent, SocketTime, StreamId};
use std::cell::RefCell;
use std::collections::VecDeque;
use std::rc::Rc;
use std::time::Duration;

type Sink = VecDeque<SocketEvent>;

const PACKET: usize = 1_000;
const HEADS: u16 = 4;

struct Feeder {
    queue: SendQueue,
    events: Rc<RefCell<Sink>>,
    unacked: VecDeque<DataToSend>,
    now: SocketTime,
    next: u64,
}

impl Feeder {
    fn new(options: &Options) -> Self {
        let events = Rc::new(RefCell::new(Sink::default()));
        let queue = SendQueue::new(PACKET, options, events.clone()).unwrap();
        Feeder { queue, events, unacked: VecDeque::new(), now: SocketTime::zero(), next: 1 }
    }

    fn feed(&mut self, head: StreamId, length: usize, lifetime: Option<Duration>) {
        let bytes: Vec<u8> = (0..length).map(|i| (i as u64 * 31 + self.next) as u8).collect();
        let message = Message::new(head, PpId(53), &bytes);
        let options = SendOptions { lifetime, lifecycle_id: LifecycleId::new(self.next), ..Default::default() };
        self.next += 1;
        self.queue.add(self.now, message, &options).unwrap();
    }

    fn send(&mut self, packets: usize) {
        for _ in 0..packets {
            self.now = self.now + Duration::from_millis(1);
            let Some(chunk) = self.queue.produce(self.now, PACKET).unwrap() else { break };
            println!(
                "head {} mid {} fsn {} bytes {}{}",
                chunk.data.stream_key.id(),
                chunk.data.mid,
                chunk.data.fsn,
                chunk.data.payload.len(),
                if chunk.data.is_end { " end" } else { "" }
            );
            self.unacked.push_back(chunk);
            self.listen();
        }
    }

    fn listen(&mut self) {
        loop {
            let event = self.events.borrow_mut().next_event();
            match event {
                Some(SocketEvent::OnBufferedAmountLow { stream_id: head, .. }) => {
                    println!("head {head} is low");
                    if self.next < 12 {
                        self.feed(head, 2_300, None);
                    }
                }
                Some(SocketEvent::OnTotalBufferedAmountLow { .. }) => println!("all are low"),
                Some(SocketEvent::OnLifecycleMessageExpired(id)) => println!("profile {id} ran out of time"),
                Some(SocketEvent::OnLifecycleEnd(id)) => println!("profile {id} is over"),
                None => break,
            }
        }
    }

    fn acknowledge(&mut self) {
        let bytes: usize = self.unacked.iter().map(|chunk| chunk.data.payload.len()).sum();
        println!("{} fragments acknowledged, {bytes} bytes", self.unacked.len());
        self.unacked.clear();
    }

    fn close(&mut self, head: StreamId) {
        self.queue.prepare_reset_stream(head).unwrap();
        self.listen();
        while !self.queue.has_streams_ready_to_be_reset() {
            self.send(1);
        }
        println!("reset {:?}", self.queue.get_streams_ready_to_reset());
        self.queue.commit_reset_streams();
    }
}

fn main() {
    let mut feeder = Feeder::new(&Options { total_buffered_amount_low_threshold: 3_000, ..Options::default() });
    feeder.queue.enable_message_interleaving(true);
    for head in 1..=HEADS {
        feeder.queue.set_priority(StreamId(head), head * 100).unwrap();
        feeder.queue.set_buffered_amount_low_threshold(StreamId(head), 500).unwrap();
        feeder.feed(StreamId(head), 1_500 * usize::from(head), None);
    }
    feeder.feed(StreamId(2), 900, Some(Duration::from_millis(2)));
    feeder.send(9);
    feeder.acknowledge();
    feeder.close(StreamId(3));
    feeder.send(100);
    feeder.acknowledge();
    println!("{} bytes wait", feeder.queue.total_buffered_amount());
}
