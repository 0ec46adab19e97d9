//! Both queues, with what a caller has around them.

use crate::Sink;
use crate::api;
use crate::tx;
use bytes::Bytes;
use std::cell::RefCell;
use std::rc::Rc;

pub const SIZE: usize = 1_200;

/// The proved queue, through the safe crate.
pub struct Ours {
    pub queue: desqariy::SendQueue,
    options: desqariy::SendOptions,
}

impl Ours {
    pub fn new(interleaved: bool) -> Self {
        let mut queue = desqariy::SendQueue::new(SIZE, &desqariy::Options::default()).unwrap();
        queue.enable_message_interleaving(interleaved);
        Ours { queue, options: desqariy::SendOptions::default() }
    }

    pub fn add(&mut self, stream: u16, payload: &[u8]) {
        let message = desqariy::Message::new(desqariy::StreamId(stream), desqariy::PpId(53), payload);
        self.queue.add(desqariy::SocketTime::zero(), message, &self.options).unwrap();
    }

    /// Whether there was a fragment; its bytes are in the buffer.
    pub fn produce(&mut self, buffer: &mut [u8]) -> bool {
        self.queue.produce_into(desqariy::SocketTime::zero(), buffer).unwrap().is_some()
    }
}

/// The original queue. A caller that keeps its buffers copies a payload into a buffer of the queue's, and a fragment into its own.
pub struct Theirs {
    pub queue: tx::send_queue::SendQueue,
    options: api::SendOptions,
    sink: Rc<RefCell<Sink>>,
}

impl Theirs {
    pub fn new(interleaved: bool) -> Self {
        let sink = Rc::new(RefCell::new(Sink::default()));
        let mut queue = tx::send_queue::SendQueue::new(SIZE, &api::Options::default(), sink.clone());
        queue.enable_message_interleaving(interleaved);
        Theirs { queue, options: api::SendOptions::default(), sink }
    }

    pub fn add(&mut self, stream: u16, payload: &[u8]) {
        let message = api::Message::new(api::StreamId(stream), api::PpId(53), Bytes::from(payload.to_vec()));
        self.queue.add(api::SocketTime::zero(), message, &self.options);
    }

    /// Whether there was a fragment; its bytes are in the buffer.
    pub fn produce(&mut self, buffer: &mut [u8]) -> bool {
        let Some(d) = self.queue.produce(api::SocketTime::zero(), buffer.len()) else { return false };
        buffer[..d.data.payload.len()].copy_from_slice(&d.data.payload);
        self.forget_events();
        true
    }

    pub fn forget_events(&mut self) {
        self.sink.borrow_mut().0.clear();
    }
}

pub fn payload(length: usize) -> Vec<u8> {
    (0..length).map(|i| i as u8).collect()
}
