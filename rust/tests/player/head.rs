//! The lines of the receiving head: `H`, which creates it, `D`, which gives it a chunk, and `G`, which fetches a message.

use super::FILL;
use super::line::Line;
use super::wire;
use desqariy::*;

pub struct Head {
    receiver: Receiver,
    /// The store's length at creation, and the one that is lent now.
    created: usize,
    pub lent: usize,
}

impl Head {
    pub fn new(mut line: Line) -> (Option<Self>, String) {
        let kind = if line.flag() { ChunkKind::IData } else { ChunkKind::Data };
        let start = Tsn(line.take());
        let length = line.take();
        match Receiver::new(kind, start, length) {
            Err(refusal) => (None, format!("H {}\n", refusal.number())),
            Ok(receiver) => (Some(Head { receiver, created: length, lent: length }), "H 0\n".into()),
        }
    }

    pub fn other_store(&self) -> bool {
        self.lent != self.created
    }

    pub fn receive(&mut self, bytes: &[u8]) -> String {
        match self.receiver.receive(bytes) {
            Err(refusal) => format!("D {}\n", refusal.number()),
            Ok(Received::Repeat) => "D 0 0\n".into(),
            Ok(Received::Accepted) => "D 0 1\n".into(),
        }
    }

    pub fn fetch(&mut self, mut line: Line) -> String {
        let mut buffer = vec![FILL; line.take()];
        let fetched = self.receiver.fetch(&mut buffer);
        let fetched = fetched.map(|message| message.map(|d| (d.stream_key, d.ppid, d.payload.len())));
        let length = fetched.ok().flatten().map_or(0, |(_, _, length)| length);
        assert!(buffer[length..].iter().all(|b| *b == FILL), "a byte past the message was written");
        match fetched {
            Err(refusal) => format!("G {}\n", refusal.number()),
            Ok(None) => "G 0 0\n".into(),
            Ok(Some((key, ppid, length))) => {
                let unordered = u8::from(key.is_unordered());
                format!("G 0 1 {} {unordered} {ppid} {}\n", key.id(), wire::written(&buffer, length))
            }
        }
    }
}
