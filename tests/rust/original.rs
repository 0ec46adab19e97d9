// The original Rust, unchanged, put into the program that includes this file; scripts/with-original says where it lies (@RUST@).

#[path = "@RUST@/api/mod.rs"]
pub mod api;
#[path = "@RUST@/packet"]
pub(crate) mod packet {
    pub mod data;
}
#[path = "@RUST@/tx"]
pub(crate) mod tx {
    pub mod send_queue;
    pub mod stream_scheduler;
}
#[path = "@RUST@/types.rs"]
pub(crate) mod types;

/// The sources name this module and lack it.
pub(crate) mod socket {
    pub struct Socket;
}

/// As in the original's lib.rs, which is not among the sources used.
trait EventSink {
    fn add(&mut self, event: api::SocketEvent);
    fn next_event(&mut self) -> Option<api::SocketEvent>;
}

/// A list of events, first in, first out.
#[derive(Default)]
struct Sink(std::collections::VecDeque<api::SocketEvent>);

impl EventSink for Sink {
    fn add(&mut self, event: api::SocketEvent) {
        self.0.push_back(event);
    }

    fn next_event(&mut self) -> Option<api::SocketEvent> {
        self.0.pop_front()
    }
}
