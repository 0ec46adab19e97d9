#![doc = include_str!("../README.md")]
#![deny(unsafe_code)]
#![deny(missing_docs)]
#![warn(clippy::pedantic)]
#![allow(
    clippy::cast_possible_truncation,
    reason = "the library tells every number as 64 bits; that each fits the width of its field is proved, and usize has 64 bits (build.rs)"
)]

mod chunk;
mod event;
#[allow(unsafe_code)]
mod ffi;
mod fragment;
mod ids;
mod image;
mod limits;
mod message;
mod options;
mod packet;
mod planning;
mod questions;
mod queue;
mod readiness;
mod receiver;
mod refusal;
mod resets;
pub mod sink;
mod streams;
mod time;

pub use chunk::Chunk;
pub use chunk::ChunkKind;
pub use chunk::read_chunk;
pub use chunk::write_chunk;
pub use event::Event;
pub use event::EventSink;
pub use event::Events;
pub use event::SocketEvent;
pub use fragment::Data;
pub use fragment::DataToSend;
pub use ids::Fsn;
pub use ids::Mid;
pub use ids::OutgoingMessageId;
pub use ids::PpId;
pub use ids::Ssn;
pub use ids::StreamId;
pub use ids::StreamKey;
pub use ids::Tsn;
pub use limits::MAX_CHUNK_PAYLOAD;
pub use limits::MAX_FRAGMENTS;
pub use limits::MAX_MESSAGES;
pub use limits::MAX_PACKET_LIMIT;
pub use limits::MAX_PAYLOAD;
pub use limits::MAX_PAYLOAD_LIMIT;
pub use limits::MAX_PLANNED;
pub use limits::MAX_RESET_REQUEST;
pub use limits::MAX_STORE;
pub use limits::MAX_STREAMS;
pub use limits::MAX_TIME;
pub use limits::MIN_PACKET_LIMIT;
pub use limits::TSN_WINDOW;
pub use message::LifecycleId;
pub use message::Message;
pub use message::SendOptions;
pub use options::Options;
pub use options::RestartRule;
pub use packet::Filled;
pub use packet::Packet;
pub use planning::plan_priorities;
pub use queue::SendQueue;
pub use readiness::HandoverReadiness;
pub use receiver::Delivery;
pub use receiver::Received;
pub use receiver::Receiver;
pub use refusal::Refusal;
pub use resets::ResponseOutcome;
pub use resets::StreamResetHandler;
pub use time::SocketTime;
