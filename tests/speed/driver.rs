//! Times the proved queue, through the safe crate, beside the original, in one process.
//!
//! usage: driver [KB OF STACK]
//!
//! Both queues get the same calls: messages from a caller's buffer, fragments to a caller's buffer. The original's add is timed with a copy of
//! the payload into a buffer of its own, its produce with a copy of the fragment into the caller's.
//! The receiving head stands beside a plain reassembly, written for the purpose.

#![allow(dead_code, unused_imports)]

include!("original.rs");

mod c;
mod clock;
mod depth;
mod dropping;
mod expired;
mod images;
mod limits;
mod owned;
mod packets;
mod planning;
mod reassembly;
mod receiving;
mod resets;
mod sending;
mod sides;
mod stack;
mod steady;
mod wire;

fn main() {
    let stack = std::env::args().nth(1).map_or(264, |a| a.parse().expect("usage: driver [KB OF STACK]"));
    stack::pass_over(stack);
    println!("\n| what (size asked for: 1,200) | ours, ns a call | the Rust, ns a call | ratio |\n|---|---|---|---|");
    sending::profiles();
    dropping::discarding();
    dropping::closing();
    images::saving_and_restoring();
    sending::growth();
    planning::planning();
    wire::chunks();
    packets::packets();
    resets::resets();
    receiving::receiving_and_fetching();
    expired::passing();
    depth::depth();
    steady::steady();
    steady::longest_calls();
    owned::beside_checked();
    println!("\nProfile 3 has 600 messages: 1,024 of 3,000 bytes do not fit into the largest store, 2,000,000 bytes.");
}
