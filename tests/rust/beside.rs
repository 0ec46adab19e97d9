//! The original queue and the proved one in one process: the same random calls on both, every answer compared.
//!
//! usage: beside [CALLS] [SEED] [PROFILE]
//!
//! Compared are refusals, fragments with all that goes with them, events, ready ids, images byte for byte, and after each call the answers
//! to all questions. Of events kind and number are compared; the original's have no amount, so that of ours is held to the original's state.
//! A start ends at the expiry of a closing stream's half-sent message (document 02, 3/13), and after the restoring without interleaving of
//! an image with a half-sent message (10/13). At the first difference the calls since the last start are shown, in the format of the
//! reference's trace tool.

#![allow(dead_code, unused_imports)]

include!("original.rs");

mod calls;
mod closing;
mod dice;
#[path = "@ORACLE@/image.rs"]
mod image;
mod makes;
mod ours;
mod pair;
mod payload;
mod profiles;
mod tamper;
mod theirs;

fn thousands(n: u64) -> String {
    let digits = n.to_string();
    let groups: Vec<&str> = digits.as_bytes().rchunks(3).rev().map(|g| std::str::from_utf8(g).unwrap()).collect();
    groups.join(",")
}

fn main() {
    let arguments: Vec<String> = std::env::args().skip(1).collect();
    let number = |place: usize, otherwise: u64| {
        arguments.get(place).map_or(otherwise, |a| a.parse().expect("usage: beside [CALLS] [SEED] [PROFILE]"))
    };
    let (calls, seed) = (number(0, 1_000_000), number(1, 1));
    let asked = |profile: &&profiles::Profile| arguments.get(2).is_none_or(|name| name == profile.name);
    let played: Vec<&profiles::Profile> = profiles::PROFILES.iter().filter(asked).collect();
    assert!(!played.is_empty(), "no such profile: tests/rust/profiles.rs has them");
    let mut pair = pair::Pair::default();
    let mut starts = 0;
    while pair.tally.calls < calls {
        let profile = played[starts as usize % played.len()];
        pair.start(format!("profile {}, seed {seed}, start {starts}", profile.name));
        makes::Maker::new(profile, seed, starts, &mut pair).run();
        starts += 1;
    }
    println!("{}", pair.tally);
    println!("{} calls, 0 differ", thousands(pair.tally.calls));
}
