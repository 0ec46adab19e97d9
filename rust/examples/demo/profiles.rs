//! Profiles: what the heads are to write. Those of a head are numbered 101, 102, .. for head 1 and so on.

use desqariy::StreamId;

/// No profile is longer.
pub const LONGEST: usize = 7_500;
const SHORTEST: usize = 1_500;

pub fn number(head: StreamId, place: u64) -> u64 {
    u64::from(head.0) * 100 + place
}

pub fn head_of(number: u64) -> StreamId {
    StreamId((number / 100) as u16)
}

/// The bytes of a profile: each has its own.
pub fn profile(number: u64) -> Vec<u8> {
    let length = SHORTEST + number as usize * 7_919 % (LONGEST - SHORTEST);
    (0..length as u64).map(|i| (i * 31 + number * 17 + i / 251) as u8).collect()
}
