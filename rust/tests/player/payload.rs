//! The payload that a line of a trace stands for. (Also a module of `tests/rust`.)

/// So many bytes, by a generator that starts with the seed.
pub fn payload(length: usize, seed: u64) -> Vec<u8> {
    let mut x = seed % (1 << 31);
    let mut next = || {
        x = (x * 1_103_515_245 + 12_345) % (1 << 31);
        (x / 65_536) as u8
    };
    (0..length).map(|_| next()).collect()
}
