//! Kinds of runs. Each puts its weight on other calls and other arguments.

pub struct Profile {
    pub name: &'static str,
    /// How many calls from a start to the next.
    pub calls: u64,
    /// Weights of: add, produce, discard, close, ready, commit, rollback, reset, threshold, priority, interleaving, questions, changeover,
    /// wrong arguments, creation.
    pub weights: [u32; 15],
    /// Streams used, from and to.
    pub streams: (u64, u64),
    pub limits: &'static [u64],
    pub stores: &'static [usize],
    /// The longest payload that is made at random.
    pub longest: u64,
    /// In thousandths: messages with a lifetime, and times taken from one that ends.
    pub lifetimes: u64,
    pub ends: u64,
    /// In thousandths: queues that begin with interleaving.
    pub interleaved: u64,
}

const USUAL: Profile = Profile {
    name: "mixed",
    calls: 600,
    weights: [300, 340, 50, 40, 30, 20, 20, 7, 40, 50, 15, 40, 15, 15, 3],
    streams: (2, 12),
    limits: &[1, 7, 10, 100, 1_000, 1_191, 1_200],
    stores: &[1_000, 5_000, 20_000, 100_000, 2_000_000],
    longest: 4_000,
    lifetimes: 250,
    ends: 100,
    interleaved: 300,
};

pub const PROFILES: [Profile; 11] = [
    USUAL,
    Profile { name: "expiry", lifetimes: 700, ends: 300, ..USUAL },
    Profile {
        name: "interleaved",
        weights: [300, 420, 50, 20, 10, 10, 10, 10, 10, 120, 15, 20, 6, 5, 3],
        interleaved: 950,
        ..USUAL
    },
    Profile {
        name: "closing",
        weights: [280, 240, 90, 140, 80, 50, 50, 20, 20, 20, 30, 20, 8, 5, 3],
        streams: (1, 6),
        limits: &[1, 7, 10, 100],
        longest: 60,
        ..USUAL
    },
    Profile {
        name: "changeover",
        weights: [260, 240, 30, 40, 20, 15, 10, 10, 20, 50, 15, 10, 140, 5, 6],
        streams: (1, 6),
        stores: &[500, 5_000, 20_000],
        longest: 300,
        lifetimes: 500,
        ..USUAL
    },
    Profile {
        name: "many streams",
        calls: 2_500,
        weights: [300, 300, 30, 40, 4, 4, 4, 1, 80, 80, 4, 20, 2, 10, 0],
        streams: (250, 500),
        longest: 2_000,
        ..USUAL
    },
    Profile {
        name: "many messages",
        calls: 5_000,
        weights: [500, 200, 20, 1, 2, 2, 2, 1, 10, 10, 4, 10, 1, 10, 0],
        streams: (5, 60),
        stores: &[5_000, 100_000, 2_000_000],
        longest: 3,
        lifetimes: 30,
        ..USUAL
    },
    Profile {
        name: "long payloads",
        calls: 300,
        weights: [300, 340, 30, 10, 5, 5, 5, 10, 20, 20, 10, 20, 10, 20, 3],
        limits: &[1_000, 1_200, 65_535],
        stores: &[300_000, 1_000_000, 2_000_000],
        longest: 262_144,
        ..USUAL
    },
    Profile {
        name: "limits",
        weights: [260, 260, 50, 30, 10, 10, 10, 10, 90, 60, 20, 20, 20, 120, 5],
        limits: &[1, 2, 1_000, 65_534, 65_535],
        stores: &[1, 2, 300, 5_000, 262_144, 2_000_000],
        longest: 3_000,
        ..USUAL
    },
    Profile {
        name: "nearly full",
        calls: 4_000,
        weights: [500, 420, 60, 8, 4, 4, 4, 1, 10, 20, 6, 10, 2, 5, 0],
        streams: (4, 40),
        limits: &[100, 1_000, 1_200],
        stores: &[3_000, 20_000, 60_000],
        longest: 900,
        lifetimes: 60,
        interleaved: 500,
        ..USUAL
    },
    Profile {
        name: "refusals",
        weights: [160, 120, 30, 30, 10, 10, 10, 5, 30, 30, 10, 20, 20, 400, 10],
        stores: &[300, 1_000, 5_000],
        ..USUAL
    },
];
