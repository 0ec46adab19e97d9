//! Makes the calls: arguments that matter to the queue as it is, near its limits and its own numbers.

use crate::calls::Adding;
use crate::calls::Answer;
use crate::calls::Call;
use crate::dice::Dice;
use crate::pair::Pair;
use crate::profiles::Profile;
use crate::tamper;
use std::collections::VecDeque;

const MS: u64 = 1_000_000;
const MAX_TIME: u64 = 4_611_686_018_427_387_903;
const MAX_PAYLOAD: u64 = 262_144;

pub struct Maker<'a> {
    profile: &'a Profile,
    dice: Dice,
    pair: &'a mut Pair,
    left: u64,
    now: u64,
    pool: Vec<u16>,
    lifecycle: u64,
    /// When messages added lately expire.
    ends: VecDeque<u64>,
    /// Stream and message of the last fragment that was not a last one.
    half_sent: Option<(u16, u32)>,
    creation: (u64, usize, u16),
}

impl<'a> Maker<'a> {
    pub fn new(profile: &'a Profile, seed: u64, start: u64, pair: &'a mut Pair) -> Self {
        Maker {
            profile,
            dice: Dice::new(seed ^ (start << 32)),
            pair,
            left: profile.calls,
            now: 0,
            pool: Vec::new(),
            lifecycle: 0,
            ends: VecDeque::new(),
            half_sent: None,
            creation: (0, 0, 0),
        }
    }

    pub fn run(mut self) {
        self.create();
        while self.left > 0 && !self.pair.over {
            self.step();
        }
    }

    fn call(&mut self, call: Call) -> Answer {
        self.left = self.left.saturating_sub(1);
        self.pair.call(call)
    }

    fn step(&mut self) {
        match self.dice.weighted(&self.profile.weights) {
            0 => {
                for _ in 0..self.dice.pick(&[1, 1, 2, 4]) {
                    let a = self.adding();
                    self.add(a);
                }
            }
            1 => {
                for _ in 0..self.dice.pick(&[1, 1, 1, 2, 3, 6]) {
                    let (now, size) = (self.tick(), self.size());
                    self.produce(now, size);
                }
            }
            2 => self.discard(),
            3 => {
                let stream = self.half_or_any();
                self.call(Call::Close { stream });
            }
            4 => {
                self.call(Call::Ready);
            }
            5 => {
                self.call(Call::Commit);
            }
            6 => {
                self.call(Call::Rollback);
            }
            7 => {
                self.call(Call::Reset);
            }
            8 => {
                let stream = self.half_or_any();
                let value = self.threshold(stream);
                self.call(Call::Threshold { stream, value });
            }
            9 => {
                let (stream, value) = (self.stream(), self.priority());
                self.call(Call::Priority { stream, value });
            }
            10 => {
                let on = self.dice.chance(500);
                self.call(Call::Interleave { on });
            }
            11 => {
                let stream = self.stream();
                self.call(Call::Ask { stream });
            }
            12 => self.changeover(),
            13 => self.wrong(),
            _ => self.create(),
        }
    }

    // Arguments.

    /// A time: mostly later than the last, at times earlier, at times at the end of a lifetime.
    fn tick(&mut self) -> u64 {
        let d = &mut self.dice;
        if d.chance(40) {
            self.now = self.now.saturating_sub(d.pick(&[1, 999_999, MS, 7 * MS, 50 * MS]));
        } else if d.chance(self.profile.ends) && !self.ends.is_empty() {
            let end = self.ends[d.below(self.ends.len() as u64) as usize] + d.pick(&[0, 1, 1, 2]) - 1;
            if end < self.now + 1_000_000 * MS {
                self.now = end;
            }
        } else if d.chance(600) {
            self.now += d.pick(&[0, 1, 1_000, 499_999, 500_000, 999_999, MS, MS + 1, 3 * MS, 20 * MS]);
        }
        self.now = self.now.min(MAX_TIME);
        self.now
    }

    fn stream(&mut self) -> u16 {
        if self.dice.chance(20) { self.dice.next() as u16 } else { self.dice.pick(&self.pool) }
    }

    /// The stream in mid-message, if there is one, or any.
    fn half_or_any(&mut self) -> u16 {
        match self.half_sent {
            Some((stream, _)) if self.dice.chance(400) => stream,
            _ => self.stream(),
        }
    }

    fn priority(&mut self) -> u16 {
        let any = self.dice.next() as u16;
        self.dice.pick(&[0, 1, 2, 64, 255, 256, 257, 512, 4_096, 65_535, self.creation.2, any])
    }

    fn length(&mut self) -> usize {
        let (limit, longest) = (self.creation.0, self.profile.longest);
        let any = self.dice.from_to(1, longest);
        let some = self.dice.from_to(1, longest.min(3 * limit));
        self.dice
            .pick(&[1, 2, some, some, any, limit - 1, limit, limit + 1, 2 * limit, 3 * limit + 1])
            .clamp(1, longest) as usize
    }

    fn size(&mut self) -> u64 {
        let limit = self.creation.0;
        let total = self.pair.theirs().total();
        let some = self.dice.from_to(1, 2 * limit);
        let sizes = [1, limit, limit, limit, limit / 2, limit + 1, limit - 1, some, total, MAX_PAYLOAD];
        self.dice.pick(&sizes).clamp(1, MAX_PAYLOAD)
    }

    fn threshold(&mut self, stream: u16) -> u64 {
        let [amount, _, _, threshold, ..] = self.pair.theirs().questions(stream);
        let any = self.dice.below(5_000);
        let near = [amount, amount + 1, amount.saturating_sub(1), amount / 2, threshold, 0, 1, any, u64::MAX];
        self.dice.pick(&near)
    }

    fn lifetime(&mut self) -> u64 {
        let d = &mut self.dice;
        let any = d.below(40 * MS);
        d.pick(&[0, 1, 499_999, 999_999, MS, MS + 1, 2 * MS, any, any, 3_000_000_000 * MS, 2_147_483_647 * MS])
    }

    fn adding(&mut self) -> Adding {
        let now = self.tick();
        let lifetime = if self.dice.chance(self.profile.lifetimes) { Some(self.lifetime()) } else { None };
        if self.dice.chance(500) {
            self.lifecycle += 1;
        }
        let d = &mut self.dice;
        let lifecycle = if d.chance(500) { self.lifecycle } else { d.pick(&[0, 0, 0, 0, u64::MAX]) };
        let retransmissions = if d.chance(300) { Some(d.pick(&[0, 1, 65_534, 65_535])) } else { None };
        let any = d.next() as u32;
        Adding {
            now,
            ppid: d.pick(&[0, 51, 53, u32::MAX, any]),
            unordered: d.chance(300),
            lifetime,
            retransmissions,
            lifecycle,
            seed: d.below(1 << 31),
            stream: self.stream(),
            length: self.length(),
        }
    }

    // Calls.

    fn create(&mut self) {
        let d = &mut self.dice;
        let (limit, store) = (d.pick(self.profile.limits), d.pick(self.profile.stores));
        let any = d.next() as u16;
        let priority = d.pick(&[256, 256, 256, 0, 1, 65_535, any]);
        let threshold = d.pick(&[0, 0, 0, 1, 50, 1_000, u64::MAX]);
        let total = d.pick(&[0, 1, 100, 1_000, 1_800_000, u64::MAX]);
        let handover = d.chance(500);
        let many = d.from_to(self.profile.streams.0, self.profile.streams.1);
        self.pool = (0..many).map(|_| if d.chance(500) { d.below(many) as u16 } else { d.next() as u16 }).collect();
        self.creation = (limit, store, priority);
        self.half_sent = None;
        self.call(Call::New { limit, store, priority, threshold, total, handover });
        if self.dice.chance(self.profile.interleaved) {
            self.call(Call::Interleave { on: true });
        }
    }

    fn add(&mut self, adding: Adding) -> Answer {
        let end = adding.lifetime.map(|l| adding.now.saturating_add(l).saturating_add(MS));
        if let Some(end) = end.filter(|end| *end < MAX_TIME) {
            self.ends.push_back(end);
            if self.ends.len() > 12 {
                self.ends.pop_front();
            }
        }
        self.call(Call::Add(adding))
    }

    fn produce(&mut self, now: u64, size: u64) {
        let into = self.dice.chance(500);
        let answer = self.call(Call::Produce { now, size, into });
        if let [id, stream, .., last, _, _, _, _] = answer.numbers[..] {
            self.half_sent = (last == 0).then_some((stream as u16, id as u32));
        }
    }

    /// Mostly the head of a stream; at times a message behind it, or none at all.
    fn discard(&mut self) {
        let any = self.dice.next() as u32;
        let (stream, id) = match self.half_sent {
            Some(half) if self.dice.chance(300) => half,
            _ if self.pair.theirs().total() < 50_000 && self.dice.chance(900) => {
                let messages = self.pair.theirs().record(0).tx.queued_messages;
                if messages.is_empty() {
                    return;
                }
                let mut at = self.dice.below(messages.len() as u64) as usize;
                if self.dice.chance(800) {
                    at = messages.iter().position(|m| m.stream_id == messages[at].stream_id).unwrap();
                }
                (messages[at].stream_id, messages[at].message_id as u32)
            }
            _ => (self.stream(), self.dice.pick(&[0, 1, u32::MAX, any])),
        };
        self.call(Call::Discard { stream, id });
    }

    /// Saves; then goes over to a new queue, often with a changed image.
    fn changeover(&mut self) {
        let now = self.tick();
        if self.call(Call::Save { now, room: None }).refusal != 0 {
            return;
        }
        let length = self.pair.image.len();
        if self.dice.chance(200) {
            let room = Some(length + self.dice.below(3) as usize - 1);
            self.call(Call::Save { now, room });
        }
        if self.dice.chance(250) {
            return;
        }
        if self.dice.chance(80) {
            self.elsewhere(now);
            return;
        }
        let whole = self.pair.image.clone();
        if self.dice.chance(600) {
            for call in tamper::changes(&mut self.dice, &whole, self.creation.2) {
                self.call(call);
            }
        }
        if self.dice.chance(150) {
            self.call(Call::Restore { now });
        }
        let later = if self.dice.chance(700) { now } else { self.tick() };
        self.half_sent = None;
        if self.call(Call::Over { now: later }).refusal != 0
            && let Some(calls) = tamper::back(&self.pair.image, &whole)
        {
            // Back to what was saved, so that the messages are not lost.
            for call in calls {
                self.call(call);
            }
            self.call(Call::Over { now: later });
        }
        if self.dice.chance(500) {
            self.call(Call::Save { now: later, room: None });
        }
    }

    /// The saved image into a queue that was created otherwise.
    fn elsewhere(&mut self, now: u64) {
        let (limit, store, priority) = self.creation;
        let d = &mut self.dice;
        let store = d.pick(&[store, store / 2 + 1, store - store / 4, 2_000_000]);
        let priority = d.pick(&[priority, priority, priority.wrapping_add(1)]);
        let limit = d.pick(&[limit, 1, 1_000]);
        self.creation = (limit, store, priority);
        self.half_sent = None;
        self.call(Call::New { limit, store, priority, threshold: 10, total: 100, handover: true });
        if self.dice.chance(300) {
            self.call(Call::Interleave { on: true });
        }
        if self.dice.chance(200) {
            let stream = self.stream();
            self.call(Call::Priority { stream, value: 5 });
        }
        self.call(Call::Restore { now });
        if self.dice.chance(300) {
            self.call(Call::Restore { now });
        }
    }

    /// A call with an argument out of its range, or just inside.
    fn wrong(&mut self) {
        let late = self.dice.pick(&[MAX_TIME, MAX_TIME + 1, 1 << 63, u64::MAX]);
        match self.dice.below(9) {
            0 => {
                let mut a = self.adding();
                a.now = late;
                a.lifetime = a.lifetime.map(|_| self.dice.pick(&[0, MAX_TIME, MAX_TIME + 1, u64::MAX]));
                self.add(a);
            }
            1 => {
                let mut a = self.adding();
                a.lifetime = Some(late);
                self.add(a);
            }
            2 => {
                let used = bytes::live().1;
                let free = (self.creation.1 - used) as u64;
                let length =
                    self.dice.pick(&[0, MAX_PAYLOAD, MAX_PAYLOAD + 1, 300_000, free, free, free + 1, free + 1]);
                let mut a = self.adding();
                a.length = length.min(300_000) as usize;
                self.add(a);
            }
            3 => {
                let size = self.size();
                self.produce(late, size);
            }
            4 => {
                let (now, size) =
                    (self.tick(), self.dice.pick(&[0, 1, MAX_PAYLOAD, MAX_PAYLOAD + 1, 1 << 32, u64::MAX]));
                self.produce(now, size);
            }
            5 => {
                let stream = self.dice.next() as u16;
                let call = match self.dice.below(3) {
                    0 => Call::Close { stream },
                    1 => Call::Threshold { stream, value: 3 },
                    _ => Call::Priority { stream, value: 3 },
                };
                self.call(call);
            }
            6 => {
                self.call(Call::Save { now: late, room: None });
            }
            7 => {
                self.call(Call::Restore { now: late });
            }
            _ => {
                let d = &mut self.dice;
                let limit = d.pick(&[0, 1, 65_535, 65_536, 1 << 32, u64::MAX]);
                let store = d.pick(&[0, 1, 1_999_999, 2_000_000, 2_000_001, 2_100_000]);
                let answer =
                    self.call(Call::New { limit, store, priority: 1, threshold: 0, total: 0, handover: false });
                self.half_sent = None;
                if answer.refusal == 0 {
                    self.creation = (limit, store, 1);
                } else {
                    self.create();
                }
            }
        }
    }
}
