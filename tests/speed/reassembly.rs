//! A plain reassembly, which the receiving head is timed beside: a hash map of the messages underway, in each a hash map of its fragments'
//! payloads, and one copy into the caller's buffer. It counts repeats and the window of TSNs, and no limits of a store.

use std::collections::HashMap;
use std::collections::HashSet;
use std::collections::VecDeque;
use std::collections::hash_map::Entry;

const WINDOW: u32 = 1_024;

/// A message's stream and its SSN (DATA) or MID (I-DATA).
type Key = (u16, u32);

/// The fragments of a message by TSN (DATA) or FSN (I-DATA), and which is the first, which the last.
#[derive(Default)]
struct Message {
    parts: HashMap<u32, Vec<u8>>,
    first: Option<u32>,
    last: Option<u32>,
    ppid: u32,
}

impl Message {
    fn is_whole(&self) -> bool {
        match (self.first, self.last) {
            (Some(first), Some(last)) => self.parts.len() == last.wrapping_sub(first) as usize + 1,
            _ => false,
        }
    }
}

/// A chunk's fields.
struct Fragment<'a> {
    tsn: u32,
    key: Key,
    index: u32,
    ppid: u32,
    is_first: bool,
    is_last: bool,
    payload: &'a [u8],
}

fn number(bytes: &[u8]) -> u32 {
    bytes.iter().fold(0, |n, &b| n << 8 | u32::from(b))
}

/// The fields of an ordered chunk.
fn parse(interleaved: bool, bytes: &[u8]) -> Option<Fragment<'_>> {
    let header = if interleaved { 20 } else { 16 };
    if bytes.len() < header || bytes[0] != if interleaved { 64 } else { 0 } {
        return None;
    }
    let length = number(&bytes[2..4]) as usize;
    if length <= header || length.next_multiple_of(4) != bytes.len() {
        return None;
    }
    let (tsn, stream) = (number(&bytes[4..8]), number(&bytes[8..10]) as u16);
    let is_first = bytes[1] & 2 != 0;
    let (id, index, ppid) = if !interleaved {
        (number(&bytes[10..12]), tsn, number(&bytes[12..16]))
    } else {
        let last_word = number(&bytes[16..20]);
        let (index, ppid) = if is_first { (0, last_word) } else { (last_word, 0) };
        (number(&bytes[12..16]), index, ppid)
    };
    Some(Fragment {
        tsn,
        key: (stream, id),
        index,
        ppid,
        is_first,
        is_last: bytes[1] & 1 != 0,
        payload: &bytes[header..length],
    })
}

pub struct Reassembly {
    interleaved: bool,
    /// The last TSN received without a gap, and those received past it.
    last: u32,
    ahead: HashSet<u32>,
    messages: HashMap<Key, Message>,
    next: HashMap<u16, u32>,
    ready: VecDeque<(Key, Message)>,
}

impl Reassembly {
    pub fn new(interleaved: bool, starting_tsn: u32) -> Self {
        Reassembly {
            interleaved,
            last: starting_tsn.wrapping_sub(1),
            ahead: HashSet::new(),
            messages: HashMap::new(),
            next: HashMap::new(),
            ready: VecDeque::new(),
        }
    }

    /// Whether the TSN is new and in the window; then it is received.
    fn pass(&mut self, tsn: u32) -> bool {
        let past = tsn.wrapping_sub(self.last);
        if past == 0 || past > WINDOW {
            return false;
        }
        if past > 1 {
            return self.ahead.insert(tsn);
        }
        self.last = tsn;
        while !self.ahead.is_empty() && self.ahead.remove(&self.last.wrapping_add(1)) {
            self.last = self.last.wrapping_add(1);
        }
        true
    }

    /// Whether the chunk is accepted.
    pub fn receive(&mut self, bytes: &[u8]) -> bool {
        let Some(fragment) = parse(self.interleaved, bytes) else { return false };
        if !self.pass(fragment.tsn) {
            return false;
        }
        let message = self.messages.entry(fragment.key).or_default();
        message.parts.insert(fragment.index, fragment.payload.to_vec());
        if fragment.is_first {
            message.first = Some(fragment.index);
            message.ppid = fragment.ppid;
        }
        if fragment.is_last {
            message.last = Some(fragment.index);
        }
        if message.is_whole() {
            self.promote(fragment.key.0);
        }
        true
    }

    /// The whole messages that are next in their stream become ready.
    fn promote(&mut self, stream: u16) {
        let next = self.next.entry(stream).or_default();
        while let Entry::Occupied(entry) = self.messages.entry((stream, *next)) {
            if !entry.get().is_whole() {
                break;
            }
            self.ready.push_back(entry.remove_entry());
            *next = next.wrapping_add(1) & if self.interleaved { u32::MAX } else { 0xffff };
        }
    }

    /// The stream, protocol id and length of the message that is ready first; its bytes are in the buffer.
    pub fn fetch(&mut self, buffer: &mut [u8]) -> Option<(u16, u32, usize)> {
        let ((stream, _), message) = self.ready.pop_front()?;
        let mut at = 0;
        for k in 0..message.parts.len() as u32 {
            let part = &message.parts[&message.first.unwrap().wrapping_add(k)];
            buffer[at..at + part.len()].copy_from_slice(part);
            at += part.len();
        }
        Some((stream, message.ppid, at))
    }
}
