//! The owned functions beside the checked ones and beside the original, in one run: the same caller has the words and the store, and calls the
//! functions themselves, the checked or the owned.

use crate::api;
use crate::api::SocketTime;
use crate::api::handover::SocketHandoverState;
use crate::c;
use crate::clock::Lap;
use crate::clock::Round;
use crate::clock::best_of;
use crate::dropping::settle;
use crate::limits::EVENT_WORDS;
use crate::limits::MAX_STORE;
use crate::limits::OUT_WORDS;
use crate::limits::QUEUE_WORDS;
use crate::packets::fragments;
use crate::sides::SIZE;
use crate::sides::Theirs;
use crate::sides::payload;
use std::hint::black_box;

const STREAMS: u16 = 256;
const MESSAGES: usize = 1_024;
/// A DATA chunk's header.
const HEADER: usize = 16;
/// Room for an image of the largest store.
const IMAGE: usize = MAX_STORE + crate::limits::MAX_IMAGE_RECORDS;

/// What is timed.
trait Queue {
    fn create() -> Self;
    fn add(&mut self, stream: u16, payload: &[u8]);
    /// Whether there was a fragment.
    fn produce(&mut self, buffer: &mut [u8]) -> bool;
    /// Whether there was a packet.
    fn fill(&mut self, buffer: &mut [u8]) -> bool;
    fn close(&mut self, stream: u16);
    /// How many ids are ready.
    fn ready(&mut self) -> usize;
    fn commit(&mut self);
    fn save(&mut self);
}

/// The words of a queue, and what a caller lends with them.
struct Lent {
    words: Box<[u64]>,
    store: Box<[u8]>,
    events: Box<[u64]>,
    image: Box<[u8]>,
    out: [u64; OUT_WORDS],
    ids: [u16; STREAMS as usize],
}

impl Lent {
    fn create() -> Self {
        let mut lent = Lent {
            words: vec![0; QUEUE_WORDS].into(),
            store: vec![0; MAX_STORE].into(),
            events: vec![0; EVENT_WORDS].into(),
            image: vec![0; IMAGE].into(),
            out: [0; OUT_WORDS],
            ids: [0; STREAMS as usize],
        };
        let number = unsafe {
            c::dsq_create(lent.words.as_mut_ptr(), lent.store.as_ptr(), lent.store.len(), SIZE as u64, 256, 0, 0, 1, 0)
        };
        assert_eq!(number, 0);
        lent
    }
}

struct Checked(Lent);
struct Owned(Lent);

macro_rules! is_queue {
    ($side:ident, $add:ident, $produce:ident, $fill:ident, $close:ident, $save:ident, $ready:expr, $commit:expr) => {
        impl Queue for $side {
            fn create() -> Self {
                $side(Lent::create())
            }
            fn add(&mut self, stream: u16, payload: &[u8]) {
                let (words, store, room) = (self.0.words.as_mut_ptr(), self.0.store.as_mut_ptr(), self.0.store.len());
                let (bytes, length) = (payload.as_ptr(), payload.len());
                let number = unsafe { c::$add(words, store, room, bytes, length, 0, stream, 53, 0, 0, 0, 0, 0, 0) };
                assert_eq!(number, 0);
            }
            fn produce(&mut self, buffer: &mut [u8]) -> bool {
                let (words, store, room) = (self.0.words.as_mut_ptr(), self.0.store.as_ptr(), self.0.store.len());
                let (events, places, out) = (self.0.events.as_mut_ptr(), self.0.events.len(), self.0.out.as_mut_ptr());
                let (bytes, length) = (buffer.as_mut_ptr(), buffer.len());
                let number = unsafe { c::$produce(words, store, room, events, places, bytes, length, out, 0, length as u64) };
                assert_eq!(number, 0);
                self.0.out[0] != 0
            }
            fn fill(&mut self, buffer: &mut [u8]) -> bool {
                let (words, store, room) = (self.0.words.as_mut_ptr(), self.0.store.as_ptr(), self.0.store.len());
                let (events, places, out) = (self.0.events.as_mut_ptr(), self.0.events.len(), self.0.out.as_mut_ptr());
                let (bytes, length) = (buffer.as_mut_ptr(), buffer.len());
                let number = unsafe {
                    c::$fill(words, store, room, events, places, bytes, length, out, 0, length as u64, 1, 2, 3, 4)
                };
                assert_eq!(number, 0);
                self.0.out[0] != 0
            }
            fn close(&mut self, stream: u16) {
                let (words, events, places) = (self.0.words.as_mut_ptr(), self.0.events.as_mut_ptr(), self.0.events.len());
                assert_eq!(unsafe { c::$close(words, events, places, self.0.out.as_mut_ptr(), stream) }, 0);
            }
            fn ready(&mut self) -> usize {
                unsafe { $ready(&mut self.0) }
            }
            fn commit(&mut self) {
                unsafe { $commit(self.0.words.as_mut_ptr()) };
            }
            fn save(&mut self) {
                let (words, store, room) = (self.0.words.as_ptr(), self.0.store.as_ptr(), self.0.store.len());
                let (image, length) = (self.0.image.as_mut_ptr(), self.0.image.len());
                assert_eq!(unsafe { c::$save(words, store, room, image, length, self.0.out.as_mut_ptr(), 0) }, 0);
            }
        }
    };
}

is_queue!(
    Checked,
    dsq_add,
    dsq_produce,
    dsq_fill_packet,
    dsq_prepare_reset_stream,
    dsq_save,
    |lent: &mut Lent| {
        c::dsq_get_streams_ready_to_reset(lent.words.as_mut_ptr(), lent.ids.as_mut_ptr(), lent.out.as_mut_ptr());
        lent.out[0] as usize
    },
    |words: *mut u64| drop(c::dsq_commit_reset_streams(words))
);
is_queue!(
    Owned,
    dsq_owned_add,
    dsq_owned_produce,
    dsq_owned_fill_packet,
    dsq_owned_prepare_reset_stream,
    dsq_owned_save,
    |lent: &mut Lent| {
        c::dsq_owned_get_streams_ready_to_reset(lent.words.as_mut_ptr(), lent.ids.as_mut_ptr()) as usize
    },
    |words: *mut u64| c::dsq_owned_commit_reset_streams(words)
);

impl Queue for Theirs {
    fn create() -> Self {
        Theirs::new(false)
    }
    fn add(&mut self, stream: u16, payload: &[u8]) {
        Theirs::add(self, stream, payload);
    }
    fn produce(&mut self, buffer: &mut [u8]) -> bool {
        Theirs::produce(self, buffer)
    }
    fn fill(&mut self, buffer: &mut [u8]) -> bool {
        fragments(self, buffer, HEADER)
    }
    fn close(&mut self, stream: u16) {
        self.queue.prepare_reset_stream(api::StreamId(stream));
        self.forget_events();
    }
    fn ready(&mut self) -> usize {
        self.queue.get_streams_ready_to_reset().len()
    }
    fn commit(&mut self) {
        self.queue.commit_reset_streams();
    }
    fn save(&mut self) {
        let mut record = SocketHandoverState::default();
        self.queue.add_to_handover_state(SocketTime::zero(), black_box(&mut record));
    }
}

/// 1,024 messages of 1,200 bytes are added and sent, so many streams waiting all the time; the last message of each is not timed.
fn sending<Q: Queue>(streams: usize) -> impl FnMut(&mut [Lap; 2]) {
    let (mut queue, bytes) = (Q::create(), payload(SIZE));
    move |laps: &mut [Lap; 2]| {
        let mut buffer = [0; SIZE];
        laps[0].run(|| {
            (0..MESSAGES).for_each(|i| queue.add((i % streams) as u16, &bytes));
            MESSAGES as u64
        });
        laps[1].run(|| {
            for _ in streams..MESSAGES {
                assert!(queue.produce(&mut buffer));
                black_box(&mut buffer);
            }
            (MESSAGES - streams) as u64
        });
        while queue.produce(&mut buffer) {}
    }
}

/// 256 streams with four messages each are closed, and all are ready.
fn closing<Q: Queue>() -> impl FnMut(&mut [Lap; 2]) {
    let (mut queue, bytes) = (Q::create(), payload(100));
    move |laps: &mut [Lap; 2]| {
        (0..4 * STREAMS).for_each(|i| queue.add(i % STREAMS, &bytes));
        laps[0].run(|| {
            (0..STREAMS).for_each(|i| queue.close(i));
            u64::from(STREAMS)
        });
        settle();
        let mut count = 0;
        laps[1].run(|| {
            count = queue.ready();
            1
        });
        assert_eq!(count, usize::from(STREAMS));
        queue.commit();
    }
}

/// A queue with 1,024 messages of 1,953 bytes on 256 streams is saved.
fn saving<Q: Queue>() -> impl FnMut(&mut [Lap; 1]) {
    let (mut queue, bytes) = (Q::create(), payload(1_953));
    (0..MESSAGES).for_each(|i| queue.add((i % usize::from(STREAMS)) as u16, &bytes));
    move |laps: &mut [Lap; 1]| {
        laps[0].run(|| {
            queue.save();
            1
        });
    }
}

/// Packets of 1,200 bytes are filled with messages of a length, which wait on four streams.
fn filling<Q: Queue>(length: usize) -> impl FnMut(&mut [Lap; 1]) {
    let (mut queue, bytes) = (Q::create(), payload(length));
    move |laps: &mut [Lap; 1]| {
        let mut buffer = [0; SIZE];
        (0..720).for_each(|i| queue.add(i % 4, &bytes));
        laps[0].run(|| {
            let mut packets = 0;
            while queue.fill(&mut buffer) {
                black_box(&mut buffer);
                packets += 1;
            }
            packets
        });
    }
}

/// Prints a row: the owned function's time over the checked one's, and over the original's.
fn row(what: &str, [checked, owned, theirs]: [f64; 3]) {
    println!(
        "| 14: {what} | {checked:.1} | {owned:.1} | {theirs:.1} | {:.2} | {:.2} |",
        owned / checked,
        owned / theirs
    );
}

/// A table of its own.
pub fn beside_checked() {
    println!(
        "\n| owned and checked functions | checked, ns a call | owned, ns a call | the Rust, ns a call | owned to checked | owned to the Rust |"
    );
    println!("|---|---|---|---|---|---|");
    for streams in [1, 256] {
        let rounds: [Round<'_, 2>; 3] =
            [&mut sending::<Checked>(streams), &mut sending::<Owned>(streams), &mut sending::<Theirs>(streams)];
        let [add, produce] = best_of(rounds);
        row(&format!("add, 1,200 bytes, {streams} waiting"), add);
        row(&format!("produce, 1,200 bytes, {streams} waiting"), produce);
    }
    let [close, ready] = best_of([&mut closing::<Checked>(), &mut closing::<Owned>(), &mut closing::<Theirs>()]);
    row("close, 256 streams with 4 messages of 100 bytes each", close);
    row("ready ids, 256 of them", ready);
    let [save] = best_of([&mut saving::<Checked>(), &mut saving::<Owned>(), &mut saving::<Theirs>()]);
    row("save, 256 streams, 1,024 messages of 1,953 bytes", save);
    for length in [64, 1_164] {
        let rounds: [Round<'_, 1>; 3] =
            [&mut filling::<Checked>(length), &mut filling::<Owned>(length), &mut filling::<Theirs>(length)];
        let [fill] = best_of(rounds);
        row(&format!("packet of 1,200, messages of {length}"), fill);
    }
}
