//! Both queues, and the comparison.

use crate::calls::Answer;
use crate::calls::Call;
use crate::closing::Closing;
use crate::ours::Ours;
use crate::theirs::Theirs;
use crate::thousands;
use std::fmt;
use std::panic::AssertUnwindSafe;
use std::panic::catch_unwind;

/// What was seen, so that a run can be judged.
#[derive(Default)]
pub struct Tally {
    pub calls: u64,
    fragments: u64,
    bytes: u64,
    /// Images restored without interleaving, with no half-sent message, with one and with several; and those restored with interleaving.
    restored: [u64; 3],
    interleaved: u64,
    events: [u64; 5],
    /// Low marks that told the amount after the call, and those that told a step before it.
    amounts: [u64; 2],
    /// Calls that ended a start, since a closing stream's half-sent message expired in them.
    expiries: u64,
    refusals: [u64; 17],
}

impl Tally {
    /// Counts a call on a queue.
    fn count(&mut self, call: &Call, answer: &Answer) {
        if let Call::Put { .. } | Call::Cut { .. } = call {
            return;
        }
        self.calls += 1;
        self.refusals[usize::from(answer.refusal)] += 1;
        for event in &answer.events {
            self.events[usize::from(event.0)] += 1;
        }
        match call {
            Call::Produce { .. } if !answer.bytes.is_empty() => {
                self.fragments += 1;
                self.bytes += answer.bytes.len() as u64;
            }
            _ => {}
        }
    }
}

impl fmt::Display for Tally {
    fn fmt(&self, f: &mut fmt::Formatter<'_>) -> fmt::Result {
        write!(f, "{} fragments with {} bytes", thousands(self.fragments), thousands(self.bytes))?;
        let [none, one, several] = self.restored.map(thousands);
        write!(
            f,
            "\nimages restored without interleaving: {none} without a half-sent message, {one} with one, {several} with several (both end \
             a start); with interleaving: {}",
            thousands(self.interleaved)
        )?;
        let list = |counts: &[u64]| -> String {
            let seen = counts.iter().enumerate().skip(1).filter(|(_, n)| **n > 0);
            seen.map(|(k, n)| format!(" {k}: {}", thousands(*n))).collect::<Vec<_>>().join(",")
        };
        let [after, before] = self.amounts.map(thousands);
        write!(f, "\nevents by kind:{}", list(&self.events))?;
        write!(f, "\nlow marks with the amount after the call: {after}, with one before it: {before}")?;
        write!(
            f,
            "\nstarts that ended at the expiry of a closing stream's half-sent message: {}",
            thousands(self.expiries)
        )?;
        write!(f, "\nrefusals by number:{}", list(&self.refusals))
    }
}

#[derive(Default)]
pub struct Pair {
    queues: Option<(Theirs, Ours)>,
    creation: Option<Call>,
    pub interleaving: bool,
    pub image: Vec<u8>,
    pub tally: Tally,
    /// Whether the original is matched no more.
    pub over: bool,
    closing: Closing,
    title: String,
    log: Vec<String>,
}

impl Pair {
    /// Forgets all that was.
    pub fn start(&mut self, title: String) {
        self.queues = None;
        self.image.clear();
        self.log.clear();
        self.closing = Closing::default();
        self.over = false;
        self.title = title;
    }

    pub fn theirs(&self) -> &Theirs {
        &self.queues.as_ref().expect("there is a queue").0
    }

    /// Makes the call on both queues; the answer, which is the same while the original is matched.
    pub fn call(&mut self, call: Call) -> Answer {
        self.note(&call);
        let total = self.queues.as_ref().map_or(0, |(theirs, _)| theirs.total());
        let (want, got) = self.answers(&call);
        if let Some((theirs, _)) = &self.queues
            && !self.over
            && self.closing.follow(&call, &want, theirs)
        {
            self.tally.expiries += 1;
            self.over = true;
        }
        if self.over {
            return want;
        }
        self.tally.count(&call, &want);
        if want != got {
            self.differ(&want.beside(&got), &got.beside(&want));
        }
        self.judge_amounts(&call, total, &want);
        if let Call::Save { .. } = call
            && want.refusal == 0
        {
            self.image.clone_from(&want.bytes);
        }
        self.ask_after(&call);
        if let Call::Over { .. } | Call::Restore { .. } = call
            && want.refusal == 0
        {
            self.over = self.restored_otherwise();
        }
        want
    }

    /// Counts a restored image; whether the original goes on otherwise. "The Rust is matched on images without a half-sent message and on
    /// those restored with interleaving" (document 02, 10/13).
    fn restored_otherwise(&mut self) -> bool {
        if self.interleaving {
            self.tally.interleaved += 1;
            return false;
        }
        let half_sent = self.theirs().half_sent();
        self.tally.restored[half_sent.min(2)] += 1;
        half_sent > 0
    }

    /// Writes the call down. A lent image buffer has its own line, before and after.
    fn note(&mut self, call: &Call) {
        let lent = match (call, &self.creation) {
            (Call::Save { room: Some(room), .. }, Some(Call::New { store, .. })) => Some((*room, *store)),
            _ => None,
        };
        if let Some((room, store)) = lent {
            self.log.push(format!("v 2305 262144 {room} {store}"));
        }
        self.log.push(call.to_string());
        if let Some((_, store)) = lent {
            self.log.push(format!("v 2305 262144 2100000 {store}"));
        }
    }

    fn answers(&mut self, call: &Call) -> (Answer, Answer) {
        match call {
            Call::New { .. } => {
                self.interleaving = false;
                self.create(call)
            }
            Call::Put { place, value } => {
                if let Some(byte) = self.image.get_mut(*place) {
                    *byte = *value;
                }
                Default::default()
            }
            Call::Cut { length } => {
                self.image.resize(*length, 0);
                Default::default()
            }
            _ => {
                if let Call::Over { .. } = call {
                    let creation = self.creation.clone().expect("there is a queue");
                    self.create(&creation);
                }
                if let Call::Interleave { on } = call {
                    self.interleaving = *on;
                }
                let (theirs, ours) = self.queues.as_mut().expect("there is a queue");
                if let Call::Over { .. } = call {
                    theirs.interleave(self.interleaving);
                    ours.interleave(self.interleaving);
                }
                let want = catch_unwind(AssertUnwindSafe(|| theirs.answer(call, &self.image)));
                let got = catch_unwind(AssertUnwindSafe(|| ours.answer(call, &self.image)));
                match (want, got) {
                    (Ok(want), Ok(got)) => (want, got),
                    (want, got) => self.differ(&shown(want), &shown(got)),
                }
            }
        }
    }

    fn create(&mut self, call: &Call) -> (Answer, Answer) {
        // First the old ones go: the stand-in for `bytes` counts all buffers alive.
        self.queues = None;
        self.creation = Some(call.clone());
        match (Theirs::new(call), Ours::new(call)) {
            (Ok(theirs), Ok(ours)) => {
                self.queues = Some((theirs, ours));
                Default::default()
            }
            (want, got) => {
                let refused = |answer: Option<u8>| Answer::refused(answer.unwrap_or(0));
                (refused(want.err()), refused(got.err()))
            }
        }
    }

    /// The amounts of the low marks, as far as the original's own state tells them. A mark fires at or below its threshold, and until the
    /// call ends the amount can only fall further; a call of one step leaves the amount that it told.
    fn judge_amounts(&mut self, call: &Call, total: u64, answer: &Answer) {
        let Some((theirs, ours)) = &self.queues else { return };
        let one_step = match call {
            Call::Discard { .. } | Call::Threshold { .. } => true,
            Call::Produce { .. } => theirs.total() + answer.bytes.len() as u64 == total,
            Call::Close { .. } => false,
            _ => return,
        };
        for (stream, told) in ours.low_marks() {
            let (after, threshold) = theirs.watched(stream);
            if told < after || told > threshold || (one_step && told != after) {
                let want = format!("stream {stream:?} has {after} after the call, its threshold is {threshold}");
                self.differ(&want, &format!("its low mark tells {told}"));
            }
            self.tally.amounts[usize::from(told != after)] += 1;
        }
    }

    /// All questions about the stream of the call, or about stream 0.
    fn ask_after(&mut self, call: &Call) {
        let Some((theirs, ours)) = &self.queues else { return };
        let stream = match *call {
            Call::Add(ref a) => a.stream,
            Call::Discard { stream, .. }
            | Call::Close { stream }
            | Call::Threshold { stream, .. }
            | Call::Priority { stream, .. } => stream,
            _ => 0,
        };
        let (want, got) = (theirs.questions(stream), ours.questions(stream));
        if want != got {
            self.log.push(format!("q {stream}"));
            self.differ(&format!("{want:?}"), &format!("{got:?}"));
        }
    }

    fn differ(&self, want: &str, got: &str) -> ! {
        println!("{}: the calls that lead to the difference:", self.title);
        for line in &self.log {
            println!("{line}");
        }
        println!("the original: {want}\nthe proved queue: {got}");
        println!("{} calls, 1 differs", thousands(self.tally.calls));
        std::process::exit(1);
    }
}

fn shown(answer: std::thread::Result<Answer>) -> String {
    match answer {
        Ok(answer) => format!("{answer:?}"),
        Err(panic) => {
            let text = panic.downcast_ref::<String>().map(String::as_str);
            format!("panics: {}", text.or(panic.downcast_ref::<&str>().copied()).unwrap_or(""))
        }
    }
}
