//! Streams that close, as far as the calls and the original's record tell them. "A run beside the Rust is matched up to the first such
//! expiry" (document 02, 3/13), of a closing stream's half-sent message: there the original leaves the stream pending.

use crate::calls::Answer;
use crate::calls::Call;
use crate::theirs::Theirs;
use std::collections::BTreeMap;
use std::collections::BTreeSet;
use std::mem::take;

#[derive(Default)]
pub struct Closing {
    /// Streams that are not open, and those of them that are resetting.
    closed: BTreeSet<u16>,
    resetting: BTreeSet<u16>,
    /// The half-sent message of each stream that closes.
    half_sent: BTreeMap<u16, u64>,
}

impl Closing {
    /// Follows a call that the original has answered: whether a closing stream's half-sent message expired in it.
    pub fn follow(&mut self, call: &Call, answer: &Answer, theirs: &Theirs) -> bool {
        match *call {
            Call::New { .. } | Call::Over { .. } | Call::Reset => *self = Closing::default(),
            Call::Close { stream } if answer.refusal == 0 && self.closed.insert(stream) => {
                // Closing has dropped all messages but a half-sent one.
                let left = waiting(theirs).into_iter().find(|m| m.0 == stream);
                self.half_sent.extend(left);
            }
            Call::Ready => self.resetting.extend(answer.numbers.iter().map(|id| *id as u16)),
            Call::Commit | Call::Rollback => {
                for stream in take(&mut self.resetting) {
                    self.closed.remove(&stream);
                }
            }
            Call::Discard { .. } => {
                self.ended(theirs);
            }
            Call::Produce { .. } => return self.ended(theirs).iter().any(|m| !is_last_of(answer, *m)),
            _ => {}
        }
        false
    }

    /// Takes out the messages that are gone.
    fn ended(&mut self, theirs: &Theirs) -> Vec<(u16, u64)> {
        if self.half_sent.is_empty() {
            return Vec::new();
        }
        let left = waiting(theirs);
        let gone: Vec<_> = self.half_sent.iter().map(|(s, m)| (*s, *m)).filter(|m| !left.contains(m)).collect();
        self.half_sent.retain(|s, m| left.contains(&(*s, *m)));
        gone
    }
}

/// Stream and id of the messages that wait.
fn waiting(theirs: &Theirs) -> BTreeSet<(u16, u64)> {
    theirs.record(0).tx.queued_messages.iter().map(|m| (m.stream_id, m.message_id)).collect()
}

/// Whether an answer is the last fragment of a message.
fn is_last_of(answer: &Answer, message: (u16, u64)) -> bool {
    matches!(answer.numbers[..], [id, stream, .., 1, _, _, _, _] if (stream as u16, id) == message)
}
