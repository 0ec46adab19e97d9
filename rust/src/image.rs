//! The changeover image: a queue as bytes, to be carried to another host.

use crate::limits::MAX_IMAGE_RECORDS;
use crate::limits::OUT_WORDS;
use crate::queue::SendQueue;
use crate::refusal::Refusal;
use crate::time::SocketTime;

impl SendQueue {
    /// The queue's image: counters, priorities and waiting messages, with the time that each has left and how much of it was sent. dcSCTP's
    /// `add_to_handover_state` has the same in a record. Saving may come in the middle of a message, and changes nothing.
    ///
    /// Not in the image: thresholds, closing, the interleaving choice, the rule of a restart, and streams with zero counters, the default
    /// priority and no message. It has no checksum: carry it by a channel that protects it. `docs/CHANGEOVER.md` of the repository has the
    /// changeover step by step.
    ///
    /// # Errors
    ///
    /// [`Refusal::TimeLate`].
    pub fn save(&self, now: SocketTime) -> Result<Vec<u8>, Refusal> {
        let mut image = vec![0; self.queue.store_length() + MAX_IMAGE_RECORDS];
        let length = self.save_into(now, &mut image)?;
        image.truncate(length);
        image.shrink_to_fit();
        Ok(image)
    }

    /// Writes the queue's image to the buffer's start, and says how long it is; the rest of the buffer stays as it was.
    ///
    /// # Errors
    ///
    /// [`Refusal::TimeLate`], [`Refusal::ImageBufferShort`].
    pub fn save_into(&self, now: SocketTime, image: &mut [u8]) -> Result<usize, Refusal> {
        let mut out = [0; OUT_WORDS];
        Refusal::judge(self.queue.save(image, &mut out, now.0))?;
        Ok(out[0] as usize)
    }

    /// Makes a new queue the one of the image. dcSCTP's `restore_from_state` does it from a record.
    ///
    /// All streams are then open, also those that were closing, with the default thresholds: close them and set those again. The rules find a
    /// cut image; one with a changed byte of a payload, a counter or an id may keep them all and is then accepted as another queue's.
    ///
    /// The image does not tell the saved queue's [`RestartRule`](crate::RestartRule);
    /// [`RestartRule::Strict`](crate::RestartRule::Strict) takes no image with a MID on a message of which nothing was sent.
    ///
    /// Without interleaving the rest of a half-sent message comes first, before any other message is begun, also one that is added
    /// meanwhile; of several half-sent messages (the saved queue had interleaving) the rest of the one with the smallest stream id. dcSCTP
    /// may begin another message first. With interleaving, which is to be chosen before restoring, the streams take turns as ever.
    ///
    /// # Errors
    ///
    /// [`Refusal::TimeLate`], [`Refusal::QueueUsed`], [`Refusal::ImageWrong`], [`Refusal::PriorityOther`],
    /// [`Refusal::ImageLarge`].
    pub fn restore(&mut self, now: SocketTime, image: &[u8]) -> Result<(), Refusal> {
        self.event_count = 0;
        Refusal::judge(self.queue.restore(image, now.0))
    }
}
