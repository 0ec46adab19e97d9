//! Priorities for a wanted order.

use crate::ffi;
use crate::ids::StreamId;
use crate::limits::MAX_PLANNED;
use crate::refusal::Refusal;

/// The least priorities, from 1 to 65,535, that give the streams their first fragments in the order of `stream_ids`; one for each id, in the
/// same order.
///
/// `sizes` are those of each stream's first message. The priorities do it on a new queue of `max_payload_bytes`, with interleaving on, where
/// they are set before the messages are added and these are all accepted; in what order the messages are added does not matter.
///
/// # Errors
///
/// [`Refusal::PayloadLimitWrong`], [`Refusal::OrderWrong`], [`Refusal::OrderImpossible`].
pub fn plan_priorities(
    max_payload_bytes: usize,
    stream_ids: &[StreamId],
    sizes: &[usize],
) -> Result<Vec<u16>, Refusal> {
    let ids: Vec<u16> = stream_ids.iter().map(|id| id.0).collect();
    let bytes: Vec<u64> = sizes.iter().map(|size| *size as u64).collect();
    let mut priorities = [0; MAX_PLANNED];
    Refusal::judge(ffi::plan_priorities(&ids, &bytes, &mut priorities, max_payload_bytes as u64))?;
    Ok(priorities[..ids.len()].to_vec())
}
