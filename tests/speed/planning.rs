//! Priorities for a wanted order. The original has no such call: beside it stands the same rule in plain Rust.

use crate::clock::Lap;
use crate::clock::best;
use crate::clock::row;
use desqariy::MAX_PAYLOAD;
use desqariy::MAX_PAYLOAD_LIMIT;
use desqariy::MAX_PLANNED;
use desqariy::StreamId;
use desqariy::plan_priorities;
use std::hint::black_box;

/// So many lists a round.
const LISTS: u64 = 64;

fn wrong(ids: &[StreamId], sizes: &[usize]) -> bool {
    let twice = |(i, id): (usize, &StreamId)| ids[i + 1..].contains(id);
    ids.is_empty()
        || ids.len() > MAX_PLANNED
        || ids.len() != sizes.len()
        || ids.iter().enumerate().any(twice)
        || sizes.iter().any(|size| !(1..=MAX_PAYLOAD).contains(size))
}

/// The least priorities, from the last stream to the first.
fn plain(limit: usize, ids: &[StreamId], sizes: &[usize]) -> Result<Vec<u16>, u8> {
    if !(1..=MAX_PAYLOAD_LIMIT).contains(&limit) {
        return Err(1);
    }
    if wrong(ids, sizes) {
        return Err(28);
    }
    let mut priorities = vec![0; ids.len()];
    let (mut finish, mut next) = (u64::MAX - 1, StreamId(0));
    for (place, id) in ids.iter().enumerate().rev() {
        let cost = sizes[place].min(limit) as u64 * 1_000_000;
        let bound = finish + u64::from(*id < next);
        let priority = cost / bound + 1;
        priorities[place] = u16::try_from(priority).map_err(|_| 29)?;
        (finish, next) = (cost / priority, *id);
    }
    Ok(priorities)
}

/// 32 streams whose ids fall, with messages of several lengths.
pub fn planning() {
    let ids: Vec<StreamId> = (1..=32).rev().map(StreamId).collect();
    let sizes: Vec<usize> = (0..32).map(|i| 1_500 - 40 * i).collect();
    let ours =
        || plan_priorities(black_box(1_200), black_box(&ids), black_box(&sizes)).map_err(|refusal| refusal.number());
    let theirs = || plain(black_box(1_200), black_box(&ids), black_box(&sizes));
    assert!(ours() == theirs() && ours().is_ok());
    let [plan] = best(
        &mut |laps: &mut [Lap; 1]| {
            laps[0].run(|| {
                (0..LISTS).for_each(|_| drop(black_box(ours())));
                LISTS
            })
        },
        &mut |laps: &mut [Lap; 1]| {
            laps[0].run(|| {
                (0..LISTS).for_each(|_| drop(black_box(theirs())));
                LISTS
            })
        },
    );
    row("7: priorities for an order of 32 streams (beside the same rule in plain Rust)", plan);
}
