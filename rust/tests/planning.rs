//! Priorities for a wanted order: the refusals and their order, and a job whose first fragments come as wanted.

use desqariy::*;

const NOW: SocketTime = SocketTime::zero();

fn plan(limit: usize, ids: &[u16], sizes: &[usize]) -> Result<Vec<u16>, u8> {
    let ids: Vec<StreamId> = ids.iter().copied().map(StreamId).collect();
    plan_priorities(limit, &ids, sizes).map_err(Refusal::number)
}

#[test]
fn the_priorities_are_the_least() {
    assert_eq!(plan(1_000, &[3, 5], &[1_500, 1_500]), Ok(vec![1, 1]), "equal finish times go by id");
    assert_eq!(plan(1_000, &[5, 3], &[1_500, 1_500]), Ok(vec![2, 1]));
    assert_eq!(plan(1_000, &[5, 3], &[262_144, 1_000]), Ok(vec![2, 1]), "longer messages cost no more");
    assert_eq!(plan(10, &[9, 8, 7], &[10, 3, 1]), Ok(vec![14, 4, 1]));
    assert_eq!(plan(65_535, &[1, 2], &[65_535, 1]), Ok(vec![65_535, 1]), "the largest priority");
    assert_eq!(plan(1, &[65_535], &[262_144]), Ok(vec![1]));
}

#[test]
fn the_longest_order() {
    let ids: Vec<u16> = (1..=33).rev().collect();
    let priorities: Vec<u16> = (1..=32).rev().collect();
    assert_eq!(plan(1, &ids[1..], &[7; 32]), Ok(priorities));
    assert_eq!(plan(1, &ids, &[7; 33]), Err(28));
}

#[test]
fn the_refusals_of_an_order() {
    for limit in [0, 65_536, usize::MAX] {
        assert_eq!(plan(limit, &[1], &[1]), Err(1));
    }
    assert_eq!(plan(1_000, &[], &[]), Err(28));
    assert_eq!(plan(1_000, &[4, 4], &[1, 1]), Err(28));
    assert_eq!(plan(1_000, &[4, 6, 4], &[1, 1, 1]), Err(28));
    assert_eq!(plan(1_000, &[4], &[0]), Err(28));
    assert_eq!(plan(1_000, &[4], &[262_145]), Err(28));
    assert_eq!(plan(1_000, &[4], &[usize::MAX]), Err(28));
    assert_eq!(plan(1_000, &[4, 5], &[1]), Err(28));
    assert_eq!(plan(1_000, &[4], &[1, 1]), Err(28));
    assert_eq!(plan(65_535, &[2, 1], &[65_535, 1]), Err(29), "it would take the priority 65,536");
}

#[test]
fn refusal_1_comes_before_28_and_28_before_29() {
    assert_eq!(plan(0, &[], &[]), Err(1));
    assert_eq!(plan(65_536, &[2, 1], &[65_535, 1]), Err(1));
    assert_eq!(plan(65_535, &[2, 1, 2], &[65_535, 1, 1]), Err(28));
    assert_eq!(plan(65_535, &[2, 1], &[65_535, 1, 1]), Err(28));
}

/// The streams in the order of their first fragments.
fn first_fragments(limit: usize, settings: &[(u16, u16)], messages: &[(u16, usize)]) -> Vec<u16> {
    let mut q = SendQueue::new(limit, &Options::default()).unwrap();
    q.enable_message_interleaving(true);
    for (id, priority) in settings {
        q.set_priority(StreamId(*id), *priority).unwrap();
    }
    for (id, size) in messages {
        q.add(NOW, Message::new(StreamId(*id), PpId(53), &vec![1; *size]), &SendOptions::default()).unwrap();
    }
    let mut order = Vec::new();
    while let Some(d) = q.produce(NOW, limit).unwrap() {
        if d.data.is_beginning {
            order.push(d.data.stream_key.id().0);
        }
    }
    order
}

#[test]
fn a_job_goes_in_the_wanted_order() {
    let ids = [40, 7, 300, 12, 1];
    let sizes = [9_000, 250, 1_200, 5_000, 1_200];
    let priorities = plan(1_200, &ids, &sizes).unwrap();
    let settings: Vec<_> = ids.into_iter().zip(priorities).collect();
    let messages: Vec<_> = ids.into_iter().zip(sizes).collect();
    assert_eq!(first_fragments(1_200, &settings, &messages), ids);
    let backwards: Vec<_> = messages.iter().rev().copied().collect();
    assert_eq!(first_fragments(1_200, &settings, &backwards), ids, "in what order they are added does not matter");
    assert_ne!(first_fragments(1_200, &[], &messages), ids, "the default priority gives another order");
}
