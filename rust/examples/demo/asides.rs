//! Two things that the job does not meet: a closed head whose profile runs out of time, and a head that restarts.

use crate::Outcome;
use crate::feeder::PACKET;
use crate::feeder::new_queue;
use crate::feeder::options;
use crate::profiles::profile;
use desqariy::ChunkKind;
use desqariy::Fsn;
use desqariy::Message;
use desqariy::Mid;
use desqariy::Options;
use desqariy::PpId;
use desqariy::RestartRule;
use desqariy::SendOptions;
use desqariy::SendQueue;
use desqariy::SocketTime;
use desqariy::StreamId;
use std::time::Duration;

/// A head's job is closed in the middle of a profile whose time runs out: the head is ready to be reset, and a profile for another head goes on.
pub fn closing_expires() -> Outcome<()> {
    let (closed, other) = (StreamId(1), StreamId(2));
    let mut queue = new_queue(ChunkKind::IData)?;
    let now = SocketTime::zero();
    let short = SendOptions { lifetime: Some(Duration::from_millis(2)), ..Default::default() };
    queue.add(now, Message::new(closed, PpId(53), &profile(101)), &short)?;
    queue.produce(now, PACKET)?.ok_or("nothing was sent")?;
    queue.prepare_reset_stream(closed)?;
    if queue.has_streams_ready_to_be_reset() {
        return Err("the head was not in the middle of a profile".into());
    }
    queue.add(now, Message::new(other, PpId(53), &profile(201)), &SendOptions::default())?;
    let later = now + Duration::from_millis(5);
    let next = queue.produce(later, PACKET)?.ok_or("nothing was sent")?.data.stream_key.id();
    let ready = queue.get_streams_ready_to_reset();
    println!("a closed head's half-sent profile runs out of time: {ready:?} ready, head {next} goes on");
    if ready != [closed] || next != other {
        return Err("the closed head hangs".into());
    }
    Ok(())
}

/// A head restarts in the middle of its second profile: what its next packet has, by the rule that the queue was created with.
fn restarted(rule: RestartRule) -> Outcome<(bool, Mid, Fsn)> {
    let (head, now) = (StreamId(1), SocketTime::zero());
    let mut queue = SendQueue::new(PACKET, &Options { restart_rule: rule, ..options() })?;
    queue.add(now, Message::new(head, PpId(53), &[1]), &SendOptions::default())?;
    queue.add(now, Message::new(head, PpId(53), &profile(102)), &SendOptions::default())?;
    queue.produce(now, PACKET)?.ok_or("nothing was sent")?;
    queue.produce(now, PACKET)?.ok_or("nothing was sent")?;
    queue.reset();
    let data = queue.produce(now, PACKET)?.ok_or("nothing was sent")?.data;
    Ok((data.is_beginning, data.mid, data.fsn))
}

pub fn restart_rules() -> Outcome<()> {
    let (strict, dcsctp) = (restarted(RestartRule::Strict)?, restarted(RestartRule::Dcsctp)?);
    println!(
        "a head restarts in mid-profile: MID {}, FSN {} (strict); MID {}, FSN {} (dcSCTP)",
        strict.1, strict.2, dcsctp.1, dcsctp.2
    );
    if strict != (true, Mid(0), Fsn(0)) || dcsctp != (true, Mid(1), Fsn(1)) {
        return Err("the restart has other numbers".into());
    }
    Ok(())
}
