//! The whole job of a card feeder: profiles go to eight writing heads, one stream a head, through the send queue, and come out at the other end.
//!
//! Reel 1 is interleaved. The heads get their first fragments in a wanted order; packets are filled and go over a link that loses some, brings
//! some twice and lets them overtake each other; the receiving head makes profiles of their chunks again. Backlogs run low and are topped up.
//! A head's job is closed in the middle of a profile, and its stream reset by a request that the head answers. In the middle of other profiles
//! the queue is carried to a second host. Reel 2 is not interleaved: the queue is carried over in the middle of a profile, whose rest goes
//! first. Every profile is compared byte for byte with what was queued.
//!
//! `--packets FILE` writes all packets, as they are sent, to a capture file that a dissector opens.

mod asides;
mod capture;
mod feeder;
mod link;
mod profiles;

use capture::Capture;
use desqariy::ChunkKind;
use desqariy::SocketTime;
use desqariy::StreamId;
use desqariy::Tsn;
use desqariy::plan_priorities;
use feeder::Feeder;
use feeder::PACKET;
use profiles::head_of;
use profiles::number;
use profiles::profile;
use std::env;
use std::error::Error;
use std::time::Duration;

pub type Outcome<T> = Result<T, Box<dyn Error>>;

/// The heads in the order in which they are to get their first fragments.
const WANTED: [u16; 8] = [4, 8, 1, 6, 3, 7, 2, 5];
/// So many profiles of a head are queued before anything is sent.
const AT_FIRST: u64 = 3;
/// Its job is closed in the middle of a profile.
const CLOSED: StreamId = StreamId(5);
/// It is of use for too short a time.
const SHORT_LIVED: u64 = 803;
/// So many packets are sent before a job is closed.
const BEFORE_CLOSING: usize = 40;
/// Reel 2: the first profile is begun when the others come.
const IN_A_ROW: [u64; 3] = [505, 105, 305];
/// So many packets of it go out before the changeover.
const BEFORE_CHANGEOVER: usize = 3;

fn main() -> Outcome<()> {
    let words: Vec<String> = env::args().skip(1).collect();
    let file = match words.iter().map(String::as_str).collect::<Vec<_>>()[..] {
        [] => None,
        ["--packets", file] => Some(file),
        _ => return Err("usage: demo [--packets FILE]".into()),
    };
    let first = first_reel(Capture::new(file)?)?;
    let mut compared = told(&first)?;
    let second = second_reel(first.now, first.link.end())?;
    compared += told(&second)?;
    asides::closing_expires()?;
    asides::restart_rules()?;
    println!("{compared} profiles arrived whole, each at its head and in order: compared byte for byte");
    Ok(())
}

/// What the link and the other end saw of a reel, and how many of its profiles have come and are the same.
fn told(feeder: &Feeder) -> Outcome<usize> {
    let (tally, heads) = (&feeder.link.tally, &feeder.link.heads);
    println!(
        "  link: {} packets sent {} times, {} lost, {} brought twice, {} overtaken",
        feeder.packets, tally.sent, tally.lost, tally.twice, tally.overtaken
    );
    let compared = feeder.compare()?;
    println!(
        "  heads: {} chunks accepted, {} repeats; {compared} profiles; dropped {:?}",
        heads.accepted, heads.repeats, feeder.dropped
    );
    if tally.lost == 0 || tally.overtaken == 0 || heads.repeats == 0 {
        return Err("the link was to lose, to repeat and to reorder".into());
    }
    Ok(compared)
}

fn first_reel(capture: Capture) -> Outcome<Feeder> {
    let wanted = WANTED.map(StreamId);
    let sizes = wanted.map(|head| profile(number(head, 1)).len());
    let priorities = plan_priorities(PACKET, &wanted, &sizes)?;
    println!("reel 1: the heads are wanted in the order {WANTED:?}");
    println!("  planner: priorities {priorities:?}");
    let mut feeder = Feeder::new(ChunkKind::IData, Tsn(u32::MAX - 40), SocketTime::zero(), capture)?;
    for (head, priority) in wanted.iter().zip(&priorities) {
        feeder.queue.set_priority(*head, *priority)?;
    }
    for place in 1..=AT_FIRST {
        for head in wanted {
            let id = number(head, place);
            feeder.add(id, (id == SHORT_LIVED).then_some(Duration::from_millis(2)))?;
        }
    }
    feeder.next = wanted.iter().map(|head| (*head, number(*head, AT_FIRST + 1))).collect();
    let bytes = feeder.queue.total_buffered_amount();
    println!("  {} profiles, {bytes} bytes, go out in packets of at most {PACKET}", feeder.queued.len());
    while feeder.packets < BEFORE_CLOSING {
        feeder.send()?;
    }
    first_fragments(&feeder)?;
    let new = close(&mut feeder)?;
    let bytes = feeder.change_host()?;
    println!("  changeover: an image of {bytes} bytes; the second host's own is the same");
    feeder.send_all()?;
    feeder.begin_anew()?;
    println!("  head {CLOSED}: a new job, {} bytes, counted from 0 to a new receiver", feeder.add(new, None)?);
    feeder.send_all()?;
    println!("  {} times a head's backlog was low; each time what was left was told", feeder.marks);
    Ok(feeder)
}

fn first_fragments(feeder: &Feeder) -> Outcome<()> {
    let mut seen: Vec<u16> = Vec::new();
    for fragment in &feeder.fragments {
        if fragment.is_first && !seen.contains(&fragment.head.0) {
            seen.push(fragment.head.0);
        }
    }
    println!("  first fragments, as read back from the packets, for {seen:?}");
    if seen == WANTED { Ok(()) } else { Err("the heads came in another order".into()) }
}

/// Closes a head's job in the middle of a profile. The profiles behind that one are dropped; when it has been sent, the stream is reset. The
/// profile of the head's new job.
fn close(feeder: &mut Feeder) -> Outcome<u64> {
    while !feeder.is_in_mid_profile(CLOSED) {
        feeder.send()?;
    }
    let new = feeder.next.remove(&CLOSED).ok_or("the head to be closed was topped up before")?;
    let before = feeder.queue.buffered_amount(CLOSED);
    feeder.queue.prepare_reset_stream(CLOSED)?;
    feeder.tell()?;
    let rest = feeder.queue.buffered_amount(CLOSED);
    if feeder.queue.has_streams_ready_to_be_reset() || rest == 0 || rest == before {
        return Err("the head was not in the middle of a profile with others behind it".into());
    }
    println!("  head {CLOSED}: closed in mid-profile; its rest, {rest} bytes, goes on, {} dropped", before - rest);
    while !feeder.queue.has_streams_ready_to_be_reset() {
        feeder.send()?;
    }
    let bytes = feeder.reset(CLOSED)?;
    println!("  reset request of {bytes} bytes; the head is at it, then done: its stream is reset");
    Ok(new)
}

/// Heads with a space between.
fn listed(heads: &[StreamId]) -> String {
    heads.iter().map(StreamId::to_string).collect::<Vec<_>>().join(" ")
}

fn second_reel(now: SocketTime, capture: Capture) -> Outcome<Feeder> {
    let mut feeder = Feeder::new(ChunkKind::Data, Tsn(u32::MAX - 5), now, capture)?;
    let [begun, ..] = IN_A_ROW;
    for id in IN_A_ROW {
        feeder.add(id, None)?;
        if id == begun {
            feeder.send()?;
        }
    }
    while feeder.packets < BEFORE_CHANGEOVER {
        feeder.send()?;
    }
    let by_first_host = feeder.fragments.len();
    if !feeder.is_in_mid_profile(head_of(begun)) {
        return Err("no profile was half-sent".into());
    }
    let bytes = feeder.change_host()?;
    println!("reel 2, not interleaved: changeover in mid-profile by an image of {bytes} bytes");
    feeder.send_all()?;
    let order: Vec<StreamId> = feeder.fragments.iter().map(|fragment| fragment.head).collect();
    let (first, second) = order.split_at(by_first_host);
    println!("  fragments for the heads {}; then by the second host {}", listed(first), listed(second));
    let mut turns = order.clone();
    turns.dedup();
    if turns == IN_A_ROW.map(head_of) { Ok(feeder) } else { Err("the begun profile was interrupted".into()) }
}
