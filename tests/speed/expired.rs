//! A produce that passes over expired heads.

use crate::api;
use crate::clock::Lap;
use crate::clock::best;
use crate::clock::row;
use crate::sides::Ours;
use crate::sides::SIZE;
use crate::sides::Theirs;
use crate::sides::payload;
use bytes::Bytes;
use std::time::Duration;

const WAITING: u32 = 1_024;

/// Past 0 to 1,024 expired heads, one stream and 256 of them, interleaved. Each produce of a row drops as many heads and hands out the
/// message behind them, of 100 bytes; where all have expired nothing is left to hand out.
pub fn passing() {
    for streams in [1u32, 256] {
        for heads in [0, 1, 8, 16, 128, WAITING] {
            past(streams, heads);
        }
    }
}

fn past(streams: u32, heads: u32) {
    let bytes = payload(100);
    let sends = heads < WAITING;
    // with 256 streams each has one message, so that the scheduler takes them one behind the other
    let most = if sends && streams > 1 { streams } else { WAITING };
    let calls = (most / (heads + 1)).max(1);
    let messages = if sends { calls * (heads + 1) } else { WAITING };
    let lifetime = |i: u32| (!sends || i % (heads + 1) < heads).then_some(Duration::ZERO);
    let (mut ours, mut theirs) = (Ours::new(streams > 1), Theirs::new(streams > 1));
    let mut buffer = [0; SIZE];
    let mut copy = [0; SIZE];
    let [produce] = best(
        &mut |laps: &mut [Lap; 1]| {
            for i in 0..messages {
                let options = desqariy::SendOptions { lifetime: lifetime(i), ..Default::default() };
                let message = desqariy::Message::new(desqariy::StreamId((i % streams) as u16), desqariy::PpId(53), &bytes);
                ours.queue.add(desqariy::SocketTime::zero(), message, &options).unwrap();
            }
            laps[0].run(|| {
                for _ in 0..calls {
                    let sent = ours.queue.produce_into(desqariy::SocketTime(10_000_000), &mut buffer).unwrap().is_some();
                    assert_eq!(sent, sends);
                }
                u64::from(calls)
            });
            assert!(ours.queue.is_empty());
        },
        &mut |laps: &mut [Lap; 1]| {
            for i in 0..messages {
                let options = api::SendOptions { lifetime: lifetime(i), ..Default::default() };
                let message = api::Message::new(api::StreamId((i % streams) as u16), api::PpId(53), Bytes::from(bytes.to_vec()));
                theirs.queue.add(api::SocketTime::zero(), message, &options);
            }
            laps[0].run(|| {
                for _ in 0..calls {
                    let sent = theirs.queue.produce(api::SocketTime::zero() + Duration::from_millis(10), SIZE);
                    assert_eq!(sent.is_some(), sends);
                    if let Some(d) = sent {
                        copy[..d.data.payload.len()].copy_from_slice(&d.data.payload);
                    }
                    theirs.forget_events();
                }
                u64::from(calls)
            });
            assert!(theirs.queue.is_empty());
        },
    );
    row(&format!("8: produce past {heads} expired, {streams} waiting{}", if streams > 1 { ", interleaved" } else { "" }), produce);
}
