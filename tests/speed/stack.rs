//! The deepest call.

use desqariy::*;
use std::time::Duration;

/// 1,024 expired heads passed over in one call, on a thread with so many KB of stack.
pub fn pass_over(kilobytes: usize) {
    let run = || {
        let options = Options { total_buffered_amount_low_threshold: 0, ..Options::default() };
        let mut queue = SendQueue::new(1_200, &options).unwrap();
        queue.enable_message_interleaving(true);
        for i in 0..1_024u16 {
            let message = Message::new(StreamId(i % 256), PpId(53), &[7; 100]);
            let lifecycle_id = LifecycleId::new(u64::from(i) + 1);
            let options = SendOptions { lifetime: Some(Duration::ZERO), lifecycle_id, ..Default::default() };
            queue.add(SocketTime::zero(), message, &options).unwrap();
        }
        let mut buffer = [0; 1_200];
        let nothing = queue.produce_into(SocketTime(10_000_000), &mut buffer).unwrap().is_none();
        assert!(nothing && queue.events().len() == 2_305, "nothing waits, {} events", queue.events().len());
    };
    std::thread::Builder::new().stack_size(kilobytes * 1024).spawn(run).unwrap().join().unwrap();
    println!("1,024 expired heads in one call, {kilobytes} KB of stack: 2,305 events, nothing waits");
}
