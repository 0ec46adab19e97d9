//! The operator's tool: its reading agrees with the proved reader on every image tried, and its commands and exit statuses.

#[allow(dead_code, reason = "what is shown is tried through the program")]
#[path = "../src/bin/image-show/form.rs"]
mod form;

use desqariy::*;
use form::Image;
use std::fs;
use std::path::PathBuf;
use std::process::Command;
use std::time::Duration;

const NOW: SocketTime = SocketTime(5);

fn options(restart_rule: RestartRule) -> Options {
    Options { max_send_buffer_size: 4_000, restart_rule, ..Options::default() }
}

/// A queue with all that an image can have: half-sent, unordered, with a lifetime, with a lifecycle id, with priorities and counters.
fn queue() -> SendQueue {
    let mut q = SendQueue::new(10, &options(RestartRule::Dcsctp)).unwrap();
    q.enable_message_interleaving(true);
    q.set_priority(StreamId(9), 7).unwrap();
    for (stream, length) in [(3, 30), (1, 40), (1, 50), (2, 1), (3, 7)] {
        let options = SendOptions {
            unordered: stream == 3,
            lifetime: (length > 35).then_some(Duration::from_millis(length as u64)),
            max_retransmissions: (stream == 2).then_some(4),
            lifecycle_id: LifecycleId::new(length as u64 / 7),
        };
        q.add(NOW, Message::new(StreamId(stream), PpId(53), &vec![length as u8; length]), &options).unwrap();
    }
    for _ in 0..3 {
        q.produce(NOW, 10).unwrap();
    }
    q
}

/// What the proved reader says.
fn judged(image: &[u8], rule: RestartRule) -> Result<(), Refusal> {
    SendQueue::new(100, &options(rule)).unwrap().restore(SocketTime(1), image)
}

/// The tool finds a broken rule exactly where the proved reader refuses with 13, and shows it inside the image or at its end.
fn agree(image: &[u8], rule: RestartRule) -> bool {
    let broken = Image::read(image, rule == RestartRule::Strict).broken;
    assert_eq!(broken.is_some(), judged(image, rule) == Err(Refusal::ImageWrong), "{broken:?} {image:?}");
    assert!(broken.as_ref().is_none_or(|b| b.byte <= image.len()));
    broken.is_some()
}

#[test]
fn the_reading_is_the_proved_reader_s() {
    let mut reset = queue();
    reset.reset();
    let mut broken = 0;
    for image in [queue().save(NOW).unwrap(), reset.save(NOW).unwrap()] {
        for rule in [RestartRule::Dcsctp, RestartRule::Strict] {
            for place in 0..image.len() {
                for change in [1, 2, 4, 8, 128, 255] {
                    let mut changed = image.clone();
                    changed[place] ^= change;
                    broken += u32::from(agree(&changed, rule));
                }
                agree(&image[..place], rule);
            }
            agree(&[&image[..], &[0]].concat(), rule);
        }
    }
    assert!(broken > 1_000, "{broken}");
}

/// A file with these bytes, for one test.
fn file(name: &str, bytes: &[u8]) -> String {
    let path = PathBuf::from(env!("CARGO_TARGET_TMPDIR")).join(name);
    fs::write(&path, bytes).unwrap();
    path.to_str().unwrap().into()
}

/// The exit status, and what was printed.
fn run(words: &[&str]) -> (i32, String) {
    let out = Command::new(env!("CARGO_BIN_EXE_image-show")).args(words).output().unwrap();
    (out.status.code().unwrap(), String::from_utf8(out.stdout).unwrap())
}

#[test]
fn an_image_is_shown() {
    let image = queue().save(NOW).unwrap();
    let whole = file("whole", &image);
    let (status, said) = run(&[&whole]);
    assert_eq!(status, 0, "{said}");
    for part in [
        "stream record: stream 9, next SSN 0, next unordered MID 0, next ordered MID 0, priority 7",
        "unordered",
        "MID given",
        "with a lifetime",
        "next message id 5",
        "accepted by the proved reader",
    ] {
        assert!(said.contains(part), "{part} is not in\n{said}");
    }
    let (status, json) = run(&["--json", &whole]);
    assert!(
        status == 0
            && json.starts_with('{')
            && json.contains("\"accepted\":true,\"refusal\":0")
            && json.contains("\"next_message_id\":5")
    );
    let mut changed = image.clone();
    let form = image.len() - 10;
    assert_eq!(changed[form..form + 2], [0, 1]);
    changed[form + 1] = 2;
    let (status, said) = run(&[&file("broken", &changed)]);
    assert!(status == 1 && said.contains(&format!("broken at byte {form}: the form is 2, not 1")), "{said}");
    assert!(said.contains("refused by the proved reader with 13"));
    let (status, said) = run(&["--store", "10", &whole]);
    assert!(status == 1 && said.contains("refused by the proved reader with 15"), "{said}");
    let (status, said) = run(&["--priority", "255", "--json", &whole]);
    assert!(status == 1 && said.contains("\"refusal\":14"), "{said}");
    assert_eq!(run(&[]).0, 2);
    assert_eq!(run(&["--no-such-option", &whole]).0, 2);
    assert_eq!(run(&["/no/such/file"]).0, 2);
}

/// The lost reel: two images that keep all rules and differ in the next message id alone.
#[test]
fn two_images_differ_field_by_field() {
    let image = queue().save(NOW).unwrap();
    let mut other = image.clone();
    let at = image.len() - 20;
    other[at + 1] = 1;
    let (one, two) = (file("five", &image), file("many", &other));
    let (status, said) = run(&[&one, &two]);
    assert_eq!((status, said.as_str()), (1, "trailer: next message id 5 against 65,541\n"));
    let wanted = "{\"same\":false,\"differences\":[{\"place\":\"trailer\",\"field\":\"next message id\",\"first\":5,\"second\":65541}],\"first_broken\":null,\"second_broken\":null}\n";
    assert_eq!(run(&["--json", &one, &two]), (1, wanted.into()));
    assert_eq!(run(&[&one, &one]).0, 0);
    let mut less = queue();
    less.prepare_reset_stream(StreamId(1)).unwrap();
    let (status, said) = run(&[&one, &file("less", &less.save(NOW).unwrap())]);
    assert!(status == 1 && said.contains("message 2 of stream 1: records 1 against 0"), "{said}");
    let mut payload = image.clone();
    payload[at - 1] ^= 1;
    let (status, said) = run(&[&one, &file("payload", &payload)]);
    assert!(status == 1 && said.lines().count() == 1 && said.contains("payload byte"), "{said}");
}

/// The changeover check passes exactly where the image is accepted and the new host saves the same bytes.
#[test]
fn the_changeover_check() {
    let image = queue().save(NOW).unwrap();
    let (old, mut new) = (file("old", &image), SendQueue::new(100, &options(RestartRule::Dcsctp)).unwrap());
    new.restore(NOW, &image).unwrap();
    let saved = file("new", &new.save(NOW).unwrap());
    assert_eq!(run(&["--check", &old]).0, 0);
    assert_eq!(run(&["--check", "--strict", &old]).0, 0);
    let (status, said) = run(&["--check", &old, &saved]);
    assert!(status == 0 && said.contains("changeover check passed"), "{said}");
    assert!(run(&["--check", "--json", &old, &saved]).1.contains("\"passed\":true"));
    new.produce(NOW, 10).unwrap();
    let (status, said) = run(&["--check", &old, &file("later", &new.save(NOW).unwrap())]);
    assert!(status == 1 && said.contains("changeover check NOT passed") && said.contains(" against "), "{said}");
    let (status, said) = run(&["--check", &file("cut", &image[1..])]);
    assert!(
        status == 1 && said.contains("refused by the proved reader with 13") && said.contains("broken at byte"),
        "{said}"
    );
    let (status, said) = run(&["--check", "--json", &file("none", &[])]);
    assert!(
        status == 1 && said.contains("\"passed\":false") && said.contains("\"broken\":{\"byte\":0,\"rule\":\""),
        "{said}"
    );
    let mut reset = queue();
    reset.reset();
    let by_dcsctp = file("by-dcsctp", &reset.save(NOW).unwrap());
    assert_eq!([run(&["--check", &by_dcsctp]).0, run(&["--check", "--strict", &by_dcsctp]).0], [0, 1]);
}
