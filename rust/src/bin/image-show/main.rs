//! Shows a changeover image in words, tells where two images differ, and checks a changeover. For operators; `docs/CHANGEOVER.md` of the
//! repository has the steps.
#![warn(clippy::pedantic)]
#![allow(clippy::cast_possible_truncation, reason = "usize has 64 bits (build.rs)")]

mod differing;
mod form;
mod shown;

use desqariy::Options;
use desqariy::Refusal;
use desqariy::RestartRule;
use desqariy::SendQueue;
use desqariy::SocketTime;
use form::Image;
use std::env;
use std::fs;
use std::process::ExitCode;

const USAGE: &str = "\
usage: image-show [OPTIONS] IMAGE            shows the image in words, and the rule that it breaks and at which byte
       image-show [OPTIONS] IMAGE OTHER      tells where the two differ, field by field
       image-show --check [OPTIONS] IMAGE [OTHER]
                                             the changeover check: IMAGE, saved by the old host, is accepted, and OTHER, saved by the
                                             new host when it had restored it, is the same; without OTHER the image is restored and
                                             saved again here

  --json          for scripts
  --store BYTES   the store of the queue that the image is for (default: 2,000,000)
  --priority N    its default priority (default: the image's)
  --strict        it restarts by the strict rule

Whether an image is accepted is judged by the proved reader; the rule and the byte are this program's reading. An image has no checksum.

Exit status: 0 accepted, the same, the check is passed; 1 refused, they differ, it is not passed; 2 usage, or a file cannot be read; 3 this
program's reading and the proved reader's judgement disagree.
";

/// When the image is restored and saved again; any time from 1 on does.
const NOW: SocketTime = SocketTime(1);
const GOOD: u8 = 0;
const BAD: u8 = 1;
const UNUSABLE: u8 = 2;
const DISAGREE: u8 = 3;
const PAYLOAD_LIMIT: usize = 1_200;

struct Wanted {
    check: bool,
    json: bool,
    strict: bool,
    store: usize,
    priority: Option<u16>,
    files: Vec<String>,
}

fn wanted(mut words: impl Iterator<Item = String>) -> Option<Wanted> {
    let store = Options::default().max_send_buffer_size;
    let mut wanted = Wanted { check: false, json: false, strict: false, store, priority: None, files: Vec::new() };
    while let Some(word) = words.next() {
        match word.as_str() {
            "--check" => wanted.check = true,
            "--json" => wanted.json = true,
            "--strict" => wanted.strict = true,
            "--store" => wanted.store = words.next()?.parse().ok()?,
            "--priority" => wanted.priority = Some(words.next()?.parse().ok()?),
            option if option.starts_with('-') => return None,
            _ => wanted.files.push(word),
        }
    }
    (1..=2).contains(&wanted.files.len()).then_some(wanted)
}

/// An image with its reading, and what the proved reader says: the queue that it makes, or why not.
struct Judged {
    bytes: Vec<u8>,
    image: Image,
    answer: Result<SendQueue, Refusal>,
}

impl Judged {
    fn new(bytes: Vec<u8>, wanted: &Wanted) -> Self {
        let image = Image::read(&bytes, wanted.strict);
        let told = image.trailer.as_ref().map_or(0, |trailer| trailer.get("default priority"));
        let options = Options {
            max_send_buffer_size: wanted.store,
            default_stream_priority: wanted.priority.unwrap_or(told as u16),
            restart_rule: if wanted.strict { RestartRule::Strict } else { RestartRule::Dcsctp },
            ..Options::default()
        };
        let restored = |mut queue: SendQueue| queue.restore(NOW, &bytes).map(|()| queue);
        let answer = SendQueue::new(PAYLOAD_LIMIT, &options).and_then(restored);
        Self { bytes, image, answer }
    }

    fn judgement(&self) -> Result<(), Refusal> {
        self.answer.as_ref().map(|_| ()).map_err(|refusal| *refusal)
    }

    /// The reading finds a broken rule exactly where the proved reader does.
    fn agrees(&self) -> bool {
        self.image.broken.is_some() == (self.judgement() == Err(Refusal::ImageWrong))
    }
}

fn show(one: &Judged, json: bool) -> u8 {
    let shown = if json { shown::image_as_json } else { shown::image_in_words };
    print!("{}", shown(&one.bytes, &one.image, one.judgement()));
    if one.judgement().is_ok() { GOOD } else { BAD }
}

fn compare(one: &Judged, other: &Judged, json: bool) -> u8 {
    let same = one.bytes == other.bytes;
    let differences = differing::differences(&one.image, &other.image);
    if json {
        println!(
            "{{\"same\":{same},\"differences\":{},\"first_broken\":{},\"second_broken\":{}}}",
            shown::differences_as_json(&differences),
            shown::broken_as_json(&one.image),
            shown::broken_as_json(&other.image)
        );
    } else if same {
        println!("the same {} bytes", shown::number(one.bytes.len() as u64));
    } else {
        print!("{}", shown::differences_in_words(&differences));
        for (which, judged) in [("first", one), ("second", other)] {
            if let Some(broken) = &judged.image.broken {
                println!("the {which} image is broken at byte {}: {}", broken.byte, broken.rule);
            }
        }
    }
    if same { GOOD } else { BAD }
}

/// The image that the new host has saved, or that is saved here by a queue restored from the old one.
fn saved_again(one: &Judged, other: Option<Judged>, wanted: &Wanted) -> Option<Judged> {
    other.or_else(|| {
        let saved = one.answer.as_ref().ok()?.save(NOW).ok()?;
        Some(Judged::new(saved, wanted))
    })
}

fn check(one: &Judged, other: Option<Judged>, wanted: &Wanted) -> u8 {
    let again = saved_again(one, other, wanted);
    let same = again.as_ref().is_some_and(|again| again.bytes == one.bytes);
    let passed = one.judgement().is_ok() && same;
    let differences = again.as_ref().map_or_else(Vec::new, |again| differing::differences(&one.image, &again.image));
    if wanted.json {
        println!(
            "{{\"passed\":{passed},{},\"broken\":{},\"same\":{same},\"differences\":{}}}",
            shown::answer_as_json(one.judgement()),
            shown::broken_as_json(&one.image),
            shown::differences_as_json(&differences)
        );
    } else {
        print!("{}{}", shown::judged(one.judgement()), shown::differences_in_words(&differences));
        if let Some(broken) = &one.image.broken {
            println!("broken at byte {}: {}", broken.byte, broken.rule);
        }
        println!(
            "changeover check {}",
            if passed { "passed: the new queue is the one of the image" } else { "NOT passed" }
        );
    }
    if passed { GOOD } else { BAD }
}

fn main() -> ExitCode {
    let Some(wanted) = wanted(env::args().skip(1)) else {
        eprint!("{USAGE}");
        return ExitCode::from(UNUSABLE);
    };
    let mut judged = Vec::new();
    for file in &wanted.files {
        match fs::read(file) {
            Ok(bytes) => judged.push(Judged::new(bytes, &wanted)),
            Err(error) => {
                eprintln!("image-show: {file}: {error}");
                return ExitCode::from(UNUSABLE);
            }
        }
    }
    let agree = judged.iter().all(Judged::agrees);
    let mut judged = judged.into_iter();
    let (one, other) = (judged.next().expect("a file is named"), judged.next());
    let status = match other {
        other if wanted.check => check(&one, other, &wanted),
        Some(other) => compare(&one, &other, wanted.json),
        None => show(&one, wanted.json),
    };
    if !agree {
        eprintln!("image-show: its reading and the proved reader disagree; believe the reader");
        return ExitCode::from(DISAGREE);
    }
    ExitCode::from(status)
}
