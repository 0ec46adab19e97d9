//! The same in words and as JSON.

use crate::differing::Difference;
use crate::form::Image;
use crate::form::LIFETIME;
use crate::form::MID_GIVEN;
use crate::form::Record;
use crate::form::UNORDERED;
use desqariy::Refusal;
use std::fmt::Write;

/// With a comma before every third digit from the right.
pub fn number(n: u64) -> String {
    let digits = n.to_string();
    let mut out = String::new();
    for (k, digit) in digits.chars().enumerate() {
        if k > 0 && (digits.len() - k) % 3 == 0 {
            out.push(',');
        }
        out.push(digit);
    }
    out
}

/// The sum that zlib's crc32 gives, to compare bytes by eye or with other tools. An image carries none.
pub fn crc32(bytes: &[u8]) -> u32 {
    !bytes.iter().fold(u32::MAX, |sum, byte| {
        (0..8).fold(sum ^ u32::from(*byte), |s, _| if s & 1 == 1 { s >> 1 ^ 0xedb8_8320 } else { s >> 1 })
    })
}

fn text(s: &str) -> String {
    let mut out = String::from("\"");
    for c in s.chars() {
        match c {
            '"' | '\\' => out.extend(['\\', c]),
            c if c < ' ' => write!(out, "\\u{:04x}", c as u32).expect("a string takes it"),
            c => out.push(c),
        }
    }
    out + "\""
}

/// A field's name as a key.
fn key(name: &str) -> String {
    text(&name.to_lowercase().replace(' ', "_"))
}

fn words(record: &Record) -> String {
    let hidden = ["flags", "zero"];
    let mut parts = Vec::new();
    for (k, (name, _)) in record.fields.iter().enumerate().filter(|(_, f)| !hidden.contains(&f.0)) {
        parts.push(format!("{name} {}", number(record.numbers[k])));
    }
    if record.fields.iter().any(|f| f.0 == "flags") {
        let flags = record.get("flags");
        parts.insert(1, if flags & UNORDERED == 0 { "ordered" } else { "unordered" }.into());
        if flags & MID_GIVEN != 0 {
            parts.insert(2, "MID given".into());
        }
        if flags & LIFETIME != 0 {
            parts.insert(2, "with a lifetime".into());
        }
        parts.push(format!("payload crc32 {:08x}", crc32(&record.payload)));
    }
    parts.join(", ")
}

fn object(record: &Record) -> String {
    let mut parts = vec![format!("\"byte\":{}", record.at)];
    parts.extend(record.fields.iter().zip(&record.numbers).map(|((name, _), n)| format!("{}:{n}", key(name))));
    if !record.payload.is_empty() {
        parts.push(format!("\"payload_crc32\":{}", crc32(&record.payload)));
    }
    format!("{{{}}}", parts.join(","))
}

fn sums(image: &Image) -> [u64; 2] {
    let of = |what: fn(&Record) -> u64| image.messages.iter().map(what).sum();
    [of(|m| m.get("payload length").saturating_sub(m.get("offset"))), of(|m| m.get("payload length"))]
}

pub fn image_in_words(bytes: &[u8], image: &Image, answer: Result<(), Refusal>) -> String {
    let mut out = format!("{} bytes, crc32 {:08x}\n", number(bytes.len() as u64), crc32(bytes));
    for (kind, records) in [("stream", &image.streams), ("message", &image.messages)] {
        for record in records {
            writeln!(out, "byte {}, {kind} record: {}", number(record.at as u64), words(record))
                .expect("a string takes it");
        }
    }
    if let Some(trailer) = &image.trailer {
        let [to_send, occupied] = sums(image).map(number);
        writeln!(out, "byte {}, trailer: {}", number(trailer.at as u64), words(trailer)).expect("a string takes it");
        writeln!(out, "to be sent: {to_send} bytes, of {occupied} that the messages occupy")
            .expect("a string takes it");
    }
    if let Some(broken) = &image.broken {
        writeln!(out, "broken at byte {}: {}", number(broken.byte as u64), broken.rule).expect("a string takes it");
    }
    out + &judged(answer)
}

/// What the proved reader says.
pub fn judged(answer: Result<(), Refusal>) -> String {
    match answer {
        Ok(()) => "accepted by the proved reader\n".into(),
        Err(refusal) => format!("refused by the proved reader with {}: {refusal}\n", refusal.number()),
    }
}

pub fn answer_as_json(answer: Result<(), Refusal>) -> String {
    match answer {
        Ok(()) => "\"accepted\":true,\"refusal\":0".into(),
        Err(refusal) => {
            format!("\"accepted\":false,\"refusal\":{},\"reason\":{}", refusal.number(), text(&refusal.to_string()))
        }
    }
}

/// The rule that the image breaks and its byte, or null.
pub fn broken_as_json(image: &Image) -> String {
    image.broken.as_ref().map_or("null".into(), |b| format!("{{\"byte\":{},\"rule\":{}}}", b.byte, text(&b.rule)))
}

pub fn image_as_json(bytes: &[u8], image: &Image, answer: Result<(), Refusal>) -> String {
    let list = |records: &[Record]| records.iter().map(object).collect::<Vec<_>>().join(",");
    let broken = broken_as_json(image);
    let [to_send, occupied] = sums(image);
    format!(
        "{{\"bytes\":{},\"crc32\":{},{},\"broken\":{broken},\"trailer\":{},\"streams\":[{}],\"messages\":[{}],\"to_send\":{to_send},\"occupied\":{occupied}}}\n",
        bytes.len(),
        crc32(bytes),
        answer_as_json(answer),
        image.trailer.as_ref().map_or("null".into(), object),
        list(&image.streams),
        list(&image.messages),
    )
}

fn side(n: Option<u64>) -> String {
    n.map_or("none".into(), number)
}

pub fn differences_in_words(differences: &[Difference]) -> String {
    let line = |d: &Difference| format!("{}: {} {} against {}\n", d.place, d.field, side(d.first), side(d.second));
    differences.iter().map(line).collect()
}

pub fn differences_as_json(differences: &[Difference]) -> String {
    let side = |n: Option<u64>| n.map_or("null".into(), |n| n.to_string());
    let one = |d: &Difference| {
        let (place, field) = (text(&d.place), text(d.field));
        format!("{{\"place\":{place},\"field\":{field},\"first\":{},\"second\":{}}}", side(d.first), side(d.second))
    };
    format!("[{}]", differences.iter().map(one).collect::<Vec<_>>().join(","))
}
