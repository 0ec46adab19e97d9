//! The lines of chunks on the wire: `W`, which writes one, and `R`, which reads bytes.

use super::FILL;
use super::fragment_fields;
use super::line::Line;
use super::line::sum;
use super::payload::payload;
use desqariy::*;

/// A chunk of at most so many bytes is shown.
const SHOWN: usize = 128;

/// What was written, where it has 1 to so many bytes.
pub fn shown(bytes: &[u8]) -> String {
    let hex: String = bytes.iter().map(|b| format!("{b:02x}")).collect();
    if (1..=SHOWN).contains(&bytes.len()) { format!(" {hex}") } else { String::new() }
}

pub fn write(mut line: Line) -> String {
    let kind = if line.flag() { ChunkKind::IData } else { ChunkKind::Data };
    let mut output = vec![FILL; line.take()];
    let tsn = Tsn(line.take());
    let id = StreamId(line.take());
    let mut data = Data {
        stream_key: StreamKey::new(line.flag(), id),
        ssn: Ssn(line.take()),
        mid: Mid(line.take()),
        fsn: Fsn(line.take()),
        ppid: PpId(line.take()),
        is_beginning: line.flag(),
        is_end: line.flag(),
        payload: &[][..],
    };
    let bytes = payload(line.take(), line.take());
    data.payload = &bytes[..];
    match write_chunk(&mut output, kind, tsn, &data) {
        Err(refusal) => {
            assert!(output.iter().all(|b| *b == FILL), "a refusal writes nothing");
            format!("W {}\n", refusal.number())
        }
        Ok(n) => format!("W 0 {}\n", written(&output, n)),
    }
}

/// So many bytes written, the sum over the whole output, and what was written if it is short.
pub fn written(output: &[u8], n: usize) -> String {
    format!("{n} {}{}", sum(output), shown(&output[..n]))
}

/// Parts joined by `+`: digits, or so many bytes of a pattern; `-` is no bytes.
pub fn given(text: &str) -> Vec<u8> {
    let digits = |part: &str| -> Vec<u8> {
        (0..part.len()).step_by(2).map(|i| u8::from_str_radix(&part[i..i + 2], 16).expect("two digits")).collect()
    };
    let part = |part: &str| match part.split_once('*') {
        Some((length, seed)) => payload(length.parse().unwrap(), seed.parse().unwrap()),
        None => digits(part),
    };
    if text == "-" { Vec::new() } else { text.split('+').flat_map(part).collect() }
}

pub fn read(text: &str) -> String {
    match read_chunk(&given(text)) {
        Err(refusal) => format!("R {}\n", refusal.number()),
        Ok(chunk) => format!("R 0 {} {}{}", chunk.kind as u8, chunk.tsn, fragment_fields(&chunk.fragment)),
    }
}
