//! Changes of a saved image: most break one rule of its form, some make another good image.

use crate::calls::Call;
use crate::dice::Dice;

/// Place and width of a field.
type Field = (usize, usize);

fn number(image: &[u8], (at, width): Field) -> u64 {
    image[at..at + width].iter().fold(0, |n, b| n << 8 | u64::from(*b))
}

/// The fields of a well-formed image: of the stream records, of the message records (with the flags' place), of the trailer.
struct Fields {
    streams: Vec<[Field; 5]>,
    messages: Vec<[Field; 13]>,
    trailer: [Field; 7],
}

fn lay<const N: usize>(mut at: usize, widths: [usize; N]) -> [Field; N] {
    widths.map(|width| {
        at += width;
        (at - width, width)
    })
}

fn fields(image: &[u8]) -> Fields {
    let end = image.len() - 20;
    let trailer = lay(end, [4, 2, 2, 2, 2, 4, 4]);
    let stream_end = number(image, trailer[6]) as usize;
    let streams = (0..stream_end).step_by(14).map(|at| lay(at, [2, 2, 4, 4, 2])).collect();
    let mut messages = Vec::new();
    let mut at = stream_end;
    while at < end {
        let record = lay(at, [2, 1, 1, 4, 4, 2, 2, 4, 4, 8, 4, 4, 4]);
        at += 44 + number(image, record[12]) as usize;
        messages.push(record);
    }
    Fields { streams, messages, trailer }
}

/// Puts a number into a field.
fn put(image: &[u8], (at, width): Field, value: u64, calls: &mut Vec<Call>) {
    for i in 0..width {
        let byte = (value >> (8 * (width - 1 - i))) as u8;
        if image[at + i] != byte {
            calls.push(Call::Put { place: at + i, value: byte });
        }
    }
}

/// Some changes of the image.
pub fn changes(dice: &mut Dice, image: &[u8], default_priority: u16) -> Vec<Call> {
    let mut calls = Vec::new();
    let f = fields(image);
    let way = dice.below(100);
    if way < 35 {
        // Counters at their ends, so that they wrap.
        let mut counters: Vec<Field> = vec![f.trailer[0]];
        counters.extend(f.streams.iter().flat_map(|s| &s[1..4]));
        for m in f.messages.iter().filter(|m| image[m[1].0] & 2 != 0) {
            counters.extend(&m[7..9]);
            if image[m[1].0] & 1 == 0 {
                counters.push(m[6]);
            }
        }
        for field in counters {
            if dice.chance(500) {
                let top = u64::MAX >> (64 - 8 * field.1);
                put(image, field, dice.pick(&[top, top, top - 1, 0]), &mut calls);
            }
        }
    } else if way < 42 && !f.streams.is_empty() {
        // A record that says nothing.
        let s = f.streams[dice.below(f.streams.len() as u64) as usize];
        for field in &s[1..4] {
            put(image, *field, 0, &mut calls);
        }
        put(image, s[4], u64::from(default_priority), &mut calls);
    } else if way < 80 {
        // Another value in any field.
        let mut all: Vec<Field> = f.trailer.to_vec();
        all.extend(f.streams.iter().flatten());
        all.extend(f.messages.iter().flatten());
        for _ in 0..dice.pick(&[1, 1, 2]) {
            let field = dice.pick(&all);
            let top = u64::MAX >> (64 - 8 * field.1);
            let old = number(image, field);
            let bit = 1 << dice.below(8 * field.1 as u64);
            let any = dice.next() & top;
            let value =
                dice.pick(&[0, 1, top, old ^ 1, old.wrapping_add(1) & top, old.wrapping_sub(1) & top, old ^ bit, any]);
            put(image, field, value, &mut calls);
        }
    } else if way < 90 {
        let place = dice.below(image.len() as u64) as usize;
        calls.push(Call::Put { place, value: dice.next() as u8 });
    } else {
        let n = image.len();
        let any = dice.below(n as u64 + 1) as usize;
        let length = dice.pick(&[0, 1, 19, 20, 21, n - 1, n + 1, n + 14, n + 44, any]);
        calls.push(Call::Cut { length });
    }
    calls
}

/// The changes that lead back to the image as it was saved; none where it would take too many.
pub fn back(changed: &[u8], saved: &[u8]) -> Option<Vec<Call>> {
    let mut calls = vec![Call::Cut { length: saved.len() }];
    for (place, value) in saved.iter().enumerate() {
        if changed.get(place).copied().unwrap_or(0) != *value {
            calls.push(Call::Put { place, value: *value });
        }
    }
    (calls.len() < 100).then_some(calls)
}
