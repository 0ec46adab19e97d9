//! Where two images differ, field by field.

use crate::form::Image;
use crate::form::Record;
use crate::form::name;
use std::collections::BTreeMap;

/// A difference: in what, in which of its fields, and the two numbers; none where one image lacks it.
#[derive(Debug, Eq, PartialEq)]
pub struct Difference {
    pub place: String,
    pub field: &'static str,
    pub first: Option<u64>,
    pub second: Option<u64>,
}

/// The differing fields of two records of one kind.
fn fields(place: &str, one: &Record, other: &Record, found: &mut Vec<Difference>) {
    for (k, (field, _)) in one.fields.iter().enumerate() {
        if one.numbers[k] != other.numbers[k] {
            let (first, second) = (Some(one.numbers[k]), Some(other.numbers[k]));
            found.push(Difference { place: place.into(), field, first, second });
        }
    }
    if one.payload != other.payload {
        let same = one.payload.iter().zip(&other.payload).take_while(|(a, b)| a == b).count();
        let [first, second] = [one, other].map(|r| r.payload.get(same).map(|b| u64::from(*b)));
        found.push(Difference { place: format!("{place}, payload byte {same}"), field: "value", first, second });
    }
}

/// The records by key; a key that comes again has a count beside it.
fn by_key(records: &[Record], key: impl Fn(&Record) -> (u64, u64)) -> BTreeMap<(u64, u64, usize), &Record> {
    let mut found = BTreeMap::new();
    for record in records {
        let (a, b) = key(record);
        let again = (0..=records.len()).find(|n| !found.contains_key(&(a, b, *n))).expect("a count is free");
        found.insert((a, b, again), record);
    }
    found
}

fn records(
    one: &[Record],
    other: &[Record],
    key: fn(&Record) -> (u64, u64),
    called: fn(&Record) -> String,
    found: &mut Vec<Difference>,
) {
    let (ours, theirs) = (by_key(one, key), by_key(other, key));
    let all: BTreeMap<_, _> = ours.iter().chain(&theirs).collect();
    for (key, record) in all {
        match (ours.get(key), theirs.get(key)) {
            (Some(a), Some(b)) => fields(&called(a), a, b, found),
            (a, b) => found.push(Difference {
                place: called(record),
                field: "records",
                first: Some(u64::from(a.is_some())),
                second: Some(u64::from(b.is_some())),
            }),
        }
    }
}

/// All differences of what could be read of two images.
pub fn differences(one: &Image, other: &Image) -> Vec<Difference> {
    let mut found = Vec::new();
    if let (Some(a), Some(b)) = (&one.trailer, &other.trailer) {
        fields("trailer", a, b, &mut found);
    }
    let stream_key = |r: &Record| (r.get("stream"), 0);
    records(&one.streams, &other.streams, stream_key, |r| format!("stream {}", r.get("stream")), &mut found);
    let message_key = |r: &Record| (r.get("stream"), r.get("message id"));
    records(&one.messages, &other.messages, message_key, name, &mut found);
    found
}
