//! The form of an image (document 01, "The changeover image"): records and their fields, read as far as they can be, and the first rule that
//! is broken, with the byte at which it shows.

/// A field's name and its bytes; numbers are unsigned, high byte first.
pub type Field = (&'static str, usize);

pub const STREAM: [Field; 5] =
    [("stream", 2), ("next SSN", 2), ("next unordered MID", 4), ("next ordered MID", 4), ("priority", 2)];
pub const MESSAGE: [Field; 13] = [
    ("stream", 2),
    ("flags", 1),
    ("zero", 1),
    ("protocol id", 4),
    ("milliseconds left", 4),
    ("retransmissions", 2),
    ("SSN", 2),
    ("MID", 4),
    ("FSN", 4),
    ("lifecycle id", 8),
    ("message id", 4),
    ("offset", 4),
    ("payload length", 4),
];
pub const TRAILER: [Field; 7] = [
    ("next message id", 4),
    ("default priority", 2),
    ("streams", 2),
    ("messages", 2),
    ("form", 2),
    ("bytes of message records", 4),
    ("bytes of stream records", 4),
];

const TRAILER_BYTES: usize = 20;
const STREAM_BYTES: u64 = 14;
const MAX_PAYLOAD: u64 = 262_144;
const MAX_MILLISECONDS: u64 = 2_147_483_647;
pub const UNORDERED: u64 = 1;
pub const MID_GIVEN: u64 = 2;
pub const LIFETIME: u64 = 4;

/// A record: where it begins, and its numbers in the order of its fields.
#[derive(Clone, Debug, Eq, PartialEq)]
pub struct Record {
    pub fields: &'static [Field],
    pub at: usize,
    pub numbers: Vec<u64>,
    /// A message's, as far as the image has it.
    pub payload: Vec<u8>,
}

impl Record {
    /// The record at this place; none where bytes are missing.
    fn read(fields: &'static [Field], image: &[u8], at: usize) -> Option<Self> {
        let mut place = at;
        let mut numbers = Vec::new();
        for (_, width) in fields {
            let bytes = image.get(place..place + width)?;
            numbers.push(bytes.iter().fold(0, |n, b| n << 8 | u64::from(*b)));
            place += width;
        }
        Some(Self { fields, at, numbers, payload: Vec::new() })
    }

    pub fn get(&self, name: &str) -> u64 {
        self.numbers[self.place(name)]
    }

    fn place(&self, name: &str) -> usize {
        self.fields.iter().position(|f| f.0 == name).expect("the record has the field")
    }

    /// The byte at which a field begins.
    pub fn byte(&self, name: &str) -> usize {
        self.at + self.fields[..self.place(name)].iter().map(|f| f.1).sum::<usize>()
    }

    fn end(&self) -> usize {
        self.at + self.fields.iter().map(|f| f.1).sum::<usize>() + self.payload.len()
    }
}

/// A rule that an image breaks, and where.
#[derive(Clone, Debug, Eq, PartialEq)]
pub struct Broken {
    pub byte: usize,
    pub rule: String,
}

/// What could be read of an image.
#[derive(Debug, Default)]
pub struct Image {
    pub trailer: Option<Record>,
    pub streams: Vec<Record>,
    pub messages: Vec<Record>,
    pub broken: Option<Broken>,
}

impl Image {
    /// Keeps the first rule that does not hold.
    fn rule(&mut self, holds: bool, byte: usize, text: impl FnOnce() -> String) {
        if !holds && self.broken.is_none() {
            self.broken = Some(Broken { byte, rule: text() });
        }
    }

    /// Reads an image; `strict` where the queue that it is for was created by the strict rule of a restart.
    pub fn read(bytes: &[u8], strict: bool) -> Self {
        let mut image = Self::default();
        let Some(at) = bytes.len().checked_sub(TRAILER_BYTES) else {
            image.rule(false, bytes.len(), || {
                format!("an image ends with a trailer of 20 bytes, and this has {}", bytes.len())
            });
            return image;
        };
        let trailer = Record::read(&TRAILER, bytes, at).expect("the bytes are there");
        let (streams, messages) = (trailer.get("bytes of stream records"), trailer.get("bytes of message records"));
        image.rule(trailer.get("form") == 1, trailer.byte("form"), || {
            format!("the form is {}, not 1", trailer.get("form"))
        });
        image.rule(streams == STREAM_BYTES * trailer.get("streams"), trailer.byte("bytes of stream records"), || {
            format!(
                "{} streams take {} bytes, not {streams}",
                trailer.get("streams"),
                STREAM_BYTES * trailer.get("streams")
            )
        });
        image.rule(streams + messages + 20 == bytes.len() as u64, trailer.byte("bytes of message records"), || {
            format!("records and trailer take {} bytes, and the image has {}", streams + messages + 20, bytes.len())
        });
        image.trailer = Some(trailer);
        if image.broken.is_none() {
            image.read_streams(&bytes[..streams as usize]);
            image.read_messages(&bytes[..at], streams as usize, strict);
        }
        image
    }

    fn read_streams(&mut self, bytes: &[u8]) {
        let default = self.trailer.as_ref().expect("it was read").get("default priority");
        let mut at = 0;
        while let Some(stream) = Record::read(&STREAM, bytes, at) {
            at = stream.end();
            let id = stream.get("stream");
            let rises = self.streams.last().is_none_or(|before| before.get("stream") < id);
            self.rule(rises, stream.at, || format!("stream {id}: the ids of stream records rise"));
            let counts =
                ["next SSN", "next unordered MID", "next ordered MID"].iter().any(|name| stream.get(name) != 0);
            self.rule(counts || stream.get("priority") != default, stream.at, || {
                format!("stream {id}: one with zero counters and the default priority has no record")
            });
            self.streams.push(stream);
        }
    }

    fn read_messages(&mut self, bytes: &[u8], from: usize, strict: bool) {
        let mut at = from;
        while at < bytes.len() {
            let Some(mut message) = Record::read(&MESSAGE, bytes, at) else {
                return self
                    .rule(false, at, || format!("{} bytes are left, and a message record has 44", bytes.len() - at));
            };
            self.message_rules(&message, strict);
            let length = message.get("payload length") as usize;
            let payload = bytes.get(message.end()..).unwrap_or_default();
            self.rule(length <= payload.len(), message.byte("payload length"), || {
                format!(
                    "{}: its payload of {length} bytes passes the message records, which have {}",
                    name(&message),
                    payload.len()
                )
            });
            message.payload = payload[..length.min(payload.len())].to_vec();
            at = message.end();
            self.messages.push(message);
        }
        let trailer = self.trailer.as_ref().expect("it was read");
        let (told, byte) = (trailer.get("messages"), trailer.byte("messages"));
        let count = self.messages.len() as u64;
        self.rule(told == count, byte, || format!("the trailer tells {told} messages, and there are {count}"));
    }

    fn message_rules(&mut self, m: &Record, strict: bool) {
        let name = name(m);
        let (flags, offset, ms) = (m.get("flags"), m.get("offset"), m.get("milliseconds left"));
        let given = flags & MID_GIVEN != 0;
        let before = self.messages.last().map(|b| b.get("stream"));
        let mut rule = |holds, field, text: &str| self.rule(holds, m.byte(field), || format!("{name}: {text}"));
        rule(before.is_none_or(|b| b <= m.get("stream")), "stream", "the streams of message records rise");
        rule(flags < 8, "flags", "flags are a sum of 1, 2 and 4");
        rule(m.get("zero") == 0, "zero", "the byte behind the flags is 0");
        rule(
            (1..=MAX_PAYLOAD).contains(&m.get("payload length")),
            "payload length",
            "a payload has 1 to 262,144 bytes",
        );
        rule(offset < m.get("payload length"), "offset", "the offset is below the payload length");
        rule(flags & LIFETIME != 0 || ms == 0, "milliseconds left", "without a lifetime the milliseconds left are 0");
        rule(ms <= MAX_MILLISECONDS, "milliseconds left", "milliseconds left are at most 2,147,483,647");
        for field in ["MID", "SSN", "FSN", "offset"] {
            rule(given || m.get(field) == 0, field, &format!("without a MID given the {field} is 0"));
        }
        rule(flags & UNORDERED == 0 || m.get("SSN") == 0, "SSN", "an unordered message has SSN 0");
        rule(!given || before != Some(m.get("stream")), "flags", "only a stream's first message has a MID");
        rule(
            !(strict && given && offset == 0),
            "flags",
            "by the strict rule a message of which nothing was sent has no MID",
        );
    }
}

/// What a message is called.
pub fn name(message: &Record) -> String {
    format!("message {} of stream {}", message.get("message id"), message.get("stream"))
}
