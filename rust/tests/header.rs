//! The crate's view of the C functions is the headers': same functions, same parameters. No linker would notice a difference.

use desqariy::Refusal;
use std::collections::BTreeMap;
use std::collections::BTreeSet;
use std::fs;
use std::path::Path;

fn text(path: &str) -> String {
    let path = Path::new(env!("CARGO_MANIFEST_DIR")).join(path);
    fs::read_to_string(&path).unwrap_or_else(|e| panic!("{}: {e}", path.display()))
}

/// A function's parameters as `name: type`, then its answer's type.
type Functions = BTreeMap<String, Vec<String>>;

fn without_comments(c: &str) -> String {
    let mut out = String::new();
    for (i, part) in c.split("/*").enumerate() {
        out.push_str(if i == 0 { part } else { part.split_once("*/").expect("a comment ends").1 });
    }
    out
}

/// A C type in Rust's words.
fn rust_type(c: &str, pointer: bool) -> String {
    let constant = c.starts_with("const ");
    let number = match c.trim_start_matches("const ") {
        "uint8_t" => "u8",
        "uint16_t" => "u16",
        "uint32_t" => "u32",
        "uint64_t" => "u64",
        "size_t" => "usize",
        other => panic!("unknown type {other}"),
    };
    match (pointer, constant) {
        (false, _) => number.into(),
        (true, true) => format!("*const {number}"),
        (true, false) => format!("*mut {number}"),
    }
}

fn of_header(header: &str) -> Functions {
    let mut functions = Functions::new();
    let code: Vec<String> =
        without_comments(header).lines().filter(|l| !l.starts_with('#')).map(String::from).collect();
    for statement in code.join(" ").split(';') {
        let one_line = statement.split_whitespace().collect::<Vec<_>>().join(" ");
        // a declaration has a type before its name; the layout's reference (`DSQ_LINKED_WITH`) has none
        let Some((head, parameters)) = one_line.split_once('(').filter(|(head, _)| head.contains(' ')) else {
            continue;
        };
        let mut words = head.rsplit(' ');
        let (name, answer) = (words.next().unwrap(), words.next().unwrap());
        let mut list: Vec<String> = Vec::new();
        for parameter in parameters.trim_end_matches(')').split(", ").filter(|p| *p != "void") {
            let plain = parameter.split('[').next().unwrap();
            let (kind, name) = plain.rsplit_once(' ').unwrap();
            let pointer = parameter.contains('[') || name.starts_with('*');
            list.push(format!("{}: {}", name.trim_start_matches('*'), rust_type(kind, pointer)));
        }
        list.push(rust_type(answer, false));
        functions.insert(name.into(), list);
    }
    functions
}

/// The declarations of the crate. One without an answer has `()`; two of the same arguments have a bar between their names.
fn of_crate() -> Functions {
    let mut functions = Functions::new();
    for statement in text("src/ffi/c.rs").split("pub fn ").filter(|s| s.starts_with("ds")) {
        let one_line = statement.split_once(';').unwrap().0.split_whitespace().collect::<Vec<_>>().join(" ");
        let (names, rest) = one_line.split_once('(').unwrap();
        let (parameters, answer) = rest.split_once(") -> ").unwrap_or((rest.trim_end_matches(')'), "()"));
        let mut list: Vec<String> =
            parameters.split(',').map(str::trim).filter(|p| !p.is_empty()).map(String::from).collect();
        list.push(answer.into());
        for name in names.split(" | ") {
            functions.insert(name.into(), list.clone());
        }
    }
    functions
}

/// Those of the owned functions, which the headers do not have.
fn is_owned(name: &str) -> bool {
    name.starts_with("dsq_owned_")
}

#[test]
fn the_functions_are_the_header_s() {
    for (header, prefix, least) in [("../c/send_queue.h", "dsq_", 20), ("../c/receiver.h", "dsr_", 4)] {
        let (header, mut ours) = (of_header(&text(header)), of_crate());
        ours.retain(|name, _| name.starts_with(prefix) && !is_owned(name));
        assert!(header.len() >= least, "the header was not understood");
        for (name, parameters) in &header {
            assert_eq!(ours.get(name), Some(parameters), "{name}");
        }
        assert_eq!(ours.len(), header.len());
    }
}

/// A parameter of a proved function as C sees it: an array is a pointer, a slice a pointer and a length.
fn of_parameter(name: &str, kind: &str, list: &mut Vec<String>) {
    let Some(lent) = kind.strip_prefix('&') else { return list.push(format!("{name}: {kind}")) };
    let (how, elements) = lent.strip_prefix("mut ").map_or(("const", lent), |rest| ("mut", rest));
    let inner = elements.trim_start_matches('[').trim_end_matches(']');
    list.push(format!("{name}: *{how} {}", inner.split(';').next().unwrap()));
    if !inner.contains(';') {
        list.push(format!("{name}_length: usize"));
    }
}

/// The files of the queue's two libraries that have functions for C.
const SOURCES: [&str; 10] = [
    "packets_c/src/lib",
    "send_queue_c/src/images",
    "send_queue_c/src/layout",
    "send_queue_c/src/messages",
    "send_queue_c/src/planning",
    "send_queue_c/src/questions",
    "send_queue_c/src/resets",
    "send_queue_c/src/sending",
    "send_queue_c/src/streams",
    "send_queue_c/src/wire",
];

/// Those of the receiver's.
const RECEIVER_SOURCES: [&str; 2] = ["receiver_c/src/calls", "receiver_c/src/layout"];

fn of_source(files: &[&str]) -> Functions {
    let mut functions = Functions::new();
    for file in files {
        for part in text(&format!("../crates/{file}.rt")).split("pub extern \"C\" fn ").skip(1) {
            let (name, rest) = part.split_once('(').unwrap();
            let (parameters, rest) = rest.split_once(')').unwrap();
            let answer = rest.strip_prefix(" -> ").map_or("()", |rest| rest.split_whitespace().next().unwrap());
            let mut list = Vec::new();
            for parameter in parameters.split(',').map(str::trim).filter(|p| !p.is_empty()) {
                let (name, kind) = parameter.split_once(": ").unwrap();
                of_parameter(name, kind, &mut list);
            }
            list.push(answer.into());
            functions.insert(name.into(), list);
        }
    }
    functions
}

/// The owned functions are for the crate alone: it declares them as they are proved, and the header does not name them.
#[test]
fn the_owned_functions_are_the_proved_ones() {
    let mut files = Vec::new();
    for library in text("owned_libraries.txt").split_whitespace() {
        let folder = Path::new(env!("CARGO_MANIFEST_DIR")).join("../crates").join(library).join("src");
        for entry in fs::read_dir(&folder).unwrap() {
            files.push(format!("{library}/src/{}", entry.unwrap().path().file_stem().unwrap().to_str().unwrap()));
        }
    }
    let files: Vec<&str> = files.iter().map(String::as_str).collect();
    let mut declared = of_crate();
    declared.retain(|name, _| is_owned(name));
    assert!(declared.len() > 10, "the declarations were not understood");
    assert_eq!(declared, of_source(&files));
    assert!(!text("../c/send_queue.h").contains("owned"));
}

#[test]
fn the_functions_are_the_proved_ones() {
    assert_eq!(of_header(&text("../c/send_queue.h")), of_source(&SOURCES));
    assert_eq!(of_header(&text("../c/receiver.h")), of_source(&RECEIVER_SOURCES));
}

/// The number behind a name, as `NAME 20768`, `NAME = 3` or `NAME: usize = 20_768` gives it.
fn number(text: &str, name: &str) -> u64 {
    let (_, rest) = text.split_once(name).unwrap_or_else(|| panic!("no {name}"));
    let digits: String =
        rest.chars().skip_while(|c| !c.is_ascii_digit()).take_while(|c| c.is_ascii_digit() || *c == '_').collect();
    digits.replace('_', "").parse().unwrap()
}

#[test]
fn the_lengths_and_places_are_the_proved_ones() {
    let header = text("../c/send_queue.h");
    let limits = text("src/limits.rs");
    let options = text("src/options.rs");
    let words = text("../crates/queue_words/src/lib.rt");
    let events = text("../crates/queue_streams/src/events.rt");
    let places = text("../crates/out_array/src/lib.rt");
    let lists = text("../crates/priority_plan/src/lists.rt");
    let layout = text("../crates/host_numbers/src/layout.rt");
    let wire = text("../crates/send_queue_c/src/wire.rt");
    let writing = text("../crates/chunks/src/writing.rt");
    let resets = text("../crates/host_handler/src/lib.rt");
    let kinds = text("src/chunk.rs");
    for (define, source, constant) in [
        ("#define DSQ_LAYOUT", &layout, "const LAYOUT: u64"),
        ("#define DSQ_LAYOUT", &limits, "const LAYOUT: u64"),
        ("DSQ_RESTART_DCSCTP =", &options, "Dcsctp ="),
        ("DSQ_RESTART_STRICT =", &options, "Strict ="),
        ("#define DSQ_QUEUE_WORDS", &words, "const QUEUE_WORDS: usize"),
        ("#define DSQ_QUEUE_WORDS", &limits, "const QUEUE_WORDS: usize"),
        ("#define DSQ_MAX_EVENTS", &events, "const EVENT_PLACES: usize"),
        ("#define DSQ_MAX_EVENTS", &limits, "const MAX_EVENTS: usize"),
        ("DSQ_PLACE_WORDS =", &events, "const PLACE_WORDS: usize"),
        ("DSQ_PLACE_WORDS =", &limits, "const PLACE_WORDS: usize"),
        ("DSQ_OUT_WORDS =", &places, "const OUT_WORDS: usize"),
        ("DSQ_OUT_WORDS =", &limits, "const OUT_WORDS: usize"),
        ("#define DSQ_MAX_PLANNED", &lists, "const MAX_PLANNED: usize"),
        ("#define DSQ_MAX_PLANNED", &limits, "const MAX_PLANNED: usize"),
        ("DSQ_CHUNK_WORDS =", &wire, "const CHUNK_WORDS: usize"),
        ("DSQ_CHUNK_WORDS =", &limits, "const CHUNK_WORDS: usize"),
        ("DSQ_CHUNK_KIND =", &wire, "const KIND: usize"),
        ("DSQ_CHUNK_TSN =", &wire, "const TSN: usize"),
        ("DSQ_CHUNK_PAYLOAD_AT =", &wire, "const PAYLOAD_AT: usize"),
        ("#define DSQ_MAX_CHUNK_PAYLOAD", &writing, "const MAX_WRITTEN: usize"),
        ("#define DSQ_MAX_CHUNK_PAYLOAD", &limits, "const MAX_CHUNK_PAYLOAD: usize"),
        ("DSQ_HANDLER_NUMBERS =", &resets, "const HANDLER_NUMBERS: usize"),
        ("DSQ_HANDLER_NUMBERS =", &limits, "const HANDLER_NUMBERS: usize"),
        ("DSQ_HANDLER_NEXT =", &resets, "const NEXT_NUMBER: usize"),
        ("DSQ_HANDLER_UNDERWAY =", &resets, "const IS_UNDERWAY: usize"),
        ("DSQ_HANDLER_NUMBER =", &resets, "const UNDERWAY_NUMBER: usize"),
        ("DSQ_RESPONSE_IGNORED =", &resets, "const IGNORED: u64"),
        ("DSQ_RESPONSE_COMMITTED =", &resets, "const COMMITTED: u64"),
        ("DSQ_RESPONSE_ROLLED_BACK =", &resets, "const ROLLED_BACK: u64"),
        ("DSQ_RESPONSE_WAITING =", &resets, "const STILL_WAITING: u64"),
        ("DSQ_CHUNK_DATA =", &kinds, "Data ="),
        ("DSQ_CHUNK_I_DATA =", &kinds, "IData ="),
        ("#define DSQ_MAX_STREAMS", &limits, "const MAX_STREAMS: usize"),
        ("#define DSQ_MAX_MESSAGES", &limits, "const MAX_MESSAGES: usize"),
        ("#define DSQ_MAX_PAYLOAD ", &limits, "const MAX_PAYLOAD: usize"),
        ("#define DSQ_MAX_STORE", &limits, "const MAX_STORE: usize"),
        ("#define DSQ_MAX_PAYLOAD_LIMIT", &limits, "const MAX_PAYLOAD_LIMIT: usize"),
    ] {
        assert_eq!(number(&header, define), number(source, constant), "{define}");
    }
    let list = number(&header, "DSQ_PLACE_WORDS =") * number(&header, "#define DSQ_MAX_EVENTS");
    assert_eq!(number(&header, "#define DSQ_EVENT_WORDS"), list);
    let list = without_comments(header.split_once("enum dsq_out {").unwrap().1.split_once("};").unwrap().0);
    for entry in list.split(',') {
        let (name, place) = entry.trim().split_once(" = ").unwrap();
        let constant = format!("const {}: usize", name.trim_start_matches("DSQ_OUT_").replace("WORDS", "OUT_WORDS"));
        assert_eq!(place.parse(), Ok(number(&places, &constant)), "{name}");
    }
}

#[test]
fn the_receiver_s_lengths_and_places_are_the_proved_ones() {
    let header = text("../c/receiver.h");
    let limits = text("src/limits.rs");
    let words = text("../crates/receiver_words/src/lib.rt");
    let cells = text("../crates/receiver_words/src/cells.rt");
    let places = text("../crates/receiver_c/src/numbers.rt");
    let layout = text("../crates/receiver_c/src/layout.rt");
    for (define, source, constant) in [
        ("#define DSR_LAYOUT", &layout, "const LAYOUT: u64"),
        ("#define DSR_LAYOUT", &limits, "const RECEIVER_LAYOUT: u64"),
        ("#define DSR_RECEIVER_WORDS", &words, "const RECEIVER_WORDS: usize"),
        ("#define DSR_RECEIVER_WORDS", &limits, "const RECEIVER_WORDS: usize"),
        ("#define DSR_OUT_WORDS", &places, "const OUT_WORDS: usize"),
        ("#define DSR_OUT_WORDS", &limits, "const RECEIVER_OUT_WORDS: usize"),
        ("#define DSR_MAX_FRAGMENTS", &cells, "const NO_ROW: u64"),
        ("#define DSR_MAX_FRAGMENTS", &limits, "const MAX_FRAGMENTS: usize"),
        ("#define DSR_MAX_STORE", &limits, "const MAX_STORE: usize"),
        ("#define DSR_MAX_STREAMS", &limits, "const MAX_STREAMS: usize"),
        ("#define DSR_WINDOW", &limits, "const TSN_WINDOW: u32"),
    ] {
        assert_eq!(number(&header, define), number(source, constant), "{define}");
    }
    let list = without_comments(header.split_once("enum dsr_out {").unwrap().1.split_once("};").unwrap().0);
    assert_eq!(list.split(',').count() as u64, number(&header, "#define DSR_OUT_WORDS"));
    for entry in list.split(',') {
        let (name, place) = entry.trim().split_once(" = ").unwrap();
        let constant = format!("const {}: usize", name.trim_start_matches("DSR_OUT_"));
        assert_eq!(place.parse(), Ok(number(&places, &constant)), "{name}");
    }
}

/// The layout, and a sum over what the header declares. Whoever changes a declaration decides whether a host compiled before would be wrong
/// with it. Then the layout moves, here and in the header, limits.rs and send_queue_c. What is only added has a new sum and no new layout.
const LAYOUT: (u64, u32) = (5, 5_781_431);
/// The same of the receiver's header and receiver_c.
const RECEIVER_LAYOUT: (u64, u32) = (2, 2_374_045_057);

#[test]
fn the_layout_goes_with_what_the_header_declares() {
    for (header, define, layout) in [
        ("../c/send_queue.h", "#define DSQ_LAYOUT", LAYOUT),
        ("../c/receiver.h", "#define DSR_LAYOUT", RECEIVER_LAYOUT),
    ] {
        let header = text(header);
        let declared = without_comments(&header);
        let letters = declared.split_whitespace().flat_map(str::bytes);
        let sum = letters.fold(17_u32, |s, b| s.wrapping_mul(31).wrapping_add(u32::from(b)));
        assert_eq!((number(&header, define), sum), layout, "a declaration has changed: see `LAYOUT` here");
    }
}

#[test]
fn the_layout_is_in_a_function_s_name() {
    for (header, prefix) in [("../c/send_queue.h", "dsq"), ("../c/receiver.h", "dsr")] {
        let header = text(header);
        let name = format!("{prefix}_layout_{}", number(&header, &format!("#define {}_LAYOUT", prefix.to_uppercase())));
        assert!(of_header(&header).contains_key(&name));
        assert!(without_comments(&header).contains(&format!("DSQ_LINKED_WITH({name});")), "the header refers to it");
        assert!(text("src/ffi.rs").contains(&format!("c::{name}()")), "the crate calls it");
    }
}

/// Each library of owned functions has one with the layout in its name, and the crate calls it.
#[test]
fn the_layout_is_in_the_name_of_an_owned_function() {
    let layout = number(&text("../c/send_queue.h"), "#define DSQ_LAYOUT");
    for library in text("owned_libraries.txt").split_whitespace() {
        let name = format!("dsq_{}_layout_{layout}", library.trim_end_matches("_c"));
        assert!(
            text(&format!("../crates/{library}/src/layout.rt")).contains(&format!(" fn {name}()")),
            "{library} has it"
        );
        assert!(text("src/ffi.rs").contains(&format!("c::{name}()")), "the crate calls it");
    }
}

/// The version is the same in the header, in the crate and in the log of changes, which has an entry for every request that has landed.
#[test]
fn the_version_is_the_same_everywhere() {
    let (header, log) = (text("../c/send_queue.h"), text("../CHANGELOG.md"));
    let version = header.split_once("#define DSQ_VERSION \"").unwrap().1.split('"').next().unwrap();
    assert_eq!(version, env!("CARGO_PKG_VERSION"));
    let first = log.lines().find(|line| line.starts_with("Version ")).unwrap();
    assert_eq!(first, format!("Version {version}, layout {}.", number(&header, "#define DSQ_LAYOUT")));
    let landed = text("../docs/REQUESTS.md");
    let requests: Vec<&str> = landed.lines().filter(|line| line.starts_with("## ") && line.contains("/13 ")).collect();
    assert!(requests.len() > 10, "the requests were not understood");
    for request in requests.iter().filter(|line| !line.starts_with("## Times")) {
        assert!(log.lines().any(|line| line == *request), "CHANGELOG.md has no entry {request}");
    }
}

/// `DSQ_STORE_FULL` is `StoreFull`.
fn camel(name: &str) -> String {
    let part = |p: &str| format!("{}{}", &p[..1], p[1..].to_lowercase());
    name.split('_').skip(1).map(part).collect()
}

/// A header's list of refusals.
fn listed(header: &str) -> &str {
    header.split_once("_refusal {").unwrap().1.split_once("};").unwrap().0
}

const HEADERS: [&str; 2] = ["../c/send_queue.h", "../c/receiver.h"];

/// The refusal of words that are not a queue's or a receiver's. The crate owns its words, and has none for it.
const BROKEN: u8 = 16;

#[test]
fn the_refusals_are_the_headers() {
    let mut numbers = BTreeSet::new();
    for header in HEADERS {
        let mut last = None;
        for entry in listed(&without_comments(&text(header))).split(',') {
            let (name, given) = entry.trim().split_once(" = ").unwrap();
            let number: u8 = given.parse().unwrap();
            match Refusal::from_number(number) {
                None => assert!([(0, "Accepted"), (BROKEN, "WordsBroken")].contains(&(number, camel(name).as_str()))),
                Some(refusal) => assert_eq!(format!("{refusal:?}"), camel(name)),
            }
            assert!(last < Some(number), "they are in the order of their numbers");
            last = Some(number);
            numbers.insert(number);
        }
    }
    let known: BTreeSet<u8> =
        (0..=u8::MAX).filter(|n| [0, BROKEN].contains(n) || Refusal::from_number(*n).is_some()).collect();
    assert_eq!(numbers, known, "the headers have every refusal");
}

/// What a refusal says is said above its number in each header that has it. Where the two say different things it says both.
#[test]
fn the_refusals_say_what_the_headers_say() {
    let mut compared = BTreeSet::new();
    for (header, place) in HEADERS.into_iter().zip([0, 1]) {
        let header = text(header).replace("\n     * ", " ");
        for entry in listed(&header).split("/* ").skip(1) {
            let number: u8 = entry.split_once(" = ").unwrap().1.split([',', '\n']).next().unwrap().parse().unwrap();
            if number == BROKEN {
                continue;
            }
            let both = Refusal::from_number(number).unwrap().to_string();
            let parts: Vec<&str> = both.split("; of a receiver: ").collect();
            let said = parts.get(place).unwrap_or(&parts[0]);
            assert!(entry.replacen(&said[..1].to_uppercase(), &said[..1], 1).contains(said), "{said}");
            compared.insert(number);
        }
    }
    assert_eq!(compared.len(), (0..=u8::MAX).filter(|n| Refusal::from_number(*n).is_some()).count());
}
