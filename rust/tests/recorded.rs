//! The repository's recorded traces, with the answers of dcSCTP's own code and the amounts that document 02 adds to its events (after an
//! expiry as in request 3/13 or a restoring as in 10/13, and on queues of the strict rule of 6/13, the reference's), played on a
//! `SendQueue` and a `Receiver`: every answer must be the same.

mod player;

use player::Player;
use std::fs;
use std::path::Path;
use std::path::PathBuf;

fn repository(path: &str) -> PathBuf {
    Path::new(env!("CARGO_MANIFEST_DIR")).join("..").join(path)
}

fn read(path: &Path) -> String {
    fs::read_to_string(path).unwrap_or_else(|e| panic!("{}: {e}", path.display()))
}

/// Plays a trace; the number of its calls.
fn play(trace: &Path, answers: &Path) -> u64 {
    let (calls, answers) = (read(trace), read(answers));
    let mut want = answers.as_str();
    let mut player = Player::new();
    let mut count = 0;
    for (at, call) in calls.lines().enumerate() {
        let got = player.call(call);
        match want.strip_prefix(got.as_str()) {
            Some(rest) => want = rest,
            None => {
                let recorded: Vec<&str> = want.lines().take(got.lines().count().max(1)).collect();
                panic!(
                    "{}, line {}: `{call}`\nrecorded:\n{}\ngot:\n{got}",
                    trace.display(),
                    at + 1,
                    recorded.join("\n")
                );
            }
        }
        assert!(!want.starts_with('!'), "{}, line {}: `{call}` reports too few events", trace.display(), at + 1);
        count += 1;
    }
    assert!(want.is_empty(), "{}: answers are left over", trace.display());
    println!("{}: {count} calls, {} of them answered by rule", trace.display(), player.answered_by_rule);
    count
}

#[test]
fn the_gate_s_traces() {
    let calls = play(&repository("crates/replay/stdin"), &repository("crates/replay/stdout"));
    assert!(calls > 50_000);
}

/// Plays all traces of a folder; how many they are.
fn play_all(folder: &Path) -> u64 {
    let mut traces = 0;
    for entry in fs::read_dir(folder).unwrap() {
        let path = entry.unwrap().path();
        if path.extension().is_some_and(|e| e == "trace") {
            play(&path, &path.with_extension("answers"));
            traces += 1;
        }
    }
    assert!(traces > 0, "no trace in {}", folder.display());
    traces
}

#[test]
fn the_small_traces() {
    play_all(&repository("tests/traces"));
    play_all(&repository("tests/receiver"));
}

/// Traces made for the purpose, with the reference's answers beside them, in the folder $DSQ_TRACES.
#[test]
#[ignore = "wants $DSQ_TRACES"]
fn given_traces() {
    let folder = std::env::var_os("DSQ_TRACES").expect("$DSQ_TRACES is a folder");
    println!("{} traces", play_all(Path::new(&folder)));
}
