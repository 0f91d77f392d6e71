//! Call scripts: the crate answers as the oracle does, which is the original's own Rust, and as by hand where the scope
//! has other answers.
//!
//! Most need the oracle, a program that is no part of the repository. With its folder in BOZTERRUN_ORACLE they run;
//! without it they say that they were left out.

#[allow(dead_code)]
#[path = "../examples/play/mod.rs"]
mod play;
mod releases;

use play::Stop;
use releases::random_script;
use std::io::{self, Write};
use std::path::{Path, PathBuf};
use std::process::{Command, Stdio};
use std::{env, fs, thread};

/// The profiles of the oracle's gen.py.
const PROFILES: [&str; 6] = ["mixed", "limits", "touch", "text", "removal", "frames"];

/// The seeds of the random scripts.
const SEEDS: std::ops::RangeInclusive<u32> = 1..=8;

/// The folders of the scripts that the original does not decide: with releases, and with seats that are given what was
/// not negotiated.
const BY_HAND: [&str; 2] = ["../tests/released", "../tests/negotiated"];

/// The trail of a script, and the line that stopped it.
fn trail_of(script: &[u8]) -> (String, Option<usize>) {
    let mut trail = Vec::new();
    let stopped = match play::play(script, &mut trail) {
        Ok(()) => None,
        Err(Stop::Line(number)) => Some(number),
        Err(Stop::Unwritten(error)) => panic!("a Vec can be written to: {error}"),
    };
    (String::from_utf8(trail).expect("a trail is ASCII"), stopped)
}

/// Compares two trails line by line.
fn compare(name: &str, trail: &str, wanted: &str) {
    for (number, (line, wanted)) in trail.lines().zip(wanted.lines()).enumerate() {
        assert_eq!(line, wanted, "{name}: answer {}", number + 1);
    }
    assert_eq!(
        trail.lines().count(),
        wanted.lines().count(),
        "{name}: how many answers"
    );
}

/// The oracle's folder, if it is at hand; else says what is left out.
fn oracle(what: &str) -> Option<PathBuf> {
    let folder = env::var_os("BOZTERRUN_ORACLE").map(PathBuf::from);
    if folder.is_none() {
        // Written past the harness, which shows nothing of a test that passes.
        let line = format!("\nleft out, BOZTERRUN_ORACLE not being set: {what}\n");
        let _ = io::stderr().write_all(line.as_bytes());
    }
    folder
}

/// What a command writes, given this on its standard input.
fn output_of(command: &mut Command, input: Vec<u8>) -> Vec<u8> {
    let mut child = command
        .stdin(Stdio::piped())
        .stdout(Stdio::piped())
        .spawn()
        .unwrap_or_else(|error| panic!("{command:?}: {error}"));
    let mut stdin = child.stdin.take().expect("its standard input is piped");
    let writer = thread::spawn(move || stdin.write_all(&input));
    let output = child.wait_with_output().expect("its output can be read");
    writer
        .join()
        .expect("the writer ends")
        .expect("the input can be written");
    assert!(output.status.success(), "{command:?}: {}", output.status);
    output.stdout
}

/// The trails of these two are checked in: this test needs no oracle, of which they are, and by hand behind a release.
#[test]
fn scripts_with_a_trail_are_answered_by_it() {
    let token = (include_str!("../../examples/token.script"), include_str!("token.trail"));
    let every = (include_str!("every.script"), include_str!("every.trail"));
    for (name, (script, wanted)) in [("token", token), ("every", every)] {
        let (trail, stopped) = trail_of(script.as_bytes());
        assert_eq!(stopped, None, "{name}");
        compare(name, &trail, wanted);
    }
}

/// The scripts by hand say themselves what is answered: their lines `#=`, each behind its call.
#[test]
fn scripts_by_hand_are_answered_as_they_say() {
    for folder in BY_HAND {
        let entries = fs::read_dir(folder).expect("the folder is there");
        let paths = entries.map(|entry| entry.expect("the folder can be read").path());
        let told: usize = paths.map(|path| answered_as_by_hand(&path)).sum();
        assert!(told > 0, "{folder}: lines by hand");
    }
}

/// Holds the answers to a script to its lines by hand, and tells how many these are.
fn answered_as_by_hand(path: &Path) -> usize {
    let script = fs::read_to_string(path).expect("a script can be read");
    let (trail, stopped) = trail_of(script.as_bytes());
    assert_eq!(stopped, None, "{}", path.display());
    let mut answers = trail.lines();
    let (mut answer, mut told) = (None, 0);
    for line in script.lines() {
        if let Some(wanted) = line.strip_prefix("#= ") {
            assert_eq!(answer, Some(wanted), "{}", path.display());
            told += 1;
        } else if !["", "#", "now", "out", "buffer"].contains(&line.split(' ').next().unwrap_or("")) {
            answer = answers.next();
        }
    }
    assert_eq!(answers.next(), None, "{}", path.display());
    told
}

#[test]
fn the_cases_are_answered_as_the_oracle_does() {
    let Some(oracle) = oracle("the oracle's cases") else {
        return;
    };
    let mut cases = 0;
    for entry in fs::read_dir(oracle.join("cases")).expect("the oracle has cases") {
        let path = entry.expect("the folder can be read").path();
        if path.extension().is_some_and(|extension| extension == "script") {
            // A case that the original does not decide has its like by hand.
            let name = path.file_name().expect("a script has a name");
            if BY_HAND.iter().any(|folder| Path::new(folder).join(name).exists()) {
                continue;
            }
            let script = fs::read_to_string(&path).expect("a script can be read");
            let wanted = fs::read_to_string(path.with_extension("trail")).expect("a case has a trail");
            let (trail, stopped) = trail_of(script.as_bytes());
            assert_eq!(stopped, None, "{}", path.display());
            compare(&path.display().to_string(), &trail, &wanted);
            cases += 1;
        }
    }
    assert!(cases > 0, "the oracle has cases");
}

#[test]
fn random_scripts_are_answered_as_the_oracle_does() {
    let Some(oracle) = oracle("random scripts") else {
        return;
    };
    let mut answers = 0;
    for seed in SEEDS {
        for profile in PROFILES {
            let script = random_script(&oracle, seed, profile);
            let mut program = Command::new(oracle.join("target/release/oracle"));
            let wanted = output_of(&mut program, script.clone().into_bytes());
            let wanted = String::from_utf8(wanted).expect("a trail is ASCII");
            let (trail, stopped) = trail_of(script.as_bytes());
            assert_eq!(stopped, None, "seed {seed}, {profile}");
            compare(&format!("seed {seed}, {profile}"), &trail, &wanted);
            answers += wanted.lines().count();
        }
    }
    println!("{answers} answers");
    assert!(answers > 0, "the oracle answers");
}

/// A handshake with all that the lines below need.
const BEGIN: &str = "start 7\n\
    handshake.interface_version t:65695f636f6e6e656374696f6e 1\n\
    handshake.interface_version t:65695f63616c6c6261636b 1\n\
    handshake.interface_version t:65695f70696e67706f6e67 1\n\
    handshake.finish\n";

/// Lines that docs/CALL-SCRIPTS.md lets be no calls.
#[test]
fn lines_that_are_no_calls_end_the_trail() {
    let lines = [
        "unknown",
        " last_serial",
        "last_serial ",
        "last_serial 1",
        "seat.release",
        "seat.release  5",
        "seat.release 0x",
        "seat.release 0X5",
        "seat.release +5",
        "seat.release -5",
        "seat.release 5a",
        "seat.release 18446744073709551616",
        "seat.release 0x10000000000000000",
        "keyboard.key 5 4294967296 1",
        "keyboard.key 5 30 2",
        "button.button 5 30 2",
        "text.keysym 5 65 2",
        "scroll.scroll_discrete 5 2147483648 0",
        "scroll.scroll_discrete 5 -2147483649 0",
        "scroll.scroll_discrete 5 -0x1 0",
        "scroll.scroll_discrete 5 - 0",
        "pointer.motion_relative 5 1 0x0",
        "pointer.motion_relative 5 0x100000000 0x0",
        "pointer.motion_relative 5 NaN 0x0",
        "text.utf8 5 t:6",
        "text.utf8 5 t:6g",
        "text.utf8 5 61",
        "text.utf8 5 none",
        "has_interface none",
        "add_seat none",
        "add_device 5 none 0 4",
        "add_device 5 none 3 4",
        "disconnected 6 none",
        "has_capability 5 0",
        "has_capability 5 3",
        "has_capability 5 128",
        "handshake.context_type 0",
        "handshake.context_type 3",
        "write_message 4",
        "write_message t:",
        "write_message 256 t:",
        "write_message -1 t:",
        "write_message 4 t:280",
        "write_message 4 none",
        "write_message 4 p:0:0",
        "read_message 256 t:",
        "read_message 4 t: 1",
    ];
    for line in lines {
        let (trail, stopped) = trail_of(format!("{BEGIN}# a comment\n{line}\nlast_serial\n").as_bytes());
        assert_eq!(stopped, Some(7), "{line:?}");
        assert_eq!(trail.lines().last(), Some("error line 7"), "{line:?}");
        assert_eq!(trail.lines().count(), 6, "{line:?}");
    }
}

/// Lines that docs/CALL-SCRIPTS.md lets be calls, though they look odd, and what they answer.
#[test]
fn lines_that_are_calls_are_answered() {
    let lines = [
        ("last_serial\r", "7"),
        ("seat.bind 0x00000000000000000000000000000000ff 1", "accepted"),
        ("scroll.scroll_discrete 5 -2147483648 0x7fffffff", "accepted"),
        ("scroll.scroll_discrete 5 -0 2147483647", "accepted"),
        ("pointer.motion_relative 5 nan 0xFFFFFFFF", "accepted"),
        ("has_interface t:", "false"),
        ("interface_version t:65695F636f6E6e656374696f6e", "1"),
        ("interface_version t:65695f73656174", "none"),
        ("has_interface t:80", "refused 10"),
        ("has_capability 5 64", "refused 12"),
        ("text.utf8 5 t:", "accepted"),
        ("out 18446744073709551615\nresumed 5", "refused 12"),
        ("handshake.finish", "refused 1"),
        (
            "write_message 4 t:200aff00000000000001",
            "message t:01000000000000ff1000000003000000",
        ),
        (
            "write_message 0x5 t:200AFF00000000000002",
            "message t:02000000000000ff1000000006000000",
        ),
        ("write_message 1 t:200aff00000000000001", "refused 26"),
        ("write_message 13 t:200aff00000000000001", "refused 26"),
        ("write_message 255 t:", "refused 26"),
        ("out 15\nwrite_message 4 t:200aff00000000000001", "refused 19"),
        ("out 0\nwrite_message 4 t:", "refused 26"),
        (
            "read_message 4 t:01000000000000ff1000000003000000",
            "record t:200aff00000000000001",
        ),
        ("read_message 4 t:01000000000000ff1000000006000000", "refused 23"),
        ("read_message 255 t:", "refused 23"),
        ("out 9\nread_message 4 t:01000000000000ff1000000003000000", "refused 19"),
        ("out 0\nread_message 4 t:", "refused 23"),
    ];
    for (line, answer) in lines {
        let (trail, stopped) = trail_of(format!("{BEGIN}{line}").as_bytes());
        assert_eq!(stopped, None, "{line:?}");
        assert_eq!(trail.lines().last(), Some(answer), "{line:?}");
    }
}

/// A call that comes where no such call can be made.
#[test]
fn calls_before_their_time_end_the_trail() {
    for (script, line) in [
        ("last_serial\n", 1),
        ("now 5\n\nhandshake.finish\n", 3),
        ("start 7\nnext_request\n", 2),
        ("start 7\nadd_seat none 1\n", 2),
    ] {
        let (trail, stopped) = trail_of(script.as_bytes());
        assert_eq!(stopped, Some(line), "{script:?}");
        assert_eq!(trail.lines().last(), Some(format!("error line {line}").as_str()));
    }
}

/// The messages of events ask for no session: they may stand before the first start, and in a handshake, but not in a
/// read.
#[test]
fn messages_of_events_stand_anywhere_but_in_a_read() {
    let write = "write_message 0 t:800e000000000000000000000001\n";
    let message = "message t:0000000000000000140000000000000001000000\n";
    let read = "read_message 0 t:0000000000000000140000000000000001000000\n";
    let record = "record t:800e000000000000000000000001\n";
    let started = "accepted | 800e000000000000000000000001\n";
    let (trail, stopped) = trail_of(format!("{write}start 7\n{read}").as_bytes());
    assert_eq!((trail, stopped), (format!("{message}{started}{record}"), None));
    for line in [write, read] {
        let (trail, stopped) = trail_of(format!("{BEGIN}read 1 t:\n{line}").as_bytes());
        assert_eq!(stopped, Some(7));
        assert_eq!(trail.lines().last(), Some("error line 7"));
    }
}

/// A start that is refused has begun a handshake all the same, and a later one begins anew.
#[test]
fn a_start_that_is_refused_goes_on() {
    let script = "out 13\nstart 7\nhandshake.finish\nconnection.disconnect\nout 4096\nstart 9\nhandshake.name t:61\n";
    let (trail, stopped) = trail_of(script.as_bytes());
    assert_eq!(stopped, None);
    let wanted = "refused 19\nrefused 9\nrefused 7\naccepted | 800e000000000000000000000001\naccepted\n";
    assert_eq!(trail, wanted);
}

/// A line has 65,536 bytes at most.
#[test]
fn a_line_that_is_too_long_is_no_call() {
    let comment = |length: usize| format!("#{}\n", "x".repeat(length - 1));
    assert_eq!(trail_of(comment(65536).as_bytes()).1, None);
    assert_eq!(trail_of(comment(65537).as_bytes()).1, Some(1));
}
