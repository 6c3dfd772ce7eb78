//! The example programs against the second program's lines for the same calls, and their words for bad calls.

mod common;

use common::{in_repository, text_of};
use std::path::PathBuf;
use std::process::{Command, Output};

/// An example program, which cargo builds beside the tests.
fn example(name: &str) -> PathBuf {
    let test = std::env::current_exe().expect("the test's own program");
    let folder = test.parent().and_then(|deps| deps.parent()).expect("the folder of the build");
    let program = folder.join("examples").join(name);
    assert!(program.is_file(), "{} is not there; `cargo test` without a choice of tests builds it", program.display());
    program
}

/// What an example does with words, from the repository's folder.
fn run(name: &str, words: &[&str]) -> Output {
    Command::new(example(name)).args(words).current_dir(in_repository("")).output().expect("the example can be run")
}

/// The lines that an example prints for each call of a list.
fn lines_of_calls(name: &str, calls: &str) -> String {
    let mut text = String::new();
    for call in text_of(calls).lines() {
        let output = run(name, &call.split(' ').collect::<Vec<_>>());
        assert!(output.status.success(), "{call}: {}", String::from_utf8_lossy(&output.stderr));
        text += &String::from_utf8(output.stdout).expect("text");
    }
    text
}

#[test]
fn shift_prints_the_second_programs_lines() {
    let lines = lines_of_calls("shift", "examples/shift.calls");
    assert_eq!(lines, text_of("examples/shift.expected"));
    assert_eq!(lines.lines().count(), 90);
}

#[test]
fn heights_prints_the_second_programs_lines() {
    let lines = lines_of_calls("heights", "examples/heights.calls");
    assert_eq!(lines, text_of("examples/heights.expected"));
    assert_eq!(lines.lines().count(), 11);
}

/// The line of a frame and of its refusal in the form of services/recording.expected, from the lines of the example.
fn as_expected(frame: &str, behind: &[&str]) -> String {
    let rest = frame.strip_prefix("byte ").expect("a frame's line");
    let (at, rest) = rest.split_once(": message ").expect("a message");
    let (number, bytes) = rest.split_once(", ").expect("a length");
    let head = format!("{at} {}", bytes.strip_suffix(" bytes").expect("a length"));
    let sin = behind.iter().find_map(|line| line.strip_prefix("  DF147 System Identification Number: "));
    let refused = behind.iter().find_map(|line| line.strip_prefix("  refused ")?.split(['(', ')']).nth(1));
    match (number, sin, refused) {
        ("without a number", _, _) => format!("{head} -"),
        (_, Some(sin), None) => format!("{head} {number} sin {sin}"),
        (_, None, Some(refusal)) => format!("{head} {number} refused {refusal}"),
        _ => format!("{head} {number}"),
    }
}

#[test]
fn fields_prints_every_frame_of_the_recording() {
    let output = run("fields", &["services/recording.rtcm"]);
    assert!(output.status.success());
    let text = String::from_utf8(output.stdout).expect("text");
    let lines: Vec<&str> = text.lines().collect();
    let frames: Vec<usize> = (0..lines.len()).filter(|&place| lines[place].starts_with("byte ")).collect();
    let behind = |place: usize| {
        let end = lines[place + 1..].iter().position(|line| !line.starts_with("  ")).expect("a last line");
        &lines[place + 1..place + 1 + end]
    };
    let ours: Vec<String> = frames.iter().map(|&place| as_expected(lines[place], behind(place))).collect();
    let expected = text_of("services/recording.expected");
    let expected: Vec<&str> = expected.lines().collect();
    let (last, expected) = expected.split_last().expect("a last line that counts");
    assert_eq!(ours, expected);
    let outside = lines.last().and_then(|line| line.split(", ").nth(1)?.split(' ').next()).expect("a last line");
    assert_eq!(*last, format!("{} frames, {outside} bytes outside frames", frames.len()));
}

#[test]
fn bad_words_are_said_and_end_with_2() {
    let calls: [(&str, &[&str], &str); 7] = [
        ("shift", &[], "usage: shift FILE NORTH EAST"),
        ("shift", &["examples/none.rtcm", "49", "11"], "shift: cannot read examples/none.rtcm"),
        ("shift", &["examples/1023.rtcm", "north", "11"], "shift: not a number: north"),
        ("heights", &["examples/heights.csv", "7", "49", "11"], "usage: heights FILE SIN NORTH EAST SPACING"),
        ("heights", &["examples/points.txt", "7", "49", "11", "360"], "heights: not "),
        ("fields", &["a", "b"], "usage: fields [FILE]"),
        ("fields", &["examples/none.rtcm"], "fields: "),
    ];
    for (name, words, said) in calls {
        let output = run(name, words);
        let error = String::from_utf8_lossy(&output.stderr).into_owned();
        assert!(error.contains(said), "{name} {words:?}: {error}");
        assert_eq!((output.status.code(), output.stdout.len()), (Some(2), 0), "{name} {words:?}");
    }
}
