//! The command tarnoklej.

mod arguments;
mod bits;
mod choose;
mod csv;
mod datum;
mod decimal;
mod decode;
mod failure;
mod fault;
mod grid;
mod heights;
mod help;
mod input;
mod json;
mod library;
mod map;
mod map_colours;
mod map_counts;
mod map_paths;
mod map_plan;
mod map_svg;
mod number;
mod programs;
mod progress;
mod shift;
mod shown;
mod stream;
mod tables;
mod text;
mod value;

use arguments::Arguments;
use failure::{wrong, Failure};
use std::process::ExitCode;

/// Does what the words ask for.
fn run(words: Vec<String>) -> Result<(), Failure> {
    let Some((word, behind)) = words.split_first() else {
        return Err(wrong(format!("a command is missing\n{}", help::LIST.trim_end())));
    };
    if word == "--version" {
        println!("tarnoklej {}", env!("CARGO_PKG_VERSION"));
        return Ok(());
    }
    if help::is_asked(word) {
        return help::show("help");
    }
    let command = help::command(word).ok_or_else(|| help::unknown(word))?;
    match behind {
        [] if command == "help" => help::show("help"),
        [name] if command == "help" => help::show(name),
        _ if command == "help" => Err(wrong("help takes one command at most")),
        _ if behind.iter().any(|word| help::is_asked(word)) => help::show(command),
        _ => run_command(command, behind.to_vec()),
    }
}

/// Runs a command on the words behind it.
fn run_command(command: &'static str, words: Vec<String>) -> Result<(), Failure> {
    let arguments = || Arguments::new(command, words.clone());
    match command {
        "decode" => decode::run(arguments()),
        "shift" => shift::run(arguments()),
        "datum" => datum::run(arguments()),
        "heights" => heights::run(arguments()),
        "map" => map::run(arguments()),
        "bench" | "compare" => Err(wrong(format!("{command} runs in the repository alone: ./tarnoklej {command}"))),
        proved => match programs::run(proved, &words)? {},
    }
}

fn main() -> ExitCode {
    match run(std::env::args().skip(1).collect()) {
        Ok(()) => ExitCode::SUCCESS,
        Err(failure) => {
            if !matches!(failure, Failure::Unread) {
                eprintln!("tarnoklej: {failure}");
            }
            ExitCode::from(failure.status())
        }
    }
}
