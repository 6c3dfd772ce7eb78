//! The command line of the second program.

use second::{
    answers_program, answers_table, answers_trials, datum_lines, datumsamples, decode_json, decode_text, decode_trials,
    example, field_table, field_words, figures, frames, heights_example, map_check, page, papers, positions,
    report_program, reportsamples, selfcheck, services, vectors,
};
use std::io::{Read, Write};
use std::path::Path;
use std::process::ExitCode;

/// What the program can be asked for.
const USAGE: &str = "second selfcheck | papers FILE | fields | positions | example LIST | vectors OUTDIR | calls OUTDIR | services DIR | figures DIR | identify | frames | datum SETS POSITIONS | heights LIST | report | reports DIR | samples | write_samples | samples_table | samples_trials DIR | decode FIELDS MESSAGES [--json] | decode_cuts FIELDS MESSAGES | field_table FIELDS MESSAGES FILE | decode_trials DIR | map FILE COMPONENT | datum_step FILE X Y Z";

/// Success or failure from a truth value.
fn exit(good: bool) -> ExitCode {
    if good {
        ExitCode::SUCCESS
    } else {
        ExitCode::FAILURE
    }
}

/// Compares the tables with the text of source document 000.
fn compare_papers(file: &str) -> std::io::Result<bool> {
    let differences = papers::differences(&std::fs::read_to_string(file)?);
    differences.iter().for_each(|line| println!("{line}"));
    println!("{} differences from {file}", differences.len());
    Ok(differences.is_empty())
}

/// Compares the command's tables with the text of source document 000.
fn compare_tables(fields: &str, messages: &str, file: &str) -> std::io::Result<bool> {
    let [table, of_messages, text] = [fields, messages, file].map(std::fs::read_to_string);
    let differences = field_table::differences(&table?, &of_messages?, &text?);
    differences.iter().for_each(|line| println!("{line}"));
    println!("{} differences of {fields} and {messages} from {file}", differences.len());
    Ok(differences.is_empty())
}

/// Writes the cases into a folder.
fn write_vectors(dir: &str) -> std::io::Result<bool> {
    println!("{} cases", vectors::write(Path::new(dir))?);
    Ok(true)
}

/// Writes the vectors of the exported calls into a folder.
fn write_calls(dir: &str) -> std::io::Result<bool> {
    println!("{} vectors", vectors::lines::write(Path::new(dir))?);
    Ok(true)
}

/// Prints a text.
fn print(text: &str) -> std::io::Result<bool> {
    print!("{text}");
    Ok(true)
}

/// Writes the file of sample answers of a text to standard output, or why there is none to standard error.
fn write_samples(text: &[u8]) -> std::io::Result<bool> {
    match answers_program::written(text) {
        Ok(file) => std::io::stdout().write_all(&file)?,
        Err(line) => eprint!("{line}"),
    }
    Ok(true)
}

/// Prints what is wrong, if anything is.
fn verdict(checked: Result<(), String>) -> std::io::Result<bool> {
    if let Err(words) = &checked {
        println!("{words}");
    }
    Ok(checked.is_ok())
}

/// The whole standard input.
fn standard_input() -> std::io::Result<Vec<u8>> {
    let mut input = Vec::new();
    std::io::stdin().read_to_end(&mut input)?;
    Ok(input)
}

/// The words in the two tables of the command.
fn words_in(fields: &str, messages: &str) -> std::io::Result<field_words::Words> {
    let (fields, messages) = (std::fs::read_to_string(fields)?, std::fs::read_to_string(messages)?);
    field_words::Words::of(&fields, &messages).ok_or_else(|| std::io::Error::other("a table of another form"))
}

/// A count in an argument.
fn count(word: &str) -> std::io::Result<usize> {
    word.parse().map_err(|_| std::io::Error::other(format!("not a count: {word}")))
}

/// Does what the arguments ask for.
fn run(arguments: &[String]) -> std::io::Result<bool> {
    let words: Vec<&str> = arguments.iter().map(String::as_str).collect();
    match words[..] {
        ["selfcheck"] => Ok(selfcheck::run()),
        ["papers", file] => compare_papers(file),
        ["fields"] => print(&page::page()),
        ["positions"] => print(&positions::comment()),
        ["example", list] => print(&example::all(&std::fs::read_to_string(list)?)?),
        ["vectors", dir] => write_vectors(dir),
        ["calls", dir] => write_calls(dir),
        ["services", dir] => services::write(Path::new(dir)).map(|()| true),
        ["figures", dir] => figures::write(Path::new(dir)).map(|()| true),
        ["identify"] => print(&format!("{}\n", selfcheck::program_line(&standard_input()?))),
        ["frames"] => print(&frames::listing(&standard_input()?)),
        ["datum", sets, positions] => print(&datumsamples::list(count(sets)?, count(positions)?)),
        ["heights", list] => print(&heights_example::all(&std::fs::read_to_string(list)?)?),
        ["report"] => print(&report_program::printed(&standard_input()?)),
        ["reports", dir] => reportsamples::write(Path::new(dir)).map(|()| true),
        ["samples"] => print(&answers_program::checked_line(&standard_input()?)),
        ["write_samples"] => write_samples(&standard_input()?),
        ["samples_table"] => print(&answers_table::table(&standard_input()?)?),
        ["samples_trials", dir] => answers_trials::write(Path::new(dir)).map(|()| true),
        ["field_table", fields, messages, file] => compare_tables(fields, messages, file),
        ["decode_trials", dir] => decode_trials::write(Path::new(dir)).map(|()| true),
        ["map", file, component] => {
            let svg = String::from_utf8_lossy(&standard_input()?).into_owned();
            verdict(map_check::check(&std::fs::read(file)?, count(component)?, &svg))
        }
        ["datum_step", file, x, y, z] => {
            let printed = String::from_utf8_lossy(&standard_input()?).into_owned();
            verdict(datum_lines::check(&std::fs::read(file)?, [x, y, z], &printed))
        }
        ["decode", fields, messages] => print(&decode_text::text(&standard_input()?, &words_in(fields, messages)?)),
        ["decode_cuts", fields, messages] => {
            let (stream, words) = (standard_input()?, words_in(fields, messages)?);
            print(&(0..=stream.len()).map(|end| decode_json::json(&stream[..end], &words)).collect::<String>())
        }
        ["decode", fields, messages, "--json"] => {
            print(&decode_json::json(&standard_input()?, &words_in(fields, messages)?))
        }
        _ => {
            eprintln!("{USAGE}");
            Ok(false)
        }
    }
}

fn main() -> ExitCode {
    let arguments: Vec<String> = std::env::args().skip(1).collect();
    match run(&arguments) {
        Ok(good) => exit(good),
        Err(error) => {
            eprintln!("{error}");
            ExitCode::FAILURE
        }
    }
}
