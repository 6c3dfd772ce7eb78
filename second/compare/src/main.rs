//! Compares the second program with the proved static library, call by call, on many inputs.

mod datum;
mod designed;
mod framing;
mod heights;
mod messages;
mod reading;
mod reports;
mod rows;
mod samples;
mod shifting;
mod tables;
mod tally;
mod two_owners;
mod writing;

use second::random::Random;
use std::process::ExitCode;
use tally::{Progress, Tally};

/// How the program is called.
const USAGE: &str = "compare [SEED [COUNT]]: COUNT inputs for each kind of call (default: seed 1, 15,000 inputs)\ncompare designed [N]: the designed vectors, of those that keep nothing one in N (default: all)";
/// The inputs for each kind of call where no count is given.
const DEFAULT_COUNT: u64 = 15_000;

/// What one input came to: the refusal numbers both gave, one for each part of the answer, or what differed.
pub type Compared = Result<Vec<u8>, String>;

/// Compares one input of a call that keeps nothing, the turn deciding which kind of input it is.
type Single = fn(&mut Random, u64) -> Compared;

/// The calls that keep nothing, with the refusal numbers each can give.
/// E180 and W180 are shifts_at on grids across 180 degrees, at positions east and west of Greenwich; 180 is shift_row there.
/// Under report_points stand the reports' own numbers, under points those of each point of short ones.
const SINGLES: [(&str, &[u8], Single); 16] = [
    ("read", &[0, 1, 2, 3, 4, 5], reading::compare_header),
    ("read_fields", &[0, 1, 2, 3, 4, 5, 6], reading::compare_row),
    ("write_fields", &[0, 5, 6], writing::compare_written),
    ("shifts_at", &[0, 1, 2, 3, 4, 5, 7, 9, 10, 11, 12, 13, 14, 15], shifting::compare_shifts),
    ("shifts_at E180", ACROSS, shifting::compare_east_of_greenwich),
    ("shifts_at W180", ACROSS, shifting::compare_west_of_greenwich),
    ("shift_row", &[0, 1, 2, 3, 4, 5, 6, 7, 8, 9, 10, 11, 12, 13, 14, 15], rows::compare_row),
    ("shift_row 180", &[0, 6, 8, 9, 10, 11, 12, 13, 14, 15], rows::compare_row_across),
    ("find_frame", &[0, 19, 20], framing::compare_found),
    ("write_frame", &[0, 3, 6], framing::compare_framed),
    ("datum_step", &[0, 1, 2, 3, 4, 5, 7, 9, 11, 15], datum::compare_step),
    ("write_heights", &[0, 5, 6, 10, 11, 12, 13, 23], heights::compare_written),
    ("report_points", &[0, 3, 8], reports::compare_report),
    ("report, points", &[0, 1, 2, 3, 4, 5, 7, 9, 10, 11, 12, 13, 14, 15], reports::compare_points),
    ("write_samples", &[0, 1, 2, 3, 4, 5, 6, 7, 8, 9, 10, 11, 12, 13, 14, 15], samples::compare_written),
    ("check_samples", &[0, 1, 2, 3, 4, 5, 7, 24, 25], samples::compare_checked),
];

/// The refusal numbers that the shifts of a sound grid message can give.
const ACROSS: &[u8] = &[0, 9, 10, 11, 12, 13, 14, 15];

/// The calls on a table with its index, with the refusal numbers each can give.
const ON_TABLES: [(&str, &[u8]); 5] = [
    ("store", &[0, 1, 2, 3, 4, 5, 16, 18, 21, 22]),
    ("find", &[0, 17, 18, 21, 22]),
    ("remove", &[0, 17, 18, 21, 22]),
    ("index_agrees", &[0, 18, 22]),
    ("index_write", &[0, 18, 22]),
];

/// What a whole run met.
struct Met {
    tallies: Vec<Tally>,
    on_tables: tables::Met,
    two_owners: two_owners::Met,
}

impl Met {
    /// A line for each thing that is to be met and that no input met.
    fn never(&self) -> Vec<String> {
        let mut lines = tally::never_met(&self.tallies);
        let others = [
            (self.on_tables.most_held, "no store met FULL with 20 slots of the owner's and a slot free"),
            (self.on_tables.none_free, "no store met FULL with fewer than 20 slots of the owner's and no slot free"),
            (self.on_tables.fewest_with_probes(), "no find was answered with one of the numbers of probes"),
            (
                self.two_owners.only_one_full,
                "no pair of histories has twelve keys and a full table in one of them alone",
            ),
        ];
        lines.extend(others.iter().filter(|other| other.0 == 0).map(|other| other.1.to_string()));
        lines
    }
}

/// The refusal that an answer of one part holds, or the two answers where they differ.
pub fn same<T: PartialEq + std::fmt::Debug>(
    refusal: u8,
    library: T,
    second: T,
    input: impl Fn() -> String,
) -> Compared {
    same_parts(&[refusal], library, second, input)
}

/// The refusals that the parts of an answer hold, or the two answers where they differ.
pub fn same_parts<T: PartialEq + std::fmt::Debug>(
    refusals: &[u8],
    library: T,
    second: T,
    input: impl Fn() -> String,
) -> Compared {
    if library == second {
        Ok(refusals.to_vec())
    } else {
        Err(format!("input {}\nlibrary {library:?}\nsecond  {second:?}", input()))
    }
}

/// Runs one call that keeps nothing on many inputs.
fn run_single(
    (name, possible, compare): (&'static str, &'static [u8], Single),
    seed: u64,
    count: u64,
    progress: &mut Progress,
) -> Result<Tally, String> {
    let mut random = Random::new(seed);
    let mut tally = Tally::new(name, possible);
    for turn in 0..count {
        let refusals = compare(&mut random, turn).map_err(|difference| format!("{name}, turn {turn}: {difference}"))?;
        tally.add(&refusals);
        progress.step();
    }
    Ok(tally)
}

/// Runs histories of calls on tables until each call had its inputs.
fn run_tables(seed: u64, count: u64, progress: &mut Progress) -> Result<(Vec<Tally>, tables::Met), String> {
    let mut random = Random::new(seed);
    let mut met = tables::Met::default();
    let mut tallies = ON_TABLES.map(|(name, possible)| Tally::new(name, possible));
    let mut history = tables::History::new(&mut random, 0);
    for turn in 0..count {
        if history.ended() {
            history = tables::History::new(&mut random, turn);
        }
        let of_calls = history
            .turn(&mut random, turn, &mut met)
            .map_err(|difference| format!("tables, turn {turn}: {difference}"))?;
        for (tally, refusals) in tallies.iter_mut().zip(of_calls) {
            tally.add(&refusals);
            progress.step();
        }
    }
    Ok((tallies.into(), met))
}

/// Runs every kind of call, and pairs of histories of two owners.
fn run(seed: u64, count: u64) -> Result<Met, String> {
    let calls = count * (SINGLES.len() + ON_TABLES.len()) as u64;
    let mut progress = Progress::new(calls + two_owners::pairs_for(count));
    let mut seeds = Random::new(seed);
    let mut tallies = Vec::new();
    for single in SINGLES {
        tallies.push(run_single(single, seeds.bits(), count, &mut progress)?);
    }
    let (of_tables, on_tables) = run_tables(seeds.bits(), count, &mut progress)?;
    tallies.extend(of_tables);
    let two_owners = two_owners::run(seeds.bits(), count, &mut progress)?;
    Ok(Met { tallies, on_tables, two_owners })
}

/// The seed and the count from the arguments.
fn arguments() -> Option<(u64, u64)> {
    let words: Vec<String> = std::env::args().skip(1).collect();
    let number = |place: usize, default: u64| words.get(place).map_or(Some(default), |word| word.parse().ok());
    (words.len() <= 2).then_some(())?;
    Some((number(0, 1)?, number(1, DEFAULT_COUNT)?))
}

/// Runs the designed vectors.
fn run_designed(one_in: usize) -> ExitCode {
    match designed::run(one_in) {
        Ok(all_met) => {
            println!("no mismatch");
            ExitCode::from(u8::from(!all_met))
        }
        Err(difference) => {
            println!("mismatch in {difference}");
            ExitCode::FAILURE
        }
    }
}

/// One in how many designed vectors the arguments ask for, where they ask for designed vectors.
fn designed_arguments() -> Option<usize> {
    let words: Vec<String> = std::env::args().skip(1).collect();
    match words.iter().map(String::as_str).collect::<Vec<&str>>()[..] {
        ["designed"] => Some(1),
        ["designed", one_in] => one_in.parse().ok().filter(|&one_in| one_in > 0),
        _ => None,
    }
}

fn main() -> ExitCode {
    if let Some(one_in) = designed_arguments() {
        return run_designed(one_in);
    }
    let Some((seed, count)) = arguments() else {
        eprintln!("{USAGE}");
        return ExitCode::from(2);
    };
    println!("seed {seed}, {count} inputs for each kind of call");
    match run(seed, count) {
        Ok(met) => {
            print!("{}", tally::table(&met.tallies));
            tally::differing_parts(&met.tallies).iter().for_each(|line| println!("{line}"));
            println!("{}\n{}", met.on_tables.lines(), met.two_owners.line());
            let never_met = met.never();
            never_met.iter().for_each(|line| println!("{line}"));
            println!("no mismatch");
            ExitCode::from(u8::from(!never_met.is_empty()))
        }
        Err(difference) => {
            println!("mismatch in {difference}");
            ExitCode::FAILURE
        }
    }
}
