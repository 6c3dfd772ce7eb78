//! The second program's own checks, against numbers that the papers print.

use crate::fields::{Field, Kind, FIELDS};
use crate::layouts::{bits_without_names, fields_in_order, NUMBERS};
use crate::message::{read, read_kind, write_row, KINDS};
use crate::random::Random;
use crate::record::{record_of, write_record};
use crate::refusal::{number_of, Refusal};
use crate::samples::Sample;

/// A group of checks: its name, and what failed.
pub struct Group {
    /// What is checked.
    pub name: &'static str,
    /// How many checks were made.
    pub made: usize,
    /// The checks that failed, one line each.
    pub failed: Vec<String>,
}

impl Group {
    /// An empty group.
    pub fn new(name: &'static str) -> Self {
        Group { name, made: 0, failed: Vec::new() }
    }

    /// Makes one check.
    pub fn check(&mut self, holds: bool, what: impl FnOnce() -> String) {
        self.made += 1;
        if !holds {
            self.failed.push(what());
        }
    }

    /// Checks that two things are equal.
    pub fn equal<T: PartialEq + std::fmt::Debug>(&mut self, what: &str, got: T, expected: T) {
        self.check(got == expected, || format!("{what}: got {got:?}, expected {expected:?}"));
    }
}

/// All groups of checks.
pub fn groups() -> Vec<Group> {
    let mut groups = vec![totals(), ranges(), fields_once(), worked(), program(), kinds()];
    groups.extend([round_trip_rows(), round_trip_bytes(), bad_names()]);
    groups.extend(crate::selfcheck_nones::groups());
    groups.extend(crate::selfcheck_grid::groups());
    groups.extend(crate::selfcheck_rows::groups());
    groups.extend(crate::selfcheck_table::groups());
    groups.extend(crate::selfcheck_frame::groups());
    groups.extend(crate::selfcheck_datum::groups());
    groups.extend(crate::selfcheck_index::groups());
    groups.extend(crate::selfcheck_heights::groups());
    groups.extend(crate::selfcheck_report::groups());
    groups.extend(crate::selfcheck_answers::groups());
    groups
}

/// Bits and bytes that tables 3.5-24 to 3.5-30 and document 01 print.
fn totals() -> Group {
    let mut group = Group::new("totals of bits and bytes");
    let printed = [412, 517, 578, 590, 196, 234, 258];
    let lengths = [52, 65, 73, 74, 25, 30, 33];
    for (i, number) in NUMBERS.into_iter().enumerate() {
        group.equal("bits", bits_without_names(number), printed[i]);
        group.equal("bytes", Sample::zeros(number).bytes().len(), lengths[i]);
    }
    let longest = [b'x'; 31];
    for (number, length) in [(1021, 114), (1022, 127)] {
        group.equal("longest", Sample::new(number, [&longest, &longest], |_| 0).bytes().len(), length);
    }
    group
}

/// A decimal number as printed, in units of a billionth.
pub fn billionths(printed: &str) -> i128 {
    let text: String = printed.chars().filter(|c| c.is_ascii_digit() || *c == '.').collect();
    let (whole, part) = text.split_once('.').unwrap_or((&text, ""));
    format!("{whole}{part:0<9}").parse().expect("a decimal number")
}

/// The upper end of a range as printed.
fn upper_end(printed: &str) -> &str {
    printed.rsplit(['–', '-', '±']).next().unwrap_or(printed)
}

/// The data fields whose printed range is one step more than the width holds (decisions D4 and D5).
const ONE_STEP_TOO_FAR: [u16; 5] = [163, 164, 165, 198, 208];

/// The greatest value that a printed range and resolution give.
fn greatest_printed(field: &Field) -> i64 {
    let resolution = if field.printed_resolution.is_empty() { "1" } else { field.printed_resolution };
    let steps = billionths(upper_end(field.printed_range)) / billionths(resolution);
    steps as i64
}

/// Ranges of values against printed ranges over printed resolutions.
fn ranges() -> Group {
    let mut group = Group::new("ranges of values against printed ranges");
    for field in FIELDS.iter().filter(|f| !f.printed_range.is_empty()) {
        let beyond = ONE_STEP_TOO_FAR.contains(&field.df) as i64;
        group.equal(&format!("DF{} greatest", field.df), field.greatest(), greatest_printed(field) - beyond);
        let lowest = if field.signed() { -field.greatest() } else { 0 };
        group.equal(&format!("DF{} least", field.df), field.least(), lowest);
        group.check(field.greatest() <= field.width_greatest(), || format!("DF{} does not fit", field.df));
        group.equal(&format!("DF{} sign", field.df), field.printed_range.starts_with('±'), field.kind == Kind::Signed);
    }
    group
}

/// The table lists DF002, DF051 and DF143 to DF217 once each, and every one is used by a message.
fn fields_once() -> Group {
    let mut group = Group::new("the field table lists every field once");
    let expected: Vec<u16> = [2, 51].into_iter().chain(143..=217).collect();
    group.equal("numbers", FIELDS.iter().map(|f| f.df).collect::<Vec<u16>>(), expected);
    for field in FIELDS {
        let used = NUMBERS.iter().any(|&n| fields_in_order(n, [1, 1]).contains(&field.df));
        group.check(used, || format!("DF{} is in no message", field.df));
    }
    group
}

/// P12 and the cases that document 01 says are run.
fn worked() -> Group {
    let mut group = Group::new("worked cases of document 01");
    let p12 = Sample::zeros(1021);
    let bytes = p12.bytes();
    group.equal("P12 length", bytes.len(), 52);
    group.equal("P12", number_of(&read(&bytes)), 0);
    group.equal("P12 and a byte", read(&[&bytes[..], &[0]].concat()), Err(Refusal::Length));
    let mut filled = bytes.clone();
    filled[51] |= 1;
    group.equal("last bit set", read(&filled), Err(Refusal::Fill));
    for (reading, refusal) in
        [(Some(162_000), 0), (Some(-162_000), 0), (None, 0), (Some(162_001), 5), (Some(-162_001), 5)]
    {
        group.equal("DF152", number_of(&read(&p12.with(152, reading).bytes())), refusal);
        group.equal("DF152 written", number_of(&write_row(&p12.with(152, reading).row(), 52)), refusal);
    }
    group.equal("no byte", read(&[]), Err(Refusal::Short));
    group.equal("one byte", read(&[0x3f]), Err(Refusal::Short));
    group.equal("two bytes of no number", read(&[0, 0]), Err(Refusal::Number));
    group.equal("two bytes of 1021", read(&[0x3f, 0xd0]), Err(Refusal::Length));
    group
}

/// The whole line that document 01's program prints of a message.
pub fn program_line(input: &[u8]) -> String {
    let looked_at = &input[..input.len().min(128)];
    match read(looked_at) {
        Ok(message) => format!("{} {} {}", message.number, message.length, message.sin()),
        Err(refusal) => format!("refused {}", refusal.number()),
    }
}

/// The input that document 01 gives for its program.
fn program() -> Group {
    let mut group = Group::new("document 01's program");
    let mut input = vec![0x40, 0x10, 0x50];
    input.resize(25, 0);
    group.equal("1025", program_line(&input), "1025 25 5".to_string());
    group.equal("nothing", program_line(&[]), "refused 1".to_string());
    input.resize(4000, 0);
    group.equal("long", program_line(&input), "refused 3".to_string());
    group
}

/// The six kinds of records against the seven numbers.
fn kinds() -> Group {
    let mut group = Group::new("record readers of one kind");
    for number in NUMBERS {
        for (kind, of) in KINDS.iter().enumerate() {
            let expected = if of.contains(&number) { 0 } else { 7 };
            group.equal("kind", number_of(&read_kind(&Sample::usual(number).bytes(), kind)), expected);
            group.equal("short", number_of(&read_kind(&[], kind)), 1);
        }
    }
    group
}

/// How many messages of each number the round trips take.
const ROUNDS: usize = 2_000;

/// Rows that are written and read back.
fn round_trip_rows() -> Group {
    let mut group = Group::new("rows written and read back");
    let mut random = Random::new(1);
    for number in NUMBERS {
        for _ in 0..ROUNDS {
            let row = Sample::any(&mut random, number).row();
            let back = write_row(&row, 127).and_then(|bytes| read(&bytes)).map(|message| message.row());
            group.check(back.as_ref() == Ok(&row), || format!("{row:?} came back as {back:?}"));
        }
    }
    group
}

/// Messages that are read and written back, half of them with a wrong bit.
fn round_trip_bytes() -> Group {
    let mut group = Group::new("messages read and written back");
    let mut random = Random::new(2);
    for number in NUMBERS {
        for round in 0..ROUNDS {
            let mut bytes = Sample::any(&mut random, number).bytes();
            if round % 2 == 1 {
                let bit = random.below(8 * bytes.len() as u64) as usize;
                bytes[bit / 8] ^= 0x80 >> (bit % 8);
            }
            let Ok(message) = read(&bytes) else {
                group.check(round % 2 == 1, || format!("{bytes:?} is refused"));
                continue;
            };
            group.equal("row", write_row(&message.row(), bytes.len()), Ok(bytes.clone()));
            group.equal("record", write_record(&record_of(&message), bytes.len()), Ok(bytes.clone()));
            group.equal("room", write_row(&message.row(), bytes.len() - 1), Err(Refusal::Room));
        }
    }
    group
}

/// Records whose names are too long or not zero behind their length.
fn bad_names() -> Group {
    let mut group = Group::new("bad names of records");
    let message = read(&Sample::usual(1021).bytes()).expect("a sound message");
    let record = record_of(&message);
    let mut long = record.clone();
    long.names.as_mut().expect("two names")[1].length = 32;
    group.equal("long", write_record(&long, 127), Err(Refusal::Range));
    let mut unclean = record.clone();
    unclean.names.as_mut().expect("two names")[0].characters[30] = 1;
    group.equal("unclean", write_record(&unclean, 127), Err(Refusal::Range));
    let mut other = record;
    other.fields[0].1 = Some(1025);
    group.equal("other number", write_record(&other, 127), Err(Refusal::Range));
    group
}

/// Makes all checks, prints a line for each group, and says whether all hold.
pub fn run() -> bool {
    let mut good = true;
    for group in groups() {
        let word = if group.failed.is_empty() { "ok" } else { "FAILED" };
        println!("{word}: {} ({} checks)", group.name, group.made);
        group.failed.iter().take(5).for_each(|line| println!("  {line}"));
        good &= group.failed.is_empty();
    }
    good
}
