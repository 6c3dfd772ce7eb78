//! How many inputs met each refusal number, and how far the run is.

use tarnoklej::Refusal;

/// The refusal numbers, 0 being done.
const NUMBERS: usize = 26;

/// The inputs of one kind of call by refusal number, every part of an answer being counted.
pub struct Tally {
    name: &'static str,
    possible: &'static [u8],
    met: [u64; NUMBERS],
    /// The parts of an answer, 0 before the first input.
    parts: usize,
    /// The inputs whose parts have different numbers.
    differing: u64,
}

impl Tally {
    /// No inputs yet of a call and the refusal numbers it can give.
    pub fn new(name: &'static str, possible: &'static [u8]) -> Self {
        Tally { name, possible, met: [0; NUMBERS], parts: 0, differing: 0 }
    }

    /// Adds one input with the numbers of its answer's parts.
    pub fn add(&mut self, refusals: &[u8]) {
        refusals.iter().for_each(|&refusal| self.met[refusal as usize] += 1);
        self.parts = refusals.len();
        self.differing += u64::from(refusals.iter().any(|refusal| *refusal != refusals[0]));
    }
}

/// The name of a refusal number.
fn name_of(number: u8) -> &'static str {
    Refusal::from_number(number).map_or("done", Refusal::name)
}

/// The cell of a call and a refusal number, a dash where the call cannot give it.
fn cell(tally: &Tally, number: u8) -> String {
    let met = tally.met[number as usize];
    if met == 0 && !tally.possible.contains(&number) {
        return "-".to_string();
    }
    met.to_string()
}

/// The inputs of every call by refusal number, as a Markdown table.
pub fn table(tallies: &[Tally]) -> String {
    let heads: String = tallies.iter().map(|tally| format!(" {:>14} |", tally.name)).collect();
    let rules = " ---: |".repeat(tallies.len());
    let mut text = format!("| No. | Name      |{heads}\n| ---: | --- |{rules}\n");
    for number in (0..NUMBERS as u8).filter(|&number| number == 0 || Refusal::from_number(number).is_some()) {
        let cells: String = tallies.iter().map(|tally| format!(" {:>14} |", cell(tally, number))).collect();
        text += &format!("| {number:>3} | {:<9} |{cells}\n", name_of(number));
    }
    text
}

/// A line for each call whose answers have several parts.
pub fn differing_parts(tallies: &[Tally]) -> Vec<String> {
    let several = tallies.iter().filter(|tally| tally.parts > 1);
    several.map(|tally| format!("{}: parts have different numbers in {} inputs", tally.name, tally.differing)).collect()
}

/// A line for each refusal number that a call can give and that no input met.
pub fn never_met(tallies: &[Tally]) -> Vec<String> {
    let mut lines = Vec::new();
    for tally in tallies {
        for &number in tally.possible.iter().filter(|&&number| tally.met[number as usize] == 0) {
            lines.push(format!("no input of {} met {number} {}", tally.name, name_of(number)));
        }
        if tally.parts > 1 && tally.differing == 0 {
            lines.push(format!("no input of {} has parts of different numbers", tally.name));
        }
    }
    lines
}

/// How many of all inputs are done.
pub struct Progress {
    done: u64,
    all: u64,
}

impl Progress {
    /// Nothing done of a number of inputs.
    pub fn new(all: u64) -> Self {
        Progress { done: 0, all }
    }

    /// One more input is done, and a line is printed at every tenth of all.
    pub fn step(&mut self) {
        let tenths = |done: u64| done * 10 / self.all;
        self.done += 1;
        if tenths(self.done) > tenths(self.done - 1) {
            eprintln!("compare: {} percent, {} inputs", tenths(self.done) * 10, self.done);
        }
    }
}
