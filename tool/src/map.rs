//! The command map: a grid of shifts as an SVG picture.

use crate::arguments::Arguments;
use crate::choose;
use crate::failure::{unwritten, wrong, Failure};
use crate::grid::{Units, GRIDS};
use crate::library::{read, read_fields_into, shifts_at, Component, Position, Refusal, MOST_FIELDS};
use crate::map_counts::{counts, is_of_place, Shown};
use crate::map_plan::Plan;
use crate::map_svg;
use std::io::Write;

/// The place in the row of DF191, which says whether there are heights.
const HEIGHTS_ON: usize = 3;

/// The component of a word: its name or its number.
fn component(word: &str) -> Result<Component, Failure> {
    let found = Component::ALL.into_iter().find(|which| which.name() == word || which.number().to_string() == word);
    found.ok_or_else(|| wrong(format!("not a component, north-south, east-west or height: {word}")))
}

/// A refusal as a failure.
fn refused(refusal: Refusal) -> Failure {
    Failure::Refused(format!("there is no map: {refusal}"))
}

/// Nothing where another place may be answered, else the refusal.
fn unless_of_place(refusal: Refusal) -> Result<(), Refusal> {
    if is_of_place(refusal) {
        Ok(())
    } else {
        Err(refusal)
    }
}

/// Draws the grid of a file.
pub fn run(mut arguments: Arguments) -> Result<(), Failure> {
    let sin = choose::sin_option(&mut arguments)?;
    let chosen = arguments.value("--component")?.map(|word| component(&word)).transpose()?;
    let file = arguments.required("FILE")?;
    arguments.end()?;
    let message = choose::message(&file, &GRIDS, sin)?;
    let picture = picture(&message, chosen).map_err(refused)?;
    std::io::stdout().write_all(picture.as_bytes()).map_err(unwritten)
}

/// The picture of a message.
fn picture(message: &[u8], chosen: Option<Component>) -> Result<String, Refusal> {
    let header = read(message)?;
    if !GRIDS.contains(&header.number) {
        return Err(Refusal::Kind);
    }
    let mut row = [None; MOST_FIELDS];
    read_fields_into(message, &mut row)?;
    let by_itself = if row[HEIGHTS_ON] == Some(1) { Component::Height } else { Component::NorthSouth };
    let component = chosen.unwrap_or(by_itself);
    // Any position tells what is refused wherever it is.
    shifts_at(message, Position::new(0, 0)).of(component).map(drop).or_else(unless_of_place)?;
    let plan = Plan::of(Units::of(message), &row)?;
    let shown = Shown { message, component, plan: &plan };
    Ok(map_svg::picture(&shown, header, &row, &counts(&shown)))
}
