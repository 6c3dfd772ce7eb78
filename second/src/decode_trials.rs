//! Streams and messages on which the command is tried: every value of every field, every damage.

use crate::damage::Damage;
use crate::fields::by_df;
use crate::frame::frame_of;
use crate::gridsamples::Grid;
use crate::layouts::NUMBERS;
use crate::random::Random;
use crate::samples::{any_reading, refused, taken, Sample};
use crate::streams::any_noise;
use std::io::Result;
use std::path::Path;

/// Streams of random pieces, bare messages and grids.
const STREAMS: usize = 60;
const BARE: usize = 80;
const GRIDS: usize = 6;

/// A frame for each reading of each field that is worth a case of its own.
fn every_value() -> Vec<u8> {
    let mut stream = Vec::new();
    for number in NUMBERS {
        let usual = Sample::usual(number);
        for place in 1..usual.dfs.len() {
            let df = usual.dfs[place];
            if ![143, 145].contains(&df) {
                let cases = taken(by_df(df)).into_iter().map(|(_, reading)| usual.with_at(place, reading));
                stream.extend(cases.flat_map(|sample| frame_of(&sample.bytes())));
            }
        }
    }
    stream
}

/// A frame for each number outside a field's range, and for two fields outside theirs.
fn outside_ranges() -> Vec<u8> {
    let mut stream = Vec::new();
    for number in NUMBERS {
        let usual = Sample::usual(number);
        let mut both = usual.clone();
        for place in 1..usual.dfs.len() {
            for (_, value) in refused(by_df(usual.dfs[place])) {
                stream.extend(frame_of(&usual.with_at(place, value).bytes()));
                both = both.with_at(place, value);
            }
        }
        stream.extend(frame_of(&both.bytes()));
    }
    stream
}

/// A frame of every message number, and frames of each first part of the longest message.
fn numbers_and_lengths() -> Vec<u8> {
    let mut stream = Vec::new();
    for number in 0..4_096u16 {
        stream.extend(frame_of(&[(number >> 4) as u8, (number << 4) as u8, 0]));
    }
    let longest = Sample::new(1022, [&[0xe9; 31], b"\0\x1b\"\\\x7f\x9f\xa0\xff"], |_| 0).bytes();
    for length in 0..=longest.len() {
        stream.extend(frame_of(&longest[..length]));
    }
    stream
}

/// Frames of 1021 whose names have every character there is.
fn every_character() -> Vec<u8> {
    let characters: Vec<u8> = (0..=255).collect();
    let samples = characters.chunks(31).map(|name| Sample::new(1021, [name, b""], |_| 0));
    samples.flat_map(|sample| frame_of(&sample.bytes())).collect()
}

/// A message of any number and any values, as it is or damaged.
fn any_message(random: &mut Random) -> Vec<u8> {
    let number = NUMBERS[random.below(7) as usize];
    let sound = Sample::any(random, number).bytes();
    match random.below(3) {
        0 => Damage::any(random, sound.len()).done_to(&sound),
        1 if random.below(4) == 0 => Damage::Fill.done_to(&sound),
        _ => sound,
    }
}

/// A stream of frames, damaged frames and noise.
fn any_stream(random: &mut Random) -> Vec<u8> {
    let mut stream = Vec::new();
    for _ in 0..random.below(30) {
        let frame = frame_of(&any_message(random));
        stream.extend(match random.below(6) {
            0 => Damage::any(random, frame.len()).done_to(&frame),
            1 => {
                let length = random.below(40) as usize;
                any_noise(random, length)
            }
            _ => frame,
        });
    }
    stream
}

/// A grid of any place, spacing and nodes, some of which are not available, with both shifts on and bi-linear.
fn any_grid(random: &mut Random, turn: usize) -> Vec<u8> {
    let number = 1023 + (turn % 2) as u16;
    let mut grid = Grid { sample: Sample::any(random, number) };
    for (df, value) in [(190, 1), (191, 1), (212, 0), (213, 0)] {
        grid = grid.set(df, value);
    }
    for df in grid.spacing_fields() {
        grid = grid.set(df, random.within(1, 4_095));
    }
    for df in grid.origin_fields() {
        grid = grid.set(df, random.within(by_df(df).least(), by_df(df).greatest()));
    }
    for component in 0..3 {
        let df = grid.mean_field(component);
        grid = grid.set(df, any_reading(random, by_df(df)).unwrap_or(0));
    }
    grid.bytes()
}

/// Writes all trials into a folder: streams and bare messages (.rtcm), and grids (.grid).
pub fn write(dir: &Path) -> Result<()> {
    std::fs::create_dir_all(dir)?;
    let mut random = Random::new(32);
    std::fs::write(dir.join("every-value.rtcm"), every_value())?;
    std::fs::write(dir.join("every-character.rtcm"), every_character())?;
    std::fs::write(dir.join("outside-ranges.rtcm"), outside_ranges())?;
    std::fs::write(dir.join("numbers-and-lengths.rtcm"), numbers_and_lengths())?;
    std::fs::write(dir.join("preambles.rtcm"), [0xd3, 0x03].repeat(5_000))?;
    for turn in 0..STREAMS {
        std::fs::write(dir.join(format!("stream-{turn}.rtcm")), any_stream(&mut random))?;
    }
    for turn in 0..BARE {
        std::fs::write(dir.join(format!("bare-{turn}.rtcm")), any_message(&mut random))?;
    }
    for turn in 0..GRIDS {
        std::fs::write(dir.join(format!("{turn}.grid")), any_grid(&mut random, turn))?;
    }
    Ok(())
}
