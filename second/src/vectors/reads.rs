//! Cases of reading: sound messages, damaged messages, and the order of the refusals.

use super::{Call, Case, Vector};
use crate::fields::by_df;
use crate::hex::hex;
use crate::layouts::NUMBERS;
use crate::message::{read, read_kind, KINDS};
use crate::random::Random;
use crate::record::{record_of, write_record};
use crate::refusal::number_of;
use crate::samples::{refused, taken, Sample};
use crate::services::services;

/// A room that holds every message.
const ROOM: usize = 160;

/// All cases of reading.
pub fn cases() -> Vec<Vector> {
    let mut cases = Vec::new();
    cases.extend(worked());
    cases.extend(short_and_unknown());
    for number in NUMBERS {
        cases.extend(whole_rows(number));
        cases.extend(field_ends(number));
        cases.extend(random_rows(number));
        cases.extend(random_bits(number));
        cases.extend(other_lengths(number));
        cases.extend(fill_bits(number));
        cases.extend(order_of_refusals(number));
    }
    for number in [1021, 1022] {
        cases.extend(name_lengths(number));
        cases.extend(wrong_counters(number));
    }
    cases.extend(all_characters());
    for number in [1021, 1023, 1025] {
        cases.extend(flipped_bits(number));
    }
    cases.extend(service_files());
    cases
}

/// A vector of reading bytes.
fn case(name: String, bytes: &[u8]) -> Vector {
    Vector { name, call: Call::Read(bytes.to_vec()) }
}

/// The case of what only records show of a message.
pub fn kinds_case(name: &str, bytes: &[u8]) -> Case {
    Case { name: name.to_string(), call: format!("kinds {}", hex(bytes)), answer: answer(bytes) }
}

/// The refusals of the record readers of the six kinds, and the bytes written from the record.
fn answer(bytes: &[u8]) -> String {
    let kinds: Vec<String> = (0..KINDS.len()).map(|kind| number_of(&read_kind(bytes, kind)).to_string()).collect();
    let written = read(bytes)
        .map_or(Vec::new(), |message| write_record(&record_of(&message), ROOM).expect("an accepted record is written"));
    format!("{} : {}", kinds.join(" "), hex(&written))
}

/// The cases that document 01 works out or names.
fn worked() -> Vec<Vector> {
    let p12 = Sample::zeros(1021);
    let bytes = p12.bytes();
    let with_fill: Vec<u8> = [&bytes[..51], &[bytes[51] | 1]].concat();
    let mut program = vec![0; 25];
    program[..3].copy_from_slice(&[0x40, 0x10, 0x50]);
    vec![
        case("p12-52".into(), &bytes),
        case("p12-53".into(), &[&bytes[..], &[0]].concat()),
        case("run-fill".into(), &with_fill),
        case("run-df152-162000".into(), &p12.with(152, 162_000).bytes()),
        case("run-df152-not-available".into(), &p12.with(152, None).bytes()),
        case("run-df152-162001".into(), &p12.with(152, 162_001).bytes()),
        case("run-df152-minus-162000".into(), &p12.with(152, -162_000).bytes()),
        case("run-df152-minus-162001".into(), &p12.with(152, -162_001).bytes()),
        case("run-df152-minus-262143".into(), &p12.with(152, -262_143).bytes()),
        case("program-1025-25-5".into(), &program),
    ]
}

/// Messages of 0 to 3 bytes and of numbers that are not 1021 to 1027.
fn short_and_unknown() -> Vec<Vector> {
    let mut cases = Vec::new();
    for length in 0..4 {
        let word = if length < 2 { "short" } else { "zeros" };
        cases.push(case(format!("{word}-{length}"), &vec![0; length]));
    }
    for length in 1..4 {
        cases.push(case(format!("ones-{length}"), &vec![0xff; length]));
    }
    for number in 1020..=1028u16 {
        let first = [(number >> 4) as u8, (number << 4) as u8];
        cases.push(case(format!("number-{number}-alone"), &first));
        cases.push(case(format!("number-{number}-half"), &first[..1]));
        cases.push(case(format!("number-{number}-and-byte"), &[first[0], first[1], 0]));
    }
    for number in [0u16, 1, 1019, 1020, 1028, 1029, 2045, 2047, 4095] {
        for length in [2, 25, 52, 73, 74, 140] {
            let mut bytes = vec![0; length];
            bytes[0] = (number >> 4) as u8;
            bytes[1] = (number << 4) as u8;
            cases.push(case(format!("unknown-{number}-bytes-{length}"), &bytes));
        }
    }
    cases
}

/// Messages all of whose fields are at one end, zero, minus one or not available.
fn whole_rows(number: u16) -> Vec<Vector> {
    let all = |name: &str, number_of: fn(&crate::fields::Field) -> i64| {
        case(format!("{number}-all-{name}"), &Sample::new(number, [b"\xff", b"\x00"], number_of).bytes())
    };
    vec![
        case(format!("{number}-usual"), &Sample::usual(number).bytes()),
        all("min", |f| f.least()),
        all("max", |f| f.greatest()),
        all("zero", |_| 0),
        all("minus-one", |f| if f.signed() { -1 } else { 1 }),
        all("not-available", |f| f.width_least()),
        all("width-max", |f| f.width_greatest()),
        all("width-min-and-one", |f| f.width_least() + 1),
    ]
}

/// The label of one place of a row, nodes being told apart by their number.
pub fn label(sample: &Sample, place: usize) -> String {
    let df = sample.dfs[place];
    let all: Vec<usize> = (0..sample.dfs.len()).filter(|&p| sample.dfs[p] == df).collect();
    if all.len() == 16 {
        let node = all.iter().position(|&p| p == place).expect("one of the places") + 1;
        return format!("{}-df{df}-node-{node}", sample.number);
    }
    format!("{}-df{df}", sample.number)
}

/// The places of a row that hold neither the number nor a part of a name.
pub fn plain_places(sample: &Sample) -> Vec<usize> {
    (0..sample.dfs.len()).filter(|&p| !matches!(sample.dfs[p], 2 | 143..=146)).collect()
}

/// Every field at its ends, at zero, at minus one, not available, and outside its range where the width allows it.
fn field_ends(number: u16) -> Vec<Vector> {
    let usual = Sample::usual(number);
    let mut cases = Vec::new();
    for place in plain_places(&usual) {
        let field = by_df(usual.dfs[place]);
        let outside = refused(field).into_iter().map(|(word, value)| (word, Some(value)));
        for (word, reading) in taken(field).into_iter().chain(outside) {
            let name = format!("{}-{word}", label(&usual, place));
            cases.push(case(name, &usual.with_at(place, reading).bytes()));
        }
    }
    cases
}

/// Sound messages of random names and fields.
fn random_rows(number: u16) -> Vec<Vector> {
    let mut random = Random::new(2_000 + number as u64);
    (0..25).map(|i| case(format!("{number}-random-{i}"), &Sample::any(&mut random, number).bytes())).collect()
}

/// Random bits behind a right number, at the right length with the fill bits zero and at any length.
fn random_bits(number: u16) -> Vec<Vector> {
    let mut random = Random::new(3_000 + number as u64);
    let mut cases = Vec::new();
    for i in 0..10 {
        let sound = Sample::any(&mut random, number).bytes();
        let mut noise = random.bytes(sound.len());
        let length = noise.len();
        noise[0] = sound[0];
        noise[1] = sound[1];
        noise[length - 1] = 0;
        cases.push(case(format!("{number}-noise-{i}"), &noise));
        let mut bytes = random.bytes(2 + (i * 14) as usize);
        bytes[0] = (number >> 4) as u8;
        bytes[1] = (number << 4) as u8 | (bytes[1] & 15);
        cases.push(case(format!("{number}-noise-any-length-{i}"), &bytes));
    }
    cases
}

/// One message cut at every length, and one and two bytes too long, the added bytes being zero or not.
fn other_lengths(number: u16) -> Vec<Vector> {
    let bytes = Sample::usual(number).bytes();
    let mut cases: Vec<Vector> =
        (0..bytes.len()).map(|length| case(format!("{number}-cut-{length}"), &bytes[..length])).collect();
    for (name, added) in [("1", &[0u8][..]), ("2", &[0, 0]), ("1-ones", &[255]), ("2-ones", &[255, 255])] {
        cases.push(case(format!("{number}-long-{name}"), &[&bytes[..], added].concat()));
    }
    let mut longest = bytes.clone();
    longest.resize(140, 0);
    cases.push(case(format!("{number}-long-140-bytes"), &longest));
    let zeros = Sample::zeros(number).bytes();
    for length in [25, 30, 33, 52, 65, 73, 74, 114, 127, 128] {
        let mut other = zeros.clone();
        other.resize(length, 0);
        cases.push(case(format!("{number}-zeros-{length}-bytes"), &other));
    }
    cases
}

/// The number of fill bits of a message.
fn fill_width(number: u16) -> u32 {
    match number {
        1021 | 1025 => 4,
        1022 => 3,
        1024 => 2,
        _ => 6,
    }
}

/// Every fill bit set alone, and all together.
fn fill_bits(number: u16) -> Vec<Vector> {
    let bytes = Sample::usual(number).bytes();
    let set = |mask: u8| {
        let mut other = bytes.clone();
        *other.last_mut().expect("a message") |= mask;
        other
    };
    let all = ((1u16 << fill_width(number)) - 1) as u8;
    let mut cases: Vec<Vector> =
        (0..fill_width(number)).map(|bit| case(format!("{number}-fill-bit-{bit}"), &set(1 << bit))).collect();
    cases.push(case(format!("{number}-fill-all"), &set(all)));
    cases
}

/// A field of the message that does not take all its width holds, if there is one.
pub fn narrow_field(number: u16) -> Option<(u16, i64)> {
    match number {
        1021 | 1022 => Some((153, 324_001)),
        1023 => Some((193, -1_296_001)),
        1024 => None,
        1025 => Some((171, 8_181_818_182)),
        1026 => Some((179, -8_181_818_182)),
        _ => Some((185, 32_727_272_728)),
    }
}

/// Messages that would be refused for two reasons, so that the order shows.
fn order_of_refusals(number: u16) -> Vec<Vector> {
    let usual = Sample::usual(number);
    let mut cases = Vec::new();
    let filled = |sample: &Sample| {
        let mut bytes = sample.bytes();
        *bytes.last_mut().expect("a message") |= 1;
        bytes
    };
    cases.push(case(format!("{number}-order-length-fill"), &[filled(&usual), vec![1]].concat()));
    if let Some((df, value)) = narrow_field(number) {
        let bad = usual.with(df, value);
        cases.push(case(format!("{number}-order-fill-range"), &filled(&bad)));
        cases.push(case(format!("{number}-order-length-range"), &[bad.bytes(), vec![0]].concat()));
        cases.push(case(format!("{number}-order-length-fill-range"), &[filled(&bad), vec![1]].concat()));
        let mut unknown = filled(&bad);
        unknown[0] = 0;
        cases.push(case(format!("{number}-order-number-fill-range"), &unknown));
        cases.push(case(format!("{number}-order-short"), &filled(&bad)[..1]));
    }
    cases
}

/// Names of 0, 1, 30 and 31 characters.
fn name_lengths(number: u16) -> Vec<Vector> {
    let mut random = Random::new(4_000 + number as u64);
    let mut cases = Vec::new();
    for source in [0, 1, 30, 31] {
        for target in [0, 1, 30, 31] {
            let names = [random.bytes(source), random.bytes(target)];
            let sample = Sample::new(number, [&names[0], &names[1]], |f| crate::samples::any_reading(&mut random, f));
            cases.push(case(format!("{number}-names-{source}-{target}"), &sample.bytes()));
        }
    }
    for length in 0..32 {
        let names = [random.bytes(length), random.bytes(31 - length)];
        let sample = Sample::new(number, [&names[0], &names[1]], |f| f.least());
        cases.push(case(format!("{number}-source-{length}-target-{}", 31 - length), &sample.bytes()));
    }
    cases
}

/// Names in which every byte value stands once as a source character and once as a target character.
fn all_characters() -> Vec<Vector> {
    let values: Vec<u8> = (0..=255).collect();
    let pieces: Vec<&[u8]> = values.chunks(31).collect();
    let count = pieces.len();
    (0..count)
        .map(|i| {
            let names = [pieces[i], pieces[(i + 1) % count]];
            let number = if i % 2 == 0 { 1021 } else { 1022 };
            case(format!("{number}-characters-{i}"), &Sample::new(number, names, |_| 0).bytes())
        })
        .collect()
}

/// Every counter value in a message of fixed length, for both counters.
fn wrong_counters(number: u16) -> Vec<Vector> {
    let mut random = Random::new(5_000 + number as u64);
    let names = [random.bytes(9), random.bytes(14)];
    let sample = Sample::new(number, [&names[0], &names[1]], |f| random.within(f.least(), f.greatest()));
    let mut cases = Vec::new();
    for (df, word) in [(143, "source"), (145, "target")] {
        for counter in 0..32 {
            let bytes = sample.with(df, counter).bytes();
            cases.push(case(format!("{number}-{word}-counter-{counter}"), &bytes));
        }
    }
    for counter in 0..32 {
        let bytes = Sample::zeros(number).with(143, counter).bytes();
        cases.push(case(format!("{number}-counter-lies-{counter}"), &bytes));
    }
    cases
}

/// One message with every single bit flipped.
fn flipped_bits(number: u16) -> Vec<Vector> {
    let mut random = Random::new(6_000 + number as u64);
    let bytes = Sample::new(number, [b"A", b"Z9"], |f| random.within(f.least(), f.greatest())).bytes();
    (0..8 * bytes.len())
        .map(|bit| {
            let mut other = bytes.clone();
            other[bit / 8] ^= 0x80 >> (bit % 8);
            case(format!("{number}-flip-{bit}"), &other)
        })
        .collect()
}

/// Every file of the made-up services.
fn service_files() -> Vec<Vector> {
    let mut cases = Vec::new();
    for service in services() {
        let letter = &service.folder[..1];
        for file in service.files {
            cases.push(case(format!("service-{letter}-{}", file.name), &file.bytes));
        }
    }
    cases
}
