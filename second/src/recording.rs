//! A made-up recording of a stream: the messages of all services and others in frames, and what a bad modem leaves.

use crate::bits::BitWriter;
use crate::damage::Damage;
use crate::frame::{frame_of, LONGEST, PREAMBLE};
use crate::random::Random;
use crate::services::{services, Service};
use crate::streams::{any_noise, EXAMPLE_1005};

/// A recording under way.
struct Recording {
    stream: Vec<u8>,
    random: Random,
    seconds: i64,
}

/// A message whose fields are given as numbers with their widths.
fn message(fields: &[(i64, u32)]) -> Vec<u8> {
    let mut writer = BitWriter::default();
    fields.iter().for_each(|&(value, width)| writer.number(value, width));
    writer.into_bytes()
}

/// The fields of a text: its length and its characters, 8 bits each.
fn text(characters: &str) -> Vec<(i64, u32)> {
    let bytes = characters.bytes().map(|byte| (i64::from(byte), 8));
    [(characters.len() as i64, 8)].into_iter().chain(bytes).collect()
}

/// A 1033, the names of an antenna and a receiver.
fn descriptors() -> Vec<u8> {
    let mut fields = vec![(1033, 12), (2003, 12)];
    fields.extend(text("MADE-UP ANTENNA NONE"));
    fields.push((0, 8));
    ["A-0211", "MADE-UP RECEIVER", "2.11", "R-0211"].iter().for_each(|name| fields.extend(text(name)));
    message(&fields)
}

/// A 1029, a text for people, one letter of which has a D3 among its bytes.
fn notice() -> Vec<u8> {
    let words = "Grid e begins at noon. \u{4d3}";
    let mut fields = vec![(1029, 12), (2003, 12), (54_241, 16), (43_200, 17), (words.chars().count() as i64, 7)];
    fields.extend(text(words));
    message(&fields)
}

/// A 1004, the observations of four satellites in one second.
fn observations(seconds: i64) -> Vec<u8> {
    let mut fields = vec![(1004, 12), (2003, 12), (1_000 * seconds, 30), (0, 1), (4, 5), (0, 1), (0, 3)];
    for satellite in [3, 8, 17, 30] {
        let first =
            [(satellite, 6), (0, 1), (2_000_000 + 1_000 * satellite, 24), (50 * satellite, 20), (90, 7), (70, 8)];
        fields.extend(first.into_iter().chain([(180, 8), (0, 2), (25, 14), (60 * satellite, 20), (80, 7), (160, 8)]));
    }
    message(&fields)
}

/// A message of a private number with any bytes behind it.
fn private(rest: &[u8]) -> Vec<u8> {
    [&[0xff, 0xf0], rest].concat()
}

impl Recording {
    /// Appends bytes as they are.
    fn raw(&mut self, bytes: &[u8]) {
        self.stream.extend(bytes);
    }

    /// Appends the frame of a message.
    fn frame(&mut self, message: &[u8]) {
        self.raw(&frame_of(message));
    }

    /// Appends the frame of a message as a bad modem leaves it.
    fn damaged(&mut self, message: &[u8], damage: Damage) {
        self.raw(&damage.done_to(&frame_of(message)));
    }

    /// Appends noise with false D3.
    fn noise(&mut self, length: usize) {
        let noise = any_noise(&mut self.random, length);
        self.raw(&noise);
    }

    /// Appends what a station sends each second.
    fn second(&mut self) {
        self.frame(&observations(self.seconds));
        self.seconds += 1;
    }

    /// Appends the sound messages of a service, each sent again after a frame of it was damaged.
    fn service(&mut self, service: &Service, damages: [Damage; 3]) {
        let sound = service.files.iter().filter(|file| !file.name.contains('-'));
        for (file, damage) in sound.zip(damages) {
            self.second();
            self.frame(&file.bytes);
            self.damaged(&file.bytes, damage);
            self.frame(&file.bytes);
        }
    }

    /// Appends the messages of a service that were damaged before they were put into frames.
    fn damaged_before(&mut self, service: &Service) {
        service.files.iter().filter(|file| file.name.contains('-')).for_each(|file| self.frame(&file.bytes));
    }

    /// Appends messages of the least and the greatest length, and messages that hold frames.
    fn odd_messages(&mut self) {
        self.frame(&[]);
        self.frame(&[0x3f]);
        self.frame(&[0x3f, 0xd0]);
        let rest = self.random.bytes(LONGEST - 2);
        self.frame(&private(&rest));
        let inner = frame_of(&EXAMPLE_1005);
        self.frame(&private(&inner));
        self.damaged(&private(&inner), Damage::Bit(30));
        self.frame(&private(&[PREAMBLE; 20]));
    }

    /// Appends a D3 that calls for the greatest length, and frames behind it.
    fn long_false_candidate(&mut self) {
        self.raw(&[PREAMBLE, 3, 0xff]);
        (0..14).for_each(|_| self.second());
    }

    /// Appends the end of the stream: candidates for which not all bytes arrive, with frames inside the first.
    fn end(&mut self) {
        self.raw(&[PREAMBLE, 2, 0x58]);
        self.frame(&EXAMPLE_1005);
        self.second();
        self.damaged(&descriptors(), Damage::Cut(60));
        self.raw(&[PREAMBLE]);
    }
}

/// The damages done to the frames of each service.
const DAMAGES: [[Damage; 3]; 5] = [
    [Damage::Cut(40), Damage::Bit(200), Damage::Burst(5, 6)],
    [Damage::Lost(20), Damage::Doubled(2), Damage::Cut(2)],
    [Damage::Bit(17), Damage::Bit(0), Damage::Ones(12)],
    [Damage::Burst(0, 4), Damage::Lost(1), Damage::Bit(300)],
    [Damage::Bit(8), Damage::Cut(70), Damage::Lost(30)],
];

/// The bytes of the recording.
pub fn recording() -> Vec<u8> {
    let mut recording = Recording { stream: Vec::new(), random: Random::new(61), seconds: 129_600 };
    recording.raw(&frame_of(&EXAMPLE_1005)[11..]);
    let services = services();
    for (service, damages) in services.iter().zip(DAMAGES) {
        recording.frame(&EXAMPLE_1005);
        recording.service(service, damages);
        recording.frame(&descriptors());
        recording.noise(50);
    }
    recording.frame(&notice());
    services.iter().for_each(|service| recording.damaged_before(service));
    recording.odd_messages();
    recording.long_false_candidate();
    recording.end();
    recording.stream
}
