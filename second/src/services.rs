//! Five made-up services, sound and as a bad modem leaves them.

use crate::damage::Damage;
use crate::fields::{by_df, Field};
use crate::frames::listing;
use crate::recording::recording;
use crate::samples::Sample;
use std::path::Path;

/// One file of a service.
pub struct File {
    /// The file's name without its ending.
    pub name: String,
    /// The bytes of the file.
    pub bytes: Vec<u8>,
}

/// One made-up service.
pub struct Service {
    /// The folder's name.
    pub folder: &'static str,
    /// What the service is, in one line.
    pub about: &'static str,
    /// The sound messages and then the damaged ones.
    pub files: Vec<File>,
}

/// A number of steps of 0.000000011 degree nearest to an angle given in units of 0.0000001 degree.
fn angle(ten_millionths: i64) -> i64 {
    let steps = (ten_millionths.abs() * 1000 + 55) / 110;
    if ten_millionths < 0 {
        -steps
    } else {
        steps
    }
}

/// A message of given names and of fields by the numbers that are sent, those that stand sixteen times node by node.
fn message(number: u16, names: [&str; 2], fields: &[(u16, i64)], nodes: &[(u16, [i64; 16])]) -> Vec<u8> {
    let mut seen = [0usize; 256];
    let mut value = |field: &Field| {
        let df = field.df;
        seen[df as usize] += 1;
        let node = nodes.iter().find(|n| n.0 == df).map(|n| n.1[seen[df as usize] - 1]);
        let single = fields.iter().find(|f| f.0 == df).map(|f| f.1);
        field.reading(node.or(single).unwrap_or(0))
    };
    let sample = Sample::new(number, [names[0].as_bytes(), names[1].as_bytes()], &mut value);
    assert!(sample.dfs.iter().zip(&sample.readings).all(|(&df, &reading)| by_df(df).can_be(reading)));
    sample.bytes()
}

/// The files of a service from its sound messages and the damage done to them.
fn files(sound: Vec<(u16, Vec<u8>)>, damages: Vec<(u16, Damage)>) -> Vec<File> {
    let mut files: Vec<File> =
        sound.iter().map(|(number, bytes)| File { name: number.to_string(), bytes: bytes.clone() }).collect();
    for (number, damage) in damages {
        let bytes = &sound.iter().find(|s| s.0 == number).expect("a sound message of that number").1;
        files.push(File { name: format!("{number}-{}", damage.word()), bytes: damage.done_to(bytes) });
    }
    files
}

/// GRS 80 as add a and add b in millimetres.
const GRS80: [i64; 2] = [8_137_000, 6_752_314];
/// Bessel 1841 as add a and add b in millimetres.
const BESSEL: [i64; 2] = [7_397_155, 6_078_963];
/// International 1924 as add a and add b in millimetres.
const INTERNATIONAL: [i64; 2] = [8_388_000, 6_911_946];
/// Krassowsky 1940 as add a and add b in millimetres.
const KRASSOWSKY: [i64; 2] = [8_245_000, 6_863_019];
/// 21 May 2007 as a Modified Julian Day.
const DAY: i64 = 54_241;

/// A linear Helmert service with a Gauss-Krueger zone.
#[rustfmt::skip]
fn helmert() -> Service {
    let m1021 = message(1021, ["4936", "4314"], &[
        (147, 11), (148, 0b1010000000), (149, 7), (150, 0), (151, 1),
        (152, 88_200), (153, 19_800), (154, 1_800), (155, 1_800),
        (156, -598_100), (157, -73_700), (158, -418_200),
        (159, 10_100), (160, 2_250), (161, -122_750), (162, -670_000),
        (166, GRS80[0]), (167, GRS80[1]), (168, BESSEL[0]), (169, BESSEL[1]),
        (214, 4), (215, 3),
    ], &[]);
    let m1023 = message(1023, ["", ""], &[
        (147, 11), (190, 1), (191, 1),
        (192, 352_807), (193, 79_209), (194, 720), (195, 720),
        (196, 12), (197, -7), (198, 4_692),
        (216, 2), (217, 3), (51, DAY),
    ], &[
        (199, [20, 17, 11, 4, 15, 9, 3, -2, 8, 1, -6, -13, 0, -7, -15, -24]),
        (200, [13, 10, 12, 9, 4, 0, -1, -3, -6, -8, -7, -11, -15, -14, -18, -20]),
        (201, [0, 31, 58, 90, -12, 20, 44, 79, -27, 3, 29, 61, -44, -15, 12, 40]),
    ]);
    let m1025 = message(1025, ["", ""], &[
        (147, 11), (170, 1), (171, 0), (172, angle(120_000_000)),
        (173, 700_000_000), (174, 4_500_000_000), (175, 0),
    ], &[]);
    let damages = vec![
        (1021, Damage::Lost(9)), (1021, Damage::Bit(116)), (1023, Damage::Cut(61)), (1023, Damage::Bit(311)),
        (1023, Damage::Burst(20, 6)), (1025, Damage::Fill), (1025, Damage::Doubled(12)),
    ];
    Service {
        folder: "a-helmert-gauss-krueger",
        about: "A linear Helmert step (1021, DF150 0) from ETRS89 to a DHDN-like datum, a grid in arc seconds (1023) and a Gauss-Krueger zone (1025, Transverse Mercator).",
        files: files(vec![(1021, m1021), (1023, m1023), (1025, m1025)], damages),
    }
}

/// A Molodenski-Badekas service with a Lambert projection of two standard parallels.
#[rustfmt::skip]
fn molodenski_badekas() -> Service {
    let m1022 = message(1022, ["4247", "4189"], &[
        (147, 22), (148, 0b0101000000), (149, 12), (150, 3), (151, 0),
        (152, 14_400), (153, -118_800), (154, 3_600), (155, 3_600),
        (156, -270_933), (157, 115_599), (158, -360_226),
        (159, -263_300), (160, -61_900), (161, 119_050), (162, -510_900),
        (163, 2_464_351_590), (164, -5_783_466_610), (165, 974_809_810),
        (166, INTERNATIONAL[0]), (167, INTERNATIONAL[1]), (168, GRS80[0]), (169, GRS80[1]),
        (214, 5), (215, 5),
    ], &[]);
    let m1024 = message(1024, ["", ""], &[
        (147, 22), (190, 1), (191, 1),
        (202, 100_000), (203, 100_000), (204, 1_000), (205, 1_200),
        (206, -34), (207, 112), (208, -1_875),
        (216, 4), (217, 0), (51, DAY),
    ], &[
        (209, [52, 31, 9, -14, 44, 26, 3, -20, 39, 18, -5, -29, 30, 11, -12, -37]),
        (210, [-60, -41, -22, 0, -48, -30, -11, 10, -35, -19, 1, 22, -25, -8, 13, 33]),
        (211, [-120, -80, -41, 2, -101, -60, -19, 21, -79, -40, 0, 42, -58, -21, 20, 63]),
    ]);
    let m1026 = message(1026, ["", ""], &[
        (147, 22), (170, 4), (176, angle(80_000_000)), (177, angle(-660_000_000)),
        (178, angle(30_000_000)), (179, angle(90_000_000)), (180, 1_000_000_000), (181, 1_000_000_000),
    ], &[]);
    let damages = vec![
        (1022, Damage::Cut(40)), (1022, Damage::Bit(14)), (1022, Damage::Burst(30, 4)), (1024, Damage::Doubled(33)),
        (1024, Damage::Fill), (1026, Damage::Bit(95)), (1026, Damage::Lost(29)),
    ];
    Service {
        folder: "b-molodenski-badekas-lambert",
        about: "A Molodenski-Badekas step (1022) from a PSAD56-like datum to REGVEN, a grid in metres (1024) and a Lambert projection of two standard parallels (1026).",
        files: files(vec![(1022, m1022), (1024, m1024), (1026, m1026)], damages),
    }
}

/// A service that gives heights above a geoid only.
#[rustfmt::skip]
fn heights_only() -> Service {
    let m1021 = message(1021, ["4936", "ETRS89 / UTM 33N + NN"], &[
        (147, 33), (148, 0b1010000000), (149, 7), (150, 0), (151, 2),
        (152, 94_500), (153, 24_300), (154, 900), (155, 900),
        (166, GRS80[0]), (167, GRS80[1]), (168, GRS80[0]), (169, GRS80[1]),
        (214, 1), (215, 2),
    ], &[]);
    let m1023 = message(1023, ["", ""], &[
        (147, 33), (190, 0), (191, 1),
        (192, 378_000), (193, 97_200), (194, 360), (195, 600),
        (196, -128), (197, -128), (198, 3_987),
        (216, 0), (217, 1), (51, DAY),
    ], &[
        (199, [-256; 16]),
        (200, [-256; 16]),
        (201, [212, 180, 151, 118, 133, 101, 70, 41, 48, 19, -9, -40, -37, -66, -93, -125]),
    ]);
    let m1025 = message(1025, ["", ""], &[
        (147, 33), (170, 1), (171, 0), (172, angle(150_000_000)),
        (173, 660_000_000), (174, 500_000_000), (175, 0),
    ], &[]);
    let damages = vec![
        (1021, Damage::Bit(13)), (1021, Damage::Doubled(3)), (1021, Damage::Fill), (1023, Damage::Ones(60)),
        (1023, Damage::Burst(1, 3)), (1025, Damage::Cut(1)), (1025, Damage::Bit(26)),
    ];
    Service {
        folder: "c-heights-only",
        about: "Heights only: a 1021 of zero parameters with height indicator 2, a 1023 whose horizontal nodes are not available, and UTM zone 33 (1025).",
        files: files(vec![(1021, m1021), (1023, m1023), (1025, m1025)], damages),
    }
}

/// A service with an oblique Mercator projection.
#[rustfmt::skip]
fn oblique_mercator() -> Service {
    let m1021 = message(1021, ["4978", "4149"], &[
        (147, 44), (148, 0b0100100000), (149, 7), (150, 2), (151, 1),
        (152, 84_600), (153, 14_400), (154, 3_600), (155, 5_400),
        (156, -674_374), (157, -15_056), (158, -405_346),
        (166, GRS80[0]), (167, GRS80[1]), (168, BESSEL[0]), (169, BESSEL[1]),
        (214, 5), (215, 4),
    ], &[]);
    let m1024 = message(1024, ["", ""], &[
        (147, 44), (190, 1), (191, 1),
        (202, 20_000), (203, 60_000), (204, 500), (205, 500),
        (206, 21), (207, -43), (208, 128),
        (216, 5), (217, 4), (51, DAY),
    ], &[
        (209, [-256, 88, 61, 30, -256, 70, 44, 12, 97, 52, 25, -6, 80, 36, 8, -23]),
        (210, [-256, -30, -12, 9, -256, -44, -25, -5, -78, -57, -39, -20, -90, -71, -52, -34]),
        (211, [-256, 14, 55, 101, -256, -8, 30, 77, -72, -33, 9, 52, -98, -55, -14, 29]),
    ]);
    let m1027 = message(1027, ["", ""], &[
        (147, 44), (170, 7), (182, 1), (183, angle(469_524_056)), (184, angle(74_395_833)),
        (185, angle(900_000_000)), (186, 0), (187, 700_000_000), (188, 600_000_000), (189, 200_000_000),
    ], &[]);
    let damages = vec![
        (1021, Damage::Burst(2, 5)), (1021, Damage::Cut(59)), (1024, Damage::Bit(7)), (1024, Damage::Lost(0)),
        (1027, Damage::Ones(11)), (1027, Damage::Fill), (1027, Damage::Doubled(32)),
    ];
    Service {
        folder: "d-oblique-mercator",
        about: "An abridged Molodenski step (1021, DF150 2) to a CH1903-like datum, a grid in metres with two nodes outside the country not available (1024) and a rectified Oblique Mercator projection (1027).",
        files: files(vec![(1021, m1021), (1024, m1024), (1027, m1027)], damages),
    }
}

/// A service whose grid lies across 180 degrees.
#[rustfmt::skip]
fn across_the_antimeridian() -> Service {
    let m1021 = message(1021, ["4936", "4284"], &[
        (147, 55), (148, 0b1010000000), (149, 9), (150, 0), (151, 1),
        (152, 128_250), (153, 323_910), (154, 1_800), (155, 3_600),
        (156, -25_110), (157, 141_260), (158, 78_600),
        (159, 2_150), (160, -17_300), (161, -40_950), (162, -25_000),
        (166, GRS80[0]), (167, GRS80[1]), (168, KRASSOWSKY[0]), (169, KRASSOWSKY[1]),
        (214, 4), (215, 4),
    ], &[]);
    let m1023 = message(1023, ["", ""], &[
        (147, 55), (190, 1), (191, 1),
        (192, 513_000), (193, 1_295_640), (194, 720), (195, 1_440),
        (196, -9), (197, 23), (198, 318),
        (216, 3), (217, 3), (51, DAY),
    ], &[
        (199, [-31, -22, -14, -3, -24, -17, -6, 4, -15, -8, 2, 13, -9, 1, 10, 19]),
        (200, [44, 37, 25, 16, 39, 30, 21, 9, 33, 22, 13, 3, 24, 15, 6, -5]),
        (201, [120, 88, 51, 23, 97, 60, 28, -9, 66, 35, -2, -40, 41, 7, -31, -64]),
    ]);
    let m1025 = message(1025, ["", ""], &[
        (147, 55), (170, 1), (171, 0), (172, angle(1_770_000_000)),
        (173, 700_000_000), (174, 30_500_000_000), (175, 0),
    ], &[]);
    let damages = vec![
        (1021, Damage::Cut(31)), (1021, Damage::Burst(18, 3)), (1023, Damage::Bit(55)), (1023, Damage::Lost(8)),
        (1023, Damage::Fill), (1025, Damage::Bit(31)), (1025, Damage::Ones(20)),
    ];
    Service {
        folder: "e-across-the-antimeridian",
        about: "A linear Helmert step (1021, DF150 0) to a Pulkovo-1942-like datum, a grid in arc seconds from 179.65 to -179.75 degrees of longitude (1023) and a Gauss-Krueger zone (1025, Transverse Mercator).",
        files: files(vec![(1021, m1021), (1023, m1023), (1025, m1025)], damages),
    }
}

/// The five services.
pub fn services() -> Vec<Service> {
    vec![helmert(), molodenski_badekas(), heights_only(), oblique_mercator(), across_the_antimeridian()]
}

/// Writes every service as a folder of files, and the recording with what the program frames prints of it.
pub fn write(dir: &Path) -> std::io::Result<()> {
    for service in services() {
        let folder = dir.join(service.folder);
        std::fs::create_dir_all(&folder)?;
        std::fs::write(folder.join("README.md"), format!("{}\n", service.about))?;
        for file in service.files {
            std::fs::write(folder.join(format!("{}.rtcm", file.name)), file.bytes)?;
        }
    }
    let stream = recording();
    std::fs::write(dir.join("recording.expected"), listing(&stream))?;
    std::fs::write(dir.join("recording.rtcm"), stream)
}
