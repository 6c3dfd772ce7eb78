//! The second program's own checks of the datum step (document 02, A12) and of whole numbers of any size.

use crate::datum::{decimal, nearest, step, targets, within_one_unit, Parameters, Targets, FARTHEST, PLACES};
use crate::datumsamples::{any_parameters, any_position, PARAMETER_FIELDS};
use crate::fields::by_df;
use crate::random::Random;
use crate::refusal::{number_of, Refusal};
use crate::samples::Sample;
use crate::selfcheck::Group;
use crate::whole::Whole;

/// All groups of checks of the datum step.
pub fn groups() -> Vec<Group> {
    vec![whole_numbers(), matrix(), worked_steps(), bound(), in_doubles(), order()]
}

/// Numbers of any size against those of 128 bits, and against powers that are known by heart.
fn whole_numbers() -> Group {
    let mut group = Group::new("whole numbers of any size");
    let mut random = Random::new(120);
    let mut number = || (random.bits() as i64 as i128) >> random.below(64);
    for _ in 0..20_000 {
        let (a, b) = (number(), number());
        let (whole_a, whole_b) = (Whole::from(a), Whole::from(b));
        group.equal("printed", whole_a.to_string(), a.to_string());
        group.equal("sum", &whole_a + &whole_b, Whole::from(a + b));
        group.equal("difference", &whole_a - &whole_b, Whole::from(a - b));
        group.equal("product", (&whole_a * &whole_b).to_string(), (a * b).to_string());
        group.equal("order", whole_a.cmp(&whole_b), a.cmp(&b));
        group.equal("magnitude", whole_a.magnitude().to_string(), a.abs().to_string());
    }
    let two_to_128 = &Whole::from(1 << 64) * &Whole::from(1 << 64);
    group.equal("2^128", two_to_128.to_string(), "340282366920938463463374607431768211456".to_string());
    group.equal("-2^127", Whole::from(i128::MIN).to_string(), i128::MIN.to_string());
    for power in 0..60 {
        let ten = Whole::ten_to(power);
        group.equal("power of ten", ten.to_string(), format!("1{}", "0".repeat(power)));
        group.equal("times ten", &ten * &Whole::from(10), Whole::ten_to(power + 1));
        group.equal("order", (-&ten < Whole::from(0), ten > Whole::from(0)), (true, true));
        group.equal("no difference", (&ten - &Whole::ten_to(power)).sign(), 0);
    }
    group
}

/// The matrix that 000 prints in formula 3.5-1, by the number of the rotation in each place: 1 for RX, 2 for RY, 3 for RZ.
const PRINTED: [[i64; 3]; 3] = [[0, 3, -2], [-3, 0, 1], [2, -1, 0]];

/// Each rotation alone on each axis alone against the place and sign in the printed matrix.
fn matrix() -> Group {
    let mut group = Group::new("the matrix of formula 3.5-1");
    for rotation in 0..3 {
        for axis in 0..3 {
            let (mut raw, mut position) = ([0; 3], [0; 3]);
            (raw[rotation], position[axis]) = (1_000_000_000, 1_000_000);
            let got = step(&Parameters { translation: [0; 3], rotation: raw, scale: 0 }, position);
            // 10^9 raw steps are 0.096962736221907 radian.
            let expected = [0, 1, 2].map(|row| match PRINTED[row][axis] {
                entry if entry == rotation as i64 + 1 => "96962.736221907",
                entry if entry == -(rotation as i64) - 1 => "-96962.736221907",
                _ if row == axis => "1000000",
                _ => "0",
            });
            group.equal(&format!("rotation {rotation}, axis {axis}"), shown(&got), expected.map(str::to_string));
        }
    }
    // A positive rotation about the Z-axis only results in a smaller longitude (note on DF159).
    let [x, y, _] = step(&Parameters::of([0, 0, 0, 0, 0, 1, 0]), [FARTHEST, FARTHEST, 0]);
    group.check(x > y, || "a positive rotation about the Z-axis enlarges the longitude".to_string());
    group
}

/// The targets as decimal numbers.
fn shown(targets: &Targets) -> [String; 3] {
    targets.each_ref().map(decimal)
}

/// Parameters in wire order, a position, and its targets as another program gave them (Python's fractions).
const WORKED: [([i64; 7], [i64; 3], [&str; 3]); 6] = [
    ([0, 0, 0, 0, 0, 1, 0], [0, FARTHEST, 0], ["9.6962736221907", "100000000000", "0"]),
    ([0, 0, 0, 0, 0, 1, 1], [0, FARTHEST, 0], ["9.696273622287662736221907", "100000000001", "0"]),
    ([0, 0, 0, 0, 0, 0, 1], [FARTHEST, -FARTHEST, 1], ["100000000001", "-100000000001", "1.00000000001"]),
    (
        [-4_194_303, 4_194_303, -1, i32::MAX as i64, -(i32::MAX as i64), i32::MAX as i64, 16_777_215],
        [FARTHEST, FARTHEST, -FARTHEST],
        ["99974834185", "58406555262.95225131441756423615753", "-141668942207.04774868558243576384247"],
    ),
    (
        [4_194_303, -4_194_303, 1, -(i32::MAX as i64), i32::MAX as i64, -(i32::MAX as i64), -16_777_215],
        [-FARTHEST, FARTHEST, -FARTHEST],
        ["-99941279755", "99941279755", "-99983222775"],
    ),
    (
        [612_400, 77_000, 440_200, -54, 35, -12, 285],
        [41_498_712_345, 7_985_412_345, 47_893_256_789],
        [
            "41504836291.44473765417224754120511433223336275",
            "7986182165.2758628487064306883807733369212133",
            "47897659108.14130808708114223902090773763673975",
        ],
    ),
];

/// Steps worked out by another program, from parameters and from messages.
fn worked_steps() -> Group {
    let mut group = Group::new("worked datum steps");
    for (raw, position, expected) in WORKED {
        let parameters = Parameters::of(raw);
        let bytes = parameters.in_sample(&Sample::usual(1021)).bytes();
        group.equal("step", shown(&step(&parameters, position)), expected.map(str::to_string));
        group.equal("message", targets(&bytes, position), Ok(step(&parameters, position)));
    }
    group
}

/// Which whole numbers are within one unit of a target, and which is the nearest.
fn bound() -> Group {
    let mut group = Group::new("coordinates within one unit");
    let whole = &Whole::from(-7) * &Whole::ten_to(PLACES);
    for coordinate in -10..-3 {
        group.equal("whole target", within_one_unit(coordinate, &whole), (-8..=-6).contains(&coordinate));
        let beside = &whole + &Whole::from(1);
        group.equal("one part beside", within_one_unit(coordinate, &beside), (-7..=-6).contains(&coordinate));
    }
    let half = &Whole::from(5) * &Whole::ten_to(PLACES - 1);
    let below = &half - &Whole::from(1);
    group.equal("halves", [&half, &-&half, &below, &-&below].map(nearest), [1, -1, 0, 0]);
    group.equal("halves shown", [&half, &-&half].map(decimal), ["0.5", "-0.5"].map(str::to_string));
    let mut random = Random::new(122);
    for _ in 0..5_000 {
        for target in step(&any_parameters(&mut random), any_position(&mut random)) {
            let answer = nearest(&target);
            let within: Vec<i64> = (-3..=3).filter(|&off| within_one_unit(answer + off, &target)).collect();
            let whole = &Whole::from(answer as i128) * &Whole::ten_to(PLACES);
            let expected = match whole.cmp(&target) {
                std::cmp::Ordering::Less => vec![0, 1],
                std::cmp::Ordering::Equal => vec![-1, 0, 1],
                std::cmp::Ordering::Greater => vec![-1, 0],
            };
            group.equal("within", within, expected);
        }
    }
    group
}

/// Exact targets against the same formula in doubles, with pi and not with the step of A12.
fn in_doubles() -> Group {
    let mut group = Group::new("exact targets against doubles");
    let mut random = Random::new(123);
    for _ in 0..20_000 {
        let (parameters, position) = (any_parameters(&mut random), any_position(&mut random));
        let radian = |raw: i64| raw as f64 * 0.00002 / 3600.0 * std::f64::consts::PI / 180.0;
        let ([rx, ry, rz], [x, y, z]) = (parameters.rotation.map(radian), position.map(|c| c as f64));
        let rotated = [x + rz * y - ry * z, -rz * x + y + rx * z, ry * x - rx * y + z];
        for (row, target) in step(&parameters, position).iter().enumerate() {
            let scale = 1.0 + parameters.scale as f64 * 0.00001 * 1e-6;
            let double = scale * rotated[row] + parameters.translation[row] as f64 * 10.0;
            let exact: f64 = decimal(target).parse().expect("a decimal number");
            group.check((double - exact).abs() < 0.002, || format!("{parameters:?} {position:?}: {double} {exact}"));
        }
    }
    group
}

/// The order of the refusals, each with all later reasons given too.
fn order() -> Group {
    let mut group = Group::new("refusals of the datum step");
    let far = [0, FARTHEST + 1, 0];
    let usual = Sample::usual(1021);
    let absent = usual.with(150, 1).with(162, None);
    let mut fill = absent.with(152, 162_001).bytes();
    group.equal("range", number_of(&targets(&fill, far)), 5);
    *fill.last_mut().expect("a byte") |= 1;
    group.equal("fill", number_of(&targets(&fill, far)), 4);
    fill.push(0);
    group.equal("length", number_of(&targets(&fill, far)), 3);
    fill[0] ^= 0x80;
    group.equal("number", number_of(&targets(&fill, far)), 2);
    group.equal("short", number_of(&targets(&fill[..1], far)), 1);
    for number in [1022, 1023, 1024, 1025, 1026, 1027] {
        group.equal("kind", targets(&Sample::usual(number).bytes(), far), Err(Refusal::Kind));
    }
    for axis in 0..3 {
        for (coordinate, refusal) in [(FARTHEST, 11), (FARTHEST + 1, 9), (-FARTHEST, 11), (-FARTHEST - 1, 9)] {
            let mut position = [0; 3];
            position[axis] = coordinate;
            group.equal("position", number_of(&targets(&absent.bytes(), position)), refusal);
        }
    }
    for extreme in [i64::MIN, i64::MAX] {
        group.equal("extreme", number_of(&targets(&absent.bytes(), [extreme; 3])), 9);
    }
    for indicator in 1..16 {
        group.equal("method", number_of(&targets(&absent.with(150, indicator).bytes(), [0; 3])), 11);
    }
    for df in PARAMETER_FIELDS {
        let without = usual.with(150, 0).with(df, None);
        group.equal(&format!("no DF{df}"), number_of(&targets(&without.bytes(), [0; 3])), 15);
    }
    for df in usual.dfs.iter().copied().filter(|df| !PARAMETER_FIELDS.contains(df) && by_df(*df).signed()) {
        let without = usual.with(150, 0).with(df, None);
        group.equal(&format!("no DF{df}"), number_of(&targets(&without.bytes(), [0; 3])), 0);
    }
    group
}
