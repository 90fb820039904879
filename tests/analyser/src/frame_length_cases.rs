//! Cases for a program that answers the command frame-length.

use crate::cases::{self, Case};
use crate::frame_length::{line, Frame};
use crate::known_frames::KNOWN;
use crate::random::Random;

/// Bytes whose bits, and those of their repetition, make runs.
pub const RUNS: [u8; 16] = [
    0x00, 0xff, 0x0f, 0xf0, 0x1e, 0xe1, 0x3c, 0xc3, 0x07, 0xf8, 0x83, 0x7c, 0x87, 0x78, 0x55, 0xaa,
];

/// Five zeros, five ones, and so on.
pub const FIVES: [u8; 8] = [0x07, 0xc1, 0xf0, 0x7c, 0x1f, 0x07, 0xc1, 0xf0];

/// Frames drawn for the longest one of a kind and size.
const TRIED: usize = 2000;

/// The arguments, and what is printed for them.
pub struct Asked {
    kind: String,
    identifier: String,
    hex: String,
}

impl Asked {
    fn new(kind: &str, identifier: &str, hex: &str) -> Asked {
        Asked { kind: kind.into(), identifier: identifier.into(), hex: hex.into() }
    }

    fn of_frame(frame: &Frame) -> Asked {
        let digits: String = frame.payload.iter().map(|byte| format!("{byte:02x}")).collect();
        let hex = if digits.is_empty() { "-" } else { &digits };
        Asked::new(&frame.kind.to_string(), &frame.identifier.to_string(), hex)
    }

    /// Kind and identifier in columns of 20, the payload's digits behind them.
    fn case(&self) -> Case {
        let Asked { kind, identifier, hex } = self;
        let payload = format!("{kind:>20}{identifier:>20}{hex}").into_bytes();
        Case { letter: 'L', number: 0, payload }
    }

    fn line(&self) -> String {
        line(&self.kind, &self.identifier, &self.hex).unwrap_or("malformed\n".into())
    }
}

pub fn stdin(asked: &[Asked]) -> Vec<u8> {
    cases::stdin(&asked.iter().map(Asked::case).collect::<Vec<Case>>())
}

pub fn stdout(asked: &[Asked]) -> Vec<u8> {
    asked.iter().map(Asked::line).collect::<String>().into_bytes()
}

pub fn all() -> Vec<Asked> {
    let mut random = Random::new(11898);
    let mut frames: Vec<Frame> = KNOWN.iter().map(|known| known.frame()).collect();
    for kind in [11, 29] {
        for size in 0..=8 {
            long_runs(kind, size, &mut frames);
            frames.extend((0..8).map(|_| any(&mut random, kind, size)));
            ends_stuffed(&mut random, kind, size, &mut frames);
            frames.push(longest(&mut random, kind, size));
        }
    }
    beside_limits(&mut frames);
    let mut asked: Vec<Asked> = frames.iter().map(Asked::of_frame).collect();
    asked.extend(arguments());
    asked
}

/// The greatest identifier of a kind.
pub fn top(kind: u64) -> u64 {
    (1 << kind) - 1
}

/// A frame with any content.
pub fn any(random: &mut Random, kind: u64, size: usize) -> Frame {
    let identifier = random.below(top(kind) + 1);
    let payload = (0..size).map(|_| random.word() as u8).collect();
    Frame { kind, identifier, payload }
}

/// All zeros, all ones, and other patterns under identifiers of zeros and ones; fives in turn.
fn long_runs(kind: u64, size: usize, frames: &mut Vec<Frame>) {
    for byte in RUNS {
        for identifier in [0, top(kind)] {
            frames.push(Frame { kind, identifier, payload: vec![byte; size] });
        }
    }
    for identifier in [0x07c1_f07c & top(kind), 0x783e_0f83 & top(kind)] {
        frames.push(Frame { kind, identifier, payload: FIVES[..size].to_vec() });
    }
}

/// Frames with a stuff bit behind the CRC.
fn ends_stuffed(random: &mut Random, kind: u64, size: usize, frames: &mut Vec<Frame>) {
    let draws = std::iter::repeat_with(|| any(random, kind, size));
    frames.extend(draws.filter(is_stuffed_last).take(4));
}

pub fn is_stuffed_last(frame: &Frame) -> bool {
    frame.wire().last().is_some_and(|sent| sent.stuffed)
}

/// The longest of many frames.
fn longest(random: &mut Random, kind: u64, size: usize) -> Frame {
    let mut draw = || {
        let mut frame = any(random, kind, size);
        for byte in &mut frame.payload {
            if random.percent(80) {
                *byte = random.pick(&RUNS);
            }
        }
        frame
    };
    let frames = (0..TRIED).map(|_| draw());
    frames.max_by_key(|frame| frame.wire().len()).expect("some frames")
}

/// Kinds, identifiers and sizes at their limits and beyond them.
fn beside_limits(frames: &mut Vec<Frame>) {
    for kind in [0, 1, 10, 12, 28, 30, 2059, 4_294_967_307, 999_999_999_999_999_999] {
        for size in [0, 8] {
            frames.push(Frame { kind, identifier: 5, payload: vec![0; size] });
        }
    }
    for kind in [11, 29] {
        let top = top(kind);
        for identifier in [top, top + 1, 2 * top + 2, 4_294_967_301, 999_999_999_999_999_999] {
            for size in [0, 8, 9] {
                frames.push(Frame { kind, identifier, payload: vec![0; size] });
            }
        }
        for size in [9, 10, 16, 17, 256, 264, 1500] {
            frames.push(Frame { kind, identifier: 1, payload: vec![0; size] });
        }
    }
    frames.push(Frame { kind: 12, identifier: u64::pow(10, 17), payload: vec![0; 9] });
}

/// Arguments in their notation, and others.
fn arguments() -> Vec<Asked> {
    let hex = [
        "00fF",
        "ABCDEFabcdef",
        "0123456789",
        "",
        "0",
        "000",
        "0g",
        "g0",
        "0G",
        "/0",
        ":0",
        "@0",
        "`0",
        "--",
        "- ",
        " 00",
        "00 ",
        "0x00",
        "-00",
        "00-",
        "0 0 ",
        "000000000000000000",
        "00000000000000000",
        "0000000000000000g0",
    ];
    let mut asked: Vec<Asked> = hex.iter().map(|hex| Asked::new("11", "5", hex)).collect();
    asked.extend(["00000000000000000g", "0g"].map(|hex| Asked::new("12", "2048", hex)));
    let numbers = [
        "",
        "-",
        "+11",
        "-1",
        "011",
        "00",
        "0",
        "1 1",
        "11 ",
        "0x11",
        "11.",
        "1000000000000000000",
    ];
    asked.extend(numbers.map(|number| Asked::new(number, "5", "-")));
    asked.extend(numbers.map(|number| Asked::new("11", number, "-")));
    asked.extend(numbers.map(|number| Asked::new("29", number, "0g")));
    asked
}
