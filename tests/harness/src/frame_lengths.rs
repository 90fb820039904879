//! The exact lengths of frames, held against the analyser and the table of largest lengths.

use crate::lent::Lent;
use crate::library;
use analyser::frame_length::Frame;
use analyser::frame_length_cases::{any, is_stuffed_last, top, RUNS};
use analyser::listing::bound_number;
use analyser::random::Random;

/// A run of so many frames must meet each shape, and both sides of the limits.
const ENOUGH: u64 = 10_000;

/// So many differences are printed.
const MOST_PRINTED: u64 = 10;

type Draw = fn(&mut Random) -> Frame;

const SHAPES: [(&str, Draw); 7] = [
    ("any content", any_content),
    ("all zeros", |random| all(random, false)),
    ("all ones", |random| all(random, true)),
    ("fives in turn", fives),
    ("other runs", other_runs),
    ("a CRC with five at its end", five_at_the_end),
    ("beside the limits", beside_limits),
];

/// What was met of a shape: frames with a length, those of them with a stuff bit behind the CRC, and refused ones.
#[derive(Default)]
struct Met {
    measured: u64,
    stuffed_last: u64,
    refused: u64,
}

/// Compares so many frames; true if nothing differs and enough was met.
pub fn run(seed: u64, count: u64) -> bool {
    println!("seed {seed}");
    let mut random = Random::new(seed);
    let mut met: [Met; SHAPES.len()] = Default::default();
    let mut differences = 0;
    for _ in 0..count {
        let shape = random.below(SHAPES.len() as u64) as usize;
        let frame = SHAPES[shape].1(&mut random);
        match compare(&mut random, &frame) {
            Ok(()) => met[shape].add(&frame),
            Err(difference) => {
                if differences < MOST_PRINTED {
                    println!("{}: {difference}", name(&frame));
                }
                differences += 1;
            }
        }
    }
    println!("{:<28}{:>9}{:>14}{:>9}", "frames", "measured", "stuffed last", "refused");
    for (met, (shape, _)) in met.iter().zip(SHAPES) {
        println!("{shape:<28}{:>9}{:>14}{:>9}", met.measured, met.stuffed_last, met.refused);
    }
    println!("{count} frames, {differences} differences");
    differences == 0 && (count < ENOUGH || is_complete(&met))
}

impl Met {
    fn add(&mut self, frame: &Frame) {
        if frame.length().is_err() {
            self.refused += 1;
        } else {
            self.measured += 1;
            self.stuffed_last += u64::from(is_stuffed_last(frame));
        }
    }
}

fn is_complete(met: &[Met]) -> bool {
    let (limits, contents) = met.split_last().expect("some shapes");
    let complete = contents.iter().all(|met| met.measured > 0)
        && contents.iter().any(|met| met.stuffed_last > 0)
        && limits.measured > 0
        && limits.refused > 0;
    if !complete {
        println!("not every shape was met");
    }
    complete
}

fn compare(random: &mut Random, frame: &Frame) -> Result<(), String> {
    let (kind, identifier) = (frame.kind as u32, frame.identifier as u32);
    let mut payload = Lent::new(random, &frame.payload);
    let answer = library::frame_length(kind, identifier, &mut payload);
    let wanted = bound_number(frame.length());
    if answer != wanted {
        return Err(format!("answer {answer}, expected {wanted}"));
    }
    if !payload.is_unchanged() {
        return Err("the payload or the memory around it is changed".into());
    }
    let largest = if kind == 11 { 55 } else { 80 } + 10 * frame.payload.len() as i64;
    if answer > largest {
        return Err(format!("answer {answer} is above the table's {largest}"));
    }
    Ok(())
}

fn name(frame: &Frame) -> String {
    let Frame { kind, identifier, payload } = frame;
    format!("kind {kind}, identifier {identifier}, payload {payload:02x?}")
}

fn kind(random: &mut Random) -> u64 {
    random.pick(&[11, 29])
}

fn any_content(random: &mut Random) -> Frame {
    let kind = kind(random);
    let size = random.below(9) as usize;
    any(random, kind, size)
}

/// Identifier and payload of zeros, or of ones.
fn all(random: &mut Random, ones: bool) -> Frame {
    let mut frame = any_content(random);
    frame.identifier = if ones { top(frame.kind) } else { 0 };
    frame.payload.fill(if ones { 0xff } else { 0 });
    frame
}

/// Identifier and payload of five equal bits, five others, and so on, each begun at some bit of ten.
fn fives(random: &mut Random) -> Frame {
    let mut frame = any_content(random);
    let bits = |begin: u64, count: u64| {
        (begin..begin + count).fold(0, |bits: u64, at| bits * 2 + at / 5 % 2)
    };
    frame.identifier = bits(random.below(10), frame.kind);
    let begin = random.below(10);
    for (place, byte) in (0..).zip(&mut frame.payload) {
        *byte = bits(begin + 8 * place, 8) as u8;
    }
    frame
}

/// Bytes that make runs, among any others; often an identifier of equal bits.
fn other_runs(random: &mut Random) -> Frame {
    let mut frame = any_content(random);
    frame.identifier = random.pick(&[0, top(frame.kind), frame.identifier]);
    for byte in &mut frame.payload {
        if random.percent(80) {
            *byte = random.pick(&RUNS);
        }
    }
    frame
}

fn five_at_the_end(random: &mut Random) -> Frame {
    let mut frame = any_content(random);
    while !is_stuffed_last(&frame) {
        frame = any_content(random);
    }
    frame
}

/// One or more of kind, identifier and payload length at or beyond a limit.
fn beside_limits(random: &mut Random) -> Frame {
    let mut frame = any_content(random);
    if random.percent(40) {
        let other = random.below(1 << 32);
        frame.kind = random.pick(&[0, 10, 11, 12, 28, 29, 30, other]);
    }
    if random.percent(40) {
        let tops = [top(11), top(11) + 1, top(29), top(29) + 1, u64::from(u32::MAX)];
        frame.identifier = random.pick(&tops);
    }
    if random.percent(40) {
        frame.payload = vec![random.word() as u8; random.pick(&[7, 8, 9, 10, 16, 264])];
    }
    frame
}
