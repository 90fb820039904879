//! The exact length of a data frame on the wire, by ISO 11898-1: its bits in a list, one after the other.

use crate::listing::refusal_columns;
use crate::table::{refuse, Refusal};

/// x^15 + x^14 + x^10 + x^8 + x^7 + x^4 + x^3 + 1: 4599 hexadecimal behind its highest power.
const GENERATOR: u64 = 0xc599;
const CRC_BITS: usize = 15;

/// CRC delimiter, ACK slot, ACK delimiter, end of frame, space between frames.
const UNSTUFFED: usize = 1 + 1 + 1 + 7 + 3;

pub struct Frame {
    pub kind: u64,
    pub identifier: u64,
    pub payload: Vec<u8>,
}

/// A bit on the wire, and whether it is a stuff bit.
#[derive(Clone, Copy)]
pub struct Sent {
    pub bit: bool,
    pub stuffed: bool,
}

impl Frame {
    /// The length in bit times, or 16.
    pub fn length(&self) -> Result<u64, Refusal> {
        let identifiers = match self.kind {
            11 => 1 << 11,
            29 => 1 << 29,
            _ => 0,
        };
        if self.identifier >= identifiers || self.payload.len() > 8 {
            return refuse(16, 0);
        }
        Ok((self.wire().len() + UNSTUFFED) as u64)
    }

    /// From the start bit through the CRC, with stuff bits.
    pub fn wire(&self) -> Vec<Sent> {
        let message = self.message();
        stuffed(&[&message[..], &remainder(&message)].concat())
    }

    /// From the start bit to the last bit of the payload.
    fn message(&self) -> Vec<bool> {
        let start_of_frame = vec![false];
        let arbitration_and_reserved = if self.kind == 11 {
            let (rtr, ide, r0) = (false, false, false);
            [bits(self.identifier, 11), vec![rtr, ide, r0]].concat()
        } else {
            let (srr, ide) = (true, true);
            let (rtr, r1, r0) = (false, false, false);
            let whole = bits(self.identifier, 29);
            [&whole[..11], &[srr, ide], &whole[11..], &[rtr, r1, r0]].concat()
        };
        let length_code = bits(self.payload.len() as u64, 4);
        let data = self.payload.iter().flat_map(|byte| bits(u64::from(*byte), 8)).collect();
        [start_of_frame, arbitration_and_reserved, length_code, data].concat()
    }
}

/// The lowest bits of a number, the highest of them first.
fn bits(number: u64, count: u32) -> Vec<bool> {
    (0..count).rev().map(|place| number >> place & 1 == 1).collect()
}

/// What a long division of the message, with 15 zeros behind it, by the generator leaves.
pub fn remainder(message: &[bool]) -> Vec<bool> {
    let generator = bits(GENERATOR, CRC_BITS as u32 + 1);
    let mut rest = [message, &[false; CRC_BITS]].concat();
    for at in 0..message.len() {
        if rest[at] {
            for (bit, digit) in rest[at..].iter_mut().zip(&generator) {
                *bit ^= digit;
            }
        }
    }
    rest.split_off(message.len())
}

/// An opposite bit behind every five equal ones, those behind others among them.
fn stuffed(message: &[bool]) -> Vec<Sent> {
    let mut wire: Vec<Sent> = Vec::new();
    for &bit in message {
        wire.push(Sent { bit, stuffed: false });
        let last = wire.iter().rev().take_while(|sent| sent.bit == bit).count();
        if last == 5 {
            wire.push(Sent { bit: !bit, stuffed: true });
        }
    }
    wire
}

/// The line that the command frame-length prints; none where an argument breaks its notation.
pub fn line(kind: &str, identifier: &str, hex: &str) -> Option<String> {
    let frame =
        Frame { kind: decimal(kind)?, identifier: decimal(identifier)?, payload: payload(hex)? };
    Some(match frame.length() {
        Ok(length) => format!("{length:>4}\n"),
        Err(refusal) => format!("{}\n", refusal_columns(refusal)),
    })
}

/// A number as a column of a table holds it.
fn decimal(text: &str) -> Option<u64> {
    let digits = text.trim_start_matches(' ');
    let plain = digits.bytes().all(|digit| digit.is_ascii_digit());
    let leading_zero = digits.len() > 1 && digits.starts_with('0');
    if plain && !leading_zero && digits.len() <= 18 {
        digits.parse().ok()
    } else {
        None
    }
}

/// Two digits for each byte, or a dash for none.
fn payload(text: &str) -> Option<Vec<u8>> {
    if text == "-" {
        return Some(Vec::new());
    }
    let digits: Option<Vec<u32>> = text.chars().map(|digit| digit.to_digit(16)).collect();
    let digits = digits.filter(|digits| !digits.is_empty() && digits.len() % 2 == 0)?;
    Some(digits.chunks(2).map(|pair| (pair[0] * 16 + pair[1]) as u8).collect())
}
