//! Frames of well-known protocols, each with its bits on the wire as they were written out apart from the analyser and
//! the certifier. Fields are apart: start bit, identifier, RTR, IDE, r0 (or base identifier, SRR, IDE, extension, RTR,
//! r1, r0), length code, bytes, CRC. A stuff bit is a letter, o for 0 and i for 1. The length is the number of these
//! bits and 13.
//!
//! The CRC is the sum without carry of the remainders of x^n, where n is 15 for the last bit before the CRC, 16 for
//! the one before it, and so on. Each remainder is twice the one before, less c599 (all without carry) where that
//! reaches 8000. From n = 15 on:
//! 4599 4eab 58cf 7407 2d97 5b2e 73c5 2213 4426 4dd5 5e33 79ff 3667 6cce 1c05 380a 7014 25b1 4b62 535d 6323 03df 07be
//! 0f7c 1ef8 3df0 7be0 ...

use crate::frame_length::Frame;

pub struct Known {
    pub kind: u64,
    pub identifier: u64,
    pub payload: &'static [u8],
    pub wire: &'static str,
    pub length: u64,
}

impl Known {
    pub fn frame(&self) -> Frame {
        let payload = self.payload.to_vec();
        Frame { kind: self.kind, identifier: self.identifier, payload }
    }
}

pub const KNOWN: &[Known] = &[
    // No bit is 1, so the CRC is 0: 34 zeros, and a stuff bit behind each of six fives. 34 + 6 + 13.
    Known {
        kind: 11,
        identifier: 0,
        payload: &[],
        wire: "0 0000i00000i00 0 0 0i 0000 0i00000i00000i0000",
        length: 53,
    },
    // CiA 301, network management: start all nodes. n = 32 and 23: 25b1 + 4426 = 6197.
    Known {
        kind: 11,
        identifier: 0,
        payload: &[0x01, 0x00],
        wire: "0 0000i00000i00 0 0 0i 0010 0000i0001 00000i000 110000110010111",
        length: 68,
    },
    // CiA 301: synchronisation. n = 29: 1c05.
    Known {
        kind: 11,
        identifier: 0x080,
        payload: &[],
        wire: "0 000100000i00 0 0 0i 0000 0i011100000i00101",
        length: 51,
    },
    // CiA 301: heartbeat of node 1, operational. n = 40, 39, 38, 30, 23, 17, 15: 4d0e.
    Known {
        kind: 11,
        identifier: 0x701,
        payload: &[0x05],
        wire: "0 11100000i001 0 0 0 00i01 00000i101 100110100001110",
        length: 58,
    },
    // CiA 301: boot-up of node 127. n = 40, 39, 38, 36 to 30, 23: 7d3e.
    Known {
        kind: 11,
        identifier: 0x77f,
        payload: &[0x00],
        wire: "0 111011111o11 0 0 0 00i01 00000i000 11111o010011111o0",
        length: 60,
    },
    // CiA 301: emergency of node 1, no error any more. n = 93, 86, 82: 72b5 + 0b1b + 145b = 6df5.
    Known {
        kind: 11,
        identifier: 0x081,
        payload: &[0; 8],
        wire: "0 000100000i01 0 0 0 1000 00i00000i0 0000i0000 0i00000i00 000i00000i 00000i000 00i00000i0 0000i0000 0i00000i00 \
               11011011111o0101",
        length: 126,
    },
    // CiA 301: node 1 is asked for its object 1000h. n = 96, 95, 86, 82, 77, 59:
    // 4655 + 41e6 + 0b1b + 145b + 681b + 69f2 = 191a.
    Known {
        kind: 11,
        identifier: 0x601,
        payload: &[0x40, 0x00, 0x10, 0x00, 0x00, 0x00, 0x00, 0x00],
        wire: "0 1100000i0001 0 0 0 1000 0100000i0 0000i0000 0i0010000 0i00000i00 000i00000i 00000i000 00i00000i0 0000i0000 \
               0i01100100011010",
        length: 124,
    },
    // SAE J1979 over ISO 15765-4: all are asked for the vehicle's speed. By long division: 4865.
    Known {
        kind: 11,
        identifier: 0x7df,
        payload: &[0x02, 0x01, 0x0d, 0x00, 0x00, 0x00, 0x00, 0x00],
        wire: "0 11111o011111o 0 0 0 1000 00i000010 0000i0001 00001101 00000i000 00i00000i0 0000i0000 0i00000i00 000i00000i \
               100100001100101",
        length: 123,
    },
    // The answer of the first one: 50 km/h. By long division: 32a2.
    Known {
        kind: 11,
        identifier: 0x7e8,
        payload: &[0x03, 0x41, 0x0d, 0x32, 0xaa, 0xaa, 0xaa, 0xaa],
        wire: "0 11111o101000 0 0i 0 1000 00i000011 0100000i1 00001101 00110010 10101010 10101010 10101010 10101010 \
               011001010100010",
        length: 115,
    },
    // ISO 14229-1 over ISO 15765-2: a tester is present, no answer wanted. By long division: 6f55.
    Known {
        kind: 29,
        identifier: 0x18da_10f1,
        payload: &[0x02, 0x3e, 0x80],
        wire: "0 11000110110 1 1 100001000011110001 0 0 0 00i11 00000i010 0011111o0 100000i00 110111101010101",
        length: 95,
    },
    // SAE J1939-71, electronic engine controller 1: 621 r/min. By long division: 1c40.
    Known {
        kind: 29,
        identifier: 0x0cf0_0400,
        payload: &[0xff, 0xff, 0xff, 0x68, 0x13, 0xff, 0xff, 0xff],
        wire: "0 01100111100 1 1 00000i00100000i00000i 0 0 0 1000 11111o111 11o11111o1 1111o1111 01101000 00i010011 \
               111o11111o 11111o111 11o11111o1 00111000100000i0",
        length: 145,
    },
    // SAE J1939-81: one without an address asks all for theirs. By long division: 29d5.
    Known {
        kind: 29,
        identifier: 0x18ea_fffe,
        payload: &[0x00, 0xee, 0x00],
        wire: "0 11000111010 1 1 1011111o11111o11111o0 0 0 0i 0011 00000i000 11101110 0000i0000 0i10100111010101",
        length: 98,
    },
    // SAE J1939-73, active trouble codes: none, all lamps off. By long division: 684a.
    Known {
        kind: 29,
        identifier: 0x18fe_ca00,
        payload: &[0x00, 0xff, 0x00, 0x00, 0x00, 0x00, 0xff, 0xff],
        wire: "0 1100011111o1 1 1 10110010100000i0000 0i 0 0 1000 00i00000i0 11111o111 00000i000 00i00000i0 0000i0000 \
               0i00000i00 11111o111 11o11111o1 110100001001010",
        length: 146,
    },
];

#[cfg(test)]
mod tests {
    use super::*;
    use crate::frame_length::{remainder, Sent};

    fn letter(sent: Sent) -> char {
        match (sent.stuffed, sent.bit) {
            (false, false) => '0',
            (false, true) => '1',
            (true, false) => 'o',
            (true, true) => 'i',
        }
    }

    #[test]
    fn known_frames() {
        for known in KNOWN {
            let wire: String = known.frame().wire().into_iter().map(letter).collect();
            assert_eq!(wire, known.wire.replace(' ', ""));
            assert_eq!(known.frame().length(), Ok(known.length));
        }
    }

    /// The check value of this CRC in catalogues (CRC-15/CAN): of the characters 123456789.
    #[test]
    fn check_value() {
        let bit = |byte: u8| (0..8).rev().map(move |place| byte >> place & 1 == 1);
        let message: Vec<bool> = (b'1'..=b'9').flat_map(bit).collect();
        let value = remainder(&message).iter().fold(0, |value, bit| value * 2 + u32::from(*bit));
        assert_eq!(value, 0x059e);
    }
}
