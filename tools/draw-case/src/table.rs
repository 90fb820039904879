//! The frames of a table that the library accepts.

/// Bytes of the lengths, and of a line of the table.
pub const LENGTHS: usize = 92;
const LINE: usize = 46;

/// What the picture takes of a line: where its column begins and ends.
const GROUP: (usize, usize) = (3, 6);
const IDENTIFIER: (usize, usize) = (6, 16);
const KIND: (usize, usize) = (16, 19);
const PAYLOAD: (usize, usize) = (19, 21);
const PERIOD: (usize, usize) = (21, 29);
const OFFSET: (usize, usize) = (29, 37);
const CLAIM: (usize, usize) = (37, 45);

/// A frame with its largest length.
#[derive(Clone, Copy, Debug, PartialEq, Eq)]
pub struct Frame {
    pub group: u64,
    pub identifier: u64,
    pub kind: u64,
    pub period: u64,
    pub offset: u64,
    pub claim: u64,
    pub length: u64,
}

impl Frame {
    /// The smaller goes first: the identifier's first 11 bits, short before long, the whole identifier.
    pub fn rank(&self) -> (u64, u64, u64) {
        let first = if self.kind == 11 { self.identifier } else { self.identifier >> 18 };
        (first, self.kind, self.identifier)
    }
}

/// The frames in table order.
pub fn frames(lengths: &[u8], table: &[u8]) -> Option<Vec<Frame>> {
    let lengths = std::str::from_utf8(lengths).ok()?.split_whitespace();
    let lengths: Vec<u64> = lengths.map(|word| word.parse().ok()).collect::<Option<_>>()?;
    table.chunks(LINE).map(|line| frame(&lengths, line)).collect()
}

fn frame(lengths: &[u64], line: &[u8]) -> Option<Frame> {
    let column = |(start, end): (usize, usize)| {
        std::str::from_utf8(line.get(start..end)?).ok()?.trim_start().parse::<u64>().ok()
    };
    let kind = column(KIND)?;
    let of_kind = if kind == 11 { 0 } else { 9 };
    Some(Frame {
        group: column(GROUP)?,
        identifier: column(IDENTIFIER)?,
        kind,
        period: column(PERIOD)?,
        offset: column(OFFSET)?,
        claim: column(CLAIM)?,
        length: *lengths.get(of_kind + column(PAYLOAD)? as usize)?,
    })
}

#[cfg(test)]
mod tests {
    use super::*;

    const LENGTHS: &[u8] = b"   55   65   75   85   95  105  115  125  135
   80   90  100  110  120  130  140  150  160
";

    #[test]
    fn columns() {
        let line = b" 12  3 536870911 29 8 1000000  999999   54321\n";
        let frame = Frame {
            group: 3,
            identifier: 536_870_911,
            kind: 29,
            period: 1_000_000,
            offset: 999_999,
            claim: 54_321,
            length: 160,
        };
        assert_eq!(frames(LENGTHS, line), Some(vec![frame]));
    }

    /// A long frame goes behind the short one with which it ties, and ahead of the next short one.
    #[test]
    fn ranks() {
        let frame = |kind, identifier| Frame {
            group: 1,
            identifier,
            kind,
            period: 1000,
            offset: 0,
            claim: 1,
            length: 100,
        };
        let rising = [frame(11, 5), frame(29, 5 << 18), frame(29, (6 << 18) - 1), frame(11, 6)];
        assert!(rising.windows(2).all(|pair| pair[0].rank() < pair[1].rank()));
    }
}
