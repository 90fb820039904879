//! Late starters: examples worked out by hand (document 02, request 7).

use crate::before;
use crate::lengths::STANDARD;
use crate::listing::list;
use crate::literal_bus;
use crate::simulator::{schedule, Transmission};
use crate::table::{self, Refusal, Row, OFFSET, PERIOD};
use crate::table_cases::WHOLE_CASE;

/// Document 01's lengths and the example of a label printer that first sends after four periods.
const LABELS: &[&[u8]] = &[
    include_bytes!("../../../examples/standard.lengths"),
    include_bytes!("../../../examples/labels.table"),
];

/// 64: 134 + 135. 256: 94 + 135 + 135. 272 is queued 300 ticks after 256, by when both others are
/// sent; from its own instant it waits for 64, 135 + 95.
const LISTING: &str = "        64  1     269       31
       256  1     364       36
       272  1     230       20
";

#[test]
fn label_printer() {
    assert_eq!(list(&LABELS.concat()), LISTING);
    let mut rows = table::parse(LABELS[1]).expect("an accepted table");
    rows.iter_mut().for_each(|row| row[OFFSET] %= row[PERIOD]);
    let early = [LABELS[0].to_vec(), table::file_of(&rows)].concat();
    assert_eq!(list(&early), LISTING);
}

fn sent(row: usize, instance: u64, start: u64, length: u64) -> Transmission {
    Transmission { row, instance, start, length }
}

/// The printer's group starts at 10: 272 is sent from 310 on, 256 not before 10010, when 64 is on
/// the bus.
#[test]
fn label_printer_on_the_bus() {
    let rows = table::parse(LABELS[1]).expect("an accepted table");
    let mut starts = [0; 16];
    starts[1] = 10;
    let length = |row: &Row| crate::lengths::length(&STANDARD, row);
    let list = schedule(&rows, &starts, 11_000, &mut { length });
    assert_eq!(list, literal_bus::schedule(&rows, &starts, 11_000, &mut { length }));
    let printer: Vec<Transmission> = list.into_iter().filter(|sent| sent.row > 0).collect();
    let early = (0..4).map(|n| sent(2, n, 310 + 2500 * n, 95));
    let late = [sent(1, 0, 10_135, 135), sent(2, 4, 10_310, 95)];
    assert_eq!(printer, early.chain(late).collect::<Vec<_>>());
}

/// Offset 1000 with period 1000 was turned back; now the last offset is 1000000, whatever the period.
#[test]
fn limits() {
    let refused = Err(Refusal { number: 4, place: 4 });
    for (offset, accepted) in [(999, true), (1000, true), (1_000_000, true), (1_000_001, false)] {
        let mut rows = WHOLE_CASE;
        rows[3][OFFSET] = offset;
        let now = table::check(&rows.concat());
        assert_eq!(now, if accepted { Ok(rows.to_vec()) } else { refused.clone() });
        assert_eq!(table::parse(&table::file_of(&rows)), now);
        let narrow = before::narrowed_words(&rows.concat());
        assert_eq!(before::check(&narrow).is_ok(), offset < 1000);
    }
}
