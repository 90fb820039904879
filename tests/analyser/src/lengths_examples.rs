//! A customer's own lengths: examples worked out by hand.

use crate::judgement::{judge, judge_file, precise_bound, precise_bound_file};
use crate::lengths::{check, file_of, parse, write_into, LengthTable, FILE, LINE, STANDARD, WIDTH};
use crate::listing::{list, list_files};
use crate::table::{self, Refusal};
use crate::table_cases::{edited_rows, good_rows, pattern_rows, WHOLE_CASE};

/// Document 01's, and each ten ticks longer.
pub const STANDARD_FILE: &str = "   55   65   75   85   95  105  115  125  135
   80   90  100  110  120  130  140  150  160
";
const LONGER_FILE: &str = "   65   75   85   95  105  115  125  135  145
   90  100  110  120  130  140  150  160  170
";

/// Document 01's whole case by these. Frame 16: 144 + 145. Frame 32: 144 + 65 from its own
/// instant. Frame 48: 74 + 145 from its own. Frame 64: of node 1 either 145 by tick 145, or 65 and
/// then 145: rough 210 + 75, exact 145 + 75.
const LONGER_LISTING: &str = "        16  1     289       11
        32  3     209      -20
        48  3     219      -21
        64  3     220      -20
";

fn whole_case() -> String {
    String::from_utf8(table::file_of(&WHOLE_CASE)).expect("characters")
}

fn refused<T>(number: u32, place: u32) -> Result<T, Refusal> {
    Err(Refusal { number, place })
}

/// Nine equal lengths a line, one of them changed.
fn changed(line: usize, payload: usize, length: u32) -> LengthTable {
    let mut lengths = [[100; 9]; 2];
    lengths[line][payload] = length;
    lengths
}

/// g + 8s + 13 + floor((g + 8s - 1)/4), with g = 34 and g = 54.
#[test]
fn the_rule_of_document_01() {
    for (line, g) in STANDARD.iter().zip([34, 54]) {
        for (length, s) in line.iter().zip(0..) {
            assert_eq!(*length, g + 8 * s + 13 + (g + 8 * s - 1) / 4);
        }
    }
}

#[test]
fn reading_and_writing() {
    assert_eq!(parse(STANDARD_FILE.as_bytes()), Ok(STANDARD));
    let longer = STANDARD.map(|line| line.map(|length| length + 10));
    assert_eq!(parse(LONGER_FILE.as_bytes()), Ok(longer));
    assert_eq!(file_of(&longer), LONGER_FILE.as_bytes());
    let mut area = [7; FILE + 1];
    assert_eq!(write_into(&longer, &mut area), Ok(FILE));
    assert_eq!(area[..FILE], *LONGER_FILE.as_bytes());
    assert_eq!(area[FILE], 7);
    assert_eq!(write_into(&longer, &mut area[..FILE - 1]), refused(8, 0));
    assert_eq!(write_into(&changed(1, 3, 46), &mut []), refused(14, 2));
}

#[test]
fn listing_by_longer_lengths() {
    let input = [LONGER_FILE, &whole_case()].concat();
    assert_eq!(list(input.as_bytes()), LONGER_LISTING);
}

/// 13 has no place; 14 has the line's.
#[test]
fn limits() {
    for line in 0..2 {
        let place = line as u32 + 1;
        for payload in 0..9 {
            assert_eq!(check(&changed(line, payload, 46)), refused(14, place));
            assert_eq!(check(&changed(line, payload, 401)), refused(14, place));
            assert_eq!(check(&changed(line, payload, 100)), Ok(()));
        }
        assert_eq!(check(&changed(line, 0, 47)), Ok(()));
        assert_eq!(check(&changed(line, 8, 400)), Ok(()));
        assert_eq!(check(&changed(line, 1, 99)), refused(14, place));
        assert_eq!(check(&changed(line, 7, 101)), refused(14, place));
    }
    assert_eq!(check(&[[46; 9]; 2]), refused(14, 1));
    assert_eq!(check(&[[400; 9], [47; 9]]), Ok(()));
}

#[test]
fn notation() {
    for size in (0..200).filter(|size| *size != FILE) {
        let file = STANDARD_FILE.as_bytes().iter().copied().cycle().take(size);
        assert_eq!(parse(&file.collect::<Vec<u8>>()), refused(13, 0));
    }
    for column in ["     ", "   00", "   01", "   -1", "  1 1", " 100 ", "\t 100", "0x100"] {
        for at in (0..9).flat_map(|payload| [payload * WIDTH, LINE + payload * WIDTH]) {
            let mut file = STANDARD_FILE.as_bytes().to_vec();
            file[at..at + WIDTH].copy_from_slice(column.as_bytes());
            assert_eq!(parse(&file), refused(13, 0));
        }
    }
    for at in [LINE - 1, FILE - 1] {
        let mut file = STANDARD_FILE.as_bytes().to_vec();
        file[at] = b'\r';
        assert_eq!(parse(&file), refused(13, 0));
    }
}

/// A broken second line comes before a value on the first.
#[test]
fn notation_before_limits() {
    let mut file = file_of(&changed(0, 0, 46));
    assert_eq!(parse(&file), refused(14, 1));
    file[FILE - 1] = b' ';
    assert_eq!(parse(&file), refused(13, 0));
}

/// The lengths come before everything in the table.
#[test]
fn lengths_before_the_table() {
    let mut files = vec![Vec::new(), vec![b'x'; 46], vec![b'\n'; 46], vec![b'x'; 65 * 46]];
    let edits = ["1.node=17", "2.claim=0", "3.id=5"];
    files.extend(edits.map(|text| table::file_of(&edited_rows(3, text))));
    files.push(table::file_of(&pattern_rows(&[(1, &[1000, 1001])])));
    files.push(table::file_of(&pattern_rows(&[(1, &[999, 1000])])));
    files.push(table::file_of(&good_rows(3)));
    for file in files {
        for (lengths, number, place) in
            [(Vec::new(), 13, 0), (vec![b' '; FILE], 13, 0), (file_of(&changed(1, 4, 99)), 14, 2)]
        {
            assert_eq!(list_files(&lengths, &file), refused(number, place));
            assert_eq!(judge_file(&lengths, &file, 99), refused(number, place));
            assert_eq!(precise_bound_file(&lengths, &file, 99), refused(number, place));
        }
    }
    let bad = changed(0, 4, 99);
    for words in [&[][..], &[0; 8], &WHOLE_CASE.concat()] {
        assert_eq!(judge(&bad, words, 99), refused(14, 1));
        assert_eq!(precise_bound(&bad, words, 99), refused(14, 1));
    }
}

/// What is no whole file of lengths, and what has lengths alone.
#[test]
fn inputs_without_a_table() {
    for size in 0..FILE {
        assert_eq!(list(&STANDARD_FILE.as_bytes()[..size]), " 13     0\n");
    }
    assert_eq!(list(STANDARD_FILE.as_bytes()), "  1     0\n");
}
