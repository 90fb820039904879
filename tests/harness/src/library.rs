//! The library's entries.

use crate::lent::{Element, Lent};

extern "C" {
    fn certifier_judge(
        lengths: *const u8,
        lengths_len: usize,
        table: *const u8,
        len: usize,
        row: u64,
    ) -> i64;
    fn certifier_precise_bound(
        lengths: *const u8,
        lengths_len: usize,
        table: *const u8,
        len: usize,
        row: u64,
    ) -> i64;
    fn certifier_explain(
        lengths: *const u8,
        lengths_len: usize,
        table: *const u8,
        len: usize,
        row: u64,
        shown: *mut u32,
        shown_len: usize,
    ) -> i64;
    fn certifier_worst(
        lengths: *const u8,
        lengths_len: usize,
        table: *const u8,
        len: usize,
        shown: *mut u32,
        shown_len: usize,
    ) -> i64;
    fn certifier_judge_faults(
        lengths: *const u8,
        lengths_len: usize,
        table: *const u8,
        len: usize,
        row: u64,
        gap: u64,
    ) -> i64;
    fn certifier_explain_faults(
        lengths: *const u8,
        lengths_len: usize,
        table: *const u8,
        len: usize,
        row: u64,
        gap: u64,
        shown: *mut u32,
        shown_len: usize,
    ) -> i64;
    fn certifier_list_faults(
        lengths: *const u8,
        lengths_len: usize,
        table: *const u8,
        len: usize,
        gap: u64,
        out: *mut u8,
        out_len: usize,
    ) -> i64;
    fn certifier_list(
        lengths: *const u8,
        lengths_len: usize,
        table: *const u8,
        len: usize,
        out: *mut u8,
        out_len: usize,
    ) -> i64;
    fn certifier_load_sheet(
        lengths: *const u8,
        lengths_len: usize,
        table: *const u8,
        len: usize,
        out: *mut u8,
        out_len: usize,
    ) -> i64;
    fn certifier_check_log(
        lengths: *const u8,
        lengths_len: usize,
        table: *const u8,
        len: usize,
        log: *const u8,
        log_len: usize,
        starts: *mut u64,
        starts_len: usize,
    ) -> i64;
    fn certifier_busiest(
        lengths: *const u8,
        lengths_len: usize,
        table: *const u8,
        len: usize,
        log: *const u8,
        log_len: usize,
        width: u64,
        out: *mut u8,
        out_len: usize,
    ) -> i64;
    fn certifier_simulate(
        lengths: *const u8,
        lengths_len: usize,
        table: *const u8,
        len: usize,
        seed: u32,
        lines: u64,
        out: *mut u8,
        out_len: usize,
    ) -> i64;
    fn certifier_frame_length(kind: u32, identifier: u32, payload: *const u8, len: usize) -> i64;
    fn test_read(file: *const u8, len: usize, rows: *mut u32, rows_len: usize) -> i64;
    fn test_check(rows: *const u32, rows_len: usize) -> i64;
    fn test_write(rows: *const u32, rows_len: usize, file: *mut u8, file_len: usize) -> i64;
    fn test_write_lengths(
        lengths: *const u32,
        lengths_len: usize,
        file: *mut u8,
        file_len: usize,
    ) -> i64;
    fn test_judge(
        lengths: *const u32,
        lengths_len: usize,
        rows: *const u32,
        rows_len: usize,
        row: u64,
    ) -> i64;
    fn test_precise_bound(
        lengths: *const u32,
        lengths_len: usize,
        rows: *const u32,
        rows_len: usize,
        row: u64,
    ) -> i64;
}

// SAFETY of every call below: the address and the length are those of live memory that nothing
// else refers to, with guards on both sides, or the length is 0.

pub fn judge(lengths: &mut Lent<u8>, file: &mut Lent<u8>, row: u64) -> i64 {
    let [(loaded, size), (table, len)] = [area_or_null(lengths), area_or_null(file)];
    unsafe { certifier_judge(loaded, size, table, len, row) }
}

pub fn precise_bound(lengths: &mut Lent<u8>, file: &mut Lent<u8>, row: u64) -> i64 {
    let [(loaded, size), (table, len)] = [area_or_null(lengths), area_or_null(file)];
    unsafe { certifier_precise_bound(loaded, size, table, len, row) }
}

pub fn explain(
    lengths: &mut Lent<u8>,
    file: &mut Lent<u8>,
    row: u64,
    shown: &mut Lent<u32>,
) -> i64 {
    let [(loaded, size), (table, len)] = [area_or_null(lengths), area_or_null(file)];
    let (area, room) = area_or_null(shown);
    unsafe { certifier_explain(loaded, size, table, len, row, area, room) }
}

pub fn worst(lengths: &mut Lent<u8>, file: &mut Lent<u8>, shown: &mut Lent<u32>) -> i64 {
    let [(loaded, size), (table, len)] = [area_or_null(lengths), area_or_null(file)];
    let (area, room) = area_or_null(shown);
    unsafe { certifier_worst(loaded, size, table, len, area, room) }
}

pub fn judge_faults(lengths: &mut Lent<u8>, file: &mut Lent<u8>, row: u64, gap: u64) -> i64 {
    let [(loaded, size), (table, len)] = [area_or_null(lengths), area_or_null(file)];
    unsafe { certifier_judge_faults(loaded, size, table, len, row, gap) }
}

pub fn explain_faults(
    lengths: &mut Lent<u8>,
    file: &mut Lent<u8>,
    row: u64,
    gap: u64,
    shown: &mut Lent<u32>,
) -> i64 {
    let [(loaded, size), (table, len)] = [area_or_null(lengths), area_or_null(file)];
    let (area, room) = area_or_null(shown);
    unsafe { certifier_explain_faults(loaded, size, table, len, row, gap, area, room) }
}

pub fn list_faults(
    lengths: &mut Lent<u8>,
    file: &mut Lent<u8>,
    gap: u64,
    out: &mut Lent<u8>,
) -> i64 {
    let [(loaded, size), (table, len)] = [area_or_null(lengths), area_or_null(file)];
    let (area, room) = area_or_null(out);
    unsafe { certifier_list_faults(loaded, size, table, len, gap, area, room) }
}

pub fn list(lengths: &mut Lent<u8>, file: &mut Lent<u8>, out: &mut Lent<u8>) -> i64 {
    let [(loaded, size), (table, len)] = [area_or_null(lengths), area_or_null(file)];
    let (area, room) = area_or_null(out);
    unsafe { certifier_list(loaded, size, table, len, area, room) }
}

pub fn load_sheet(lengths: &mut Lent<u8>, file: &mut Lent<u8>, out: &mut Lent<u8>) -> i64 {
    let [(loaded, size), (table, len)] = [area_or_null(lengths), area_or_null(file)];
    let (area, room) = area_or_null(out);
    unsafe { certifier_load_sheet(loaded, size, table, len, area, room) }
}

/// The files that a call about a log is given.
pub struct Files {
    pub lengths: Lent<u8>,
    pub table: Lent<u8>,
    pub log: Lent<u8>,
}

pub fn check_log(files: &mut Files, starts: &mut Lent<u64>) -> i64 {
    let (loaded, size) = area_or_null(&mut files.lengths);
    let [(table, len), (log, log_len)] = [&mut files.table, &mut files.log].map(area_or_null);
    let (area, room) = area_or_null(starts);
    unsafe { certifier_check_log(loaded, size, table, len, log, log_len, area, room) }
}

pub fn busiest(files: &mut Files, width: u64, out: &mut Lent<u8>) -> i64 {
    let (loaded, size) = area_or_null(&mut files.lengths);
    let [(table, len), (log, log_len)] = [&mut files.table, &mut files.log].map(area_or_null);
    let (area, room) = area_or_null(out);
    unsafe { certifier_busiest(loaded, size, table, len, log, log_len, width, area, room) }
}

pub fn simulate(files: &mut Files, seed: u32, lines: u64, out: &mut Lent<u8>) -> i64 {
    let [(loaded, size), (table, len)] = [&mut files.lengths, &mut files.table].map(area_or_null);
    let (area, room) = area_or_null(out);
    unsafe { certifier_simulate(loaded, size, table, len, seed, lines, area, room) }
}

pub fn frame_length(kind: u32, identifier: u32, payload: &mut Lent<u8>) -> i64 {
    let (bytes, len) = area_or_null(payload);
    unsafe { certifier_frame_length(kind, identifier, bytes, len) }
}

pub fn read(file: &mut Lent<u8>, rows: &mut Lent<u32>) -> i64 {
    unsafe { test_read(file.address(), file.len(), rows.address(), rows.len()) }
}

pub fn check(rows: &mut Lent<u32>) -> i64 {
    unsafe { test_check(rows.address(), rows.len()) }
}

pub fn write(rows: &mut Lent<u32>, file: &mut Lent<u8>) -> i64 {
    unsafe { test_write(rows.address(), rows.len(), file.address(), file.len()) }
}

pub fn write_lengths(lengths: &mut Lent<u32>, file: &mut Lent<u8>) -> i64 {
    unsafe { test_write_lengths(lengths.address(), lengths.len(), file.address(), file.len()) }
}

pub fn judge_rows(lengths: &mut Lent<u32>, rows: &mut Lent<u32>, row: u64) -> i64 {
    unsafe { test_judge(lengths.address(), lengths.len(), rows.address(), rows.len(), row) }
}

pub fn precise_bound_rows(lengths: &mut Lent<u32>, rows: &mut Lent<u32>, row: u64) -> i64 {
    unsafe { test_precise_bound(lengths.address(), lengths.len(), rows.address(), rows.len(), row) }
}

/// Address and length; the entries for C take null for no elements.
fn area_or_null<T: Element>(lent: &mut Lent<T>) -> (*mut T, usize) {
    if lent.len() == 0 {
        (std::ptr::null_mut(), 0)
    } else {
        (lent.address(), lent.len())
    }
}
