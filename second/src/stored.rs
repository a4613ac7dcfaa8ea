//! Tables kept in files: the bytes of a table, and the table of a file.

use crate::steps::State;
use crate::table::{well_formed, Summary, Table, Written};
use crate::table_case::{summary_numbers, summary_of};
use crate::words::{byte_memory, bytes_of, memory, Words};

/// "mark `SGT`"
pub const MARK: [u8; 3] = *b"SGT";
/// "a 16-bit version 1"
pub const VERSION: u16 = 1;
/// The bytes of mark and version.
pub const OPENING: usize = 5;
/// The bytes before the rows.
pub const HEAD: usize = OPENING + 12 * 8;
/// The bytes of a row of either kind.
pub const ROW: usize = 4 * 8;

/// Mark and version.
pub fn opening(version: u16) -> Vec<u8> {
    [&MARK[..], &version.to_le_bytes()].concat()
}

/// The file of a summary and the numbers of both kinds of rows, whatever they say.
pub fn file_of(summary: &Summary, captures: &[u64], annotations: &[u64]) -> Vec<u8> {
    let numbers = [&summary_numbers(summary), captures, annotations].map(bytes_of);
    [opening(VERSION), numbers.concat()].concat()
}

/// "summary numbers in 01's order, captures counted first, each as eight bytes, then
/// capture rows, then annotation rows, all little-endian, nothing after"
pub fn stored(table: &Table) -> Vec<u8> {
    file_of(table.summary, &table.capture_rows().concat(), &table.annotation_rows().concat())
}

/// The file of a table at the front of the lent output: 18 if the table isn't well
/// formed, "20 for room". Reports how many bytes it wrote.
pub fn store(table: &Table, output: &mut [u8]) -> Written {
    if !well_formed(table) {
        return Written::refused(18);
    }
    let file = stored(table);
    if file.len() > output.len() {
        return Written::refused(20);
    }
    output[..file.len()].copy_from_slice(&file);
    Written { refusal: 0, count: file.len() as u64 }
}

/// 21: "wrong mark or version"; "a file too short for mark and version is 21".
fn wrong_opening(file: &[u8]) -> bool {
    file.get(..OPENING) != Some(&opening(VERSION)[..])
}

/// The numbers of bytes, eight each.
fn numbers_of(bytes: &[u8]) -> Vec<u64> {
    let mut words = Words(bytes);
    std::iter::from_fn(|| words.one()).collect()
}

/// The summary of a file that is long enough for one.
fn summary_in(file: &[u8]) -> Summary {
    summary_of(&numbers_of(&file[OPENING..HEAD]))
}

/// 22: "wrong length for its counts"; "too short for the summary 22".
fn wrong_length(file: &[u8]) -> bool {
    let rows = |s: Summary| u128::from(s.captures) + u128::from(s.annotations);
    file.len() < HEAD || file.len() as u128 != HEAD as u128 + ROW as u128 * rows(summary_in(file))
}

/// The table of a file of the right length, "with the file's own rows".
fn table_in(file: &[u8]) -> State {
    let summary = summary_in(file);
    let mut captures = numbers_of(&file[HEAD..]);
    let annotations = captures.split_off(4 * summary.captures as usize);
    State { summary, captures, annotations, dataset: Vec::new() }
}

/// The table of a file, its rows at the front of the lent numbers. "Lowest number
/// first, except that 21 and 22 are judged before 18."
pub fn load(file: &[u8], captures: &mut [u64], annotations: &mut [u64]) -> Summary {
    if wrong_opening(file) {
        return Summary::refused(21);
    }
    if wrong_length(file) {
        return Summary::refused(22);
    }
    let state = table_in(file);
    if !well_formed(&state.table()) {
        return Summary::refused(18);
    }
    if state.captures.len() > captures.len() || state.annotations.len() > annotations.len() {
        return Summary::refused(20);
    }
    captures[..state.captures.len()].copy_from_slice(&state.captures);
    annotations[..state.annotations.len()].copy_from_slice(&state.annotations);
    state.summary
}

/// "Reading what was written gives the table back"
pub fn loads_back(table: &Table, file: &[u8]) -> bool {
    let [mut captures, mut annotations] = [table.summary.captures, table.summary.annotations].map(|count| memory(4 * count + 3));
    let summary = load(file, &mut captures, &mut annotations);
    let back = Table { summary: &summary, captures: &captures, annotations: &annotations };
    summary == *table.summary && back.capture_rows() == table.capture_rows() && back.annotation_rows() == table.annotation_rows()
}

/// "a stored file that is read and written again is the same bytes"
pub fn stores_back(table: &Table, file: &[u8]) -> bool {
    let mut output = byte_memory(file.len() as u64);
    let written = store(table, &mut output);
    written == Written { refusal: 0, count: file.len() as u64 } && output == file
}
