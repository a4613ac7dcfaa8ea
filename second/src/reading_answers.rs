//! The expected answer line of each case about reading.

use crate::frames::{checksum, Case};
use crate::reader::read;
use crate::reading_case::ReadingCase;
use crate::table::Summary;
use crate::table_case::summary_numbers;
use crate::words::memory;

/// The answer line of a case, without its line feed; none for a broken case.
pub fn answer(case: &Case) -> Option<String> {
    if case.letter != b'r' {
        return None;
    }
    let (summary, captures, annotations) = result(&ReadingCase::read(&case.payload)?);
    let mut numbers = summary_numbers(&summary).to_vec();
    numbers.extend([checksum(captures), checksum(annotations)]);
    let words: Vec<String> = numbers.iter().map(u64::to_string).collect();
    Some(format!("r {}", words.join(" ")))
}

/// The summary, and the lent memory of both kinds afterwards.
pub fn result(case: &ReadingCase) -> (Summary, Vec<u64>, Vec<u64>) {
    let (mut captures, mut annotations) = (memory(case.captures), memory(case.annotations));
    let summary = read(&case.text, case.dataset, &mut captures, &mut annotations);
    (summary, captures, annotations)
}
