//! The expected answer line of each case about tables kept in files.

use crate::frames::{checksum, Case};
use crate::listing_case::ListingCase;
use crate::stored::{load, loads_back, store, stores_back};
use crate::storing_case::{LoadingCase, StoringCase};
use crate::table::{Summary, Table, Written};
use crate::table_case::summary_numbers;
use crate::words::{byte_memory, memory};

/// The answer line of a case, without its line feed; none for a broken case.
pub fn answer(case: &Case) -> Option<String> {
    match StoringCase::read(case)? {
        StoringCase::Store(case) => Some(stored_line(stored(&case))),
        StoringCase::Load(case) => Some(loaded_line(loaded(&case))),
    }
}

/// The line of a table that was stored.
pub fn stored_line((written, output): (Written, Vec<u8>)) -> String {
    let sum = checksum(output.iter().map(|&b| u64::from(b)));
    format!("b {} {} {sum}", written.refusal, written.count)
}

/// The line of a file that was loaded.
pub fn loaded_line((summary, captures, annotations): (Summary, Vec<u64>, Vec<u64>)) -> String {
    let mut numbers = summary_numbers(&summary).to_vec();
    numbers.extend([checksum(captures), checksum(annotations)]);
    let words: Vec<String> = numbers.iter().map(u64::to_string).collect();
    format!("f {}", words.join(" "))
}

/// The refusal, the bytes written, and the lent output afterwards. What was stored
/// is loaded back and compared with the table.
pub fn stored(case: &ListingCase) -> (Written, Vec<u8>) {
    let mut output = byte_memory(case.number);
    let written = store(&case.table(), &mut output);
    assert!(written.refusal != 0 || loads_back(&case.table(), &output[..written.count as usize]), "{case:?}");
    (written, output)
}

/// The summary, and the lent memory of both kinds afterwards. What was loaded is
/// stored back and compared with the file.
pub fn loaded(case: &LoadingCase) -> (Summary, Vec<u64>, Vec<u64>) {
    let (mut captures, mut annotations) = (memory(case.captures), memory(case.annotations));
    let summary = load(&case.file, &mut captures, &mut annotations);
    let table = Table { summary: &summary, captures: &captures, annotations: &annotations };
    assert!(summary.refusal != 0 || stores_back(&table, &case.file), "{case:?}");
    (summary, captures, annotations)
}
