//! Examples of the papers and small cases.

mod field_cases;
mod fields;
mod json;
mod listing;
mod listing_cases;
mod reader;
mod reading_cases;
mod steps;
mod steps_cases;
mod stored;
mod storing_cases;
mod storing_faults;
mod stream;
mod stream_cases;
mod table;
mod table_cases;
mod writer;
mod writing_cases;

use crate::reader::read;
use crate::steps::State;
use crate::table::Summary;
pub use crate::reading_cases::{meta, G};
pub use crate::table_cases::EXAMPLE;

/// G and more global fields.
pub fn with(more: &str) -> String {
    meta(&format!("{G},{more}"), "", "")
}

/// The reader's answer with plenty of room, as a state with no dataset bytes.
pub fn open(text: &str, dataset: u64) -> State {
    let (mut captures, mut annotations) = (vec![7; 4 * 3000], vec![7; 4 * 3000]);
    let summary = read(text.as_bytes(), dataset, &mut captures, &mut annotations);
    captures.truncate(4 * summary.captures as usize);
    annotations.truncate(4 * summary.annotations as usize);
    State { summary, captures, annotations, dataset: Vec::new() }
}

/// The reader's refusal with plenty of room.
pub fn refusal(text: &str, dataset: u64) -> u64 {
    let summary: Summary = open(text, dataset).summary;
    if summary.refusal != 0 {
        assert_eq!(summary, Summary::refused(summary.refusal));
    }
    summary.refusal
}
