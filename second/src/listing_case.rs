//! One case about label lookup, the listing, the metadata written from a table or
//! its stored form: the table, the metadata lent with it and what is asked.

use crate::frames::Case;
use crate::steps::State;
use crate::table::{Summary, Table};
use crate::table_case::{summary_numbers, summary_of};
use crate::words::{bytes_of, with_count, Words};

/// The most numbers of lent rows.
pub const LENT_MAX: u64 = 4_096;
/// The most bytes of lent output.
pub const OUTPUT_MAX: u64 = 65_536;

/// A label is looked up.
pub const LOOKUP: u8 = b'l';
/// The listing is written.
pub const LISTING: u8 = b'p';
/// The metadata of the table is written.
pub const WRITING: u8 = b'w';
/// The table is stored.
pub const STORING: u8 = b'b';

/// A table handed in beside metadata.
#[derive(Clone, PartialEq, Eq, Debug)]
pub struct ListingCase {
    pub letter: u8,
    /// The annotation's number, or how many output bytes are lent.
    pub number: u64,
    pub summary: Summary,
    pub captures: Vec<u64>,
    pub annotations: Vec<u64>,
    pub metadata: Vec<u8>,
}

impl ListingCase {
    /// A case about a state's table.
    pub fn new(letter: u8, number: u64, state: &State, metadata: &[u8]) -> ListingCase {
        let (captures, annotations) = (state.captures.clone(), state.annotations.clone());
        ListingCase { letter, number, summary: state.summary, captures, annotations, metadata: metadata.to_vec() }
    }

    /// The table lent from the case.
    pub fn table(&self) -> Table<'_> {
        Table { summary: &self.summary, captures: &self.captures, annotations: &self.annotations }
    }

    /// The frame: numbers, then the metadata.
    pub fn frame(&self) -> Case {
        let mut numbers = vec![self.number];
        numbers.extend(summary_numbers(&self.summary));
        numbers.extend(with_count(&self.captures));
        numbers.extend(with_count(&self.annotations));
        let mut payload = bytes_of(&numbers);
        payload.extend_from_slice(&self.metadata);
        Case { letter: self.letter, payload }
    }

    /// The case of a frame, if it is one.
    pub fn read(case: &Case) -> Option<ListingCase> {
        let letter = case.letter;
        let mut words = Words(&case.payload);
        let number = if letter == LOOKUP { words.one()? } else { words.at_most(OUTPUT_MAX)? };
        let summary = summary_of(&words.many(12)?);
        let (captures, annotations) = (words.counted(LENT_MAX)?, words.counted(LENT_MAX)?);
        Some(ListingCase { letter, number, summary, captures, annotations, metadata: words.0.to_vec() })
    }
}
