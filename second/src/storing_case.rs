//! One case about tables kept in files: a table to be stored, or a file to be loaded.

use crate::frames::Case;
use crate::listing_case::{ListingCase, LENT_MAX, STORING};
use crate::steps::State;
use crate::words::{bytes_of, Words};

/// A file is loaded.
pub const LOADING: u8 = b'f';

/// A file, and how many numbers are lent for captures and for annotations.
#[derive(Clone, PartialEq, Eq, Debug)]
pub struct LoadingCase {
    pub captures: u64,
    pub annotations: u64,
    pub file: Vec<u8>,
}

/// What is asked.
#[derive(Clone, PartialEq, Eq, Debug)]
pub enum StoringCase {
    /// A table, and how many output bytes are lent; no metadata.
    Store(ListingCase),
    Load(LoadingCase),
}

impl StoringCase {
    /// A state's table, stored into so many bytes.
    pub fn store(state: &State, room: u64) -> StoringCase {
        StoringCase::Store(ListingCase::new(STORING, room, state, b""))
    }

    /// A file, loaded into so many numbers of each kind.
    pub fn load(file: &[u8], captures: u64, annotations: u64) -> StoringCase {
        StoringCase::Load(LoadingCase { captures, annotations, file: file.to_vec() })
    }

    /// The frame: the numbers of the table, or both rooms and the file.
    pub fn frame(&self) -> Case {
        match self {
            StoringCase::Store(case) => case.frame(),
            StoringCase::Load(case) => {
                let payload = [&bytes_of(&[case.captures, case.annotations])[..], &case.file].concat();
                Case { letter: LOADING, payload }
            }
        }
    }

    /// The case of a frame, if it is one.
    pub fn read(case: &Case) -> Option<StoringCase> {
        match case.letter {
            STORING => ListingCase::read(case).filter(|c| c.metadata.is_empty()).map(StoringCase::Store),
            LOADING => {
                let mut words = Words(&case.payload);
                let (captures, annotations) = (words.at_most(LENT_MAX)?, words.at_most(LENT_MAX)?);
                Some(StoringCase::load(words.0, captures, annotations))
            }
            _ => None,
        }
    }
}
