//! One case about steps: a table, whose dataset follows from D, and the steps.

use crate::frames::Case;
use crate::steps::{State, Step};
use crate::table::rows_held;
use crate::table_case::{summary_numbers, summary_of};
use crate::words::{bytes_of, dataset_bytes, with_count, Words};

/// The largest D.
pub const DATASET_MAX: u64 = 2_048;
/// The most numbers of rows, 256 of them.
pub const NUMBERS_MAX: u64 = 1_024;
/// The most bytes lent for a copy.
pub const BYTES_MAX: u64 = 4_096;
/// The most steps.
pub const STEPS_MAX: u64 = 64;

/// A table with its dataset, and the steps.
#[derive(Clone, PartialEq, Eq, Debug)]
pub struct StepsCase {
    pub state: State,
    pub steps: Vec<Step>,
}

impl StepsCase {
    /// A table and steps that a frame may hold: the counts fit the lent rows, and
    /// D is not too large.
    pub fn new(table: &State, steps: &[Step]) -> Option<StepsCase> {
        let s = table.summary;
        let fits = s.captures <= rows_held(&table.captures) && s.annotations <= rows_held(&table.annotations);
        (fits && s.dataset <= DATASET_MAX).then(|| {
            let state = State { dataset: dataset_bytes(s.dataset), ..table.clone() };
            StepsCase { state, steps: steps.to_vec() }
        })
    }

    /// The frame: numbers.
    pub fn frame(&self) -> Case {
        let mut numbers = summary_numbers(&self.state.summary).to_vec();
        numbers.extend(with_count(&self.state.captures));
        numbers.extend(with_count(&self.state.annotations));
        numbers.push(self.steps.len() as u64);
        for step in &self.steps {
            let rooms = [step.capture_room, step.annotation_room, step.byte_room].map(|r| r as u64);
            numbers.extend([step.a, step.b]);
            numbers.extend(rooms);
        }
        Case { letter: b'z', payload: bytes_of(&numbers) }
    }

    /// The case of a payload, if it is one.
    pub fn read(payload: &[u8]) -> Option<StepsCase> {
        let mut words = Words(payload);
        let summary = summary_of(&words.many(12)?);
        let (captures, annotations) = (words.counted(NUMBERS_MAX)?, words.counted(NUMBERS_MAX)?);
        let count = words.at_most(STEPS_MAX)?;
        let steps: Option<Vec<Step>> = (0..count).map(|_| read_step(&mut words)).collect();
        let steps = steps.filter(|_| words.0.is_empty())?;
        StepsCase::new(&State { summary, captures, annotations, dataset: Vec::new() }, &steps)
    }
}

fn read_step(words: &mut Words) -> Option<Step> {
    let (a, b) = (words.one()?, words.one()?);
    let capture_room = words.at_most(NUMBERS_MAX)? as usize;
    let annotation_room = words.at_most(NUMBERS_MAX)? as usize;
    let byte_room = words.at_most(BYTES_MAX)? as usize;
    Some(Step { a, b, capture_room, annotation_room, byte_room })
}
