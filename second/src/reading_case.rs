//! One case about reading: the dataset's length, the lent rooms and the metadata.

use crate::frames::Case;
use crate::part::{written, Style};
use crate::recording::Recording;
use crate::rng::Rng;
use crate::words::{bytes_of, Words};

/// The most numbers lent for captures or for annotations.
pub const LENT_MAX: u64 = 4_096;

/// What the reader is asked.
#[derive(Clone, PartialEq, Eq, Debug)]
pub struct ReadingCase {
    pub dataset: u64,
    /// How many numbers are lent for captures, and for annotations.
    pub captures: u64,
    pub annotations: u64,
    pub text: Vec<u8>,
}

impl ReadingCase {
    /// A text with room for eight rows of each kind.
    pub fn of_text(text: &[u8], dataset: u64) -> ReadingCase {
        ReadingCase { dataset, captures: 32, annotations: 32, text: text.to_vec() }
    }

    /// A recording in a style, with just enough room.
    pub fn of(recording: &mut Recording, style: Style, rng: &mut Rng) -> ReadingCase {
        let text = written(&recording.top, style, rng).into_bytes();
        let mut room = |name| recording.list(name).map_or(8, |l| 4 * l.len() as u64).min(LENT_MAX);
        let (captures, annotations) = (room("captures"), room("annotations"));
        ReadingCase { dataset: recording.dataset, captures, annotations, text }
    }

    /// The frame: three numbers and the text.
    pub fn frame(&self) -> Case {
        let mut payload = bytes_of(&[self.dataset, self.captures, self.annotations]);
        payload.extend_from_slice(&self.text);
        Case { letter: b'r', payload }
    }

    /// The case of a payload, if it is one.
    pub fn read(payload: &[u8]) -> Option<ReadingCase> {
        let mut words = Words(payload);
        let dataset = words.one()?;
        let (captures, annotations) = (words.at_most(LENT_MAX)?, words.at_most(LENT_MAX)?);
        Some(ReadingCase { dataset, captures, annotations, text: words.0.to_vec() })
    }
}
