//! One case about JSON text judged as it arrives: a state and the chunks fed to it, or
//! states in a row with one byte each.

use crate::frames::Case;
use crate::stream::State;
use crate::words::{bytes_of, with_count, Words};

/// Chunks are fed one after the other.
pub const CHUNKS: u8 = b'h';
/// States in a row are fed one byte each.
pub const STATES: u8 = b'i';

/// The most bytes of a chunk.
pub const CHUNK_MAX: u64 = 65_536;
/// The most states in a row.
pub const STATES_MAX: u64 = 256;

/// So many bytes: those of a part, again and again.
#[derive(Clone, PartialEq, Eq, Debug)]
pub struct Chunk {
    pub size: u64,
    pub part: Vec<u8>,
}

impl Chunk {
    /// A part, once.
    pub fn once(part: &[u8]) -> Chunk {
        Chunk { size: part.len() as u64, part: part.to_vec() }
    }

    /// All its bytes.
    pub fn bytes(&self) -> Vec<u8> {
        self.part.iter().copied().cycle().take(self.size as usize).collect()
    }
}

/// What is asked.
#[derive(Clone, PartialEq, Eq, Debug)]
pub enum StreamCase {
    /// Chunks, from a state on; from the fresh one if none is given.
    Chunks(Option<State>, Vec<Chunk>),
    /// State k has the numbers of the first and k times the step, and gets the byte k
    /// modulo 256; so many states.
    States(State, [u64; 4], u64),
}

impl StreamCase {
    /// State k of a row.
    pub fn state_in_row(first: &State, step: &[u64; 4], k: u64) -> State {
        let mut numbers = first.numbers();
        numbers.iter_mut().zip(step).for_each(|(x, more)| *x = x.wrapping_add(more.wrapping_mul(k)));
        State::of(numbers)
    }

    /// The frame: the numbers, and each chunk's part after its own two.
    pub fn frame(&self) -> Case {
        match self {
            StreamCase::Chunks(start, chunks) => {
                let mut numbers = with_count(&start.map_or(Vec::new(), |state| state.numbers().to_vec()));
                numbers.push(chunks.len() as u64);
                let mut payload = bytes_of(&numbers);
                for chunk in chunks {
                    payload.extend(bytes_of(&[chunk.size, chunk.part.len() as u64]));
                    payload.extend_from_slice(&chunk.part);
                }
                Case { letter: CHUNKS, payload }
            }
            StreamCase::States(first, step, count) => {
                Case { letter: STATES, payload: bytes_of(&[&first.numbers()[..], step, &[*count]].concat()) }
            }
        }
    }

    /// The case of a frame, if it is one.
    pub fn read(case: &Case) -> Option<StreamCase> {
        let mut words = Words(&case.payload);
        match case.letter {
            CHUNKS => {
                let start = match words.counted(4)?.as_slice() {
                    [] => None,
                    numbers => Some(State::of(numbers.try_into().ok()?)),
                };
                let count = words.at_most(words.0.len() as u64)?;
                let chunks = (0..count).map(|_| chunk(&mut words)).collect::<Option<Vec<_>>>()?;
                words.0.is_empty().then_some(StreamCase::Chunks(start, chunks))
            }
            STATES => {
                let numbers = words.many(9)?;
                let (first, step) = (numbers[..4].try_into().ok()?, numbers[4..8].try_into().ok()?);
                let whole = words.0.is_empty() && numbers[8] <= STATES_MAX;
                whole.then_some(StreamCase::States(State::of(first), step, numbers[8]))
            }
            _ => None,
        }
    }
}

/// The next chunk.
fn chunk(words: &mut Words) -> Option<Chunk> {
    let (size, length) = (words.at_most(CHUNK_MAX)?, words.at_most(CHUNK_MAX)?);
    let (part, rest) = words.0.split_at_checked(length as usize)?;
    words.0 = rest;
    (size == 0 || length > 0).then_some(Chunk { size, part: part.to_vec() })
}
