//! The expected answer line of each case about JSON text judged as it arrives.

use crate::frames::{checksum, Case};
use crate::stream::{state_of, Fed, State, Stream};
use crate::stream_case::{Chunk, StreamCase};

/// The answer to a chunk, and that of finishing.
pub type Answer = (Fed, u64);

/// The answer line of a case, without its line feed; none for a broken case.
pub fn answer(case: &Case) -> Option<String> {
    match StreamCase::read(case)? {
        StreamCase::Chunks(start, chunks) => Some(chunks_line(&fed_chunks(start, &chunks))),
        StreamCase::States(first, step, count) => Some(states_line(&fed_states(&first, &step, count))),
    }
}

/// The state at the start with 0 and 0 before it, as if it had been answered, then the
/// answer to each chunk; with each that of finishing there.
pub fn fed_chunks(start: Option<State>, chunks: &[Chunk]) -> Vec<Answer> {
    let mut stream = start.map_or_else(Stream::fresh, |state| Stream::at(&state));
    let state = start.unwrap_or_else(|| state_of(b""));
    let mut answers = vec![(Fed { refusal: 0, lost: false, state }, stream.finish())];
    for chunk in chunks {
        answers.push((stream.feed(&chunk.bytes()), stream.finish()));
    }
    answers
}

/// The answer of each state in a row to its byte, and that of finishing before it.
pub fn fed_states(first: &State, step: &[u64; 4], count: u64) -> Vec<Answer> {
    let one = |k| {
        let mut stream = Stream::at(&StreamCase::state_in_row(first, step, k));
        let before = stream.finish();
        (stream.feed(&[k as u8]), before)
    };
    (0..count).map(one).collect()
}

/// The line of chunks: the checksum of all answers, and the last one whole.
pub fn chunks_line(answers: &[Answer]) -> String {
    let words: Vec<String> = numbers(&answers[answers.len() - 1]).iter().map(u64::to_string).collect();
    format!("h {} {}", sum(answers), words.join(" "))
}

/// The line of states in a row: how many were not refused, and the checksum of all
/// answers.
pub fn states_line(answers: &[Answer]) -> String {
    let taken = answers.iter().filter(|(fed, _)| fed.refusal == 0).count();
    format!("i {taken} {}", sum(answers))
}

/// The seven numbers of an answer.
fn numbers((fed, finish): &Answer) -> [u64; 7] {
    let [place, token, stack, count] = fed.state.numbers();
    [fed.refusal, u64::from(fed.lost), place, token, stack, count, *finish]
}

/// The checksum of all answers' numbers, of each its lower and its upper half.
fn sum(answers: &[Answer]) -> u64 {
    checksum(answers.iter().flat_map(numbers).flat_map(|x| [x % (1 << 32), x >> 32]))
}
