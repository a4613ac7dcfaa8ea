//! Random texts in random chunks, and states handed in, honest and forged.

use crate::frames::Case;
use crate::json_cases::join;
use crate::json_random;
use crate::limits::METADATA_MAX;
use crate::rng::Rng;
use crate::stream::{shortest_text, state_of, State, AFTER, LOST, VALUE, WORDS};
use crate::stream_case::{Chunk, StreamCase};
use crate::table_forged::nudged;

/// One random case: a text from its beginning on, the rest of one from a state on, or
/// states in a row.
pub fn random_case(rng: &mut Rng) -> Case {
    let text = random_text(rng);
    let case = match rng.below(8) {
        0..=3 => StreamCase::Chunks(None, random_chunks(rng, &text)),
        4..=6 => {
            let (state, rest) = random_state(rng, &text);
            StreamCase::Chunks(Some(state), random_chunks(rng, rest))
        }
        _ => random_row(rng, &text),
    };
    case.frame()
}

/// A text of the JSON cases; a string's body in quotes.
fn random_text(rng: &mut Rng) -> Vec<u8> {
    let case = json_random::random_case(rng);
    if case.letter == b'j' { case.payload } else { join(&[b"\"", &case.payload, b"\""]) }
}

/// The text in chunks, some of them empty; sometimes blanks in front up to about the
/// limit.
fn random_chunks(rng: &mut Rng, text: &[u8]) -> Vec<Chunk> {
    let mut chunks = Vec::new();
    if rng.once_in(60) {
        let most = METADATA_MAX.saturating_sub(text.len()) + rng.below(4);
        chunks.push(Chunk { size: most.saturating_sub(rng.below(4)) as u64, part: b" ".to_vec() });
    }
    if text.len() <= 40 && rng.once_in(6) {
        chunks.extend(text.chunks(1).map(Chunk::once));
        return chunks;
    }
    let mut cuts: Vec<usize> = (0..[0, 1, 1, 2, 3, 6][rng.below(6)]).map(|_| rng.below(text.len() + 1)).collect();
    cuts.extend([0, text.len()]);
    if rng.once_in(4) {
        cuts.extend_from_within(..1);
    }
    cuts.sort();
    chunks.extend(cuts.windows(2).map(|cut| Chunk::once(&text[cut[0]..cut[1]])));
    chunks
}

/// The state of a part of the text and the rest of it, or any state; as it is or forged.
fn random_state<'a>(rng: &mut Rng, text: &'a [u8]) -> (State, &'a [u8]) {
    let (part, rest) = text.split_at(rng.below(text.len() + 1));
    let mut state = if rng.once_in(3) { random_control(rng) } else { state_of(part) };
    for _ in 0..[0, 0, 1, 1, 1, 2][rng.below(6)] {
        FORGERIES[rng.below(FORGERIES.len())](&mut state, rng);
    }
    (state, rest)
}

/// Any place, token and stack, with about the fewest bytes.
fn random_control(rng: &mut Rng) -> State {
    let depth = if rng.once_in(3) { rng.between(28, 33) } else { rng.below(6) };
    let stack = 1 << depth | rng.bits() % (1 << depth);
    let place = rng.between(VALUE as usize, AFTER as usize) as u64;
    let token = if rng.once_in(2) { rng.below(WORDS.len()) as u64 } else { 0 };
    let least = shortest_text(place, token, stack).map_or(100, |text| text.len() as u64);
    State { place, token, stack, count: (least + [0, 0, 1, 2, 40][rng.below(5)]).saturating_sub(rng.below(2) as u64) }
}

/// A change of a state.
type Forgery = fn(&mut State, &mut Rng);

/// Every change.
const FORGERIES: &[Forgery] = &[
    |s, r| s.place = r.below(LOST as usize + 2) as u64,
    |s, r| s.token = r.below(WORDS.len() + 2) as u64,
    |s, r| s.token = nudged(s.token, r),
    |s, r| s.stack = nudged(s.stack, r),
    |s, r| s.stack ^= 1 << r.below(35),
    |s, r| s.stack = s.stack.wrapping_mul(2) + r.below(2) as u64,
    |s, _| s.stack /= 2,
    |s, r| s.count = nudged(s.count, r),
    |s, r| s.count = r.below(20) as u64,
    |s, r| s.count = (METADATA_MAX + r.below(5) - 2) as u64,
    |s, r| { let at = r.below(4); change(s, at, |x| x ^ 1 << r.below(64)) },
    |s, r| { let at = r.below(4); change(s, at, |_| r.bits()) },
    |s, r| { let at = r.below(4); change(s, at, |x| x.wrapping_add(1 << r.between(31, 33))) },
    |s, r| *s = State { place: LOST, token: 0, stack: 0, count: nudged(s.count, r) },
    |s, _| (s.place, s.token) = (LOST, 0),
];

/// Another number at a place.
fn change(state: &mut State, at: usize, to: impl FnOnce(u64) -> u64) {
    let mut numbers = state.numbers();
    numbers[at] = to(numbers[at]);
    *state = State::of(numbers);
}

/// A state and every byte, or states that differ in one number.
fn random_row(rng: &mut Rng, text: &[u8]) -> StreamCase {
    let (mut first, _) = random_state(rng, text);
    if rng.once_in(3) {
        return StreamCase::States(first, [0; 4], 256);
    }
    let (at, count) = (rng.below(4), rng.between(2, 40) as u64);
    change(&mut first, at, |x| x.wrapping_sub(count / 2));
    let mut step = [0; 4];
    step[at] = 1;
    StreamCase::States(first, step, count)
}
