//! Random tables to be stored and random files to be loaded, honest and forged.

use crate::frames::Case;
use crate::json_random::mutate;
use crate::rng::Rng;
use crate::steps::State;
use crate::stored::{file_of, HEAD, MARK, OPENING, ROW};
use crate::storing_case::StoringCase;
use crate::table_forged::{nudged, FORGERIES};
use crate::table_random::{byte_room, cut_of, random_table, range_inside, room};
use crate::words::Words;
use crate::writing_random::recorded;

/// One random case: a recording, a cut of one or a cut of cuts, to be stored or as a
/// file to be loaded, as it is or changed.
pub fn random_case(rng: &mut Rng) -> Case {
    let mut state = if rng.once_in(2) { recorded(rng).0 } else { random_table(rng) };
    for _ in 0..[0, 0, 0, 1, 2, 3][rng.below(6)] {
        let (a, b) = range_inside(&state, rng);
        state = cut_of(&state, a, b);
    }
    let rows = (state.summary.captures, state.summary.annotations);
    if rng.once_in(4) {
        FORGERIES[rng.below(FORGERIES.len())](&mut state, rng);
    }
    let mut file = raw_file(&state);
    if rng.once_in(3) {
        return StoringCase::store(&state, byte_room(file.len() as u64, rng)).frame();
    }
    if rng.once_in(2) {
        FILE_CHANGES[rng.below(FILE_CHANGES.len())](&mut file, rng);
    }
    StoringCase::load(&file, room(rows.0, 4, rng), room(rows.1, 4, rng)).frame()
}

/// The file of a state's numbers, all its lent rows included, whatever they say.
pub fn raw_file(state: &State) -> Vec<u8> {
    file_of(&state.summary, &state.captures, &state.annotations)
}

/// A change of a file.
pub type FileChange = fn(&mut Vec<u8>, &mut Rng);

/// Every change.
pub const FILE_CHANGES: &[FileChange] = &[
    |f, r| mutate(r, f),
    |f, r| { let at = r.below(f.len()); f[at] ^= 1 << r.below(8) },
    |f, r| { let at = r.below(OPENING); f[at] = r.below(256) as u8 },
    |f, r| f[MARK.len()] = r.below(4) as u8,
    |f, r| f.truncate(r.below(f.len())),
    |f, r| f.truncate(r.below(HEAD + 1)),
    |f, r| { let whole = f.len() - ROW * r.below(3); f.truncate(whole.max(HEAD)) },
    |f, _| f.truncate(f.len() - 1),
    |f, r| f.extend((0..r.between(1, 40)).map(|_| r.below(256) as u8)),
    |f, r| f.extend_from_within(f.len() - (ROW * r.between(1, 3)).min(f.len())..),
    |f, r| f.rotate_right(r.between(1, 8)),
    |f, r| { let k = some_number(f, r); set_number(f, k, |x| nudged(x, r)) },
    |f, r| { let k = some_number(f, r); set_number(f, k, |_| r.bits()) },
    |f, r| { let k = some_number(f, r); set_number(f, k, |x| x ^ 1 << r.below(64)) },
    |f, r| { let k = some_number(f, r); set_number(f, k, u64::swap_bytes) },
    |f, r| exchange(f, r),
    |f, r| move_counts(f, r.between(1, 3) as u64),
    |f, r| move_counts(f, 0u64.wrapping_sub(r.between(1, 3) as u64)),
    |f, r| move_counts(f, 1 << r.between(56, 63)),
    |f, r| { let k = r.between(CAPTURES, ANNOTATIONS); set_number(f, k, |x| x ^ 1 << r.between(56, 63)) },
    |f, r| { let more = 1 << r.between(57, 59); [CAPTURES, ANNOTATIONS].iter().for_each(|&k| set_number(f, k, |x| x.wrapping_add(more))) },
];

/// Which of a file's numbers are the counts.
pub const CAPTURES: usize = 8;
pub const ANNOTATIONS: usize = 9;

/// Any of a file's numbers, in the summary once in two times.
fn some_number(file: &[u8], rng: &mut Rng) -> usize {
    if rng.once_in(2) { rng.below(12) } else { rng.below((file.len() - OPENING) / 8) }
}

/// Number k past mark and version.
pub fn number_in(file: &[u8], k: usize) -> u64 {
    Words(&file[OPENING + 8 * k..]).one().unwrap_or(0)
}

/// Another number k past mark and version.
pub fn set_number(file: &mut [u8], k: usize, to: impl FnOnce(u64) -> u64) {
    let at = OPENING + 8 * k;
    let x = to(number_in(file, k));
    file[at..at + 8].copy_from_slice(&x.to_le_bytes());
}

/// More of the captures' count and as much less of the annotations', modulo 2^64.
pub fn move_counts(file: &mut [u8], more: u64) {
    set_number(file, CAPTURES, |x| x.wrapping_add(more));
    set_number(file, ANNOTATIONS, |x| x.wrapping_sub(more));
}

/// Two numbers exchanged: the counts, or any.
fn exchange(file: &mut [u8], rng: &mut Rng) {
    let (k, j) = if rng.once_in(3) { (CAPTURES, ANNOTATIONS) } else { (some_number(file, rng), some_number(file, rng)) };
    let (x, y) = (number_in(file, k), number_in(file, j));
    set_number(file, k, |_| y);
    set_number(file, j, |_| x);
}
