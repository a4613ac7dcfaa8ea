//! Random tables and the metadata their texts stand in, honest and forged, to be
//! written.

use crate::frames::Case;
use crate::json_cases::NUMBERS;
use crate::json_random::good_number;
use crate::limits::METADATA_MAX;
use crate::listing_case::{ListingCase, OUTPUT_MAX, WRITING};
use crate::listing_random::{change_label, labelled_recording, opened, random_label};
use crate::part::raw;
use crate::rng::Rng;
use crate::steps::State;
use crate::table_forged::FORGERIES;
use crate::table_random::{cut_of, range_inside};
use crate::writer::metadata_text;

/// One random case: a recording, a cut of one or a cut of cuts, as it is or with
/// one change.
pub fn random_case(rng: &mut Rng) -> Case {
    let (mut state, mut metadata) = recorded(rng);
    for _ in 0..[0, 0, 1, 1, 2, 3][rng.below(6)] {
        let (a, b) = range_inside(&state, rng);
        state = cut_of(&state, a, b);
    }
    match rng.below(10) {
        0 => FORGERIES[rng.below(FORGERIES.len())](&mut state, rng),
        1 => change_label(&mut state, &mut metadata, rng),
        2 => RATE_CHANGES[rng.below(RATE_CHANGES.len())](&mut state, &mut metadata, rng),
        3 => share_labels(&mut state, rng),
        4 if rng.once_in(10) => lengthen(&mut state, &mut metadata, rng),
        _ => {}
    }
    asked(&state, &metadata, rng).frame()
}

/// The table and metadata of a random recording, mostly with a sample rate.
pub fn recorded(rng: &mut Rng) -> (State, Vec<u8>) {
    let labels: Vec<Option<String>> = (0..rng.below(6)).map(|_| random_label(rng)).collect();
    let mut recording = labelled_recording(&labels, rng);
    if !rng.once_in(3) {
        let rate = String::from_utf8(good_number(rng)).unwrap_or_default();
        recording.set(("global", 0), "core:sample_rate", raw(rate));
    }
    opened(&recording, rng)
}

/// The table written into some room: just enough, one byte less, a few more, none.
fn asked(state: &State, metadata: &[u8], rng: &mut Rng) -> ListingCase {
    let length = metadata_text(&state.table(), metadata).map_or(400, |text| text.len() as u64);
    let room = match rng.below(12) {
        0 | 1 => length - 1,
        2 => rng.bits() % length,
        3 => 0,
        4..=7 => length,
        _ => length + rng.below(40) as u64,
    };
    ListingCase::new(WRITING, room.min(OUTPUT_MAX), state, metadata)
}

/// Every label at the place of one of them.
fn share_labels(state: &mut State, rng: &mut Rng) {
    let count = state.annotations.len() / 4;
    if count > 0 {
        let from = 4 * rng.below(count);
        let place = [state.annotations[from + 2], state.annotations[from + 3]];
        state.annotations.chunks_exact_mut(4).for_each(|row| row[2..].copy_from_slice(&place));
    }
}

/// More annotations like the last one, and labels that make a text of about 61,440
/// bytes.
fn lengthen(state: &mut State, metadata: &mut Vec<u8>, rng: &mut Rng) {
    let count = state.annotations.len() / 4;
    if count > 0 {
        let more = state.annotations[4 * (count - 1)..].repeat(40);
        state.annotations.extend(more);
        state.summary.annotations += 40;
    }
    stretch(state, metadata, METADATA_MAX + rng.below(5) - 2);
}

/// Other labels past the end of the metadata, one for all annotations but the last,
/// so that the text has a length.
pub fn stretch(state: &mut State, metadata: &mut Vec<u8>, length: usize) {
    let rows = state.annotations.len() / 4;
    label_rows(&mut state.annotations, metadata, 0);
    let Some(bare) = metadata_text(&state.table(), metadata).map(|text| text.len()).filter(|_| rows > 0) else {
        return;
    };
    let more = length.saturating_sub(bare);
    let (others, last) = state.annotations.split_at_mut(4 * (rows - 1));
    label_rows(others, metadata, more / rows);
    label_rows(last, metadata, more / rows + more % rows);
}

/// A label of a length past the end of the metadata, for all the rows.
fn label_rows(rows: &mut [u64], metadata: &mut Vec<u8>, length: usize) {
    if !rows.is_empty() {
        let at = metadata.len() as u64 + 1;
        rows.chunks_exact_mut(4).for_each(|row| row[2..].copy_from_slice(&[at, length as u64]));
        metadata.extend(format!("\"{}\"", "x".repeat(length)).bytes());
    }
}

/// A change of the sample rate's place, or of the metadata around it.
pub type RateChange = fn(&mut State, &mut Vec<u8>, &mut Rng);

/// Every change of a sample rate.
pub const RATE_CHANGES: &[RateChange] = &[
    |s, _, _| move_rate(s, |(at, n)| (at.wrapping_add(1), n)),
    |s, _, _| move_rate(s, |(at, n)| (at.wrapping_sub(1), n)),
    |s, _, _| move_rate(s, |(at, n)| (at, n.wrapping_add(1))),
    |s, _, _| move_rate(s, |(at, n)| (at, n.saturating_sub(1))),
    |s, _, _| move_rate(s, |(at, n)| (at.wrapping_add(1), n.saturating_sub(1))),
    |s, _, _| move_rate(s, |(at, n)| (at.wrapping_sub(1), n.wrapping_add(1))),
    |s, _, _| move_rate(s, |_| (0, 0)),
    |s, _, _| move_rate(s, |(at, _)| (at.max(1), 0)),
    |s, _, _| move_rate(s, |(_, n)| (0, n.max(1))),
    |s, m, _| move_rate(s, |_| (m.len() as u64, 0)),
    |s, m, _| move_rate(s, |_| (m.len() as u64, 1)),
    |s, m, _| move_rate(s, |(_, n)| (m.len() as u64 - n.min(m.len() as u64), n)),
    |s, m, r| move_rate(s, |_| (r.below(m.len()) as u64, r.below(4) as u64)),
    |s, _, r| move_rate(s, |_| [(61_440, 0), (61_439, 1), (61_440, 1), (0, 61_440), (0, 61_441), (u64::MAX, 1), (1, u64::MAX)][r.below(7)]),
    |s, m, r| rate_at_end(s, m, b"", NUMBERS[r.below(NUMBERS.len())], b""),
    |s, m, r| rate_at_end(s, m, b" ", NUMBERS[r.below(NUMBERS.len())], b" "),
    |s, m, r| rate_at_end(s, m, b"7", &good_number(r), b"7"),
    |s, m, r| rate_at_end(s, m, b"", &almost_number(r), b"5"),
    |s, m, r| rate_at_end(s, m, b"", &almost_number(r), b""),
    |s, m, r| rate_at_front(s, m, &good_number(r)),
    |s, m, r| rate_at_front(s, m, &almost_number(r)),
    |s, m, _| { let at = s.summary.rate_place as usize; m.truncate(at) },
    |s, m, _| { let end = s.summary.rate_place + s.summary.rate_length; m.truncate(end as usize) },
    |s, m, _| { let end = s.summary.rate_place + s.summary.rate_length; m.truncate((end as usize).saturating_sub(1)) },
];

fn move_rate(state: &mut State, to: impl FnOnce((u64, u64)) -> (u64, u64)) {
    let s = &mut state.summary;
    (s.rate_place, s.rate_length) = to((s.rate_place, s.rate_length));
}

/// A sample rate of another text past the end of the metadata, between two others.
pub fn rate_at_end(state: &mut State, metadata: &mut Vec<u8>, before: &[u8], text: &[u8], after: &[u8]) {
    metadata.extend_from_slice(before);
    move_rate(state, |_| (metadata.len() as u64, text.len() as u64));
    metadata.extend_from_slice(text);
    metadata.extend_from_slice(after);
}

/// A sample rate of another text at the front of the metadata; the labels move on.
fn rate_at_front(state: &mut State, metadata: &mut Vec<u8>, text: &[u8]) {
    metadata.splice(..0, text.iter().copied());
    move_rate(state, |_| (0, text.len() as u64));
    for row in state.annotations.chunks_exact_mut(4).filter(|row| row[2..] != [0, 0]) {
        row[2] = row[2].wrapping_add(text.len() as u64);
    }
}

/// A number with one byte more, less or other.
fn almost_number(rng: &mut Rng) -> Vec<u8> {
    let mut number = good_number(rng);
    let at = rng.below(number.len());
    let byte = b"0123456789+-.eE \n\"xX,}"[rng.below(22)];
    match rng.below(4) {
        0 => number.insert(at, byte),
        1 => number.push(byte),
        2 => drop(number.remove(at)),
        _ => number[at] = byte,
    }
    number
}
