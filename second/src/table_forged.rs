//! Tables with one rule broken, or just kept.

use crate::fields::{datatype_count, sample_width};
use crate::rng::Rng;
use crate::steps::State;

/// A change to a table.
pub type Forgery = fn(&mut State, &mut Rng);

/// Every change. Most break one rule of a well-formed table and keep the others.
pub const FORGERIES: &[Forgery] = &[
    |s, r| s.summary.refusal = r.between(1, 20) as u64,
    |s, _| s.summary.refusal = u64::MAX,
    |s, _| s.summary.code = datatype_count(),
    |s, _| s.summary.code = u64::MAX,
    |s, r| s.summary.code += datatype_count() * (1 << r.below(55)),
    |s, r| s.summary.code = (s.summary.code + r.between(1, datatype_count() as usize - 1) as u64) % datatype_count(),
    |s, _| s.summary.channels = 0,
    |s, _| with_channels(s, 0),
    |s, _| with_channels(s, 1_024),
    |s, _| with_channels(s, 1_025),
    |s, _| s.summary.channels += 1,
    |s, _| s.summary.channels = s.summary.channels.wrapping_add(1 << 63),
    |s, r| s.summary.width = nudged(s.summary.width, r),
    |s, r| with_width(s, |w| nudged(w, r)),
    |s, _| with_width(s, |_| 0),
    |s, r| s.summary.captures = nudged(s.summary.captures, r),
    |s, r| s.summary.captures += 1 << r.between(58, 63),
    |s, _| s.summary.captures = s.captures.len() as u64 / 4 + 1,
    |s, r| s.summary.annotations = nudged(s.summary.annotations, r),
    |s, r| s.summary.annotations += 1 << r.between(58, 63),
    |s, _| s.summary.annotations = s.annotations.len() as u64 / 4 + 1,
    |s, _| shorten(&mut s.captures),
    |s, _| shorten(&mut s.annotations),
    |s, r| s.summary.dataset = nudged(s.summary.dataset, r),
    |s, r| s.summary.trailing = nudged(s.summary.trailing, r),
    |s, r| s.summary.samples = nudged(s.summary.samples, r),
    |s, r| s.summary.offset = nudged(s.summary.offset, r),
    |s, _| s.summary.samples = s.summary.samples.wrapping_add(1 << 62),
    |s, _| s.summary.samples = s.summary.samples.wrapping_add(wrapping_count(s.summary.width)),
    |s, r| move_to_header(s, 8, r),
    |s, r| move_to_header(s, 1 << 63, r),
    |s, r| move_to_header(s, s.summary.trailing + 1, r),
    |s, r| move_to_header(s, s.summary.trailing, r),
    |s, r| wrap_headers(s, r),
    |s, _| with_size(s, 1 << 48),
    |s, _| with_size(s, (1 << 48) + 1),
    |s, _| with_size(s, 1 << 63),
    |s, _| shift(s, u64::MAX - s.summary.samples),
    |s, _| shift(s, (u64::MAX - s.summary.samples).wrapping_add(1)),
    |s, r| shift(s, (u64::MAX - s.summary.samples).wrapping_add(r.between(2, 9) as u64)),
    |s, r| swap_starts(s, r),
    |s, r| move_start(s, r),
    |s, r| move_note_start(s, r),
    |s, r| change(&mut s.captures, 0, r, nudged),
    |s, r| change(&mut s.captures, 1, r, nudged),
    |s, r| change(&mut s.captures, 2, r, nudged),
    |s, r| change(&mut s.captures, 3, r, nudged),
    |s, r| change(&mut s.captures, 2, r, |x, r| x ^ 1 << r.between(40, 63)),
    |s, r| change(&mut s.annotations, 0, r, nudged),
    |s, r| change(&mut s.annotations, 1, r, nudged),
    |s, r| change(&mut s.annotations, 1, r, |x, r| x ^ 1 << r.between(40, 63)),
    |s, _| s.annotations.chunks_exact_mut(4).for_each(|n| n[1] = n[0]),
    |s, _| s.annotations.chunks_exact_mut(4).for_each(|n| n[1] = n[0].wrapping_sub(1)),
    |s, _| set_ends(s, 0),
    |s, _| set_ends(s, 1),
    |s, r| (s.summary.rate_place, s.summary.rate_length) = place(r),
    |s, r| set_label(s, r),
    |s, r| s.captures.extend((0..r.between(1, 9)).map(|_| r.bits())),
    |s, r| s.annotations.extend((0..r.between(1, 9)).map(|_| r.bits())),
];

/// One more or one less; two, once in 8 times.
pub fn nudged(x: u64, rng: &mut Rng) -> u64 {
    let one = if rng.once_in(8) { 2 } else { 1 };
    if rng.once_in(2) {
        x.wrapping_add(one)
    } else {
        x.wrapping_sub(one)
    }
}

/// As many samples as make about 2^64 bytes.
fn wrapping_count(width: u64) -> u64 {
    ((1u128 << 64) / u128::from(width.max(1))) as u64
}

/// Text places around their limit.
fn place(rng: &mut Rng) -> (u64, u64) {
    let most = 61_440;
    let at = rng.below(most as usize) as u64;
    let places = [
        (most, 0), (most, 1), (most + 1, 0), (most - 1, 1), (most - 1, 2), (0, most), (0, most + 1), (at, most - at),
        (at, most - at + 1), (u64::MAX, 1), (u64::MAX, 0), (1, u64::MAX), (u64::MAX, u64::MAX), (at, 0u64.wrapping_sub(at)),
        (0, 5), (at, 0), (1 << 63, 1 << 63),
    ];
    places[rng.below(places.len())]
}

/// Computes the captures' ends and first bytes and D from the rest, modulo 2^64.
pub fn settle(state: &mut State) {
    let s = &mut state.summary;
    let starts: Vec<u64> = state.captures.chunks_exact(4).map(|r| r[0]).collect();
    let count = usize::try_from(s.captures).map_or(0, |n| n.min(starts.len()));
    let mut headers = 0u64;
    for (k, row) in state.captures.chunks_exact_mut(4).take(count).enumerate() {
        headers = headers.wrapping_add(row[3]);
        row[1] = if k + 1 < count { starts[k + 1] } else { s.offset.wrapping_add(s.samples) };
        row[2] = row[0].wrapping_sub(s.offset).wrapping_mul(s.width).wrapping_add(headers);
    }
    let data = s.samples.wrapping_mul(s.width);
    s.dataset = s.trailing.wrapping_add(headers).wrapping_add(data);
}

/// Another number of channels, with all that follows from it.
fn with_channels(state: &mut State, channels: u64) {
    let s = &mut state.summary;
    s.channels = channels;
    s.width = sample_width(s.code, channels).unwrap_or(0) as u64;
    settle(state);
}

/// Another W, with places and D to match.
fn with_width(state: &mut State, to: impl FnOnce(u64) -> u64) {
    state.summary.width = to(state.summary.width);
    settle(state);
}

/// Another D, by the trailer alone.
fn with_size(state: &mut State, size: u64) {
    let s = &mut state.summary;
    s.trailing = s.trailing.wrapping_add(size.wrapping_sub(s.dataset));
    s.dataset = size;
}

/// One number less lent.
fn shorten(rows: &mut Vec<u64>) {
    rows.pop();
}

/// Any one of the rows.
fn some_row<'a>(rows: &'a mut [u64], rng: &mut Rng) -> Option<&'a mut [u64]> {
    let count = rows.len() / 4;
    (count > 0).then(|| rows.chunks_exact_mut(4).nth(rng.below(count)))?
}

/// Another number in a row.
fn change(rows: &mut [u64], at: usize, rng: &mut Rng, to: impl Fn(u64, &mut Rng) -> u64) {
    if let Some(row) = some_row(rows, rng) {
        row[at] = to(row[at], rng);
    }
}

/// Bytes of the trailer moved to a header; D stays, modulo 2^64.
fn move_to_header(state: &mut State, bytes: u64, rng: &mut Rng) {
    if let Some(row) = some_row(&mut state.captures, rng) {
        row[3] = row[3].wrapping_add(bytes);
        state.summary.trailing = state.summary.trailing.wrapping_sub(bytes);
    }
    settle(state);
}

/// Two headers that are 2^64 longer together.
fn wrap_headers(state: &mut State, rng: &mut Rng) {
    let half = rng.bits();
    for (row, more) in state.captures.chunks_exact_mut(4).zip([half, 0u64.wrapping_sub(half)]) {
        row[3] = row[3].wrapping_add(more);
    }
    settle(state);
}

/// Another O, with all indexes moved along.
fn shift(state: &mut State, offset: u64) {
    let by = offset.wrapping_sub(state.summary.offset);
    state.summary.offset = offset;
    for row in state.captures.chunks_exact_mut(4).chain(state.annotations.chunks_exact_mut(4)) {
        row[0] = row[0].wrapping_add(by);
        row[1] = row[1].wrapping_add(by);
    }
}

/// Two neighbours with their starts exchanged, in either kind of rows.
fn swap_starts(state: &mut State, rng: &mut Rng) {
    let captures = rng.once_in(2);
    let rows = if captures { &mut state.captures } else { &mut state.annotations };
    let count = rows.len() / 4;
    if count > 1 {
        let k = rng.below(count - 1);
        rows.swap(4 * k, 4 * k + 4);
    }
    if captures {
        settle(state);
    }
}

/// An index just outside the recording.
fn outside(state: &State, rng: &mut Rng) -> u64 {
    let s = &state.summary;
    let end = s.offset.wrapping_add(s.samples);
    let choices = [s.offset.wrapping_sub(1), end.wrapping_add(1), 0, u64::MAX, s.offset.wrapping_sub(1 << 40)];
    choices[rng.below(choices.len())]
}

/// A capture's start outside the recording; the rest follows.
fn move_start(state: &mut State, rng: &mut Rng) {
    let to = outside(state, rng);
    change(&mut state.captures, 0, rng, |_, _| to);
    settle(state);
}

/// An annotation's start outside the recording.
fn move_note_start(state: &mut State, rng: &mut Rng) {
    let to = outside(state, rng);
    change(&mut state.annotations, 0, rng, |_, _| to);
}

/// All annotations end at O + N and as much more.
fn set_ends(state: &mut State, more: u64) {
    let end = state.summary.offset.wrapping_add(state.summary.samples).wrapping_add(more);
    state.annotations.chunks_exact_mut(4).for_each(|n| n[1] = end);
}

/// A label's place around the limit.
fn set_label(state: &mut State, rng: &mut Rng) {
    let (at, length) = place(rng);
    if let Some(row) = some_row(&mut state.annotations, rng) {
        (row[2], row[3]) = (at, length);
    }
}
