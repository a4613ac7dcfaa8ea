//! Tables with hostile labels, honest and forged, and random cases about them.

use crate::frames::Case;
use crate::listing::listing_text;
use crate::listing_case::{ListingCase, LISTING, LOOKUP, OUTPUT_MAX};
use crate::listing_labels::LABELS;
use crate::part::{random_style, written};
use crate::recording::{Plan, Recording};
use crate::recording_random::{decorated, label, random_plan};
use crate::rng::Rng;
use crate::steps::State;
use crate::table_forged::FORGERIES;
use crate::table_random::{open, starts};

/// One random case.
pub fn random_case(rng: &mut Rng) -> Case {
    if rng.once_in(8) {
        return Case { letter: b'q', payload: random_input(rng) };
    }
    let labels: Vec<Option<String>> = (0..rng.below(6)).map(|_| random_label(rng)).collect();
    let (mut state, mut metadata) = labelled(&labels, rng);
    match rng.below(6) {
        0 | 1 => change_label(&mut state, &mut metadata, rng),
        2 => FORGERIES[rng.below(FORGERIES.len())](&mut state, rng),
        _ => {}
    }
    let letter = if rng.once_in(2) { LOOKUP } else { LISTING };
    asked(letter, &state, &metadata, rng).frame()
}

/// A raw label, hostile once in two times, or none.
pub fn random_label(rng: &mut Rng) -> Option<String> {
    if rng.once_in(2) { Some(rng.pick(LABELS).to_string()) } else { label(rng) }
}

/// The table and metadata of a random recording with the labels.
pub fn labelled(labels: &[Option<String>], rng: &mut Rng) -> (State, Vec<u8>) {
    let recording = labelled_recording(labels, rng);
    opened(&recording, rng)
}

/// A random recording with the labels.
pub fn labelled_recording(labels: &[Option<String>], rng: &mut Rng) -> Recording {
    let plan = random_plan(rng);
    let starts = starts(labels.len(), plan.offset, plan.samples, rng);
    let mut captures = plan.captures.clone();
    captures.truncate(4);
    let notes = starts.iter().zip(labels).map(|(&s, l)| (s, rng.once_in(2).then_some(plan.offset + plan.samples - s), l.clone()));
    let annotations = notes.collect();
    let plan = Plan { captures, annotations, ..plan };
    if rng.once_in(3) { decorated(&plan, rng) } else { plan.recording() }
}

/// The table and metadata of a recording written in any style.
pub fn opened(recording: &Recording, rng: &mut Rng) -> (State, Vec<u8>) {
    let style = random_style(rng);
    let text = written(&recording.top, style, rng);
    (open(&text, recording.dataset), text.into_bytes())
}

/// A lookup of some annotation, or a listing into some room.
pub fn asked(letter: u8, state: &State, metadata: &[u8], rng: &mut Rng) -> ListingCase {
    let count = state.summary.annotations;
    let length = listing_text(&state.table(), metadata).map_or(200, |text| text.len() as u64);
    let number = match (letter, rng.below(10)) {
        (LOOKUP, 0) => count,
        (LOOKUP, 1) => [count.wrapping_add(1), u64::MAX, 1 << 63, 1 << 32][rng.below(4)],
        (LOOKUP, _) => rng.bits() % count.clamp(1, 1_000),
        (_, 0..=2) => length.saturating_sub(1),
        (_, 3) => rng.below(60) as u64,
        (_, 4) => length.saturating_sub(rng.below(60) as u64),
        (_, 5 | 6) => length,
        _ => length + rng.below(30) as u64,
    };
    let number = if letter == LISTING { number.min(OUTPUT_MAX) } else { number };
    ListingCase::new(letter, number, state, metadata)
}

/// Another place of a label, or other metadata around it.
pub fn change_label(state: &mut State, metadata: &mut Vec<u8>, rng: &mut Rng) {
    let count = state.annotations.len() / 4;
    if count == 0 {
        return;
    }
    let k = rng.below(count);
    CHANGES[rng.below(CHANGES.len())](state, k, metadata, rng);
}

/// A change of a row's label, or of the metadata around it.
pub type Change = fn(&mut State, usize, &mut Vec<u8>, &mut Rng);

/// Every change.
pub const CHANGES: &[Change] = &[
    |s, k, _, _| move_label(s, k, |(at, n)| (at.wrapping_add(1), n)),
    |s, k, _, _| move_label(s, k, |(at, n)| (at.wrapping_sub(1), n)),
    |s, k, _, _| move_label(s, k, |(at, n)| (at, n.wrapping_add(1))),
    |s, k, _, _| move_label(s, k, |(at, n)| (at, n.saturating_sub(1))),
    |s, k, _, _| move_label(s, k, |(at, n)| (at.wrapping_add(1), n.saturating_sub(1))),
    |s, k, _, _| move_label(s, k, |(at, n)| (at.wrapping_sub(1), n.wrapping_add(2))),
    |s, k, _, _| move_label(s, k, |_| (0, 0)),
    |s, k, _, _| move_label(s, k, |_| (0, 5)),
    |s, k, _, _| move_label(s, k, |(_, n)| (0, n.max(1))),
    |s, k, _, _| move_label(s, k, |(at, _)| (at, 0)),
    |s, k, m, _| move_label(s, k, |_| (m.len() as u64, 0)),
    |s, k, m, _| move_label(s, k, |_| (m.len() as u64 - 1, 0)),
    |s, k, m, _| move_label(s, k, |_| (m.len() as u64 - 1, 1)),
    |s, k, m, _| move_label(s, k, |(at, _)| (at, (m.len() as u64).saturating_sub(at))),
    |s, k, m, _| move_label(s, k, |(at, _)| (at, (m.len() as u64).saturating_sub(at + 1))),
    |s, k, m, r| move_label(s, k, |_| (m.len() as u64 + r.below(9) as u64, r.below(9) as u64)),
    |s, k, _, r| move_label(s, k, |_| [(61_440, 0), (61_439, 1), (61_440, 1), (61_441, 0), (1, 61_439), (1, 61_440)][r.below(6)]),
    |s, k, _, r| move_label(s, k, |_| [(u64::MAX, 1), (1, u64::MAX), (u64::MAX, u64::MAX), (1 << 63, 1 << 63), (u64::MAX, 0)][r.below(5)]),
    |s, k, m, r| move_label(s, k, |_| between_quotes(m, r)),
    |s, k, m, r| move_label(s, k, |_| between_quotes(m, r)),
    |s, k, m, r| move_label(s, k, |_| (1 + r.below(m.len()) as u64, r.below(12) as u64)),
    |s, k, _, _| exchange(s, k),
    |s, k, m, r| { let other = *r.pick(&[&b'\'', &b'\\', &b' ', &0, &0xFF]); set_byte(m, label_of(s, k).0.wrapping_sub(1), other) },
    |s, k, m, r| { let other = *r.pick(&[&b'\'', &b'\\', &b' ', &0, &0xFF]); set_byte(m, label_end(s, k), other) },
    |s, k, m, r| { let at = label_of(s, k).0 + r.bits() % label_of(s, k).1.max(1); set_byte(m, at, BYTES[r.below(BYTES.len())]) },
    |s, k, m, _| set_byte(m, label_end(s, k).wrapping_sub(1), b'\\'),
    |s, k, m, _| set_byte(m, label_of(s, k).0, b'"'),
    |s, k, m, _| m.truncate(label_end(s, k) as usize),
    |s, k, m, _| m.truncate(label_end(s, k) as usize + 1),
    |s, k, m, _| m.truncate(label_of(s, k).0 as usize),
    |_, _, m, _| m.clear(),
    |_, _, m, _| m.rotate_left(1),
    |_, _, m, _| m.splice(..1, []).for_each(drop),
    |_, _, m, _| m.insert(0, b' '),
    |_, _, m, r| m.extend((0..r.between(1, 20)).map(|_| r.below(256) as u8)),
    |_, _, m, _| m.fill(b'"'),
    |_, _, m, _| m.fill(b'a'),
];

/// Bytes put into labels.
const BYTES: &[u8] = &[b'"', b'\\', 0, 0x1F, b'\n', 0x7F, 0x80, 0xC3, 0xFF, b'a', b'u', b'/'];

/// The place and length of a row's label.
fn label_of(state: &State, k: usize) -> (u64, u64) {
    (state.annotations[4 * k + 2], state.annotations[4 * k + 3])
}

fn label_end(state: &State, k: usize) -> u64 {
    label_of(state, k).0 + label_of(state, k).1
}

fn move_label(state: &mut State, k: usize, to: impl FnOnce((u64, u64)) -> (u64, u64)) {
    let (at, length) = to(label_of(state, k));
    (state.annotations[4 * k + 2], state.annotations[4 * k + 3]) = (at, length);
}

/// The label of another row.
fn exchange(state: &mut State, k: usize) {
    let other = (k + 1) % (state.annotations.len() / 4);
    for at in [2, 3] {
        state.annotations.swap(4 * k + at, 4 * other + at);
    }
}

fn set_byte(metadata: &mut [u8], at: u64, byte: u8) {
    if let Some(slot) = usize::try_from(at).ok().and_then(|k| metadata.get_mut(k)) {
        *slot = byte;
    }
}

/// The part between two quotes, inside a string or not, that stand near each
/// other.
fn between_quotes(metadata: &[u8], rng: &mut Rng) -> (u64, u64) {
    let quotes: Vec<usize> = (0..metadata.len()).filter(|&k| metadata[k] == b'"').collect();
    if quotes.len() < 3 {
        return (1, 0);
    }
    let k = rng.below(quotes.len() - 2);
    let end = quotes[k + rng.between(1, 2)];
    (quotes[k] as u64 + 1, (end - quotes[k] - 1) as u64)
}

/// A first line of digits, or nearly so, and some bytes after it.
fn random_input(rng: &mut Rng) -> Vec<u8> {
    let count = match rng.below(4) {
        0 => rng.between(19, 21),
        _ => rng.below(22),
    };
    let mut line: Vec<u8> = (0..count).map(|k| if k == 0 { b"0012"[rng.below(4)] } else { b'0' + rng.below(10) as u8 }).collect();
    if rng.once_in(3) {
        let byte = b" +-.\r\t\0xeE,_/:\x0B\xFF9"[rng.below(17)];
        line.insert(rng.below(line.len() + 1), byte);
    }
    if !rng.once_in(8) {
        line.push(b'\n');
    }
    line.extend_from_slice(rng.pick(&["", "{}", "\n", "1\n2", "{\"global\":{}}", "\u{feff}{}"]).as_bytes());
    line
}
