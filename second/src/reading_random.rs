//! Random cases about reading.

use crate::json_random::mutate;
use crate::part::{random_style, raw, Part};
use crate::reading_case::{ReadingCase, LENT_MAX};
use crate::reading_faults::{in_order, Fault, FAULTS};
use crate::reading_lists::UINTS;
use crate::recording::{Plan, Recording};
use crate::recording_random::{decorated, random_plan, random_recording};
use crate::rng::Rng;

/// One random case.
pub fn random_case(rng: &mut Rng) -> ReadingCase {
    match rng.below(20) {
        0..=6 => honest(rng),
        7..=11 => faulty(&[FAULTS[rng.below(FAULTS.len())]], rng),
        12..=14 => faulty(&[FAULTS[rng.below(FAULTS.len())], FAULTS[rng.below(FAULTS.len())]], rng),
        15..=17 => mutated(rng),
        _ => nudged(rng),
    }
}

/// A good recording, with any room.
fn honest(rng: &mut Rng) -> ReadingCase {
    let mut case = written_case(&mut random_recording(rng), rng);
    case.captures = room(case.captures, rng);
    case.annotations = room(case.annotations, rng);
    case
}

fn written_case(recording: &mut Recording, rng: &mut Rng) -> ReadingCase {
    let style = random_style(rng);
    ReadingCase::of(recording, style, rng)
}

/// So many numbers, more, or one less.
fn room(need: u64, rng: &mut Rng) -> u64 {
    let size = match rng.below(16) {
        0 => need.saturating_sub(1),
        1..=4 => need + rng.between(1, 3) as u64,
        5..=7 => need + rng.below(20) as u64,
        8 => LENT_MAX,
        _ => need,
    };
    size.min(LENT_MAX)
}

/// A good recording with faults, the smaller number of which holds.
pub fn faulty(faults: &[(u64, Fault)], rng: &mut Rng) -> ReadingCase {
    let plan = fault_plan(rng);
    let mut recording = if rng.once_in(2) { plan.recording() } else { decorated(&plan, rng) };
    with_faults(&mut recording, faults, rng)
}

/// The case of a recording with faults.
fn with_faults(recording: &mut Recording, faults: &[(u64, Fault)], rng: &mut Rng) -> ReadingCase {
    let list = in_order(faults);
    for (_, fault) in &list {
        if let Fault::Parts(change) = fault {
            change(recording, rng);
        }
    }
    let mut case = written_case(recording, rng);
    for (_, fault) in &list {
        if let Fault::Case(change) = fault {
            change(&mut case, rng);
        }
    }
    case
}

/// A plan that every fault can be put into: W > 1, samples, a trailer, rows of
/// both kinds, and room beyond O + N.
fn fault_plan(rng: &mut Rng) -> Plan {
    let mut plan = Plan { code: rng.below(10) as u64 + 12 * rng.below(2) as u64, channels: rng.between(1, 3) as u64, ..Plan::default() };
    plan.samples = rng.between(2, 30) as u64;
    plan.offset = [0, 0, 1, 40, 1 << 63][rng.below(5)];
    plan.trailing = rng.between(1, 9) as u64;
    let end = plan.offset + plan.samples;
    plan.captures = vec![(plan.offset, rng.below(5) as u64), (plan.offset + 1, 0), (end - 1, rng.below(3) as u64)];
    plan.captures.truncate(rng.between(1, 3));
    plan.annotations = vec![(plan.offset, None, Some("a".to_string())), (plan.offset + 1, Some(1), None), (end, Some(0), Some("\\\"".to_string()))];
    plan.annotations.truncate(rng.between(1, 3));
    plan
}

/// A good recording with a few bytes changed.
fn mutated(rng: &mut Rng) -> ReadingCase {
    let mut case = honest(rng);
    for _ in 0..[1, 1, 1, 2, 5][rng.below(5)] {
        match rng.below(3) {
            0 => change_digit(&mut case.text, rng),
            1 => change_letter(&mut case.text, rng),
            _ => mutate(rng, &mut case.text),
        }
    }
    case
}

/// Another digit in place of one.
fn change_digit(text: &mut [u8], rng: &mut Rng) {
    let places: Vec<usize> = (0..text.len()).filter(|&k| text[k].is_ascii_digit()).collect();
    if !places.is_empty() {
        text[places[rng.below(places.len())]] = b'0' + rng.below(10) as u8;
    }
}

/// Another letter or sign in place of a letter.
fn change_letter(text: &mut [u8], rng: &mut Rng) {
    let places: Vec<usize> = (0..text.len()).filter(|&k| text[k].is_ascii_alphabetic()).collect();
    if !places.is_empty() {
        let letters = b"abcdelrstuvABTZ_-:/0 ";
        text[places[rng.below(places.len())]] = letters[rng.below(letters.len())];
    }
}

/// A good recording with another number in it, or beside another D.
fn nudged(rng: &mut Rng) -> ReadingCase {
    let plan = if rng.once_in(2) { fault_plan(rng) } else { random_plan(rng) };
    let mut recording = if rng.once_in(2) { plan.recording() } else { decorated(&plan, rng) };
    for _ in 0..rng.between(1, 2) {
        if rng.once_in(4) {
            recording.dataset = near(recording.dataset, rng);
            continue;
        }
        let (list, name) = UINTS[rng.below(UINTS.len())];
        let count = recording.list(list).map_or(1, |l| l.len()).max(1);
        let place = (list, rng.below(count));
        let old = number(&mut recording, place, name).unwrap_or([0, plan.offset, plan.samples, plan.width()][rng.below(4)]);
        recording.set(place, name, raw(near(old, rng)));
    }
    written_case(&mut recording, rng)
}

/// The number of a field.
fn number(recording: &mut Recording, place: (&str, usize), name: &str) -> Option<u64> {
    match recording.object(place)?.iter().find(|m| m.0 == name) {
        Some((_, Part::Raw(text))) => text.parse().ok(),
        _ => None,
    }
}

/// A number near another, or far from it.
fn near(x: u64, rng: &mut Rng) -> u64 {
    match rng.below(8) {
        0 | 1 => x.wrapping_add(1),
        2 | 3 => x.wrapping_sub(1),
        4 => x ^ 1 << rng.below(64),
        5 => x.wrapping_add(rng.below(40) as u64),
        6 => u64::MAX - rng.below(3) as u64,
        _ => rng.bits() >> rng.below(64),
    }
}
