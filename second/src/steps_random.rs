//! Random tables with small datasets, and steps on them.

use crate::part::{raw, written, Style};
use crate::recording::Plan;
use crate::recording_random::{label, random_code};
use crate::rng::Rng;
use crate::steps::{run_step, State, Step};
use crate::steps_case::{StepsCase, BYTES_MAX, NUMBERS_MAX};
use crate::table_forged::FORGERIES;
use crate::table_random::{needs, open, point, range_inside, starts};
use crate::words::dataset_bytes;

/// One random case.
pub fn random_case(rng: &mut Rng) -> StepsCase {
    let honest = random_table(rng);
    let mut state = honest.clone();
    if rng.once_in(8) {
        FORGERIES[rng.below(FORGERIES.len())](&mut state, rng);
    }
    let count = if rng.once_in(10) { rng.between(12, 30) } else { rng.below(9) };
    let case = StepsCase::new(&state, &[]).or_else(|| StepsCase::new(&honest, &[]));
    let state = case.expect("the plan keeps to the limits").state;
    let steps = random_steps(&state, count, rng);
    StepsCase { state, steps }
}

/// A table whose dataset is short, by the reader.
pub fn random_table(rng: &mut Rng) -> State {
    let mut plan = Plan { code: random_code(rng), channels: [1, 1, 2, 3, 8][rng.below(5)], ..Plan::default() };
    plan.samples = rng.below(61) as u64 % (1_500 / plan.width() + 1);
    plan.offset = match rng.below(5) {
        0 | 1 => 0,
        2 => rng.below(70) as u64,
        3 => u64::MAX - plan.samples - rng.below(2) as u64,
        _ => rng.bits() >> rng.between(1, 50),
    };
    plan.trailing = if rng.once_in(3) { rng.below(20) as u64 } else { 0 };
    let count = |rng: &mut Rng| if rng.once_in(12) { rng.between(10, 30) } else { rng.below(7) };
    let (captures, annotations) = (count(rng), count(rng));
    plan.captures = starts(captures, plan.offset, plan.samples, rng).iter().map(|&s| (s, [0, 0, 1, 4, 9][rng.below(5)])).collect();
    let notes = starts(annotations, plan.offset, plan.samples, rng);
    plan.annotations = notes.iter().map(|&s| (s, random_count(plan.offset + plan.samples - s, rng), label(rng))).collect();
    let mut recording = plan.recording();
    if rng.once_in(2) {
        recording.set(("global", 0), "core:sample_rate", raw("1e6"));
    }
    open(&written(&recording.top, Style::default(), rng), recording.dataset)
}

fn random_count(left: u64, rng: &mut Rng) -> Option<u64> {
    match rng.below(5) {
        0 => None,
        1 => Some(left),
        _ => Some(rng.bits() % left.saturating_add(1).max(1)),
    }
}

/// Steps on a table, each chosen by what the ones before have left.
fn random_steps(state: &State, count: usize, rng: &mut Rng) -> Vec<Step> {
    let mut now = State { dataset: dataset_bytes(state.summary.dataset), ..state.clone() };
    let mut steps = Vec::new();
    for _ in 0..count {
        let step = random_step(state, &now, rng);
        run_step(&mut now, &step);
        steps.push(step);
    }
    steps
}

fn random_step(original: &State, now: &State, rng: &mut Rng) -> Step {
    let (a, b) = random_range(original, now, rng);
    let need = needs(&now.table(), a, b);
    let short = if rng.once_in(4) { rng.between(1, 3) } else { 0 };
    let room = |need: u64, most: u64, short: bool, rng: &mut Rng| {
        let size = match rng.below(4) {
            _ if short => need.saturating_sub(rng.between(1, 4) as u64),
            0 => need + rng.below(9) as u64,
            1 => need + rng.below(200) as u64,
            _ => need,
        };
        size.min(most) as usize
    };
    Step {
        a,
        b,
        capture_room: room(4 * need.captures, NUMBERS_MAX, short == 1, rng),
        annotation_room: room(4 * need.annotations, NUMBERS_MAX, short == 2, rng),
        byte_room: room(need.bytes, BYTES_MAX, short == 3, rng),
    }
}

/// A range: mostly most of what is left, else the whole, any, or outside.
fn random_range(original: &State, now: &State, rng: &mut Rng) -> (u64, u64) {
    let (low, end) = (now.summary.offset, now.summary.offset.wrapping_add(now.summary.samples));
    let width = now.summary.samples / 6 + 1;
    match rng.below(12) {
        0..=4 => {
            let (less, more) = (rng.bits() % width, rng.bits() % width);
            (low.wrapping_add(less), end.wrapping_sub(more))
        }
        5 => (low, end),
        6 | 7 => range_inside(now, rng),
        8 => range_inside(original, rng),
        9 => (low.wrapping_sub(1), end),
        10 => (low, end.wrapping_add(1)),
        _ => (point(now, rng), point(now, rng)),
    }
}
