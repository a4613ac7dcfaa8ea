use super::table::random_state;
use super::{open, EXAMPLE};
use crate::rng::Rng;
use crate::steps::{run_step, Model, State, Step};

fn agree(state: &State, model: &Model) {
    let (summary, captures, annotations, dataset) = model.content();
    assert_eq!(state.content(), (summary, captures, annotations, &dataset[..]));
}

#[test]
fn example() {
    let mut state = open(EXAMPLE, 108);
    state.dataset = (0..108).collect();
    let step = |a, b, capture_room, byte_room| Step { a, b, capture_room, annotation_room: 4, byte_room };
    assert_eq!(run_step(&mut state, &step(4, 12, 7, 32)), (20, 0));
    assert_eq!(run_step(&mut state, &step(4, 12, 8, 31)), (0, 20));
    assert_eq!(state.dataset.len(), 108);
    assert_eq!(run_step(&mut state, &step(4, 12, 9, 1000)), (0, 0));
    assert_eq!(state.dataset.len(), 32);
    assert_eq!(run_step(&mut state, &step(3, 12, 9, 1000)), (19, 19));
    assert_eq!(run_step(&mut state, &step(11, 12, 4, 4)), (0, 0));
    assert_eq!(state.dataset, [52, 53, 54, 55]);
}

#[test]
fn model_agrees() {
    let mut rng = Rng::new(11);
    for _ in 0..1_000 {
        let mut state = random_state(&mut rng);
        if rng.once_in(10) {
            state.dataset.push(0);
        }
        let mut model = Model::new(state.clone());
        for _ in 0..8 {
            let s = state.summary;
            let mut near = || s.offset.wrapping_sub(1).wrapping_add(rng.below(s.samples as usize + 3) as u64);
            let (x, y) = (near(), near());
            let (a, b) = if rng.once_in(5) { (x, y) } else { (x.min(y), x.max(y)) };
            let step = Step { a, b, capture_room: rng.below(40), annotation_room: rng.below(20), byte_room: rng.below(400) };
            assert_eq!(run_step(&mut state, &step), model.step(&step));
            agree(&state, &model);
        }
    }
}
