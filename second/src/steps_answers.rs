//! The expected answer line of each case about steps.

use crate::frames::{checksum, Case};
use crate::steps::{run_step, Model, State};
use crate::steps_case::StepsCase;
use crate::table_case::summary_numbers;

/// The answer line of a case, without its line feed; none for a broken case.
pub fn answer(case: &Case) -> Option<String> {
    if case.letter != b'z' {
        return None;
    }
    let (mut numbers, last) = run(&StepsCase::read(&case.payload)?);
    let (summary, captures, annotations, dataset) = last.content();
    numbers.extend(summary_numbers(&summary));
    numbers.extend([checksum(captures.concat()), checksum(annotations.concat())]);
    numbers.push(checksum(dataset.iter().map(|&b| u64::from(b))));
    let words: Vec<String> = numbers.iter().map(u64::to_string).collect();
    Some(format!("z {}", words.join(" ")))
}

/// Each step's refusal, the cut's or else the copy's, and what is left at the end.
/// The steps are run, and after each one all is compared with the model that keeps
/// only the original and the last accepted range.
pub fn run(case: &StepsCase) -> (Vec<u64>, State) {
    let mut state = case.state.clone();
    let mut model = Model::new(case.state.clone());
    let mut numbers = Vec::new();
    for step in &case.steps {
        let (cut, copy) = run_step(&mut state, step);
        assert_eq!((cut, copy), model.step(step), "{step:?}");
        let (summary, captures, annotations, dataset) = model.content();
        assert_eq!(state.content(), (summary, captures, annotations, &dataset[..]), "{step:?}");
        numbers.push(if cut == 0 { copy } else { cut });
    }
    (numbers, state)
}
