use crate::frames::{read_frames, write_frames};
use crate::rng::Rng;
use crate::steps::{run_step, Model};
use crate::steps_answers::{answer, run};
use crate::steps_case::StepsCase;
use crate::steps_cases::{fixed_cases, steps_cases};
use crate::steps_random::random_case;
use crate::table_random::needs;
use std::collections::HashMap;

#[test]
fn same_by_seed() {
    let count = fixed_cases().len() + 200;
    let cases = steps_cases(5, count);
    assert_eq!(cases.len(), count);
    assert_eq!(cases, steps_cases(5, count));
    assert_ne!(cases, steps_cases(6, count));
    assert_eq!(read_frames(&write_frames(&cases)), Ok(cases));
}

#[test]
fn frames_read_back() {
    for case in fixed_cases() {
        let frame = case.frame();
        assert_eq!(StepsCase::read(&frame.payload), Some(case));
        assert_eq!(StepsCase::read(&frame.payload[8..]), None);
    }
}

/// What a case shows, by name.
fn shown(case: &StepsCase) -> Vec<&'static str> {
    let mut list = Vec::new();
    let (mut state, mut model) = (case.state.clone(), Model::new(case.state.clone()));
    let mut accepted = 0;
    for step in &case.steps {
        let was = model.range;
        let need = needs(&state.table(), step.a, step.b);
        let few_captures = 4 * need.captures > step.capture_room as u64;
        let few_annotations = 4 * need.annotations > step.annotation_room as u64;
        let refusals = run_step(&mut state, step);
        assert_eq!(refusals, model.step(step));
        let fresh = Model::new(case.state.clone()).step(step);
        list.push(match refusals {
            (0, 0) if accepted > 0 && step.a == step.b => "empty after a cut",
            (0, 0) if accepted > 0 => "accepted after a cut",
            (0, 0) => "accepted",
            (18, 18) => "18",
            (19, 19) if fresh.0 != 19 => "19 after a cut alone",
            (19, 19) if step.a > step.b => "19 turned round",
            (19, 19) => "19",
            (20, 20) => "20 of rows and bytes",
            (20, 0) if few_captures && few_annotations => "20 of both rows",
            (20, 0) if few_captures => "20 of captures",
            (20, 0) => "20 of annotations",
            (0, 20) => "20 of bytes",
            _ => "other",
        });
        if refusals == (0, 0) {
            accepted += 1;
            if step.byte_room as u64 > state.summary.dataset {
                list.push("output longer than the bytes");
            }
            if was == model.range {
                list.push("the same range again");
            }
        } else if accepted > 0 {
            list.push("refused after a cut");
        }
    }
    list
}

#[test]
fn every_clause_occurs() {
    let mut rng = Rng::new(1);
    let random: Vec<StepsCase> = (0..1_500).map(|_| random_case(&mut rng)).collect();
    for cases in [fixed_cases(), random] {
        let mut seen: HashMap<&str, usize> = HashMap::new();
        for name in cases.iter().flat_map(shown) {
            *seen.entry(name).or_default() += 1;
        }
        for name in [
            "accepted", "accepted after a cut", "empty after a cut", "18", "19", "19 turned round",
            "19 after a cut alone", "20 of captures", "20 of annotations", "20 of bytes",
            "output longer than the bytes", "the same range again", "refused after a cut",
        ] {
            let count = seen.get(name).copied().unwrap_or(0);
            assert!(count >= 8, "{name}: {count}");
        }
        assert!(!seen.contains_key("other"));
    }
}

#[test]
fn text_places_stay() {
    for case in fixed_cases() {
        let (before, (_, last)) = (case.state.summary, run(&case));
        let after = last.summary;
        assert_eq!((before.rate_place, before.rate_length, before.code, before.width), (after.rate_place, after.rate_length, after.code, after.width));
        assert_eq!(last.dataset.len() as u64, after.dataset);
    }
}

#[test]
fn answer_lines() {
    let mut case = fixed_cases().remove(0);
    case.steps.clear();
    let line = answer(&case.frame()).unwrap();
    assert!(line.starts_with("z 0 16 1 4 0 0 25 108 2 1 0 0 "), "{line}");
    assert_eq!(line.split(' ').count(), 16);
}
