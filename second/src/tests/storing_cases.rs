use crate::fields::datatype_count;
use crate::frames::{read_frames, write_frames, Case};
use crate::rng::Rng;
use crate::stored::{loads_back, stores_back};
use crate::storing_answers::{answer, loaded, stored};
use crate::storing_case::StoringCase;
use crate::storing_cases::{fixed_cases, storing_cases};
use crate::storing_random::raw_file;
use crate::table_random::{cut_of, random_table, range_inside};
use crate::words::memory;
use std::collections::{HashMap, HashSet};

#[test]
fn cuts_of_cuts_load_back() {
    let mut rng = Rng::new(3);
    for _ in 0..500 {
        let mut state = random_table(&mut rng);
        for _ in 0..4 {
            let file = raw_file(&state);
            assert!(loads_back(&state.table(), &file) && stores_back(&state.table(), &file));
            let (a, b) = range_inside(&state, &mut rng);
            state = cut_of(&state, a, b);
        }
    }
}

#[test]
fn same_by_seed() {
    let count = fixed_cases().len() + 300;
    let cases = storing_cases(5, count);
    assert_eq!(cases.len(), count);
    assert_eq!(cases, storing_cases(5, count));
    assert_ne!(cases, storing_cases(6, count));
    assert_eq!(read_frames(&write_frames(&cases)), Ok(cases));
}

#[test]
fn frames_read_back() {
    for frame in fixed_cases() {
        assert_eq!(StoringCase::read(&frame).unwrap().frame(), frame);
    }
    assert_eq!(StoringCase::read(&Case { letter: b'f', payload: vec![0; 15] }), None);
    assert_eq!(StoringCase::read(&Case { letter: b'b', payload: vec![0; 8 * 15 + 1] }), None);
    assert_eq!(StoringCase::read(&Case { letter: b'w', payload: vec![0; 8 * 15] }), None);
}

#[test]
fn stored_size() {
    let cases = storing_cases(1, 3_000);
    assert_eq!(cases.len(), 3_000);
    assert!(fixed_cases().len() < 2_500 && write_frames(&cases).len() < 2_000_000);
}

/// The letter and refusal of a case.
fn refusal(frame: &Case) -> (char, u64) {
    match StoringCase::read(frame).unwrap() {
        StoringCase::Store(case) => ('b', stored(&case).0.refusal),
        StoringCase::Load(case) => ('f', loaded(&case).0.refusal),
    }
}

#[test]
fn every_answer_occurs() {
    let fixed = fixed_cases();
    let random = storing_cases(1, fixed.len() + 1_000).split_off(fixed.len());
    for cases in [fixed, random] {
        let mut seen: HashMap<(char, u64), usize> = HashMap::new();
        for frame in &cases {
            *seen.entry(refusal(frame)).or_default() += 1;
        }
        let expected = [('b', 0), ('b', 18), ('b', 20), ('f', 0), ('f', 18), ('f', 20), ('f', 21), ('f', 22)];
        for key in expected {
            let count = seen.get(&key).copied().unwrap_or(0);
            assert!(count >= 20, "{key:?}: {count}");
        }
        assert_eq!(seen.len(), expected.len(), "{seen:?}");
    }
}

#[test]
fn every_datatype_is_loaded() {
    let mut codes = HashSet::new();
    for frame in fixed_cases() {
        if let Some(StoringCase::Load(case)) = StoringCase::read(&frame) {
            let summary = loaded(&case).0;
            codes.extend((summary.refusal == 0).then_some(summary.code));
        }
    }
    assert_eq!(codes, (0..datatype_count()).collect());
}

#[test]
fn answer_lines() {
    let lines: Vec<String> = fixed_cases().iter().take(4).map(|frame| answer(frame).unwrap()).collect();
    assert!(lines[0].starts_with("b 0 197 "));
    assert!(lines[1].starts_with("f 0 16 1 4 0 0 25 108 2 1 0 0 "));
    assert!(lines[2].starts_with("b 20 0 "));
    let (five, two) = (crate::frames::checksum(memory(5)), crate::frames::checksum([200, 201]));
    assert_eq!(answer(&StoringCase::load(b"SGT", 5, 2).frame()), Some(format!("f 21 0 0 0 0 0 0 0 0 0 0 0 {five} {two}")));
}
