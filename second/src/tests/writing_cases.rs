use crate::frames::{read_frames, write_frames};
use crate::limits::METADATA_MAX;
use crate::listing_case::ListingCase;
use crate::listing_labels::LABELS;
use crate::listing_random::{labelled_recording, opened};
use crate::rng::Rng;
use crate::table_random::{cut_of, range_inside};
use crate::writer::{metadata_text, reads_back};
use crate::writing_answers::{answer, result};
use crate::writing_cases::{fixed_cases, writing_cases};
use crate::writing_random::recorded;
use std::collections::HashMap;

#[test]
fn cuts_of_cuts_read_back() {
    let mut rng = Rng::new(3);
    for _ in 0..500 {
        let (mut state, metadata) = recorded(&mut rng);
        for _ in 0..5 {
            let text = metadata_text(&state.table(), &metadata).unwrap();
            assert!(reads_back(&state.table(), &metadata, text.as_bytes()));
            let (a, b) = range_inside(&state, &mut rng);
            state = cut_of(&state, a, b);
        }
    }
}

#[test]
fn same_text_however_recorded() {
    let mut rng = Rng::new(6);
    let mut labels: Vec<Option<String>> = LABELS.iter().map(|label| Some(label.to_string())).collect();
    labels.push(None);
    for labels in labels.chunks(3) {
        let recording = labelled_recording(labels, &mut rng);
        let (one, other) = (opened(&recording, &mut rng), opened(&recording, &mut rng));
        let text = metadata_text(&one.0.table(), &one.1).unwrap();
        assert_eq!(metadata_text(&other.0.table(), &other.1), Some(text.clone()));
        for label in labels.iter().flatten() {
            assert!(text.contains(&format!("\"core:label\":\"{label}\"}}")));
        }
    }
}

#[test]
fn same_by_seed() {
    let count = fixed_cases().len() + 300;
    let cases = writing_cases(5, count);
    assert_eq!(cases.len(), count);
    assert_eq!(cases, writing_cases(5, count));
    assert_ne!(cases, writing_cases(6, count));
    assert_eq!(read_frames(&write_frames(&cases)), Ok(cases));
}

#[test]
fn frames_read_back() {
    for frame in fixed_cases() {
        assert_eq!(ListingCase::read(&frame).unwrap().frame(), frame);
    }
}

/// What a case shows, by name.
fn shown(case: &ListingCase) -> &'static str {
    let (written, _) = result(case);
    match metadata_text(&case.table(), &case.metadata).map(|text| text.len() as u64) {
        None => "18",
        Some(_) if case.number == 0 => "no room",
        Some(n) if n > METADATA_MAX as u64 && case.number >= n => "over the limit",
        Some(n) if case.number + 1 == n => "one short",
        Some(n) if case.number < n => "short",
        Some(n) if n == METADATA_MAX as u64 => "at the limit",
        Some(n) if case.number == n => "just enough",
        Some(n) => {
            assert_eq!((written.refusal, written.count), (0, n));
            "more than enough"
        }
    }
}

#[test]
fn every_answer_occurs() {
    let fixed = fixed_cases();
    let random = writing_cases(1, fixed.len() + 3_000).split_off(fixed.len());
    let names = ["18", "no room", "one short", "short", "just enough", "more than enough", "over the limit", "at the limit"];
    for cases in [fixed, random] {
        let mut seen: HashMap<&str, usize> = HashMap::new();
        for frame in &cases {
            *seen.entry(shown(&ListingCase::read(frame).unwrap())).or_default() += 1;
        }
        for name in names {
            let count = seen.get(name).copied().unwrap_or(0);
            assert!(count >= 2, "{name}: {count}");
        }
        assert_eq!(seen.len(), names.len(), "{seen:?}");
    }
}

#[test]
fn answer_lines() {
    let lines: Vec<String> = fixed_cases().iter().take(4).map(|frame| answer(frame).unwrap()).collect();
    assert_eq!(lines[0].split(' ').take(3).collect::<Vec<_>>(), ["w", "0", "336"]);
    assert_eq!(lines[3], "w 20 0 7");
}
