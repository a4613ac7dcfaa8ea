use crate::frames::{read_frames, write_frames};
use crate::reading_answers::{answer, result};
use crate::reading_case::ReadingCase;
use crate::reading_cases::{fixed_cases, paired_faults, reading_cases, single_faults};
use crate::reading_random::random_case;
use crate::recording_random::random_recording;
use crate::part::random_style;
use crate::rng::Rng;
use crate::table::Summary;
use crate::words::memory;
use std::collections::HashMap;

#[test]
fn same_by_seed() {
    let count = fixed_cases().len() + 200;
    let cases = reading_cases(5, count);
    assert_eq!(cases.len(), count);
    assert_eq!(cases, reading_cases(5, count));
    assert_ne!(cases, reading_cases(6, count));
    assert_eq!(read_frames(&write_frames(&cases)), Ok(cases));
}

#[test]
fn frames_read_back() {
    for case in fixed_cases() {
        assert_eq!(ReadingCase::read(&case.frame().payload), Some(case));
    }
    assert_eq!(ReadingCase::read(&[0; 23]), None);
}

#[test]
fn stored_size() {
    let cases = reading_cases(1, 3_000);
    assert_eq!(cases.len(), 3_000);
    assert!(write_frames(&cases).len() < 3_000_000);
}

#[test]
fn faults_alone() {
    for (number, case) in single_faults() {
        assert_eq!(result(&case).0, Summary::refused(number), "{}", String::from_utf8_lossy(&case.text));
    }
}

#[test]
fn faults_in_pairs() {
    for (number, case) in paired_faults() {
        assert_eq!(result(&case).0, Summary::refused(number), "{}", String::from_utf8_lossy(&case.text));
    }
}

#[test]
fn random_recordings_are_accepted() {
    let mut rng = Rng::new(3);
    for _ in 0..2_000 {
        let mut recording = random_recording(&mut rng);
        let style = random_style(&mut rng);
        let case = ReadingCase::of(&mut recording, style, &mut rng);
        let (summary, captures, annotations) = result(&case);
        let plan = &recording.plan;
        assert_eq!(summary.refusal, 0, "{}", String::from_utf8_lossy(&case.text));
        assert_eq!((summary.code, summary.channels, summary.width), (plan.code, plan.channels, plan.width()));
        assert_eq!((summary.offset, summary.trailing, summary.samples), (plan.offset, plan.trailing, plan.samples));
        let starts: Vec<(u64, u64)> = captures.chunks(4).map(|r| (r[0], r[3])).collect();
        assert_eq!(starts, plan.captures);
        for (row, (start, count, label)) in annotations.chunks(4).zip(&plan.annotations) {
            assert_eq!((row[0], row[1]), (*start, count.map_or(recording.end(), |c| start + c)));
            let part = &case.text[row[2] as usize..(row[2] + row[3]) as usize];
            assert_eq!(part, label.as_deref().unwrap_or_default().as_bytes());
        }
    }
}

#[test]
fn every_refusal_occurs() {
    let mut fixed: HashMap<u64, usize> = HashMap::new();
    let mut random = fixed.clone();
    for case in fixed_cases() {
        *fixed.entry(result(&case).0.refusal).or_default() += 1;
    }
    let mut rng = Rng::new(1);
    for _ in 0..1_500 {
        *random.entry(result(&random_case(&mut rng)).0.refusal).or_default() += 1;
    }
    for number in (0..=17).chain([20]) {
        let seen = |map: &HashMap<u64, usize>| map.get(&number).copied().unwrap_or(0);
        assert!(seen(&fixed) >= 20 && seen(&random) >= 5, "{number}: {} and {}", seen(&fixed), seen(&random));
    }
    assert_eq!((fixed.len(), random.len()), (19, 19));
}

#[test]
fn answer_lines() {
    let case = ReadingCase { dataset: 3, captures: 5, annotations: 2, text: b"{}".to_vec() };
    let (five, two) = (crate::frames::checksum(memory(5)), crate::frames::checksum([200, 201]));
    assert_eq!(answer(&case.frame()), Some(format!("r 4 0 0 0 0 0 0 0 0 0 0 0 {five} {two}")));
}
