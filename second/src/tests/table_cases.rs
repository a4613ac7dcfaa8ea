use crate::frames::{read_frames, write_frames};
use crate::table_answers::answer;
use crate::table_case::TableCase;
use crate::table_cases::{fixed_cases, table_cases};
use std::collections::HashMap;

#[test]
fn same_by_seed() {
    let count = fixed_cases().len() + 300;
    let cases = table_cases(5, count);
    assert_eq!(cases.len(), count);
    assert_eq!(cases, table_cases(5, count));
    assert_ne!(cases, table_cases(6, count));
    assert_eq!(read_frames(&write_frames(&cases)), Ok(cases));
}

#[test]
fn frames_read_back() {
    for case in fixed_cases() {
        let frame = case.frame();
        assert_eq!(TableCase::read(&frame.payload), Some(case));
        assert_eq!(TableCase::read(&frame.payload[1..]), None);
    }
}

#[test]
fn every_answer_occurs() {
    let mut seen: HashMap<(u64, String), usize> = HashMap::new();
    for frame in table_cases(1, 3_000) {
        let line = answer(&frame).unwrap();
        let first = line.split(' ').nth(1).unwrap().to_string();
        let case = TableCase::read(&frame.payload).unwrap();
        *seen.entry((case.operation, first)).or_default() += 1;
    }
    for (operation, firsts) in [(0, "0 1"), (1, "0 18 19"), (2, "0 18 19 20"), (3, "0 18 19 20"), (4, "0 18 19 20")] {
        for first in firsts.split(' ') {
            let count = seen.get(&(operation, first.to_string())).copied().unwrap_or(0);
            assert!(count >= 10, "{operation} {first}: {count}");
        }
    }
}
