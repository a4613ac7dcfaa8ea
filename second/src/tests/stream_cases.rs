use crate::frames::{read_frames, write_frames, Case};
use crate::stream::State;
use crate::stream_answers::{answer, fed_chunks, fed_states, Answer};
use crate::stream_case::{Chunk, StreamCase};
use crate::stream_cases::{fixed_cases, stream_cases};
use std::collections::HashSet;

#[test]
fn same_by_seed() {
    let count = fixed_cases().len() + 300;
    let cases = stream_cases(5, count);
    assert_eq!(cases.len(), count);
    assert_eq!(cases, stream_cases(5, count));
    assert_ne!(cases, stream_cases(6, count));
    assert_eq!(read_frames(&write_frames(&cases)), Ok(cases));
}

#[test]
fn frames_read_back() {
    for frame in stream_cases(1, 3_000) {
        assert_eq!(StreamCase::read(&frame).unwrap().frame(), frame);
    }
    let case = |letter, numbers: &[u64]| Case { letter, payload: crate::words::bytes_of(numbers) };
    assert_eq!(StreamCase::read(&case(b'h', &[0, 0])), Some(StreamCase::Chunks(None, Vec::new())));
    assert_eq!(StreamCase::read(&case(b'i', &[0; 9])), Some(StreamCase::States(State::of([0; 4]), [0; 4], 0)));
    let broken = [
        case(b'h', &[]), case(b'h', &[0]), case(b'h', &[5, 0, 0, 0, 0, 0, 0]), case(b'h', &[3, 0, 0, 0, 0]), case(b'h', &[0, 1]), case(b'h', &[0, 1, 1, 1]),
        case(b'h', &[0, 1, 1, 0]), case(b'h', &[0, 0, 0]), case(b'h', &[0, 2, 0, 0]), case(b'h', &[0, 1, 65_537, 8, 0]), case(b'i', &[0; 8]),
        case(b'i', &[0; 10]), case(b'i', &[0, 0, 0, 0, 0, 0, 0, 0, 257]), case(b'f', &[0, 0]),
    ];
    assert!(broken.iter().all(|frame| StreamCase::read(frame).is_none()));
}

#[test]
fn stored_size() {
    let cases = stream_cases(1, 3_000);
    assert_eq!(cases.len(), 3_000);
    assert!(fixed_cases().len() < 2_300 && write_frames(&cases).len() < 600_000);
}

fn answers(frame: &Case) -> Vec<Answer> {
    match StreamCase::read(frame).unwrap() {
        StreamCase::Chunks(start, chunks) => fed_chunks(start, &chunks),
        StreamCase::States(first, step, count) => fed_states(&first, &step, count),
    }
}

#[test]
fn every_answer_occurs() {
    let fixed = fixed_cases();
    let random = stream_cases(1, fixed.len() + 500).split_off(fixed.len());
    for cases in [fixed, random] {
        let all: Vec<Answer> = cases.iter().flat_map(answers).collect();
        for finish in [0, 1, 2, 18] {
            assert!(all.iter().filter(|answer| answer.1 == finish).count() >= 20, "{finish}");
        }
        assert!(all.iter().any(|(fed, _)| fed.state.stack == (1 << 33) - 1 || fed.state.stack == 1 << 32));
        assert!(all.iter().any(|(fed, _)| fed.lost && fed.state.count == 61_441));
    }
}

#[test]
fn every_state_occurs() {
    let all = fixed_cases().into_iter().flat_map(|frame| answers(&frame)).filter(|(_, finish)| *finish != 18);
    let states: HashSet<(u64, u64)> = all.map(|(fed, _)| (fed.state.place, fed.state.token)).collect();
    let expected = (1..=6).map(|place| (place, 0)).chain((1..=20).map(|token| (4, token))).chain((1..38).map(|token| (5, token)));
    assert_eq!(states, expected.collect());
}

#[test]
fn answer_lines() {
    let sum = |numbers: &[u64]| crate::frames::checksum(numbers.iter().flat_map(|x| [x % (1 << 32), x >> 32]));
    let line = |case: StreamCase| answer(&case.frame()).unwrap();
    let start = [0, 0, 1, 0, 1, 0, 1];
    assert_eq!(line(StreamCase::Chunks(None, Vec::new())), format!("h {} 0 0 1 0 1 0 1", sum(&start)));
    let fed = [0, 0, 2, 0, 1 << 32, 32, 2];
    let full = StreamCase::Chunks(None, vec![Chunk { size: 32, part: b"[".to_vec() }]);
    assert_eq!(line(full), format!("h {} 0 0 2 0 4294967296 32 2", sum(&[start, fed].concat())));
    let refused = StreamCase::Chunks(Some(State::of([0; 4])), vec![Chunk::once(b"0")]);
    let all = [0, 0, 0, 0, 0, 0, 18, 18, 0, 0, 0, 0, 0, 18];
    assert_eq!(line(refused), format!("h {} 18 0 0 0 0 0 18", sum(&all)));
    let row = StreamCase::States(State::of([5, 22, 1, 0]), [0, 0, 0, 1], 2);
    assert_eq!(line(row), format!("i 1 {}", sum(&[18, 0, 0, 0, 0, 0, 18, 0, 1, 6, 0, 0, 2, 0])));
}
