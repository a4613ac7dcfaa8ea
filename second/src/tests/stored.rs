use super::{meta, open, EXAMPLE, G};
use crate::steps::State;
use crate::stored::{file_of, load, loads_back, store, stored, stores_back};
use crate::table::{Summary, Written};
use crate::table_random::cut_of;

/// The file of a state's numbers.
fn file(state: &State) -> Vec<u8> {
    file_of(&state.summary, &state.captures, &state.annotations)
}

/// A file loaded into so many numbers; a refusal leaves them as they were.
fn loaded(file: &[u8], captures: usize, annotations: usize) -> Result<State, u64> {
    let (mut rows, mut notes) = (vec![9; captures], vec![9; annotations]);
    let summary = load(file, &mut rows, &mut notes);
    if summary.refusal != 0 {
        assert_eq!(summary, Summary::refused(summary.refusal));
        assert!(rows.iter().chain(&notes).all(|&x| x == 9));
        return Err(summary.refusal);
    }
    Ok(State { summary, captures: rows, annotations: notes, dataset: Vec::new() })
}

/// The refusal of a file with plenty of room.
fn refusal(file: &[u8]) -> u64 {
    loaded(file, 100, 100).err().unwrap_or(0)
}

#[test]
fn bytes_of_the_example() {
    let state = open(EXAMPLE, 108);
    let place = EXAMPLE.find("gate").unwrap() as u8;
    let numbers: [u8; 24] = [0, 16, 1, 4, 0, 0, 25, 108, 2, 1, 0, 0, 0, 10, 0, 0, 10, 25, 48, 8, 4, 6, place, 29];
    let mut expected = b"SGT\x01\x00".to_vec();
    for number in numbers {
        expected.extend([number, 0, 0, 0, 0, 0, 0, 0]);
    }
    assert_eq!(stored(&state.table()), expected);
    assert_eq!(loaded(&expected, 8, 4), Ok(state));
}

#[test]
fn bytes_of_a_large_number() {
    let offset = 0x0102_0304_0506_0708u64;
    let state = open(&meta(&format!(r#"{G},"core:offset":{offset}"#), "", ""), 0);
    assert_eq!(stored(&state.table())[37..45], [8, 7, 6, 5, 4, 3, 2, 1]);
}

#[test]
fn rooms() {
    let state = open(EXAMPLE, 108);
    let whole = stored(&state.table());
    for room in [0, 1, 5, 101, 196] {
        let mut output = vec![7; room];
        assert_eq!(store(&state.table(), &mut output), Written::refused(20));
        assert!(output.iter().all(|&b| b == 7));
    }
    let mut output = vec![7; 200];
    assert_eq!(store(&state.table(), &mut output), Written { refusal: 0, count: 197 });
    assert_eq!(output, [&whole[..], &[7, 7, 7]].concat());
    for (captures, annotations) in [(7, 4), (8, 3), (0, 0), (7, 100), (100, 3)] {
        assert_eq!(loaded(&whole, captures, annotations), Err(20));
    }
    let back = loaded(&whole, 11, 5).unwrap();
    assert_eq!((&back.captures[..8], &back.captures[8..]), (&state.captures[..], &[9; 3][..]));
    assert_eq!((&back.annotations[..4], &back.annotations[4..]), (&state.annotations[..], &[9][..]));
}

#[test]
fn lengths() {
    let whole = file(&open(EXAMPLE, 108));
    for length in 0..whole.len() {
        assert_eq!(refusal(&whole[..length]), if length < 5 { 21 } else { 22 });
    }
    assert_eq!(refusal(&[&whole[..], &[0]].concat()), 22);
    assert_eq!(refusal(b"SGT\x02\x00"), 21);
    assert_eq!(refusal(b"SGT\x00\x01"), 21);
}

#[test]
fn counts_do_not_wrap() {
    let state = open(EXAMPLE, 108);
    for (captures, annotations) in [(2 + (1 << 59), 1), (2, 1 + (1 << 59)), (2 + (1 << 60), 1), (u64::MAX, 4), (4, u64::MAX), (1 << 63, (1 << 63) + 3)] {
        let mut other = state.clone();
        (other.summary.captures, other.summary.annotations) = (captures, annotations);
        assert_eq!(refusal(&file(&other)), 22, "{captures} {annotations}");
    }
}

#[test]
fn order_of_refusals() {
    let state = open(EXAMPLE, 108);
    let mut forged = state.clone();
    forged.captures[1] = 9;
    let whole = file(&forged);
    let other_version = [b"SGT\x02", &whole[4..]].concat();
    assert_eq!(loaded(&other_version[..150], 0, 0), Err(21));
    assert_eq!(loaded(&whole[..150], 0, 0), Err(22));
    assert_eq!(loaded(&whole, 0, 0), Err(18));
    assert_eq!(loaded(&file(&state), 0, 0), Err(20));
    assert_eq!(store(&forged.table(), &mut []), Written::refused(18));
    assert_eq!(store(&state.table(), &mut []), Written::refused(20));
    assert_eq!(refusal(&file(&open(EXAMPLE, 107))), 18);
}

#[test]
fn the_wrong_bytes_are_seen() {
    let state = cut_of(&open(EXAMPLE, 108), 4, 12);
    let whole = stored(&state.table());
    assert!(loads_back(&state.table(), &whole) && stores_back(&state.table(), &whole));
    for at in 0..whole.len() {
        let mut other = whole.clone();
        other[at] ^= 1;
        assert!(!loads_back(&state.table(), &other) && !stores_back(&state.table(), &other), "{at}");
    }
    assert!(!stores_back(&state.table(), &whole[..whole.len() - 1]));
}
