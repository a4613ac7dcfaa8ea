use super::{meta, open, EXAMPLE, G};
use crate::json::is_number;
use crate::limits::METADATA_MAX;
use crate::steps::State;
use crate::table::Written;
use crate::table_random::cut_of;
use crate::writer::{metadata_text, one_number, reads_back, write};

/// The paper's recording with a sample rate.
fn rated() -> String {
    EXAMPLE.replacen('{', r#"{"x":[2e6, 8],"#, 1).replace(r#""1.0.0""#, r#""1.0.0", "core:sample_rate" : 2e6 "#)
}

const CUT: &str = concat!(
    r#"{"global":{"core:datatype":"ci16_le","core:version":"1.0.0","core:num_channels":1,"core:offset":4,"#,
    r#""core:trailing_bytes":0,"core:sample_rate":2e6},"#,
    r#""captures":[{"core:sample_start":4,"core:header_bytes":0},{"core:sample_start":10,"core:header_bytes":0}],"#,
    r#""annotations":[{"core:sample_start":4,"core:sample_count":2,"core:label":"gate\nannotation 6 8 \"gate\""}]}"#
);

fn text(state: &State, metadata: &str) -> String {
    metadata_text(&state.table(), metadata.as_bytes()).unwrap()
}

fn refusal(state: &State, metadata: &[u8]) -> u64 {
    let mut output = vec![9; 70_000];
    let written = write(&state.table(), metadata, &mut output);
    let text = &output[..written.count as usize];
    assert!(written.refusal != 0 || reads_back(&state.table(), metadata, text));
    assert!(output[text.len()..].iter().all(|&b| b == 9));
    written.refusal
}

#[test]
fn cut_of_the_example() {
    let metadata = rated();
    let cut = cut_of(&open(&metadata, 108), 4, 12);
    let mut output = vec![1; CUT.len() - 1];
    assert_eq!(write(&cut.table(), metadata.as_bytes(), &mut output), Written::refused(20));
    assert!(output.iter().all(|&b| b == 1));
    output.extend([1, 1]);
    let written = write(&cut.table(), metadata.as_bytes(), &mut output);
    assert_eq!(written, Written { refusal: 0, count: CUT.len() as u64 });
    assert_eq!(output[..CUT.len()], *CUT.as_bytes());
    assert_eq!(output[CUT.len()..], [1]);
    assert!(reads_back(&cut.table(), metadata.as_bytes(), CUT.as_bytes()));
}

#[test]
fn members_left_out() {
    let bare = meta(G, "", "");
    let expected = concat!(
        r#"{"global":{"core:datatype":"ru8","core:version":"1.0.0","core:num_channels":1,"core:offset":0,"core:trailing_bytes":0},"#,
        r#""captures":[],"annotations":[]}"#
    );
    assert_eq!(text(&open(&bare, 0), &bare), expected);
    let notes = meta(G, "", r#"{$s:0,$c:1},{$s:1,$l:""}"#);
    let expected = r#"[{"core:sample_start":0,"core:sample_count":1},{"core:sample_start":1,"core:sample_count":2,"core:label":""}]}"#;
    assert!(text(&open(&notes, 3), &notes).ends_with(expected));
}

#[test]
fn numbers_by_both_judges() {
    let bytes = b"019-+.eE x";
    for length in 0..=5 {
        for k in 0..bytes.len().pow(length) {
            let digits = (0..length).map(|d| k / bytes.len().pow(d) % bytes.len());
            let word: Vec<u8> = digits.map(|d| bytes[d]).collect();
            assert_eq!(one_number(&word), is_number(&word), "{word:?}");
        }
    }
}

#[test]
fn rates() {
    let at = |place: u64, length: u64, metadata: &str| {
        let mut state = open(&meta(G, "", ""), 0);
        (state.summary.rate_place, state.summary.rate_length) = (place, length);
        refusal(&state, metadata.as_bytes())
    };
    for number in ["5", "1e999999", "-0", "0.0E-00", "18446744073709551616"] {
        assert_eq!(at(0, number.len() as u64, number), 0, "{number}");
        assert_eq!(at(2, number.len() as u64, &format!("12{number}34")), 0, "{number}");
    }
    for other in ["5 ", " 5", "-", "01", "1.", "+1", "1e", ".5", "5,", "\"5\"", "null", "٣"] {
        assert_eq!(at(0, other.len() as u64, other), 18, "{other}");
        assert_eq!(at(1, other.len() as u64, &format!(" {other}")), 18, "{other}");
    }
    for (place, length, expected) in [(0, 0, 0), (1, 0, 18), (3, 0, 18), (4, 0, 18), (0, 3, 0), (1, 2, 0), (0, 4, 18), (3, 1, 18), (u64::MAX, 1, 18), (1, u64::MAX, 18)] {
        assert_eq!(at(place, length, "123"), expected, "{place} {length}");
    }
    let zeros = "0".repeat(61_441);
    assert_eq!([at(61_439, 1, &zeros), at(61_440, 1, &zeros)], [0, 18]);
}

#[test]
fn label_places() {
    let at = |place: u64, length: u64, metadata: &[u8]| {
        let mut state = open(&meta(G, "", "{$s:0}"), 0);
        (state.annotations[2], state.annotations[3]) = (place, length);
        refusal(&state, metadata)
    };
    let cases: [(u64, u64, &[u8], u64); 15] = [
        (0, 0, b"", 0), (0, 5, b"\"abcde\"", 18), (1, 0, b"\"\"", 0), (1, 0, b"\"", 18), (1, 1, b"\"a\"", 0), (1, 1, b"\"a", 18),
        (1, 1, b"xa\"", 18), (1, 1, b"\"ax", 18), (1, 1, b"\"\\\"", 18), (1, 3, b"\"a\"b\"", 18), (1, 1, b"\"\n\"", 18),
        (1, 6, b"\"\\ud800\"", 18), (u64::MAX, 1, b"\"a\"", 18), (61_440, 0, b"\"a\"", 18), (1, 1, b"\"\xFF\"", 18),
    ];
    for (place, length, metadata, expected) in cases {
        assert_eq!(at(place, length, metadata), expected, "{place} {length} {metadata:?}");
    }
}

#[test]
fn the_limit() {
    let labelled = |length: usize| {
        let metadata = format!("\"{}\"", "x".repeat(length));
        let mut state = open(&meta(G, "", "{$s:0}"), 0);
        (state.annotations[2], state.annotations[3]) = (1, length as u64);
        (refusal(&state, metadata.as_bytes()), text(&state, &metadata).len())
    };
    let bare = labelled(0).1;
    assert_eq!(labelled(METADATA_MAX - bare), (0, METADATA_MAX));
    assert_eq!(labelled(METADATA_MAX - bare + 1), (20, METADATA_MAX + 1));
}

#[test]
fn other_texts_do_not_read_back() {
    let metadata = rated();
    let cut = cut_of(&open(&metadata, 108), 4, 12);
    for (old, new) in [
        ("2e6", "2e7"), ("2e6", "2e06"), (r#","core:sample_rate":2e6"#, ""), ("offset\":4", "offset\":3"), ("count\":2", "count\":3"),
        ("gate\\n", "gate\\u000a"), ("6 8", "6 9"), (":10", ":9"), ("ci16_le", "ci16_be"), ("bytes\":0", "bytes\":4"), ("[", "[ "),
        (r#""core:trailing_bytes":0,"#, ""), (r#","core:header_bytes":0"#, ""), ("}]}", "}]} "), ("\"global\"", "\"x\":1,\"global\""),
    ] {
        let other = CUT.replacen(old, new, 1);
        assert_ne!(other, CUT);
        assert!(!reads_back(&cut.table(), metadata.as_bytes(), other.as_bytes()), "{old} {new}");
    }
}
