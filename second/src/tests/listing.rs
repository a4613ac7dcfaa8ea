use super::{meta, open, EXAMPLE, G};
use crate::listing::{first_line, label, listing, program, shown_label, Label, PROGRAM_BYTES};
use crate::table::Written;

const LISTING: &str = "recording ci16_le channels 1 offset 0 samples 25
capture 0 10 0 0
capture 10 25 48 8
annotation 4 6 \"gate\\x0aannotation 6 8 \\x22gate\\x22\"
";

fn run(input: &str) -> String {
    String::from_utf8(program(input.as_bytes())).unwrap()
}

#[test]
fn example() {
    assert_eq!(run(&format!("108\n{EXAMPLE}")), LISTING);
    assert_eq!(run(&format!("000108\n{EXAMPLE}")), LISTING);
    assert_eq!(run(&format!("107\n{EXAMPLE}")), "refused 16\n");
    let state = open(EXAMPLE, 108);
    let mut output = vec![1; LISTING.len() - 1];
    assert_eq!(listing(&state.table(), EXAMPLE.as_bytes(), &mut output), Written::refused(20));
    assert!(output.iter().all(|&b| b == 1));
    output.extend([1, 1]);
    let written = listing(&state.table(), EXAMPLE.as_bytes(), &mut output);
    assert_eq!(written, Written { refusal: 0, count: LISTING.len() as u64 });
    assert_eq!(output[..LISTING.len()], *LISTING.as_bytes());
    assert_eq!(output[LISTING.len()..], [1]);
}

#[test]
fn first_lines() {
    let text = meta(G, "", "");
    for bad in ["18446744073709551616\n", "99999999999999999999\n", "000000000000000000000\n", "1\r\n", "+1\n", "-0\n", " 1\n", "1 \n", "\n", "1"] {
        assert_eq!(run(&format!("{bad}{text}")), "refused 1\n", "{bad:?}");
    }
    assert_eq!(run(""), "refused 1\n");
    assert_eq!(run("1\n"), "refused 1\n");
    assert_eq!(run("1\n "), "refused 2\n");
    assert_eq!(run(&format!("00000000000000000001\n{text}")), "recording ru8 channels 1 offset 0 samples 1\n");
    assert_eq!(first_line(b"12\nab"), Some((12, &b"ab"[..])));
    let padded = |n: usize| format!("0\n{text}{}", " ".repeat(n - text.len()));
    assert_eq!(run(&padded(61_440)), "recording ru8 channels 1 offset 0 samples 0\n");
    assert_eq!(run(&padded(61_441)), "refused 1\n");
}

#[test]
fn program_rooms() {
    let many = |n: usize| vec!["{$s:0}"; n].join(",");
    assert!(run(&format!("0\n{}", meta(G, &many(1024), &many(1024)))).starts_with("recording"));
    assert_eq!(run(&format!("0\n{}", meta(G, &many(1025), ""))), "refused 20\n");
    assert_eq!(run(&format!("0\n{}", meta(G, "", &many(1025)))), "refused 20\n");
    let line = "recording ru8 channels 1 offset 0 samples 0\n".len() + "annotation 0 0 \"\"\n".len();
    let room = PROGRAM_BYTES - line;
    let labelled = |n: usize| {
        let label = format!("{}{}", "é".repeat(n / 8), "x".repeat(n % 8));
        format!("0\n{}", meta(G, "", &format!("{{$s:0,$l:\"{label}\"}}")))
    };
    assert_eq!(run(&labelled(room)).len(), PROGRAM_BYTES);
    assert_eq!(run(&labelled(room + 1)), "refused 20\n");
}

#[test]
fn shown_labels() {
    let cases = [
        ("é", r#""\xc3\xa9""#), ("\u{7f}", r#""\x7f""#), (r"\\", r#""\x5c""#), (r"\/", "\"/\""), ("-", "\"-\""), ("", "\"\""),
        (r"\u0000", r#""\x00""#), ("~ !", "\"~ !\""), (r"\ud83d\ude00", r#""\xf0\x9f\x98\x80""#), (r#"\""#, r#""\x22""#),
    ];
    for (raw, shown) in cases {
        assert_eq!(shown_label(raw.as_bytes()).unwrap(), shown);
    }
    let text = meta(G, "", r#"{$s:0},{$s:0,$l:""},{$s:0,$l:"-"}"#);
    assert_eq!(run(&format!("0\n{text}")).lines().skip(1).collect::<Vec<_>>().join("|"), "annotation 0 0 -|annotation 0 0 \"\"|annotation 0 0 \"-\"");
}

fn answer(refusal: u64, present: bool, part: &[u8]) -> Label<'_> {
    Label { refusal, present, part }
}

#[test]
fn lookups() {
    let text = meta(G, "", r#"{$s:0},{$s:0,$l:""},{$s:0,$l:"a\"b"}"#);
    let state = open(&text, 0);
    let look = |k| label(&state.table(), text.as_bytes(), k);
    assert_eq!(look(0), answer(0, false, b""));
    assert_eq!(look(1), answer(0, true, b""));
    assert_eq!(look(2), answer(0, true, br#"a\"b"#));
    assert_eq!(look(3), answer(19, false, b""));
    let mut forged = state.clone();
    forged.summary.code = 99;
    assert_eq!(label(&forged.table(), text.as_bytes(), 3), answer(18, false, b""));
}

#[test]
fn label_places() {
    let text = meta(G, "", r#"{$s:0,$l:"x"}"#);
    let at = |place: u64, length: u64, metadata: &[u8]| {
        let mut state = open(&text, 0);
        state.annotations[2] = place;
        state.annotations[3] = length;
        let looked = label(&state.table(), metadata, 0).refusal;
        let listed = listing(&state.table(), metadata, &mut [0; 500]).refusal;
        assert_eq!(looked, listed);
        looked
    };
    let cases: [(u64, u64, &[u8], u64); 14] = [
        (0, 0, b"", 0), (0, 5, b"\"abcde\"", 18), (1, 0, b"\"\"", 0), (1, 0, b"\"", 18), (1, 1, b"\"a\"", 0), (1, 1, b"\"a", 18),
        (1, 1, b"xa\"", 18), (1, 1, b"\"ax", 18), (1, 1, b"\"\\\"", 18), (1, 3, b"\"a\"b\"", 18), (1, 1, b"\"\n\"", 18),
        (1, 6, b"\"\\ud800\"", 18), (u64::MAX, 1, b"\"a\"", 18), (61_440, 0, b"\"a\"", 18),
    ];
    for (place, length, metadata, expected) in cases {
        assert_eq!(at(place, length, metadata), expected, "{place} {length} {metadata:?}");
    }
    assert_eq!(at(1, 1, b"\"\xFF\""), 18);
}
