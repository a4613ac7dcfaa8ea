use super::{meta, open, G};
use crate::frames::{read_frames, write_frames};
use crate::json::decode_body;
use crate::listing::{label, listing_text, program};
use crate::listing_answers::answer;
use crate::listing_case::ListingCase;
use crate::listing_cases::{fixed_cases, listing_cases};
use crate::listing_labels::hostile_labels;
use crate::listing_random::labelled;
use crate::rng::Rng;
use std::collections::{HashMap, HashSet};

/// The text of a label from its line: none where it is absent. Every byte of the
/// shown label stands for itself, except after `\x`.
fn recovered(line: &str) -> Option<Vec<u8>> {
    let shown = line.splitn(4, ' ').nth(3).unwrap();
    if shown == "-" {
        return None;
    }
    let mut rest = shown.strip_prefix('"').unwrap().strip_suffix('"').unwrap();
    let mut text = Vec::new();
    while let Some(c) = rest.chars().next() {
        assert!((' '..='~').contains(&c) && c != '"');
        if let Some(after) = rest.strip_prefix("\\x") {
            let hex = &after[..2];
            assert_eq!(hex, hex.to_lowercase());
            text.push(u8::from_str_radix(hex, 16).unwrap());
            rest = &after[2..];
        } else {
            assert_ne!(c, '\\');
            text.push(c as u8);
            rest = &rest[1..];
        }
    }
    Some(text)
}

#[test]
fn labels_come_back() {
    let mut rng = Rng::new(4);
    let mut shown = HashMap::new();
    for labels in hostile_labels().chunks(7) {
        let (state, metadata) = labelled(labels, &mut rng);
        let text = listing_text(&state.table(), &metadata).unwrap();
        let lines: Vec<&str> = text.lines().filter(|l| l.starts_with("annotation ")).collect();
        assert_eq!(lines.len(), labels.len());
        assert_eq!(text.lines().count(), 1 + state.summary.captures as usize + labels.len());
        for (k, (raw, line)) in labels.iter().zip(&lines).enumerate() {
            let decoded = raw.as_ref().map(|r| decode_body(r.as_bytes()).unwrap());
            assert_eq!(recovered(line), decoded);
            let found = label(&state.table(), &metadata, k as u64);
            assert_eq!((found.refusal, found.present, found.part), (0, raw.is_some(), raw.as_deref().unwrap_or_default().as_bytes()));
            let printed = line.splitn(4, ' ').nth(3).unwrap().to_string();
            assert_eq!(shown.entry(printed).or_insert(decoded.clone()), &decoded);
        }
    }
    let bytes: HashSet<u8> = shown.values().flatten().flatten().copied().collect();
    assert!((0..=0xBF).chain([0xC2, 0xC3, 0xDF, 0xE0, 0xE2, 0xED, 0xEF, 0xF0, 0xF4]).all(|b| bytes.contains(&b)));
}

#[test]
fn program_prints_what_the_table_lists() {
    let text = meta(G, "{$s:0}", r#"{$s:0,$l:"\n"},{$s:1,$l:"-"},{$s:1}"#);
    let state = open(&text, 3);
    let printed = program(format!("3\n{text}").as_bytes());
    assert_eq!(Some(String::from_utf8(printed).unwrap()), listing_text(&state.table(), text.as_bytes()));
}

#[test]
fn same_by_seed() {
    let count = fixed_cases().len() + 300;
    let cases = listing_cases(5, count);
    assert_eq!(cases.len(), count);
    assert_eq!(cases, listing_cases(5, count));
    assert_ne!(cases, listing_cases(6, count));
    assert_eq!(read_frames(&write_frames(&cases)), Ok(cases));
}

#[test]
fn frames_read_back() {
    for frame in fixed_cases() {
        if frame.letter != b'q' {
            assert_eq!(ListingCase::read(&frame).unwrap().frame(), frame);
        }
    }
}

#[test]
fn every_answer_occurs() {
    let fixed = fixed_cases();
    let random = listing_cases(1, fixed.len() + 3_000).split_off(fixed.len());
    for cases in [fixed, random] {
        let mut seen: HashMap<String, usize> = HashMap::new();
        for frame in &cases {
            let line = answer(frame).unwrap();
            let words: Vec<&str> = line.split(' ').collect();
            let start = words[..if words[0] == "l" { 3 } else { 2 }].join(" ");
            *seen.entry(start).or_default() += 1;
        }
        for start in ["l 0 0", "l 0 1", "l 18 0", "l 19 0", "p 0", "p 18", "p 20", "q 0", "q 1"] {
            let count = seen.get(start).copied().unwrap_or(0);
            assert!(count >= 30, "{start}: {count}");
        }
        assert_eq!(seen.len(), 9);
    }
}

#[test]
fn answer_lines() {
    let line = |payload: &[u8]| answer(&crate::frames::Case { letter: b'q', payload: payload.to_vec() }).unwrap();
    assert_eq!(line(b"000108\n{}"), "q 1 108 7");
    assert_eq!(line(b"18446744073709551615\n"), "q 1 18446744073709551615 21");
    assert_eq!(line(b"18446744073709551616\n"), "q 0");
    assert_eq!(line(b"1"), "q 0");
}
