use crate::field_answers::{answer, KINDS};
use crate::field_cases::{field_cases, fixed_cases};
use crate::field_random::random_name;
use crate::fields::{core_fields, core_names, datatype_count, look_up, Place};
use crate::frames::{read_frames, write_frames, Case};
use crate::json::{decode_any, decode_body, judge};
use crate::rng::Rng;
use std::collections::{HashMap, HashSet};

fn line(letter: char, payload: &str) -> String {
    answer(&Case { letter: letter as u8, payload: payload.as_bytes().to_vec() }).unwrap()
}

#[test]
fn same_by_seed() {
    let count = fixed_cases().len() + 300;
    let cases = field_cases(5, count);
    assert_eq!(cases.len(), count);
    assert_eq!(cases, field_cases(5, count));
    assert_ne!(cases, field_cases(6, count));
    assert_eq!(read_frames(&write_frames(&cases)), Ok(cases));
}

#[test]
fn answer_lines() {
    assert_eq!(line('u', "18446744073709551615"), "u 1 18446744073709551615");
    assert_eq!(line('u', "18446744073709551616"), "u 0");
    assert_eq!(line('u', "\"1\""), "u 0");
    assert_eq!(line('d', "\"\\u0072u8\""), "d 11");
    assert_eq!(line('d', "\"\""), format!("d {}", datatype_count()));
    assert_eq!(line('v', "\"1.0\\u002e0\""), "v 1");
    assert_eq!(line('v', "\"v1.0.0\""), "v 0");
    assert_eq!(line('m', "\"2016-12-31T23:59:60Z\""), "m 1 2016 12 31 23 59 60 0 7");
    assert_eq!(line('m', "\"0000-02-29T01:02:03.\\u0030Z\""), format!("m 1 0 2 29 1 2 3 1 {}", 7 * 31 + 48));
    assert_eq!(line('m', "\"\""), "m 0");
    assert_eq!(line('n', "a:\\u0062"), format!("n 1 1 {}", 7 * 31 + 98));
    assert_eq!(line('n', "a"), "n 0");
    assert_eq!(line('g', "core:datatype"), "g 0 0 4");
    assert_eq!(line('g', "core:extensions"), "g 19 5 2");
    assert_eq!(line('g', "core:label"), "g 20 6 0");
    assert_eq!(line('c', "core:geolocation"), "c 5 4 1");
    assert_eq!(line('c', "x"), "c 6 6 0");
    assert_eq!(line('a', "core:longitude"), "a 9 6 2");
    assert_eq!(line('a', "core:hagl"), "a 10 6 1");
    assert_eq!(line('k', "1"), "k 0 1 1 0 0 0");
    assert_eq!(line('k', "-0"), "k 0 0 1 0 0 0");
    assert_eq!(line('k', "null"), "k 0 0 0 0 0 0");
    assert_eq!(line('x', r#"{"name":"","optional":true,"version":""}"#), "x 0");
    assert_eq!(line('x', r#"{"name":"","optional":false,"version":""}"#), "x 13");
    assert_eq!(line('x', r#"{"name":"","optional":false,"version":1}"#), "x 12");
}

/// The count alone: how many core names of the kind were compared.
fn compared(letter: char, raw: &[u8]) -> u64 {
    let line = answer(&Case { letter: letter as u8, payload: raw.to_vec() }).unwrap();
    line.split(' ').nth(3).unwrap().parse().unwrap()
}

#[test]
fn names_compared() {
    assert_eq!(line('a', "core:label"), "a 3 0 1");
    assert_eq!(line('a', "core:sample_start"), "a 0 1 2");
    assert_eq!(line('c', "core:sample_start"), "c 0 1 3");
    assert_eq!(line('g', "core:sample_start"), "g 20 6 1");
    assert_eq!(line('a', "core:\\u006cabel"), "a 3 0 1");
    assert_eq!(line('g', "core:\\u006cabel"), "g 20 6 0");
    assert_eq!(line('g', "core:\\u006cabel_____"), "g 20 6 2");
    assert_eq!(line('a', "core:freq_upper_edg\\u0065"), "a 7 2 2");
    assert_eq!(line('a', "core:freq_upper_edge\\u0065"), "a 10 6 0");
    let global = [0, 0, 0, 0, 0, 0, 0, 1, 0, 1, 0, 3, 3, 4, 0, 2, 3, 1, 1, 1, 0, 0, 0];
    let capture = [0, 0, 0, 0, 0, 0, 0, 0, 0, 0, 0, 0, 0, 1, 1, 0, 1, 3, 0, 0, 0, 0, 0];
    let annotation = [0, 0, 0, 0, 0, 0, 0, 0, 0, 1, 1, 0, 1, 1, 2, 0, 0, 2, 0, 0, 2, 0, 0];
    for (letter, counts) in [('g', global), ('c', capture), ('a', annotation)] {
        for (length, count) in counts.into_iter().enumerate() {
            assert_eq!(compared(letter, &vec![b'x'; length]), count);
            assert_eq!(compared(letter, "\\u0078".repeat(length).as_bytes()), count);
            assert_eq!(compared(letter, "\\\\".repeat(length).as_bytes()), count);
            assert_eq!(compared(letter, "é".repeat(length).as_bytes()), counts.get(2 * length).copied().unwrap_or(0));
            assert_eq!(compared(letter, "\\ud83d\\ude00".repeat(length).as_bytes()), counts.get(4 * length).copied().unwrap_or(0));
        }
    }
}

#[test]
fn names_of_any_bytes() {
    for case in field_cases(4, 8_000) {
        if let Some(text) = decode_body(&case.payload) {
            assert_eq!(decode_any(&case.payload), text);
        }
    }
    let known: [(&[u8], &[u8]); 12] = [
        (b"a\"b", b"a"), (b"\"", b""), (b"a\\\"\"b", b"a\""), (b"a\\", b"a\\"), (b"\\x\\n", b"\\x\n"), (b"\\u00\"4", b"\\u00"),
        (b"\\ud83d", b"\\ud83d"), (b"\\ude00\\u0041", b"\\ude00A"), (b"\\ud83d\\ud83d\\ude00", b"\\ud83d\xF0\x9F\x98\x80"),
        (b"\\ud83d\\n", b"\\ud83d\n"),
        (b"\xFF\x00\\u00fF\x80", b"\xFF\x00\xC3\xBF\x80"), (b"\\\\u0041", b"\\u0041"),
    ];
    for (raw, text) in known {
        assert_eq!(decode_any(raw), text);
    }
    assert_eq!(line('a', "core:label\"core:label"), "a 3 0 1");
    assert_eq!(line('a', "core:labe\\"), "a 10 6 1");
    assert_eq!(line('g', "core:\\ud800"), "g 20 6 3");
}

#[test]
fn names_of_every_length() {
    let mut rng = Rng::new(1);
    let random = (0..12_000).map(|_| random_name(&mut rng)).collect();
    for cases in [fixed_cases(), random] {
        let mut seen = HashSet::new();
        for case in cases {
            if let Some((_, place)) = KINDS.into_iter().find(|k| k.0 == case.letter) {
                let (number, compared) = look_up(place, &case.payload);
                let (length, escapes) = (decode_any(&case.payload).len(), case.payload.contains(&b'\\'));
                seen.insert((case.letter, number, length, compared, escapes));
            }
        }
        for (letter, place) in KINDS {
            let names = core_names(place);
            let count = |length: usize| names.iter().filter(|name| name.len() == length).count();
            for escapes in [false, true] {
                for (number, name) in names.iter().enumerate() {
                    assert!(seen.contains(&(letter, number, name.len(), count(name.len()), escapes)), "{name}");
                }
                for length in usize::from(escapes)..=22 {
                    assert!(seen.contains(&(letter, names.len(), length, count(length), escapes)), "{length}");
                }
            }
        }
    }
}

#[test]
fn order_of_core_fields() {
    let names = |place| core_fields(place).iter().map(|f| f.1).collect::<Vec<_>>().join(" ");
    assert_eq!(
        names(Place::Global),
        "datatype version sha512 description author meta_doi data_doi recorder license hw dataset collection num_channels offset trailing_bytes sample_rate hagl metadata_only geolocation extensions",
    );
    assert_eq!(names(Place::Capture), "sample_start global_index header_bytes frequency datetime geolocation");
    assert_eq!(names(Place::Annotation), "sample_start sample_count generator label comment uuid freq_lower_edge freq_upper_edge latitude longitude");
}

#[test]
fn payloads_are_values_and_bodies() {
    for case in field_cases(3, 8_000) {
        let valid = match case.letter {
            b'n' => decode_body(&case.payload).is_some(),
            b'g' | b'c' | b'a' => true,
            b'd' | b'v' | b'm' => judge(&case.payload).is_ok() && case.payload.starts_with(b"\"") && case.payload.ends_with(b"\""),
            _ => judge(&case.payload).is_ok_and(|t| t.node(t.root).span.len() == case.payload.len()),
        };
        assert!(valid, "{} {}", case.letter as char, String::from_utf8_lossy(&case.payload));
    }
}

/// How often each beginning of an answer occurs.
fn counts(cases: &[Case], words: usize) -> HashMap<String, usize> {
    let mut seen = HashMap::new();
    for case in cases {
        let line = answer(case).unwrap();
        let start: Vec<&str> = line.split(' ').take(words).collect();
        *seen.entry(start.join(" ")).or_default() += 1;
    }
    seen
}

#[test]
fn every_answer_occurs() {
    let fixed = fixed_cases();
    let random = field_cases(1, fixed.len() + 12_000).split_off(fixed.len());
    for cases in [fixed, random] {
        let seen = counts(&cases, 2);
        for start in ["u 0", "v 0", "v 1", "m 0", "m 1", "n 0", "n 1", "x 0", "x 12", "x 13"] {
            assert!(seen.get(start).copied().unwrap_or(0) >= 7, "{start}");
        }
        for (letter, last) in [('d', datatype_count()), ('g', 20), ('c', 6), ('a', 10)] {
            for number in 0..=last {
                let start = format!("{letter} {number}");
                assert!(seen.contains_key(&start), "{start}");
            }
        }
        assert!(seen.get("u 1").copied().unwrap_or(0) >= 50);
        let kinds: HashSet<String> = counts(&cases, 7).into_keys().filter(|k| k.starts_with('k')).collect();
        let all = ["k 1 0 0 0 0 0", "k 0 1 1 0 0 0", "k 0 0 1 0 0 0", "k 0 0 0 1 0 0", "k 0 0 0 0 1 0", "k 0 0 0 0 0 1", "k 0 0 0 0 0 0"];
        assert_eq!(kinds, all.map(String::from).into_iter().collect());
    }
}

#[test]
fn every_month_and_kind() {
    assert!(counts(&fixed_cases(), 3).contains_key("u 1 18446744073709551615"));
    let seen = counts(&fixed_cases(), 4);
    for month in 1..=12 {
        assert!(seen.contains_key(&format!("m 1 2024 {month}")) && seen.contains_key(&format!("m 1 2023 {month}")));
    }
    for year in [0, 400, 1600, 2000, 2400] {
        assert_eq!(line('m', &format!("\"{year:04}-02-29T00:00:00Z\"")).chars().nth(2), Some('1'));
    }
    for (letter, _) in KINDS {
        assert!(fixed_cases().iter().filter(|c| c.letter == letter).count() > 150);
    }
}
