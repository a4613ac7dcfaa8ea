// The texts: each kind is filled up to a length, the same at every run.
use std::collections::HashMap;

pub struct Kind {
    pub name: &'static str,
    pub make: fn(usize) -> String,
    // It parses into typed::Recording.
    pub recording: bool,
}

pub const KINDS: [Kind; 11] = [
    Kind {
        name: "annotations",
        make: annotations,
        recording: true,
    },
    Kind {
        name: "compact",
        make: compact,
        recording: true,
    },
    Kind {
        name: "captures",
        make: captures,
        recording: true,
    },
    Kind {
        name: "ignored",
        make: ignored,
        recording: true,
    },
    Kind {
        name: "strings",
        make: strings,
        recording: true,
    },
    Kind {
        name: "nested",
        make: nested,
        recording: true,
    },
    Kind {
        name: "escaped",
        make: escaped,
        recording: false,
    },
    Kind {
        name: "non-ascii",
        make: non_ascii,
        recording: false,
    },
    Kind {
        name: "alike",
        make: alike,
        recording: false,
    },
    Kind {
        name: "short",
        make: short,
        recording: false,
    },
    Kind {
        name: "one-key",
        make: one_key,
        recording: false,
    },
];

// By their places in KINDS: an ordinary text, and those whose names cost the most.
pub const ORDINARY: usize = 0;
pub const COSTLY: std::ops::Range<usize> = 8..11;

// Items with commas between them, at least one, as many as fit the length together with the head and the tail.
fn fill(head: &str, tail: &str, size: usize, item: impl Fn(usize) -> String) -> String {
    let mut text = String::from(head) + &item(0);
    for i in 1.. {
        let next = item(i);
        if text.len() + 1 + next.len() + tail.len() > size {
            break;
        }
        text.push(',');
        text.push_str(&next);
    }
    text + tail
}

const GLOBAL: &str = r#"{
    "global": {
        "core:datatype": "ci16_le",
        "core:sample_rate": 2400000.0,
        "core:version": "1.0.0",
        "core:description": "A band with many short bursts"
    },"#;

fn annotation(i: usize) -> String {
    commented(i, &format!("seen by the detector at gain {}", i % 40), "")
}

// An annotation with a comment and more members.
fn commented(i: usize, comment: &str, more: &str) -> String {
    format!(
        r#"
        {{
            "core:sample_start": {},
            "core:sample_count": {},
            "core:label": "burst {}",
            "core:comment": "{}",
            "core:freq_lower_edge": {}.5,
            "core:freq_upper_edge": {}.25{}
        }}"#,
        i * 4096,
        1024 + i % 7 * 128,
        i,
        comment,
        433_000_000 + i * 125,
        433_050_000 + i * 125,
        more
    )
}

fn capture(i: usize) -> String {
    format!(
        r#"
        {{
            "core:sample_start": {},
            "core:frequency": {}.0,
            "core:datetime": "2024-03-{:02}T{:02}:{:02}:{:02}.000Z"
        }}"#,
        i * 65536,
        433_000_000 + i * 1000,
        1 + i % 28,
        i % 24,
        i % 60,
        i * 7 % 60
    )
}

fn annotations_head() -> String {
    format!(
        "{GLOBAL}\n    \"captures\": [{}\n    ],\n    \"annotations\": [",
        capture(0)
    )
}

fn annotations(size: usize) -> String {
    fill(&annotations_head(), "\n    ]\n}\n", size, annotation)
}

// A small recording beside a long member that the reader ignores.
fn ignored(size: usize) -> String {
    let head = format!(
        "{GLOBAL}\n    \"captures\": [{}\n    ],\n    \"annotations\": [{}\n    ],\n    \"log\": [",
        capture(0),
        annotation(0)
    );
    fill(&head, "\n    ]\n}\n", size, |i| {
        format!("\n        {{\"time\": {}, \"gain\": [{}, {}.5], \"note\": \"noise floor moved\"}}", i * 250, i % 40, i % 7)
    })
}

fn captures(size: usize) -> String {
    let head = format!(
        "{GLOBAL}\n    \"annotations\": [{}\n    ],\n    \"captures\": [",
        annotation(0)
    );
    fill(&head, "\n    ]\n}\n", size, capture)
}

// A text without the blanks outside its strings, which hold no escapes.
fn tight(text: &str) -> String {
    let mut quoted = false;
    let keep = |c: &char| {
        quoted ^= *c == '"';
        quoted || !c.is_ascii_whitespace()
    };
    text.chars().filter(keep).collect()
}

fn compact(size: usize) -> String {
    fill(&tight(&annotations_head()), "]}", size, |i| {
        tight(&annotation(i))
    })
}

// Annotations with long comments.
fn strings(size: usize) -> String {
    let words = "the quick brown fox jumps over the lazy dog, and then it rests; ".repeat(4);
    fill(&annotations_head(), "\n    ]\n}\n", size, |i| commented(i, &words, ""))
}

// Annotations with a field of an extension that is nested 28 deep, objects in arrays: 31 in all.
fn nested(size: usize) -> String {
    let open = "[{\"in\":".repeat(14);
    let close = "}]".repeat(14);
    fill(&annotations_head(), "\n    ]\n}\n", size, |i| {
        commented(i, "a tree of the extension", &format!(",\n            \"tree:root\": {open}{i}{close}"))
    })
}

fn escaped(size: usize) -> String {
    fill("[", "]", size, |i| {
        format!(
            r#"{{"core\u003alabel":"a\tb\n{i}","core\/c":"\"{i}\" \\","\u0063omment":{i},"\ud83d\ude00":null}}"#
        )
    })
}

fn non_ascii(size: usize) -> String {
    fill("[", "]", size, |i| {
        format!(
            "{{\"имя\":\"станция {i} на берегу реки\",\"名前\":\"山の観測所 {i}\",\"größe\":{i}}}"
        )
    })
}

// An object of members that fit the length, at most 256.
fn object(size: usize, member: impl Fn(usize) -> String) -> String {
    let mut text = String::from("{") + &member(0);
    for i in 1..256 {
        let next = member(i);
        if text.len() + next.len() + 2 > size {
            break;
        }
        text.push(',');
        text.push_str(&next);
    }
    text + "}"
}

// Objects of 256 members, and one of those that still fit.
fn objects(size: usize, member: impl Fn(usize) -> String) -> String {
    let mut text = String::from("[") + &object(size - 2, &member);
    while text.len() + 2 + member(0).len() + 2 <= size {
        let room = size - text.len() - 2;
        text.push(',');
        text.push_str(&object(room, &member));
    }
    text + "]"
}

fn alike(size: usize) -> String {
    objects(size, |i| {
        format!("\"station_name_with_a_long_common_beginning_{i:03}\":{i}")
    })
}

// The most pairs of names to a byte.
fn short(size: usize) -> String {
    objects(size, |i| format!("\"{i:02x}\":1"))
}

// One step of the key that crates/json_names has for names (text_key). Where that changes, this must.
fn step(key: u64, byte: u8) -> u64 {
    (key * 16777619 + byte as u64) % 4294967296
}

fn key_after(key: u64, text: &str) -> u64 {
    text.bytes().fold(key, step)
}

// Two words that lead from a key to the same one.
fn twins(key: u64) -> [String; 2] {
    let mut seed = 1u64;
    let mut letter = || {
        seed = seed
            .wrapping_mul(6364136223846793005)
            .wrapping_add(1442695040888963407);
        (b'a' + (seed >> 33) as u8 % 26) as char
    };
    let mut words = HashMap::new();
    loop {
        let word: String = (0..7).map(|_| letter()).collect();
        match words.insert(key_after(key, &word), word.clone()) {
            Some(old) if old != word => return [old, word],
            _ => {}
        }
    }
}

// One object of 256 names that share a long beginning and the key: they differ in which of two words stands in each of eight places.
fn one_key(size: usize) -> String {
    let start = "x".repeat((size / 256).saturating_sub(64));
    let mut key = key_after(2166136261, &start);
    let mut pairs = Vec::new();
    for _ in 0..8 {
        let pair = twins(key);
        key = key_after(key, &pair[0]);
        pairs.push(pair);
    }
    object(size, |i| {
        let words: String = (0..8).map(|b| pairs[b][i >> b & 1].as_str()).collect();
        format!("\"{start}{words}\":1")
    })
}
