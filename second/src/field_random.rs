//! Random cases about one value or name.

use crate::field_answers::KINDS;
use crate::fields::{core_fields, datatypes};
use crate::frames::Case;
use crate::json::judge;
use crate::json_random::{change_one, good_number, must_escape, random_chars, random_document, spell};
use crate::part::{written, Part, Style};
use crate::reading_lists::{BAD_NAMES, GOOD_NAMES, VALUES};
use crate::recording_random::{datetime, entry};
use crate::rng::Rng;

/// One random case.
pub fn random_case(rng: &mut Rng) -> Case {
    let (letter, payload) = match rng.below(16) {
        0 | 1 => (b'u', number(rng)),
        2 => (b'd', quoted(word(&datatypes(), rng))),
        3 => (b'v', quoted(word(&["1.0.0".to_string()], rng))),
        4..=6 => (b'm', quoted(clock(rng))),
        7 | 8 => (b'n', name(rng)),
        9..=11 => return random_name(rng),
        12 | 13 => (b'k', value(rng)),
        _ => (b'x', extension(rng)),
    };
    Case { letter, payload }
}

fn quoted(body: Vec<u8>) -> Vec<u8> {
    [b"\"", &body[..], b"\""].concat()
}

/// One of the spellings of a text, or of one that is nearly it.
fn spelled(text: &str, rng: &mut Rng) -> Vec<u8> {
    let mut chars: Vec<char> = text.chars().collect();
    if rng.once_in(3) {
        chars = change_one(rng, &chars);
    }
    if rng.once_in(5) {
        return chars.iter().flat_map(|&c| spell(rng, &[c])).collect();
    }
    spell(rng, &chars)
}

/// One of the words, or nearly so.
fn word(words: &[String], rng: &mut Rng) -> Vec<u8> {
    let text = words[rng.below(words.len())].clone();
    spelled(&text, rng)
}

/// A number near a power of two or of ten, or any value.
fn number(rng: &mut Rng) -> Vec<u8> {
    let near = match rng.below(5) {
        0 => 1u128 << rng.between(60, 68),
        1 => 10u128.pow(rng.between(17, 22) as u32),
        2 => u128::from(rng.bits()) << rng.below(4),
        3 => u128::from(rng.bits() >> rng.below(64)),
        _ => return if rng.once_in(2) { good_number(rng) } else { value(rng) },
    };
    let text = near.saturating_add(rng.below(5) as u128).saturating_sub(2).to_string();
    let tail = if rng.once_in(6) { rng.pick(&[".0", "e0", "E1", ".5"]) } else { "" };
    let head = if rng.once_in(8) { "-" } else { "" };
    format!("{head}{text}{tail}").into_bytes()
}

/// A datetime, or one with a character or two changed.
fn clock(rng: &mut Rng) -> Vec<u8> {
    let text = datetime(rng);
    let mut chars: Vec<char> = text.chars().collect();
    if text.contains('\\') {
        return text.into_bytes();
    }
    for _ in 0..[0, 1, 1, 2][rng.below(4)] {
        let at = rng.below(chars.len());
        if chars[at].is_ascii_digit() && !rng.once_in(4) {
            chars[at] = char::from(b'0' + rng.below(10) as u8);
        } else {
            chars = change_one(rng, &chars);
        }
    }
    spell(rng, &chars)
}

/// A name of parts that are mostly of the right characters.
fn name(rng: &mut Rng) -> Vec<u8> {
    if rng.once_in(6) {
        let list = if rng.once_in(2) { BAD_NAMES } else { GOOD_NAMES };
        return rng.pick(list).as_bytes().to_vec();
    }
    let mut chars: Vec<char> = Vec::new();
    for k in 0..[1, 2, 2, 2, 2, 2, 3][rng.below(7)] {
        if k > 0 {
            chars.push(':');
        }
        let length = if rng.once_in(30) { rng.between(100, 400) } else { rng.below(9) };
        for _ in 0..length {
            let signs: Vec<char> = "abyzABYZ_09".chars().chain(if k == 0 { "-".chars() } else { "_".chars() }).collect();
            chars.push(signs[rng.below(signs.len())]);
        }
    }
    if rng.once_in(6) {
        chars = change_one(rng, &chars);
    }
    spell(rng, &chars)
}

/// A name to look up: a core name of its kind mostly, or nearly so, or one of some
/// length, mostly a core name's; with escapes or without.
pub fn random_name(rng: &mut Rng) -> Case {
    let kind = rng.below(3);
    let from = if rng.once_in(3) { rng.below(3) } else { kind };
    let list = core_fields(KINDS[from].1);
    let word = list[rng.below(list.len())].1;
    let space = if rng.once_in(12) { rng.pick(&["", "Core:", "core", "core-:", "x:"]) } else { "core:" };
    let text = format!("{space}{word}");
    let payload = match rng.below(8) {
        0 => text.into_bytes(),
        1..=3 => name_of_length(text.len(), rng),
        4 => {
            let length = if rng.once_in(4) { rng.between(23, 300) } else { rng.below(23) };
            name_of_length(length, rng)
        }
        _ => spelled(&text, rng),
    };
    Case { letter: KINDS[kind].0, payload }
}

/// A name of so many bytes decoded.
fn name_of_length(length: usize, rng: &mut Rng) -> Vec<u8> {
    let plain = rng.once_in(2);
    let mut name = if rng.once_in(2) { "core:"[..length.min(5)].to_string() } else { String::new() };
    while name.len() < length {
        let c = random_chars(rng, 1)[0];
        if name.len() + c.len_utf8() <= length && !(plain && must_escape(c)) {
            name.push(c);
        }
    }
    if plain {
        return name.into_bytes();
    }
    let chars: Vec<char> = name.chars().collect();
    spell(rng, &chars)
}

/// Any value, without blanks around it.
fn value(rng: &mut Rng) -> Vec<u8> {
    if rng.once_in(3) {
        return rng.pick(VALUES).as_bytes().to_vec();
    }
    let text = if rng.once_in(3) { good_number(rng) } else { random_document(rng) };
    match judge(&text) {
        Ok(tree) if text.len() < 400 => {
            let span = tree.node(tree.root).span;
            text[span.start..span.end].to_vec()
        }
        _ => b"null".to_vec(),
    }
}

/// An extension entry, or one with a member changed, left out or added.
fn extension(rng: &mut Rng) -> Vec<u8> {
    let optional = rng.pick(&["true", "false"]);
    let mut part = entry(optional, rng);
    if let Part::Object(members) = &mut part {
        let at = rng.below(members.len());
        match rng.below(8) {
            0 => members[at].1 = Part::Raw(String::from_utf8(value(rng)).unwrap_or_default()),
            1 => drop(members.remove(at)),
            2 => members[at].0 = other_name(&members[at].0.clone(), rng),
            3 => members.insert(at, (other_name("name", rng), Part::Raw("\"a\"".to_string()))),
            _ => {}
        }
    }
    let style = Style { blanks: rng.below(3), escapes: rng.once_in(2), any_order: rng.once_in(2) };
    let text = written(&part, style, rng).into_bytes();
    if judge(&text).is_ok() { text } else { b"{}".to_vec() }
}

/// A raw name that differs from another.
fn other_name(name: &str, rng: &mut Rng) -> String {
    let chars: Vec<char> = name.chars().collect();
    let mut other = change_one(rng, &chars);
    if other == chars || rng.once_in(4) {
        other = random_chars(rng, 5);
    }
    String::from_utf8(spell(rng, &other)).unwrap_or_default()
}
