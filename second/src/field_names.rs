//! Fixed cases about names that are looked up.

use crate::field_answers::KINDS;
use crate::field_cases::{changed, escaped, escaped_at, escaped_upper, escapes_of};
use crate::fields::core_names;
use crate::frames::Case;
use crate::reading_lists::{BAD_BODIES, BAD_BYTES};

/// The fixed cases about names, for each kind of object.
pub fn name_cases() -> Vec<Case> {
    let mut list = Vec::new();
    for (k, (letter, place)) in KINDS.into_iter().enumerate() {
        let own = core_names(place);
        let other = core_names(KINDS[(k + 1) % 3].1);
        let names = [known(&own, &other), near(&own), of_lengths(), with_short_escapes(&own), with_wide_characters(&own), long(), others()];
        let broken = no_bodies(&own);
        list.extend(names.concat().into_iter().map(String::into_bytes).chain(broken).map(|payload| Case { letter, payload }));
    }
    list
}

/// A text that begins as a core name, of some bytes, and is none.
fn unknown(length: usize) -> String {
    format!("core:{}", "x".repeat(length))[..length].to_string()
}

/// The first, the middle and the last position of a text.
fn positions(text: &str) -> [usize; 3] {
    [0, text.len() / 2, text.len() - 1]
}

/// Every core name as it is; those of the kind with a byte escaped or all of them,
/// the shortest and the longest at every position; those of another kind escaped.
fn known(own: &[String], other: &[String]) -> Vec<String> {
    let mut list: Vec<String> = KINDS.iter().flat_map(|k| core_names(k.1)).collect();
    for name in own {
        list.extend(positions(name).iter().flat_map(|&k| [escaped, escaped_upper].map(|escape| escaped_at(name, k, escape))));
        list.extend([escaped, escaped_upper].map(|escape| name.bytes().map(escape).collect()));
        list.push(name[5..].to_string());
    }
    let ends = [own.iter().min_by_key(|name| name.len()), own.iter().max_by_key(|name| name.len())];
    list.extend(ends.into_iter().flatten().flat_map(|name| escapes_of(name)));
    list.extend(other.iter().map(|name| name.bytes().map(escaped).collect()));
    list
}

/// Names that miss a core name by a byte, changed, added or left out.
fn near(own: &[String]) -> Vec<String> {
    let mut list = Vec::new();
    for (j, name) in own.iter().enumerate() {
        list.extend(positions(name).iter().enumerate().map(|(i, &k)| changed(name, k, i + j)));
        let (before, after) = name.split_at(name.len() / 2);
        let more = [format!("{name}s"), format!("{name}\\u0000"), format!(" {name}"), format!("{before}x{after}")];
        let less = [&name[..name.len() - 1], &name[1..], &format!("{before}{}", &after[1..])];
        list.extend([more[j % more.len()].clone(), less[j % less.len()].to_string()]);
    }
    list
}

/// Unknown names of every length around the core names', without an escape and with
/// one, which has 5 bytes more raw than decoded.
fn of_lengths() -> Vec<String> {
    let mut list: Vec<String> = (0..=25).map(unknown).collect();
    let one_escape = |length: usize| escaped_at(&unknown(length), (22 - length) % length, escaped);
    list.extend((1..=22).map(one_escape));
    list
}

/// The lengths of core names, each once.
fn lengths(own: &[String]) -> Vec<usize> {
    let mut list: Vec<usize> = own.iter().map(String::len).collect();
    list.sort_unstable();
    list.dedup();
    list
}

/// Names of a core name's length, decoded, with a short escape in them.
fn with_short_escapes(own: &[String]) -> Vec<String> {
    let lengths = lengths(own);
    let short = ["\\/", "\\\"", "\\\\", "\\n", "\\b", "\\f", "\\r", "\\t"];
    let name = |(k, escape): (usize, &&str)| {
        let text = unknown(lengths[k % lengths.len()]);
        let at = (5 * k + 2) % text.len();
        format!("{}{escape}{}", &text[..at], &text[at + 1..])
    };
    short.iter().enumerate().map(name).collect()
}

/// Names with a wide character, raw or escaped, that have as many bytes as a core
/// name or as many characters.
fn with_wide_characters(own: &[String]) -> Vec<String> {
    let wide = [("é", "\\u00e9", 2), ("\u{20ac}", "\\u20AC", 3), ("\u{1F600}", "\\ud83d\\uDE00", 4)];
    let mut list = Vec::new();
    for (k, length) in lengths(own).into_iter().enumerate() {
        let ((raw, _, first), (_, escape, second)) = (wide[k % 3], wide[(k + 1) % 3]);
        list.extend([format!("{}{raw}", unknown(length - first)), format!("{raw}{}", unknown(length - 1))]);
        list.extend([format!("{escape}{}", unknown(length - second)), format!("{}{escape}", unknown(length - 1))]);
    }
    list
}

/// Names longer than every core name, decoded or only raw; one has 256 bytes more
/// than some.
fn long() -> Vec<String> {
    let longest = "core:freq_upper_edge";
    let mut list = Vec::new();
    for length in [20, 21, 22, 100, 256 + 17, 300] {
        let name = unknown(length);
        list.extend([name.bytes().map(escaped).collect(), escaped_at(&name, 0, escaped), name]);
    }
    for more in ["", "x", "\\u0078", "xx", "\\\\"] {
        list.push(format!("core:freq_upper_edg\\u0065{more}"));
        list.push(format!("{longest}{more}"));
    }
    list.push(format!("{longest}{}", "\\u0030".repeat(333)));
    list.push(format!("core:label{}", "\\u0030".repeat(333)));
    list
}

/// Other names.
fn others() -> Vec<String> {
    let list = [
        ":", "core::", "core;label", "core:core:label", "label", "x:label", "\\u0063ore:", "core:\\u0000", "Core:label", "CORE:LABEL",
        "core\\u0000:label", "\\\\u0030core:label",
    ];
    list.map(String::from).to_vec()
}

/// Bytes that are no string's body, some of a core name's length: bare quotes,
/// backslashes that begin no escape, surrogates without partners, no UTF-8.
fn no_bodies(own: &[String]) -> Vec<Vec<u8>> {
    let (first, last) = (&own[0], &own[own.len() - 1]);
    let mut list: Vec<Vec<u8>> = BAD_BODIES.iter().map(|body| body.as_bytes().to_vec()).collect();
    for tail in ["\"", "\"x", "\\", "\\x", "\\\"\"x", "\\\\\"x"] {
        list.push(format!("{first}{tail}").into_bytes());
    }
    let no_escapes = ["\\", "\\x", "\\u", "\\u006", "\\u00g3", "\\ud83d", "\\ude00", "\\ud83d\\u0041", "\\ud83d\\ud83d", "\\ud83d\\n", "\\ud83d\\\""];
    for tail in no_escapes {
        list.push(format!("{}{tail}", &last[..last.len() - tail.len()]).into_bytes());
    }
    list.push(format!("\"{first}").into_bytes());
    list.push(format!("{}\\ud83d\"", &first[..5]).into_bytes());
    list.extend(BAD_BYTES.iter().map(|bytes| [&first.as_bytes()[..first.len() - bytes.len()], bytes].concat()));
    list
}
