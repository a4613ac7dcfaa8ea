//! Random cases about JSON texts.

use crate::frames::Case;
use crate::json_cases::{join, members, nest};
use crate::json_cases::{ALIKE, BLANKS, ESCAPES, NUMBERS, SEQUENCES, STRUCTURES, TEXTS, UNLIKE};
use crate::rng::Rng;

/// One random case.
pub fn random_case(rng: &mut Rng) -> Case {
    let (letter, payload) = match rng.below(22) {
        20 => (b'j', edge_text(rng)),
        21 => (b's', edge_body(rng)),
        0..=4 => (b'j', random_document(rng)),
        5..=9 => (b'j', mutated_document(rng)),
        10 => (b'j', token_soup(rng)),
        11 => (b'j', broken_tokens(rng)),
        12 => (b'j', repeated_name(rng)),
        13 => (b'j', near_limit(rng)),
        14 => (b'j', number_text(rng)),
        15 => (b'j', string_text(rng)),
        16 | 17 => (b's', random_body(rng)),
        _ => (b'e', random_pair(rng)),
    };
    Case { letter, payload }
}

/// How a random document is written.
struct Style {
    /// Bytes that may still be written, roughly.
    budget: usize,
    /// 0 compact, 1 one blank here and there, 2 indented lines.
    blanks: usize,
    /// Whether names come from a small set, so that some repeat.
    few_names: bool,
}

/// A document's size: mostly small, sometimes to about 8,000 bytes.
fn random_style(rng: &mut Rng) -> Style {
    let budget = match rng.below(60) {
        0 => rng.between(2000, 7500),
        1..=3 => rng.between(400, 2000),
        _ => rng.between(5, 350),
    };
    Style { budget, blanks: rng.below(3), few_names: rng.once_in(8) }
}

/// A document by JSON's grammar, whose names may repeat.
pub fn random_document(rng: &mut Rng) -> Vec<u8> {
    let mut style = random_style(rng);
    let mut out = Vec::new();
    space(rng, &style, 0, &mut out);
    if rng.once_in(12) {
        scalar(rng, &mut style, &mut out);
    } else {
        container(rng, &mut style, 1, &mut out);
    }
    space(rng, &style, 0, &mut out);
    out
}

fn space(rng: &mut Rng, style: &Style, depth: usize, out: &mut Vec<u8>) {
    match style.blanks {
        0 => {}
        1 => {
            for _ in 0..rng.below(3) {
                out.push(*rng.pick(&[&b' ', &b'\t', &b'\n', &b'\r']));
            }
        }
        _ => {
            out.push(b'\n');
            out.extend(b"  ".repeat(depth));
        }
    }
}

fn value(rng: &mut Rng, style: &mut Style, depth: usize, out: &mut Vec<u8>) {
    if depth < 12 && style.budget > 4 && rng.below(5) < 2 {
        container(rng, style, depth + 1, out);
    } else {
        scalar(rng, style, out);
    }
}

fn container(rng: &mut Rng, style: &mut Style, depth: usize, out: &mut Vec<u8>) {
    let object = rng.once_in(2);
    let most = if depth == 1 { 60 } else { 6 };
    let count = rng.below(most).min(style.budget / 4);
    out.push(if object { b'{' } else { b'[' });
    for i in 0..count {
        if i > 0 {
            out.push(b',');
        }
        let before = out.len();
        space(rng, style, depth, out);
        if object {
            quoted(&name(rng, style, i), out);
            space(rng, style, 0, out);
            out.push(b':');
            space(rng, style, 0, out);
        }
        value(rng, style, depth, out);
        space(rng, style, depth - 1, out);
        style.budget = style.budget.saturating_sub(out.len() - before);
        if style.budget == 0 {
            break;
        }
    }
    out.push(if object { b'}' } else { b']' });
}

fn name(rng: &mut Rng, style: &Style, i: usize) -> Vec<u8> {
    let plain: Vec<char> = if style.few_names {
        rng.pick(&["", "a", "b", "core:label", "é", "/", "a/b", "\n", "aa", "A"]).chars().collect()
    } else {
        let stem = rng.pick(&["k", "core:", "", "a\u{0}", "é", "\u{1F600}", "x/y", "\"", "\\"]);
        format!("{stem}{i}").chars().collect()
    };
    spell(rng, &plain)
}

fn quoted(body: &[u8], out: &mut Vec<u8>) {
    out.push(b'"');
    out.extend_from_slice(body);
    out.push(b'"');
}

fn scalar(rng: &mut Rng, style: &mut Style, out: &mut Vec<u8>) {
    match rng.below(8) {
        0 => out.extend_from_slice(b"true"),
        1 => out.extend_from_slice(b"false"),
        2 => out.extend_from_slice(b"null"),
        3 | 4 => out.extend(good_number(rng)),
        _ => {
            let most = if rng.once_in(20) { style.budget.min(600) } else { style.budget.min(12) };
            let length = rng.below(most + 1);
            let chars = random_chars(rng, length);
            quoted(&spell(rng, &chars), out);
        }
    }
}

fn digits(rng: &mut Rng) -> String {
    let count = if rng.once_in(10) { rng.between(10, 30) } else { rng.between(1, 4) };
    (0..count).map(|_| char::from(b'0' + rng.below(10) as u8)).collect()
}

/// A number by JSON's grammar.
pub fn good_number(rng: &mut Rng) -> Vec<u8> {
    let sign = rng.pick(&["", "", "-"]);
    let all = digits(rng);
    let whole = match all.trim_start_matches('0') {
        "" => "0",
        rest => rest,
    };
    let mut text = format!("{sign}{whole}");
    if rng.once_in(3) {
        text = format!("{text}.{}", digits(rng));
    }
    if rng.once_in(4) {
        let mark = rng.pick(&["e", "E", "e+", "e-", "E+", "E-"]);
        text = format!("{text}{mark}{}", digits(rng));
    }
    text.into_bytes()
}

/// Characters with many edges among them.
pub fn random_chars(rng: &mut Rng, count: usize) -> Vec<char> {
    let edges = "\u{0}\u{1}\n\t\r\u{8}\u{c}\u{1f} \"\\/\u{7f}\u{80}é\u{7ff}\u{800}\u{2028}\u{d7ff}\u{e000}\u{feff}\u{fffd}\u{ffff}\u{10000}\u{1F600}\u{10ffff}{}[]:,";
    let edges: Vec<char> = edges.chars().collect();
    (0..count)
        .map(|_| match rng.below(3) {
            0 => edges[rng.below(edges.len())],
            _ => char::from(0x20 + rng.below(0x5F) as u8),
        })
        .collect()
}

/// Whether a character can't stand for itself in a string.
pub fn must_escape(c: char) -> bool {
    c == '"' || c == '\\' || u32::from(c) < 0x20
}

/// One of the spellings of the characters.
pub fn spell(rng: &mut Rng, chars: &[char]) -> Vec<u8> {
    let often = rng.between(1, 6);
    let mut out = Vec::new();
    for &c in chars {
        if !must_escape(c) && !rng.once_in(often) {
            out.extend_from_slice(c.encode_utf8(&mut [0; 4]).as_bytes());
            continue;
        }
        let short = "\"\\/\u{8}\u{c}\n\r\t".chars().position(|s| s == c);
        match short {
            Some(k) if rng.once_in(2) => out.extend_from_slice(&[b'\\', b"\"\\/bfnrt"[k]]),
            _ => hex_escape(rng, c, &mut out),
        }
    }
    out
}

fn hex_escape(rng: &mut Rng, c: char, out: &mut Vec<u8>) {
    for unit in c.encode_utf16(&mut [0; 2]) {
        out.extend_from_slice(b"\\u");
        for b in format!("{unit:04x}").bytes() {
            out.push(if rng.once_in(2) { b.to_ascii_uppercase() } else { b });
        }
    }
}

/// A document with one small change, or a few.
fn mutated_document(rng: &mut Rng) -> Vec<u8> {
    let mut text = random_document(rng);
    let times = if rng.once_in(4) { rng.between(2, 4) } else { 1 };
    for _ in 0..times {
        mutate(rng, &mut text);
    }
    text
}

/// One small change.
pub fn mutate(rng: &mut Rng, text: &mut Vec<u8>) {
    let at = rng.below(text.len() + 1);
    let byte = random_byte(rng);
    match rng.below(7) {
        0 => text.insert(at, byte),
        1 if at < text.len() => text[at] = byte,
        2 if at < text.len() => drop(text.remove(at)),
        3 => text.truncate(at),
        4 if at + 1 < text.len() => text.swap(at, at + 1),
        5 if at < text.len() => text[at] ^= 1 << rng.below(8),
        6 if at < text.len() => {
            let end = (at + rng.between(1, 12)).min(text.len());
            let part = text[at..end].to_vec();
            let to = rng.below(text.len() + 1);
            text.splice(to..to, part);
        }
        _ => text.push(byte),
    }
}

fn random_byte(rng: &mut Rng) -> u8 {
    let common = b"{}[]:,\"\\ \n\t0123456789-+.eEtfnuabdl/\x00\x0B\x0C\x1F\x7F\x80\xA0\xBF\xC0\xC2\xE0\xED\xF0\xF4\xFF";
    if rng.once_in(4) {
        rng.below(256) as u8
    } else {
        common[rng.below(common.len())]
    }
}

const TOKENS: &[&str] = &[
    "{", "}", "[", "]", ":", ",", "\"a\"", "\"b\"", "\"\"", "1", "-2.5", "0", "true", "false", "null", " ", "\n",
    "\"\\u0061\"", "{}", "[]", "\"a\":", "{\"a\":1", ",\"b\":", "tru", "01", "\"", "\\", "'", "\u{b}", "é", "/",
];

/// Tokens one after the other.
fn token_soup(rng: &mut Rng) -> Vec<u8> {
    let count = rng.between(1, 14);
    let kinds = if rng.once_in(3) { TOKENS.len() } else { 21 };
    (0..count).flat_map(|_| rng.pick(&TOKENS[..kinds]).bytes()).collect()
}

/// A valid array or object with one token more, less, or other.
fn broken_tokens(rng: &mut Rng) -> Vec<u8> {
    let object = rng.once_in(2);
    let mut tokens: Vec<&str> = vec![if object { "{" } else { "[" }];
    let names = ["\"a\"", "\"b\"", "\"c\"", "\"\\u0064\"", "\"\""];
    let count = rng.between(1, 5);
    for (i, name) in names.iter().enumerate().take(count) {
        if i > 0 {
            tokens.push(",");
        }
        if object {
            tokens.extend([*name, ":"]);
        }
        tokens.push(rng.pick(&["1", "true", "\"a\"", "[]", "{}", "[1]", "{\"a\":null}", "-0.5e1"]));
    }
    tokens.push(if object { "}" } else { "]" });
    for _ in 0..rng.below(3) {
        let at = rng.below(tokens.len());
        match rng.below(4) {
            0 => tokens.insert(at, rng.pick(TOKENS)),
            1 if tokens.len() > 1 => drop(tokens.remove(at)),
            2 => tokens[at] = rng.pick(TOKENS),
            _ => tokens.insert(at, tokens[at]),
        }
    }
    let blank = rng.pick(&["", " ", "\r\n"]);
    tokens.join(blank).into_bytes()
}

/// An object with two names of the same or nearly the same characters, inside
/// other values, whole or broken.
fn repeated_name(rng: &mut Rng) -> Vec<u8> {
    let length = match rng.below(12) {
        0 => rng.between(300, 1500),
        1..=3 => rng.between(20, 60),
        _ => rng.below(10),
    };
    let first = random_chars(rng, length);
    let second = if rng.once_in(3) { change_one(rng, &first) } else { first.clone() };
    let total = rng.between(2, 12);
    let (i, j) = (rng.below(total), rng.below(total));
    let mut list: Vec<Vec<u8>> = Vec::new();
    for k in 0..total {
        let chars = if k == i { &first } else { &second };
        let name = if k == i || k == j { spell(rng, chars) } else { format!("k{k}").into_bytes() };
        let filler = random_filler(rng);
        list.push(join(&[b"\"", &name, b"\":", &filler]));
    }
    let object = join(&[b"{", &list.join(&b','), b"}"]);
    let mut text = wrapped(rng, object);
    if rng.once_in(5) {
        mutate(rng, &mut text);
    }
    text
}

fn random_filler(rng: &mut Rng) -> Vec<u8> {
    let part = rng.pick(&["1", "\"a\"", "null", "[]", "{}", "{\"a\":{\"a\":1}}", "[{\"k1\":1}]", "[1,[2,[3]]]", "\"k1\""]);
    part.as_bytes().to_vec()
}

/// The value inside a few others, at the first, a middle or the last place.
fn wrapped(rng: &mut Rng, mut text: Vec<u8>) -> Vec<u8> {
    for _ in 0..rng.below(6) {
        let (head, tail) = match rng.below(8) {
            0 => ("[", "]"),
            1 => ("[1,", "]"),
            2 => ("[", ",{}]"),
            3 => ("[ [] , ", " , null ]"),
            4 => ("{\"a\":", "}"),
            5 => ("{\"a\":", ",\"b\":{\"a\":1}}"),
            6 => ("{\"b\":[{\"c\":1}],\"a\":", "}"),
            _ => ("\n{ \"x\" : 0 , \"y\" :\t", ", \"z\" : \"}\" }\r"),
        };
        text = join(&[head.as_bytes(), &text, tail.as_bytes()]);
    }
    text
}

/// The characters with one of them changed, added or left out.
pub fn change_one(rng: &mut Rng, chars: &[char]) -> Vec<char> {
    let mut other = chars.to_vec();
    let added = random_chars(rng, 1)[0];
    if other.is_empty() {
        return vec![added];
    }
    let last = other.len() - 1;
    let at = if rng.once_in(2) { last } else { rng.below(other.len()) };
    match rng.below(4) {
        0 => other.insert(at, added),
        1 => drop(other.remove(at)),
        2 => other.push('\u{0}'),
        _ => other[at] = added,
    }
    other
}

/// Texts whose depth or number of members is at a limit.
fn near_limit(rng: &mut Rng) -> Vec<u8> {
    if rng.once_in(8) {
        let count = rng.between(254, 258);
        let object = members(count, b"n", b"1");
        return wrapped(rng, object);
    }
    let cores: [&[u8]; 8] =
        [b"", b"0", b"\"x\"", b"{}", b"[]", b"1,2", b"{\"a\":1,\"a\":2}", b"\"\\\"[[\""];
    let core = rng.pick(&cores);
    let (pattern, depth) = (rng.below(5), rng.between(27, 34));
    let inner = nest(pattern, depth, core);
    let mut text = wrapped(rng, inner);
    if rng.once_in(6) {
        mutate(rng, &mut text);
    }
    text
}

/// A number, or what nearly is one, in some place.
fn number_text(rng: &mut Rng) -> Vec<u8> {
    let number = if rng.once_in(2) {
        let mut number = good_number(rng);
        let at = rng.below(number.len() + 1);
        let byte = b"0123456789+-.eE"[rng.below(15)];
        match rng.below(4) {
            0 => number.insert(at, byte),
            1 if at < number.len() => drop(number.remove(at)),
            2 if at < number.len() => number[at] = byte,
            _ => {}
        }
        number
    } else {
        (0..rng.between(1, 7)).map(|_| b"0011259+-..eE"[rng.below(13)]).collect()
    };
    wrapped(rng, number)
}

const PARTS: &[&[u8]] = &[
    b"a", b"core:", b"\\n", b"\\\"", b"\\\\", b"\\/", b"\\u0041", b"\\u00e9", b"\\ud83d\\ude00", b"\xC3\xA9", b"\xF0\x9F\x98\x80",
    b"\\u0000", b"\x7F", b"\xEF\xBF\xBF", b"[", b"}", b" ", b"\\t", b"\\uFFFF", b"\\ud83d", b"\\ude00", b"\\u12", b"\\x", b"\\",
    b"\x80", b"\xC3", b"\xE2\x82", b"\xED\xA0\x80", b"\xF4\x90\x80\x80", b"\xC0\x80", b"\n", b"\x1F", b"\"", b"\0", b"\xF0\x9F\x98",
];

/// A candidate for a string's body.
fn random_body(rng: &mut Rng) -> Vec<u8> {
    if rng.once_in(3) {
        let length = if rng.once_in(20) { rng.between(100, 800) } else { rng.below(30) };
        let chars = random_chars(rng, length);
        let mut body = spell(rng, &chars);
        if rng.once_in(2) {
            mutate(rng, &mut body);
        }
        return body;
    }
    let kinds = if rng.once_in(2) { PARTS.len() } else { 19 };
    (0..rng.between(1, 8)).flat_map(|_| rng.pick(&PARTS[..kinds]).to_vec()).collect()
}

/// One of the fixed bodies with a little text around it.
fn edge_body(rng: &mut Rng) -> Vec<u8> {
    let heads: [&[u8]; 6] = [b"", b"", b"a", b"\\n", b"\\\\", b"\xC3\xA9"];
    let tails: [&[u8]; 6] = [b"", b"", b"z", b"\\u0041", b"0", b"\xBF"];
    let edge = if rng.once_in(2) {
        rng.pick(SEQUENCES)
    } else {
        rng.pick(ESCAPES).as_bytes()
    };
    join(&[rng.pick(&heads), edge, rng.pick(&tails)])
}

/// One of the fixed texts inside others, or a fixed blank between tokens.
fn edge_text(rng: &mut Rng) -> Vec<u8> {
    if rng.once_in(4) {
        let document = broken_tokens(rng);
        let at = rng.below(document.len() + 1);
        return join(&[&document[..at], rng.pick(BLANKS), &document[at..]]);
    }
    let list = [TEXTS, STRUCTURES, NUMBERS][rng.below(3)];
    let edge = rng.pick(list).to_vec();
    wrapped(rng, edge)
}

/// A body as value or name inside others.
fn string_text(rng: &mut Rng) -> Vec<u8> {
    let body = if rng.once_in(2) { random_body(rng) } else { edge_body(rng) };
    let string = join(&[b"\"", &body, b"\""]);
    let inner = if rng.once_in(2) { join(&[b"{", &string, b":1}"]) } else { string };
    wrapped(rng, inner)
}

/// Two bodies: spellings of the same or of nearly the same characters.
fn random_pair(rng: &mut Rng) -> Vec<u8> {
    let (x, y) = match rng.below(6) {
        0 => (random_body(rng), random_body(rng)),
        1 => glued_pair(rng),
        _ => {
            let length = if rng.once_in(15) { rng.between(100, 1200) } else { rng.below(20) };
            let first = random_chars(rng, length);
            let second = if rng.once_in(2) { change_one(rng, &first) } else { first.clone() };
            let mut y = spell(rng, &second);
            if rng.once_in(10) {
                mutate(rng, &mut y);
            }
            (spell(rng, &first), y)
        }
    };
    join(&[&x, b"\n", &y])
}

/// Two bodies of pairs from the lists, one pair after the other.
fn glued_pair(rng: &mut Rng) -> (Vec<u8>, Vec<u8>) {
    let (mut x, mut y) = (Vec::new(), Vec::new());
    for _ in 0..rng.between(1, 4) {
        let list = if rng.below(6) < 5 { ALIKE } else { UNLIKE };
        let (p, q) = list[rng.below(list.len())];
        x.extend_from_slice(p.as_bytes());
        y.extend_from_slice(q.as_bytes());
    }
    (x, y)
}
