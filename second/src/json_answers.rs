//! The expected answer line of each case about a JSON text.

use crate::frames::{checksum, Case};
use crate::json::{decode_body, judge, Kind, Tree};

/// The answer line of a case, without its line feed; none for an unknown letter.
pub fn answer(case: &Case) -> Option<String> {
    match case.letter {
        b'j' => Some(text_answer(&case.payload)),
        b's' => Some(body_answer(&case.payload)),
        b'e' => Some(equal_answer(&case.payload)),
        _ => None,
    }
}

/// `j`: a whole text judged for refusals 2 and 3.
fn text_answer(text: &[u8]) -> String {
    match judge(text) {
        Err(refusal) => format!("j {refusal}"),
        Ok(tree) => {
            let (kind, count, places) = shape(&tree);
            format!("j 0 {kind} {count} {}", checksum(places))
        }
    }
}

/// The top-level value's kind, its number of parts and their places.
fn shape(tree: &Tree) -> (&'static str, usize, Vec<u64>) {
    match &tree.node(tree.root).kind {
        Kind::Object(members) => {
            let mut places = Vec::new();
            for m in members {
                let value = tree.node(m.value).span;
                places.extend([m.raw.start, m.raw.len(), value.start, value.end].map(|x| x as u64));
            }
            ("object", members.len(), places)
        }
        Kind::Array(elements) => {
            let spans = elements.iter().map(|&id| tree.node(id).span);
            let places = spans.flat_map(|s| [s.start as u64, s.end as u64]).collect();
            ("array", elements.len(), places)
        }
        Kind::Text(_) => ("string", 0, Vec::new()),
        Kind::Number => ("number", 0, Vec::new()),
        Kind::True => ("true", 0, Vec::new()),
        Kind::False => ("false", 0, Vec::new()),
        Kind::Null => ("null", 0, Vec::new()),
    }
}

/// `s`: a candidate for a string's body.
fn body_answer(body: &[u8]) -> String {
    match decode_body(body) {
        None => "s 2".to_string(),
        Some(decoded) => {
            let h = checksum(decoded.iter().map(|&b| u64::from(b)));
            format!("s 0 {} {h}", decoded.len())
        }
    }
}

/// `e`: two bodies with a line feed between; whether they decode alike.
fn equal_answer(pair: &[u8]) -> String {
    let mut parts = pair.splitn(2, |&b| b == b'\n');
    let first = parts.next().and_then(decode_body);
    let second = parts.next().and_then(decode_body);
    match (first, second) {
        (Some(x), Some(y)) => format!("e {}", u8::from(x == y)),
        _ => "e 2".to_string(),
    }
}
