//! Random recordings that are accepted, with hostile texts in them.

use crate::fields::{core_fields, datatypes, days_in, Place, Type};
use crate::json_cases::nest;
use crate::json_random::{good_number, random_chars, spell};
use crate::part::{raw, Member, Part};
use crate::recording::{member, Plan, Recording};
use crate::rng::Rng;
use crate::table_random::starts;

/// The name of an array or of the global object, beside its kind.
pub const PLACES: [(&str, Place); 3] =
    [("global", Place::Global), ("captures", Place::Capture), ("annotations", Place::Annotation)];

/// Any listed code.
pub fn random_code(rng: &mut Rng) -> u64 {
    rng.below(datatypes().len()) as u64
}

/// Random numbers of a recording; its rows mostly few, its dataset mostly short.
pub fn random_plan(rng: &mut Rng) -> Plan {
    let mut plan = Plan { code: random_code(rng), channels: [1, 1, 1, 2, 5, 1_023, 1_024][rng.below(7)], ..Plan::default() };
    plan.samples = match rng.below(10) {
        0 => 0,
        1 => rng.bits() % ((1 << 47) / plan.width()),
        _ => rng.below(60) as u64,
    };
    plan.offset = match rng.below(6) {
        0..=2 => 0,
        3 => rng.below(90) as u64,
        4 => u64::MAX - plan.samples - [0, 0, 1, 7][rng.below(4)],
        _ => rng.bits() >> rng.between(1, 60),
    };
    plan.trailing = if rng.once_in(4) { rng.bits() >> rng.between(20, 63) } else { 0 };
    plan.captures = starts(row_count(rng), plan.offset, plan.samples, rng).iter().map(|&s| (s, header(rng))).collect();
    plan.annotations = starts(row_count(rng), plan.offset, plan.samples, rng)
        .iter()
        .map(|&s| (s, count(plan.offset + plan.samples - s, rng), label(rng)))
        .collect();
    plan
}

fn row_count(rng: &mut Rng) -> usize {
    match rng.below(30) {
        0 => rng.between(6, 40),
        _ => [0, 1, 1, 2, 2, 3, 4][rng.below(7)],
    }
}

fn header(rng: &mut Rng) -> u64 {
    match rng.below(6) {
        0..=2 => 0,
        3 => rng.bits() >> rng.between(24, 63),
        _ => rng.below(20) as u64,
    }
}

/// A count of at most `left` samples, or none.
fn count(left: u64, rng: &mut Rng) -> Option<u64> {
    match rng.below(4) {
        0 => None,
        1 => Some(left),
        2 => Some(0),
        _ => Some(rng.bits() % left.saturating_add(1).max(1)),
    }
}

/// A raw label between its quotes, or none.
pub fn label(rng: &mut Rng) -> Option<String> {
    let length = match rng.below(10) {
        0..=2 => return None,
        3 => 0,
        4 => rng.between(20, 60),
        _ => rng.below(12),
    };
    Some(body(length, rng))
}

/// A string's body of so many characters.
fn body(length: usize, rng: &mut Rng) -> String {
    let chars = random_chars(rng, length);
    String::from_utf8(spell(rng, &chars)).unwrap_or_default()
}

/// The recording of a plan with more fields, known and unknown, and more members
/// at the top.
pub fn decorated(plan: &Plan, rng: &mut Rng) -> Recording {
    let mut recording = plan.recording();
    let often = rng.between(3, 12);
    for (name, place) in PLACES {
        let count = recording.list(name).map_or(1, |l| l.len());
        for k in 0..count {
            let more = more_fields(place, often, rng);
            if let Some(members) = recording.object((name, k)) {
                for field in more {
                    if !members.iter().any(|m| m.0 == field.0) {
                        members.insert(rng.below(members.len() + 1), field);
                    }
                }
            }
        }
    }
    if rng.once_in(3) {
        let name = rng.pick(&["core:global", "x", "", "Global", "collection", "captures2", "9", "a:b:c", "core:sample_start"]);
        let other = (name.to_string(), hostile(1, rng));
        if let Some(members) = recording.members() {
            members.insert(rng.below(members.len() + 1), other);
        }
    }
    recording
}

/// A random recording.
pub fn random_recording(rng: &mut Rng) -> Recording {
    let plan = random_plan(rng);
    decorated(&plan, rng)
}

/// Other fields of an object, each once in so many times.
fn more_fields(place: Place, often: usize, rng: &mut Rng) -> Vec<Member> {
    let mut list: Vec<Member> = Vec::new();
    for (kind, name) in core_fields(place) {
        let dataset_beside = name == "metadata_only" && list.iter().any(|m| m.0 == "core:dataset");
        let fixed = ["num_channels", "offset", "trailing_bytes", "sample_start", "header_bytes", "sample_count", "label"];
        if rng.once_in(often) && !dataset_beside && !fixed.contains(&name) {
            list.push(member_of(name, good_value(kind, name, rng)));
        }
    }
    if rng.once_in(3) {
        let names = [
            "a:b", "core:unknown", "core:label", "core:offset", "-:a", "_:_", "a-9:b9", "core:sample_starts",
            "Core:version", "antenna:gain",
            "core:header_bytes", "core:datetime", "core:extensions", "core:metadata_only", "core:sample_star", "core-:label", "c\\u003ad",
        ];
        let name = names[rng.below(names.len())];
        if !core_fields(place).iter().any(|f| member(f.1, "").0 == name) {
            list.push((name.to_string(), hostile(3, rng)));
        }
    }
    list
}

fn member_of(name: &str, value: Part) -> Member {
    (format!("core:{name}"), value)
}

/// A value of a core field that the reader accepts.
fn good_value(kind: Type, name: &str, rng: &mut Rng) -> Part {
    match kind {
        Type::Text if name == "datetime" => raw(format!("\"{}\"", datetime(rng))),
        Type::Text => raw(format!("\"{}\"", body(rng.below(9), rng))),
        Type::Uint => raw(rng.bits() >> rng.below(64)),
        Type::Double => raw(String::from_utf8(good_number(rng)).unwrap_or_default()),
        Type::Boolean => raw("false"),
        Type::Object => Part::Object(vec![("type".to_string(), raw("\"Point\"")), ("9".to_string(), hostile(4, rng))]),
        Type::Array => Part::List((0..rng.below(3)).map(|_| entry("true", rng)).collect()),
        Type::Any => hostile(3, rng),
    }
}

/// An extension entry with a value of `optional`.
pub fn entry(optional: &str, rng: &mut Rng) -> Part {
    let text = |rng: &mut Rng| raw(format!("\"{}\"", body(rng.below(5), rng)));
    let mut list = vec![("name".to_string(), text(rng)), ("version".to_string(), text(rng)), ("optional".to_string(), raw(optional))];
    list.rotate_left(rng.below(3));
    Part::Object(list)
}

/// A text of a good datetime, with escapes now and then.
pub fn datetime(rng: &mut Rng) -> String {
    let years = [0, 4, 1900, 2000, 2016, 2023, 2024, 9999];
    let year = if rng.once_in(2) { years[rng.below(8)] } else { rng.below(10_000) as u32 };
    let month = rng.between(1, 12) as u32;
    let last = days_in(year, month);
    let date = if rng.once_in(3) { last } else { rng.between(1, last as usize) as u32 };
    let clock = match rng.below(4) {
        0 if date == last => "23:59:60".to_string(),
        1 => "23:59:59".to_string(),
        _ => format!("{:02}:{:02}:{:02}", rng.below(24), rng.below(60), rng.below(60)),
    };
    let fraction: String = (0..rng.below(4)).map(|_| char::from(b'0' + rng.below(10) as u8)).collect();
    let dot = if fraction.is_empty() { "" } else { "." };
    let text = format!("{year:04}-{month:02}-{date:02}T{clock}{dot}{fraction}Z");
    if rng.once_in(3) {
        let chars: Vec<char> = text.chars().collect();
        return String::from_utf8(spell(rng, &chars)).unwrap_or_default();
    }
    text
}

/// A value that is ignored or of any type, `depth` containers deep already.
fn hostile(depth: usize, rng: &mut Rng) -> Part {
    let texts = [
        "null", "true", "false", "0", "-0", "1e999999", "18446744073709551616", "\"\"", "[]", "{}", "\"core:label\"", "\"]}\"",
        r#""\",\"core:sample_start\":1""#, r#""\\""#, r#"{"core:sample_start":0}"#, r#"[{"core:label":"x"}]"#, r#"{"global":{}}"#,
        r#"{"captures":[],"annotations":[]}"#, r#""\u0022}""#, r#"{"":""}"#, r#"{"a":{"a":{"a":[]}}}"#,
        r#""\ud83d\ude00""#, r#"[[],[[]],{}]"#,
        r#"{"core:datatype":5}"#, "-1.5E+10",
    ];
    match rng.below(8) {
        0 if depth < 12 => {
            let inner = nest(rng.below(5), rng.between(20, 32 - depth), b"");
            raw(String::from_utf8(inner).unwrap_or_default())
        }
        1 => raw(format!("\"{}\"", body(rng.below(30), rng))),
        2 => Part::List((0..rng.below(4)).map(|_| hostile(depth + 1, rng)).collect()),
        3 => Part::Object((0..rng.below(4)).map(|k| (format!("k{k}"), hostile(depth + 1, rng))).collect()),
        _ => raw(rng.pick(&texts)),
    }
}
