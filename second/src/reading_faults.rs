//! Changes to a recording, each of which makes one refusal hold.

use crate::fields::{core_fields, Type};
use crate::json_cases::nest;
use crate::part::{find, raw, remove, set, Part};
use crate::reading_case::ReadingCase;
use crate::reading_lists::*;
use crate::recording::Recording;
use crate::recording_random::{entry, PLACES};
use crate::rng::Rng;

/// A change before or after the recording is written.
#[derive(Clone, Copy)]
pub enum Fault {
    Parts(fn(&mut Recording, &mut Rng)),
    Case(fn(&mut ReadingCase, &mut Rng)),
}

use Fault::{Case, Parts};

/// Refusal numbers and the changes that make them hold. The recording has
/// captures, annotations and samples, and W > 1.
pub const FAULTS: &[(u64, Fault)] = &[
    (1, Case(|c, _| c.text.clear())),
    (1, Case(|c, _| c.dataset = (1 << 48) + 1)),
    (1, Case(|c, r| c.dataset = u64::MAX >> r.below(15))),
    (2, Case(|c, r| break_text(&mut c.text, r))),
    (2, Case(|c, r| shorten(&mut c.text, r))),
    (2, Case(|c, r| put(&mut c.text, BAD_BYTES[r.below(BAD_BYTES.len())], r))),
    (2, Parts(|p, r| add_value(p, raw(r.pick(BAD_VALUES)), r))),
    (2, Parts(|p, r| add_value(p, Part::List(vec![raw(String::from_utf8(nest(r.below(5), 32, b"1")).unwrap_or_default())]), r))),
    (2, Parts(|p, r| add_member(p, r.pick(BAD_BODIES), raw(1), r))),
    (3, Parts(repeat_field)),
    (3, Parts(repeat_inside)),
    (3, Parts(repeat_top)),
    (3, Parts(repeat_in_entry)),
    (3, Parts(too_many)),
    (4, Parts(replace_top)),
    (4, Parts(misname_top)),
    (4, Parts(add_element)),
    (4, Parts(|p, _| p.top = Part::List(vec![p.top.clone()]))),
    (4, Parts(|p, r| p.top = raw(r.pick(&["5", "null", "\"global\"", "[]", "{}", "true"])))),
    (5, Parts(|p, r| add_member(p, r.pick(BAD_NAMES), raw(r.pick(VALUES)), r))),
    (5, Parts(|p, r| add_member(p, r.pick(BAD_NAMES), raw(r.pick(VALUES)), r))),
    (6, Parts(remove_required)),
    (6, Parts(rename_required)),
    (7, Parts(wrong_type)),
    (7, Parts(|p, r| set_uint(p, raw(r.pick(BAD_UINTS)), r))),
    (7, Parts(|p, r| p.set(("global", 0), "core:extensions", raw(r.pick(&["{}", "null", "\"\"", "1"]))))),
    (8, Parts(|p, r| p.set(("global", 0), "core:version", quoted(r.pick(BAD_VERSIONS))))),
    (9, Parts(|p, r| p.set(("global", 0), "core:datatype", quoted(r.pick(BAD_DATATYPES))))),
    (10, Parts(|p, r| p.set(("global", 0), "core:num_channels", raw(r.pick(BAD_CHANNELS))))),
    (11, Parts(|p, r| set_in(p, "captures", "core:datetime", quoted(r.pick(BAD_DATETIMES)), r))),
    (12, Parts(|p, r| add_entry(p, raw(r.pick(BAD_ENTRIES)), r))),
    (13, Parts(|p, r| { let needed = entry("false", r); add_entry(p, needed, r) })),
    (14, Parts(|p, _| p.set(("global", 0), "core:metadata_only", raw("true")))),
    (14, Parts(metadata_beside)),
    (15, Parts(unsorted)),
    (16, Parts(|p, _| p.dataset += 1)),
    (16, Parts(|p, _| p.dataset -= p.plan.samples * p.plan.width() + 1)),
    (16, Parts(|p, _| p.set(("global", 0), "core:trailing_bytes", raw(p.dataset + 1)))),
    (16, Parts(|p, r| p.set(("global", 0), "core:trailing_bytes", raw(u64::MAX - r.below(9) as u64)))),
    (16, Parts(huge_headers)),
    (17, Parts(|p, _| far_offset(p))),
    (17, Parts(|p, _| push(p, "captures", p.end() + 1))),
    (17, Parts(|p, _| push(p, "annotations", p.end() + 1))),
    (17, Parts(|p, _| push(p, "annotations", u64::MAX))),
    (17, Parts(early)),
    (17, Parts(long_count)),
    (20, Case(|c, _| c.captures = c.captures.saturating_sub(1))),
    (20, Case(|c, _| c.annotations = c.annotations.saturating_sub(1))),
    (20, Case(|c, r| c.annotations = c.annotations.saturating_sub(r.between(1, 8) as u64))),
    (20, Case(|c, r| if r.once_in(2) { c.captures = 0 } else { c.annotations = 0 })),
];

/// The parts first, then the rest, in both the larger number first, so that the
/// smaller one holds at the end.
pub fn in_order(faults: &[(u64, Fault)]) -> Vec<(u64, Fault)> {
    let mut list = faults.to_vec();
    list.sort_by_key(|(number, fault)| (matches!(fault, Case(_)), std::cmp::Reverse(*number)));
    list
}

/// A string's part.
fn quoted(body: &str) -> Part {
    raw(format!("\"{body}\""))
}

/// Any one of the objects whose fields are judged.
fn any_place(p: &mut Recording, rng: &mut Rng) -> (&'static str, usize) {
    let name = PLACES[rng.below(3)].0;
    (name, rng.below(p.list(name).map_or(1, |l| l.len()).max(1)))
}

/// Another member in one of the objects, at any place of it; beside the whole if
/// there is no such object any more.
fn add_member(p: &mut Recording, name: &str, value: Part, rng: &mut Rng) {
    let place = any_place(p, rng);
    match p.object(place) {
        Some(members) => members.insert(rng.below(members.len() + 1), (name.to_string(), value)),
        None => beside(p, Part::Object(vec![(name.to_string(), value)])),
    }
}

/// The whole in an array beside a value.
fn beside(p: &mut Recording, value: Part) {
    p.top = Part::List(vec![p.top.clone(), value]);
}

/// A value of an unknown name, in one of the objects or at the top.
fn add_value(p: &mut Recording, value: Part, rng: &mut Rng) {
    match p.members() {
        Some(members) if rng.once_in(4) => members.insert(rng.below(members.len() + 1), ("x".to_string(), value)),
        _ => add_member(p, "z:z", value, rng),
    }
}

/// Another value of one of the uint fields.
fn set_uint(p: &mut Recording, value: Part, rng: &mut Rng) {
    let (list, name) = UINTS[rng.below(UINTS.len())];
    set_in(p, list, name, value, rng);
}

/// Another value of a field, in any element of the list.
fn set_in(p: &mut Recording, list: &str, name: &str, value: Part, rng: &mut Rng) {
    let k = rng.below(p.list(list).map_or(1, |l| l.len()).max(1));
    p.set((list, k), name, value);
}

/// Bytes put in or taken out so that the text is not JSON.
fn break_text(text: &mut Vec<u8>, rng: &mut Rng) {
    let edges: [(&[u8], bool); 9] = [
        (b"\xEF\xBB\xBF", true), (b"\x0B", true), (b"\x0C", false), (b"\0", false), (b"\xC2\xA0", false), (b",", false), (b"{}", false),
        (b"]", false), (b"[", true),
    ];
    let (bytes, before) = edges[rng.below(edges.len())];
    let at = if before { 0 } else { text.len() };
    text.splice(at..at, bytes.iter().copied());
}

/// A beginning of the text.
fn shorten(text: &mut Vec<u8>, rng: &mut Rng) {
    if text.len() < 3 {
        return text.push(b',');
    }
    text.truncate(rng.between(1, text.len() - 2));
}

/// Bytes that no text may hold, just after some quote, comma, colon or bracket.
fn put(text: &mut Vec<u8>, bytes: &[u8], rng: &mut Rng) {
    let places: Vec<usize> = (0..text.len()).filter(|&k| b",:{[".contains(&text[k])).collect();
    let at = if places.is_empty() { 0 } else { places[rng.below(places.len())] + 1 };
    text.splice(at..at, bytes.iter().copied());
}

/// A field twice in one of the objects, the second with an escape.
fn repeat_field(p: &mut Recording, rng: &mut Rng) {
    let place = any_place(p, rng);
    if p.object(place).map_or(true, |members| members.is_empty()) {
        return repeat_inside(p, rng);
    }
    let Some(members) = p.object(place) else {
        return;
    };
    let (name, value) = members[rng.below(members.len())].clone();
    let plain = !name.is_empty() && name.chars().all(|c| c.is_ascii() && c != '\\');
    let again = if plain { format!("\\u{:04x}{}", name.as_bytes()[0], &name[1..]) } else { name };
    members.push((again, value));
}

/// An object with a name twice somewhere in an ignored value.
fn repeat_inside(p: &mut Recording, rng: &mut Rng) {
    let twice = r#"{"a":1,"b":{"c":[]},"\u0061":2}"#;
    let texts = [twice.to_string(), format!("[[1,{twice}]]"), format!(r#"{{"x":[{{}},{twice}]}}"#), r#"{"":0,"":0}"#.to_string()];
    let place = (PLACES[rng.below(2)].0, 0);
    match p.object(place) {
        Some(members) if rng.once_in(2) => set(members, "core:geolocation", raw(twice)),
        _ => add_value(p, raw(&texts[rng.below(texts.len())]), rng),
    }
}

/// A member of the top level twice.
fn repeat_top(p: &mut Recording, rng: &mut Rng) {
    let Some(members) = p.members() else {
        return repeat_inside(p, rng);
    };
    let (name, value) = members[rng.below(members.len())].clone();
    let value = if rng.once_in(2) { value } else { raw("0") };
    members.insert(rng.below(members.len() + 1), (name, value));
}

/// An extension entry with a name twice.
fn repeat_in_entry(p: &mut Recording, rng: &mut Rng) {
    let text = r#"{"name":"a","version":"b","optional":true,"\u006eame":"c"}"#;
    add_entry(p, raw(text), rng);
}

/// An object of 257 members.
fn too_many(p: &mut Recording, rng: &mut Rng) {
    let place = any_place(p, rng);
    let Some(members) = (if rng.once_in(4) { p.members() } else { p.object(place) }) else {
        return repeat_inside(p, rng);
    };
    for k in members.len()..257 {
        members.push((format!("q:a{k}"), raw(0)));
    }
}

/// One of the three at the top taken out, or of another type.
fn replace_top(p: &mut Recording, rng: &mut Rng) {
    let name = PLACES[rng.below(3)].0;
    let Some(members) = p.members() else { return };
    if rng.once_in(4) {
        return remove(members, name);
    }
    let other = if name == "global" { "[]" } else { "{}" };
    let value = [other, "null", "5", "\"\"", "true", r#""[]""#][rng.below(6)];
    set(members, name, raw(value));
}

/// One of the three at the top with nearly its name.
fn misname_top(p: &mut Recording, rng: &mut Rng) {
    let name = PLACES[rng.below(3)].0;
    if let Some(member) = p.members().and_then(|m| m.iter_mut().find(|m| m.0 == name)) {
        let names = [name.to_uppercase(), format!("{name} "), format!("{name}s"), format!("core:{name}"), format!("{name}\\u0000"), name[1..].to_string()];
        member.0 = names[rng.below(names.len())].clone();
    }
}

/// An element that is not an object.
fn add_element(p: &mut Recording, rng: &mut Rng) {
    let name = rng.pick(&["captures", "annotations"]);
    let value = raw(rng.pick(&["[]", "null", "5", "\"{}\"", "false", r#"[{"core:sample_start":0}]"#]));
    if let Some(list) = p.list(name) {
        list.insert(rng.below(list.len() + 1), value);
    }
}

/// A required field left out.
fn remove_required(p: &mut Recording, rng: &mut Rng) {
    let place = any_place(p, rng);
    let name = if place.0 == "global" { rng.pick(&["core:datatype", "core:version"]) } else { "core:sample_start" };
    if let Some(members) = p.object(place) {
        remove(members, name);
    }
}

/// A required field with nearly its name.
fn rename_required(p: &mut Recording, rng: &mut Rng) {
    let place = any_place(p, rng);
    let name = if place.0 == "global" { rng.pick(&["datatype", "version"]) } else { "sample_start" };
    let core = format!("core:{name}");
    let others = [
        format!("core:{}", &name[1..]), format!("core:{name}_"), format!("Core:{name}"), format!("core-:{name}"),
        format!("core:{}", name.to_uppercase()),
    ];
    let other = &others[rng.below(others.len())];
    if let Some(members) = p.object(place) {
        members.iter_mut().filter(|m| m.0 == core).for_each(|m| m.0 = other.clone());
    }
}

/// A known field with a value of another type.
fn wrong_type(p: &mut Recording, rng: &mut Rng) {
    let (list, place) = PLACES[rng.below(3)];
    let fields: Vec<(Type, &str)> = core_fields(place).into_iter().filter(|f| f.0 != Type::Any).collect();
    let (kind, name) = fields[rng.below(fields.len())];
    let value = raw(rng.pick(wrong_values(kind)));
    set_in(p, list, &format!("core:{name}"), value, rng);
}

/// One more extension entry, at any place of the list.
fn add_entry(p: &mut Recording, value: Part, rng: &mut Rng) {
    let Some(global) = p.object(("global", 0)) else {
        return beside(p, value);
    };
    match find(global, "core:extensions") {
        Some(Part::List(list)) => list.insert(rng.below(list.len() + 1), value),
        _ => set(global, "core:extensions", Part::List(vec![value])),
    }
}

/// core:metadata_only beside core:dataset.
fn metadata_beside(p: &mut Recording, rng: &mut Rng) {
    p.set(("global", 0), "core:metadata_only", raw(rng.pick(&["false", "true"])));
    p.set(("global", 0), "core:dataset", raw("\"x\""));
}

/// Two more captures or annotations in the wrong order.
fn unsorted(p: &mut Recording, rng: &mut Rng) {
    let name = rng.pick(&["captures", "annotations"]);
    let (high, low) = ([p.end(), p.plan.offset + 1, u64::MAX][rng.below(3)], p.plan.offset);
    let (high, low) = (high.max(1), low.min(high.max(1) - 1));
    push(p, name, high);
    push(p, name, low);
}

/// Headers that are longer than any dataset, together or alone.
fn huge_headers(p: &mut Recording, rng: &mut Rng) {
    let header = [1 << 63, u64::MAX, (1 << 63) - 1, (1 << 48) + 1][rng.below(4)];
    if p.list("captures").is_none_or(|l| l.is_empty()) {
        push(p, "captures", p.plan.offset);
    }
    let last = p.list("captures").map_or(0, |l| l.len() - 1);
    for k in [0, last] {
        p.set(("captures", k), "core:header_bytes", raw(header));
    }
}

/// One more capture or annotation with a start.
fn push(p: &mut Recording, name: &str, start: u64) {
    if let Some(list) = p.list(name) {
        list.push(Part::Object(vec![("core:sample_start".to_string(), raw(start))]));
    }
}

/// An offset from which the samples run past 2^64 - 1.
fn far_offset(p: &mut Recording) {
    p.set(("global", 0), "core:offset", raw(u64::MAX - p.plan.samples + 1));
    for name in ["captures", "annotations"] {
        if let Some(list) = p.list(name) {
            list.clear();
        }
    }
    let headers: u64 = p.plan.captures.iter().map(|c| c.1).sum();
    p.dataset -= headers;
}

/// A first start below the offset.
fn early(p: &mut Recording, rng: &mut Rng) {
    let name = rng.pick(&["captures", "annotations"]);
    let start = [0, p.plan.offset.wrapping_sub(1)][rng.below(2)];
    if p.plan.offset == 0 {
        return push(p, name, p.end() + 1);
    }
    p.set((name, 0), "core:sample_start", raw(start));
}

/// A count one too large, or far too large.
fn long_count(p: &mut Recording, rng: &mut Rng) {
    let k = rng.below(p.plan.annotations.len());
    let left = p.end() - p.plan.annotations[k].0;
    let counts = [left + 1, u64::MAX, u64::MAX - left, 1 << 63, left.saturating_add(1 << 32)];
    p.set(("annotations", k), "core:sample_count", raw(counts[rng.below(counts.len())].max(left + 1)));
}
