//! Field names, types, datatypes, datetimes and extension entries.

use crate::json::{all_digits, decode_any, is_number, Kind, NodeId, Tree};

/// The kinds of object whose core names are known.
#[derive(Clone, Copy, PartialEq, Eq, Debug)]
pub enum Place {
    Global,
    Capture,
    Annotation,
}

/// The type of a core field.
#[derive(Clone, Copy, PartialEq, Eq, Debug)]
pub enum Type {
    Text,
    Uint,
    Double,
    Boolean,
    Object,
    Array,
    Any,
}

/// "Global. Strings: ... uint: ... double: ... boolean: ... object: ... array: ..."
const GLOBAL: [(Type, &str); 6] = [
    (
        Type::Text,
        "datatype version sha512 description author meta_doi data_doi recorder license hw dataset collection",
    ),
    (Type::Uint, "num_channels offset trailing_bytes"),
    (Type::Double, "sample_rate hagl"),
    (Type::Boolean, "metadata_only"),
    (Type::Object, "geolocation"),
    (Type::Array, "extensions"),
];

/// "Capture. uint: ... double: ... string: ... object: ..."
const CAPTURE: [(Type, &str); 4] = [
    (Type::Uint, "sample_start global_index header_bytes"),
    (Type::Double, "frequency"),
    (Type::Text, "datetime"),
    (Type::Object, "geolocation"),
];

/// "Annotation. uint: ... string: ... double: ... latitude and longitude: any type."
const ANNOTATION: [(Type, &str); 4] = [
    (Type::Uint, "sample_start sample_count"),
    (Type::Text, "generator label comment uuid"),
    (Type::Double, "freq_lower_edge freq_upper_edge"),
    (Type::Any, "latitude longitude"),
];

/// The core fields of a kind of object in the paper's order, without `core:`.
pub fn core_fields(place: Place) -> Vec<(Type, &'static str)> {
    let groups: &[(Type, &'static str)] = match place {
        Place::Global => &GLOBAL,
        Place::Capture => &CAPTURE,
        Place::Annotation => &ANNOTATION,
    };
    groups.iter().flat_map(|(kind, words)| words.split(' ').map(|word| (*kind, word))).collect()
}

/// The core names of a kind of object in the same order.
pub fn core_names(place: Place) -> Vec<String> {
    core_fields(place).iter().map(|(_, word)| format!("core:{word}")).collect()
}

/// The number of a known name among the core fields: "A name is known when it is
/// equal, byte for byte, to one of the core names below for its kind of object,
/// with `core:` before it; all others are ignored, core-prefixed ones included."
pub fn known_number(place: Place, name: &[u8]) -> Option<usize> {
    core_names(place).iter().position(|core| core.as_bytes() == name)
}

/// The answer to a raw name's lookup: its number among the core fields, one past
/// the last if it is unknown, and "how many core names it compared byte for byte:
/// exactly those of its kind of object with the name's decoded length".
pub fn look_up(place: Place, raw: &[u8]) -> (usize, usize) {
    let (name, names) = (decode_any(raw), core_names(place));
    let number = known_number(place, &name).unwrap_or(names.len());
    (number, names.iter().filter(|core| core.len() == name.len()).count())
}

/// The type of a known name.
pub fn known_type(place: Place, name: &[u8]) -> Option<Type> {
    known_number(place, name).map(|k| core_fields(place)[k].0)
}

/// The core names that must be there, without `core:`: "datatype (required),
/// version (required)", "sample_start (required)".
pub fn required(place: Place) -> &'static [&'static str] {
    match place {
        Place::Global => &["datatype", "version"],
        Place::Capture | Place::Annotation => &["sample_start"],
    }
}

/// "Form of a field name: one colon, a part on each side, each not empty and not
/// starting with a digit, of ASCII letters, digits and `_`; the namespace may
/// also hold `-`". The name is decoded.
pub fn has_form(name: &[u8]) -> bool {
    after_colon(name).is_some()
}

/// The part after the colon of a name that has the form.
pub fn after_colon(name: &[u8]) -> Option<&[u8]> {
    let parts: Vec<&[u8]> = name.split(|&b| b == b':').collect();
    match parts.as_slice() {
        [space, field] if is_part(space, true) && is_part(field, false) => Some(field),
        _ => None,
    }
}

fn is_part(part: &[u8], dash: bool) -> bool {
    let first_ok = part.first().is_some_and(|b| !b.is_ascii_digit());
    first_ok && part.iter().all(|&b| b.is_ascii_alphanumeric() || b == b'_' || (dash && b == b'-'))
}

/// "A uint is digits only, as JSON writes them, at most 2^64 - 1". The part is
/// the whole text of a value.
pub fn uint(part: &[u8]) -> Option<u64> {
    if !is_number(part) || !all_digits(part) {
        return None;
    }
    std::str::from_utf8(part).ok()?.parse().ok()
}

/// Whether a value matches the type: "`null` is never a match for a typed core
/// field", "A double is any JSON number".
pub fn matches(text: &[u8], tree: &Tree, value: NodeId, wanted: Type) -> bool {
    let node = tree.node(value);
    match wanted {
        Type::Text => matches!(node.kind, Kind::Text(_)),
        Type::Uint => uint(&text[node.span.start..node.span.end]).is_some(),
        Type::Double => node.kind == Kind::Number,
        Type::Boolean => node.kind == Kind::True || node.kind == Kind::False,
        Type::Object => matches!(node.kind, Kind::Object(_)),
        Type::Array => matches!(node.kind, Kind::Array(_)),
        Type::Any => true,
    }
}

/// The datatypes in the order of their codes: "codes 0 to 11 with `r` before:
/// f32_le, ... Codes 12 to 23 the same with `c`." Then request P4's four.
pub fn datatypes() -> Vec<String> {
    let mut names = Vec::new();
    for letter in ["r", "c"] {
        for format in ["f32", "i32", "i16", "u32", "u16"] {
            for order in ["le", "be"] {
                names.push(format!("{letter}{format}_{order}"));
            }
        }
        names.push(format!("{letter}i8"));
        names.push(format!("{letter}u8"));
    }
    names.extend(["rf64_le", "rf64_be", "cf64_le", "cf64_be"].map(String::from));
    names
}

/// How many datatypes are listed.
pub fn datatype_count() -> u64 {
    datatypes().len() as u64
}

/// The code of a datatype's decoded text: "the texts of datatype, version and
/// datetime, are judged after escapes are decoded".
pub fn datatype_code(name: &[u8]) -> Option<u64> {
    datatypes().iter().position(|n| n.as_bytes() == name).map(|k| k as u64)
}

/// The name of a code, if it is a listed one.
pub fn datatype_name(code: u64) -> Option<String> {
    datatypes().into_iter().nth(usize::try_from(code).ok()?)
}

/// "W = component bytes x (2 if complex) x channels", for a listed code. The
/// component's bits stand in the name.
pub fn sample_width(code: u64, channels: u64) -> Option<u128> {
    let name = datatype_name(code)?;
    let bits: String = name.chars().filter(char::is_ascii_digit).collect();
    let component = bits.parse::<u128>().ok()? / 8;
    let parts = if name.starts_with('c') { 2 } else { 1 };
    Some(component * parts * u128::from(channels))
}

/// The six numbers of a datetime and the digits of its fraction.
#[derive(Clone, Copy, PartialEq, Eq, Debug)]
pub struct Datetime<'a> {
    pub numbers: [u32; 6],
    pub fraction: &'a [u8],
}

/// "Datetime (001): `YYYY-MM-DDTHH:MM:SS`, optionally `.` and one or more
/// digits, then `Z`, capitals only". The text is decoded.
pub fn datetime(text: &[u8]) -> Option<Datetime<'_>> {
    let local = text.strip_suffix(b"Z")?;
    let (base, fraction) = match local.iter().position(|&b| b == b'.') {
        Some(k) => (&local[..k], Some(&local[k + 1..])),
        None => (local, None),
    };
    if !fraction.is_none_or(all_digits) {
        return None;
    }
    let numbers = clock_numbers(base).filter(|&n| is_instant(n))?;
    Some(Datetime { numbers, fraction: fraction.unwrap_or_default() })
}

/// Whether a decoded text is a datetime.
pub fn is_datetime(text: &[u8]) -> bool {
    datetime(text).is_some()
}

/// The six numbers of `YYYY-MM-DDTHH:MM:SS`.
fn clock_numbers(base: &[u8]) -> Option<[u32; 6]> {
    let template = b"0000-00-00T00:00:00";
    let fits = |(&b, &t): (&u8, &u8)| if t == b'0' { b.is_ascii_digit() } else { b == t };
    if base.len() != template.len() || !base.iter().zip(template).all(fits) {
        return None;
    }
    let text = std::str::from_utf8(base).ok()?;
    let numbers: Vec<u32> = text.split(['-', 'T', ':']).filter_map(|part| part.parse().ok()).collect();
    numbers.try_into().ok()
}

/// "Gregorian month lengths; hours to 23, minutes to 59; second 60 only at 23:59
/// on a month's last day; year 0000 is allowed and a leap year."
fn is_instant([year, month, day, hour, minute, second]: [u32; 6]) -> bool {
    let last = days_in(year, month);
    let leap_second = second == 60 && hour == 23 && minute == 59 && day == last;
    (1..=last).contains(&day) && hour <= 23 && minute <= 59 && (second <= 59 || leap_second)
}

/// The days of a month, 0 if there is no such month.
pub fn days_in(year: u32, month: u32) -> u32 {
    let leap = year.is_multiple_of(if year.is_multiple_of(100) { 400 } else { 4 });
    match month {
        2 if leap => 29,
        2 => 28,
        4 | 6 | 9 | 11 => 30,
        1..=12 => 31,
        _ => 0,
    }
}

/// "Extension entry: an object with exactly `name` (string), `version` (string),
/// `optional` (boolean)."
pub fn is_extension_entry(text: &[u8], tree: &Tree, entry: NodeId) -> bool {
    let wanted = [("name", Type::Text), ("version", Type::Text), ("optional", Type::Boolean)];
    let Some(members) = tree.members(entry) else {
        return false;
    };
    let has = |(name, kind): &(&str, Type)| {
        let value = tree.get(entry, name.as_bytes());
        value.is_some_and(|v| matches(text, tree, v, *kind))
    };
    members.len() == wanted.len() && wanted.iter().all(has)
}

/// Request P3: "false means needed, true means it may be ignored".
pub fn is_needed(tree: &Tree, entry: NodeId) -> bool {
    tree.get(entry, b"optional").is_some_and(|v| tree.node(v).kind == Kind::False)
}
