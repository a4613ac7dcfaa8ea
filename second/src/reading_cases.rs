//! Fixed cases about reading, and the whole stream with random ones after.

use crate::fields::{core_fields, datatypes, Place};
use crate::frames::Case;
use crate::json_cases::nest;
use crate::reading_case::ReadingCase;
use crate::reading_edges;
use crate::reading_faults::{Fault, FAULTS};
use crate::reading_lists::*;
use crate::reading_random::{faulty, random_case};
use crate::recording_random::PLACES;
use crate::rng::{filled_up, Rng};
use crate::table_cases::EXAMPLE;

/// The fixed cases, then random ones up to `count`.
pub fn reading_cases(seed: u64, count: usize) -> Vec<Case> {
    filled_up(fixed_cases(), seed, count, random_case).iter().map(ReadingCase::frame).collect()
}

/// Every fixed case.
pub fn fixed_cases() -> Vec<ReadingCase> {
    let mut list = Vec::new();
    list.extend(example());
    list.extend(shapes());
    list.extend(names());
    list.extend(types());
    list.extend(texts());
    list.extend(extensions());
    list.extend(reading_edges::cases());
    list.extend(single_faults().into_iter().map(|(_, case)| case));
    list.extend(paired_faults().into_iter().map(|(_, case)| case));
    list
}

/// The two required fields of the global object, W = 1.
pub const G: &str = r#""core:datatype":"ru8","core:version":"1.0.0""#;

/// A text of three parts; `$s` stands for core:sample_start, `$h` for
/// core:header_bytes, `$c` for core:sample_count, `$l` for core:label.
pub fn meta(global: &str, captures: &str, annotations: &str) -> String {
    let mut text = format!(r#"{{"global":{{{global}}},"captures":[{captures}],"annotations":[{annotations}]}}"#);
    for (mark, name) in [("$s", "sample_start"), ("$h", "header_bytes"), ("$c", "sample_count"), ("$l", "label")] {
        text = text.replace(mark, &format!("\"core:{name}\""));
    }
    text
}

/// A text beside a dataset, with room for eight rows of each kind.
pub fn case(text: &str, dataset: u64) -> ReadingCase {
    ReadingCase::of_text(text.as_bytes(), dataset)
}

/// A member more in the global object, in a capture or in an annotation.
pub fn with_member(place: Place, member: &str) -> String {
    match place {
        Place::Global => meta(&format!("{G},{member}"), "{$s:0}", "{$s:1}"),
        Place::Capture => meta(G, &format!("{{{member},$s:0}}"), "{$s:1}"),
        Place::Annotation => meta(G, "{$s:0}", &format!("{{$s:0}},{{$s:1,{member}}}")),
    }
}

/// The paper's recording at its own lengths and others.
fn example() -> Vec<ReadingCase> {
    let mut list: Vec<ReadingCase> = [108, 107, 7, 48, 44, 0, 8, 12, 112, 109, 1 << 48, (1 << 48) + 1].iter().map(|&d| case(EXAMPLE, d)).collect();
    for count in [0, 1, 20, 21, 22, u64::MAX] {
        list.push(case(&EXAMPLE.replace(r#"count":2"#, &format!(r#"count":{count}"#)), 108));
    }
    for depth in [31, 32, 33] {
        let deep = String::from_utf8(nest(0, depth, b"")).unwrap_or_default();
        list.push(case(&deep, 108));
        list.push(case(&EXAMPLE.replace(r#""captures":"#, &format!(r#""x":{deep},"captures":"#)), 108));
    }
    for (captures, annotations) in [(8, 4), (7, 4), (8, 3), (7, 3), (0, 0), (11, 7), (4, 4), (8, 0), (4_096, 4_096), (3, 8)] {
        list.push(ReadingCase { captures, annotations, ..case(EXAMPLE, 108) });
    }
    list
}

/// Texts of other shapes, and members in other orders.
fn shapes() -> Vec<ReadingCase> {
    let g = format!(r#""global":{{{G}}}"#);
    let (c, a) = (r#""captures":[]"#, r#""annotations":[]"#);
    let mut texts: Vec<String> = ["[]", "{}", "5", "null", "\"\"", " ", "\n", "{", "[{\"a\":1,\"\\u0061\":2}]", "{\"a\":1,\"a\":2"].map(String::from).to_vec();
    for order in [[&g[..], c, a], [a, c, &g], [c, a, &g], [a, &g, c], [c, &g, a]] {
        texts.push(format!("{{{}}}", order.join(",")));
        texts.push(format!("\r\n{{\t\"9\" : [ ] , {} }} ", order.join(" ,\n")));
        texts.push(format!("{{{}}}", order[..2].join(",")));
    }
    let whole = meta(G, "{$s:0}", "{$s:0}");
    for (old, new) in [
        ("global", "Global"), ("global", r"gl\u006fbal"), ("captures", r"\u0063aptures"), ("annotations", "annotation"),
        ("annotations", r"annotation\u0073"),
        ("captures\":[", "captures\":[[],"), ("annotations\":[", "annotations\":[null,"),
        ("captures\":[{", "captures\":[{},{"), ("\"global\":", "\"global\":5,\"g\":"),
        ("]}", "]},"), ("]}", "],}"), ("]}", "]}\u{feff}"), ("{\"g", "\u{feff}{\"g"), ("{\"g", "\u{b}{\"g"),
        ("]}", "]}{}"), ("]}", "]}]"), ("captures\":[", "captures\":["),
        ("captures\":[", "annotations\":[],\"captures\":["), ("\"captures\":", "\"captures\":{},\"c\":"),
        ("\"annotations\":", "\"annotations\":{},\"c\":"),
    ] {
        texts.push(whole.replacen(old, new, 1));
    }
    texts.iter().map(|t| case(t, 1)).collect()
}

/// Names of either form in every kind of object, and where none is judged.
fn names() -> Vec<ReadingCase> {
    let mut list = Vec::new();
    for (k, name) in BAD_NAMES.iter().chain(GOOD_NAMES).enumerate() {
        let member = format!(r#""{name}":{}"#, VALUES[k % VALUES.len()]);
        for (_, place) in PLACES {
            list.push(case(&with_member(place, &member), 1));
        }
    }
    for name in ["", "9", "a:b:c", "core", "a b"] {
        list.push(case(&with_member(Place::Global, &format!(r#""core:geolocation":{{"{name}":0}}"#)), 1));
        list.push(case(&with_member(Place::Capture, &format!(r#""x:y":{{"{name}":0}}"#)), 1));
        list.push(case(&meta(G, "", "").replacen('{', &format!(r#"{{"{name}":1,"#), 1), 1));
    }
    list
}

/// Every core field with values of every type, in its own kind of object, and
/// with null in the others.
fn types() -> Vec<ReadingCase> {
    let mut list = Vec::new();
    for (_, place) in PLACES {
        for (k, (_, name)) in core_fields(place).iter().enumerate() {
            for (j, value) in VALUES.iter().enumerate().filter(|(j, _)| (j + k) % 2 == 0 || *j == 0) {
                let text = field_text(place, name, value);
                list.push(case(&if j % 3 == 0 { text.replace("core:", "c\\u006fre:") } else { text }, 1));
            }
            for (_, other) in PLACES.iter().filter(|p| p.1 != place) {
                list.push(case(&with_member(*other, &format!(r#""core:{name}":null"#)), 1));
            }
        }
    }
    list
}

/// A core field with a value, in place of the required one if it is required.
fn field_text(place: Place, name: &str, value: &str) -> String {
    match (place, name) {
        (Place::Global, "datatype") => meta(&format!(r#""core:datatype":{value},"core:version":"1.0.0""#), "", ""),
        (Place::Global, "version") => meta(&format!(r#""core:version":{value},"core:datatype":"ru8""#), "", ""),
        (Place::Capture, "sample_start") => meta(G, &format!("{{$s:{value}}}"), ""),
        (Place::Annotation, "sample_start") => meta(G, "", &format!("{{$s:{value}}}")),
        _ => with_member(place, &format!(r#""core:{name}":{value}"#)),
    }
}

/// Versions, datatypes, channels and datetimes.
fn texts() -> Vec<ReadingCase> {
    let mut list = Vec::new();
    let global = |datatype: &str, version: &str, more: &str| meta(&format!(r#""core:datatype":"{datatype}","core:version":"{version}"{more}"#), "", "{$s:0}");
    for version in BAD_VERSIONS.iter().chain(&["1.0.0", "\\u0031.0.0", "1\\u002E0\\u002e\\u0030"]) {
        list.push(case(&global("ru8", version, ""), 3));
    }
    for datatype in BAD_DATATYPES {
        list.push(case(&global(datatype, "1.0.0", ""), 3));
    }
    for (k, name) in datatypes().iter().enumerate() {
        list.push(case(&global(name, "1.0.0", ""), 80));
        let escaped: String = name.bytes().map(|b| format!("\\u{b:04x}")).collect();
        list.push(case(&global(&escaped, "1.0.0", &format!(r#","core:num_channels":{}"#, k + 1)), 80 * (k as u64 + 1)));
    }
    for channels in BAD_CHANNELS.iter().chain(&["1", "2", "3", "1023", "1024"]) {
        for (datatype, d) in [("ru8", 6_144), ("cf32_be", 8_192), ("cf64_le", 16_384), ("cf64_be", 8_192), ("ci16_le", 0)] {
            list.push(case(&global(datatype, "1.0.0", &format!(r#","core:num_channels":{channels}"#)), d));
        }
    }
    for datetime in BAD_DATETIMES.iter().chain(GOOD_DATETIMES) {
        let member = format!(r#""core:datetime":"{datetime}""#);
        list.push(case(&with_member(Place::Capture, &member), 1));
        list.push(case(&with_member(Place::Annotation, &member), 1));
    }
    list
}

/// Extension entries of every form, alone and in lists.
fn extensions() -> Vec<ReadingCase> {
    let (ignored, needed) = (IGNORED_ENTRIES[0], NEEDED_ENTRIES[0]);
    let mut lists: Vec<String> = BAD_ENTRIES.iter().chain(IGNORED_ENTRIES).chain(NEEDED_ENTRIES).map(|e| format!("[{e}]")).collect();
    lists.extend([format!("[{needed},5]"), format!("[5,{needed}]"), format!("[{ignored},5]"), format!("[{ignored},{needed}]")]);
    lists.extend([format!("[{needed},{ignored}]"), format!("[{ignored},{needed},{ignored}]"), format!("[{ignored},{ignored},{ignored}]"), "[]".to_string()]);
    for member in [r#""name":"a""#, r#""\u006eame":"a""#, r#""optional":true"#, r#""optional":false"#] {
        for optional in ["true", "false"] {
            lists.push(format!(r#"[{{"name":"a","version":"b","optional":{optional},{member}}}]"#));
        }
    }
    let mut list: Vec<ReadingCase> = lists.iter().map(|l| case(&with_member(Place::Global, &format!(r#""core:extensions":{l}"#)), 1)).collect();
    list.push(case(&with_member(Place::Capture, r#""core:extensions":[5]"#), 1));
    for (only, dataset) in [("true", ""), ("false", ""), ("false", r#","core:dataset":"""#), ("true", r#","core:dataset":"x""#), ("null", "")] {
        list.push(case(&with_member(Place::Global, &format!(r#""core:metadata_only":{only}{dataset}"#)), 1));
    }
    list.push(case(&with_member(Place::Global, r#""core:dataset":"x""#), 1));
    list
}

/// Every fault alone, with its number.
pub fn single_faults() -> Vec<(u64, ReadingCase)> {
    let mut rng = Rng::new(1);
    FAULTS.iter().flat_map(|&fault| (0..3).map(|_| (fault.0, faulty(&[fault], &mut rng))).collect::<Vec<_>>()).collect()
}

/// Every pair of numbers by faults of either, with the smaller number.
pub fn paired_faults() -> Vec<(u64, ReadingCase)> {
    let mut rng = Rng::new(2);
    let mut list = Vec::new();
    let numbers: Vec<u64> = (1..=17).chain([20]).collect();
    for (k, &low) in numbers.iter().enumerate() {
        for &high in &numbers[k + 1..] {
            for _ in 0..3 {
                let pair = [some_fault(low, &mut rng), some_fault(high, &mut rng)];
                list.push((low, faulty(&pair, &mut rng)));
            }
        }
    }
    list
}

/// One of a number's faults.
fn some_fault(number: u64, rng: &mut Rng) -> (u64, Fault) {
    let faults: Vec<&(u64, Fault)> = FAULTS.iter().filter(|f| f.0 == number).collect();
    *faults[rng.below(faults.len())]
}
