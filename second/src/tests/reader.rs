use super::{meta, open, refusal, with, EXAMPLE, G};
use crate::json_cases::nest;
use crate::reader::read;
use crate::reading_lists::{IGNORED_ENTRIES, NEEDED_ENTRIES};
use crate::table::Summary;

#[test]
fn example() {
    let state = open(EXAMPLE, 108);
    let label = EXAMPLE.find("gate").unwrap() as u64;
    let expected = Summary { code: 16, channels: 1, width: 4, samples: 25, dataset: 108, captures: 2, annotations: 1, ..Summary::default() };
    assert_eq!(state.summary, expected);
    assert_eq!(state.captures, [0, 10, 0, 0, 10, 25, 48, 8]);
    assert_eq!(state.annotations, [4, 6, label, 29]);
    // P: D = 107 gives 16. P: D = 7 gives 16. P: D = 44 gives 17.
    assert_eq!(refusal(EXAMPLE, 107), 16);
    assert_eq!(refusal(EXAMPLE, 7), 16);
    assert_eq!(refusal(EXAMPLE, 44), 17);
    // P: D = 48 gives N = 10, second capture empty.
    let short = open(EXAMPLE, 48);
    assert_eq!(short.summary.samples, 10);
    assert_eq!(short.captures, [0, 10, 0, 0, 10, 10, 48, 8]);
    // P: count 22 gives 17; 21 is accepted.
    let count = |n: u64| EXAMPLE.replace("_count\":2", &format!("_count\":{n}"));
    assert_eq!(refusal(&count(22), 108), 17);
    assert_eq!(refusal(&count(21), 108), 0);
    // P: depth 33 gives 2.
    let deep = |n| String::from_utf8(nest(0, n, b"")).unwrap();
    let inside = |n| EXAMPLE.replace("\"captures\":[", &format!("\"x\":{},\"captures\":[", deep(n)));
    assert_eq!(refusal(&inside(32), 108), 2);
    assert_eq!(refusal(&inside(31), 108), 0);
    assert_eq!((refusal(&deep(33), 0), refusal(&deep(32), 0)), (2, 4));
}

#[test]
fn order_of_refusals() {
    assert_eq!(refusal(r#"{"a":1,"a":2"#, 0), 2);
    let text = meta(r#""core:datatype":5,"core:version":"1.0.0""#, "", "{$s:0},{}");
    assert_eq!(refusal(&text, 0), 6);
    assert_eq!(refusal(&meta(r#""core:datatype":"x","core:version":"y""#, "", ""), 0), 8);
    let needed = r#"{"name":"a","version":"1","optional":false}"#;
    assert_eq!(refusal(&with(&format!(r#""core:metadata_only":true,"core:extensions":[{needed}]"#)), 0), 13);
    assert_eq!(refusal(&meta(G, "{$s:1},{$s:0,$h:9}", ""), 1), 15);
    assert_eq!(refusal(r#"[{"a":1,"\u0061":2}]"#, 0), 3);
    assert_eq!(refusal("{", (1 << 48) + 1), 1);
    assert_eq!(refusal(&with(r#""a:b":1"#), 1 << 48), 0);
    assert_eq!(refusal(&with(r#""a:b":1"#), (1 << 48) + 1), 1);
    assert_eq!(refusal("", 0), 1);
    assert_eq!(refusal(" ", 0), 2);
    let base = meta(G, "", "");
    let padded = |n: usize| format!("{base}{}", " ".repeat(n - base.len()));
    assert_eq!(refusal(&padded(61_440), 0), 0);
    assert_eq!(refusal(&padded(61_441), 0), 1);
}

#[test]
fn rooms() {
    let text = meta(G, "{$s:0},{$s:1}", "{$s:0}");
    let (mut captures, mut annotations) = ([9; 8], [9; 3]);
    let answer = read(text.as_bytes(), 4, &mut captures, &mut annotations);
    assert_eq!(answer, Summary::refused(20));
    assert_eq!((captures, annotations), ([9; 8], [9; 3]));
    let (mut captures, mut annotations) = ([9; 7], [9; 4]);
    assert_eq!(read(text.as_bytes(), 4, &mut captures, &mut annotations).refusal, 20);
    let (mut captures, mut annotations) = ([9; 10], [9; 7]);
    assert_eq!(read(text.as_bytes(), 4, &mut captures, &mut annotations).refusal, 0);
    assert_eq!(captures, [0, 1, 0, 0, 1, 4, 1, 0, 9, 9]);
    assert_eq!(annotations, [0, 4, 0, 0, 9, 9, 9]);
}

#[test]
fn shape() {
    for bad in ["[]", "5", "{}", r#"{"global":{},"captures":[]}"#, r#"{"global":[],"captures":[],"annotations":[]}"#] {
        assert_eq!(refusal(bad, 0), 4);
    }
    for (captures, annotations) in [("5", ""), ("", "null"), ("{$s:0},[]", "")] {
        assert_eq!(refusal(&meta(G, captures, annotations), 0), 4);
    }
    let whole = meta(G, "", "");
    assert_eq!(refusal(&whole.replace(r#""captures":[]"#, r#""captures":{}"#), 0), 4);
    assert_eq!(refusal(&whole.replace("global", r"gl\u006fbal"), 0), 0);
    assert_eq!(refusal(&whole.replace("global", "Global"), 0), 4);
    assert_eq!(refusal(&whole.replace(r#"{"global""#, r#"{"9":[],"global""#), 0), 0);
}

#[test]
fn names() {
    for bad in ["a:b:c", "core", ":a", "a:", "9a:b", "a:9", "a:b-c", "", "a b:c"] {
        assert_eq!(refusal(&with(&format!(r#""{bad}":0"#)), 0), 5);
        assert_eq!(refusal(&meta(G, &format!(r#"{{$s:0,"{bad}":0}}"#), ""), 0), 5);
        assert_eq!(refusal(&meta(G, "", &format!(r#"{{"{bad}":0}}"#)), 0), 5);
    }
    for good in ["-:a", "_:_", "a-9:b", r"a\u003ab", "core:label", "core:unknown"] {
        assert_eq!(refusal(&with(&format!(r#""{good}":0"#)), 0), 0);
    }
    assert_eq!(refusal(&with(r#""core:geolocation":{"9":1}"#), 0), 0);
    assert_eq!(refusal(&meta(G, "", r#"{$s:0,"core:header_bytes":null,"core:datetime":5}"#), 0), 0);
}

#[test]
fn types() {
    for name in ["datatype", "version", "num_channels", "sample_rate", "metadata_only", "geolocation", "extensions", "hw"] {
        let text = meta(G, "", "").replace(r#""global":{"#, &format!(r#""global":{{"core:{name}":null,"#));
        let expected = if name == "datatype" || name == "version" { 3 } else { 7 };
        assert_eq!(refusal(&text, 0), expected, "{name}");
    }
    assert_eq!(refusal(&meta(r#""core:datatype":null,"core:version":"1.0.0""#, "", ""), 0), 7);
    for bad in ["-0", "1.0", "1e3", "18446744073709551616", "1000000000000000000000000", "null", "\"1\""] {
        assert_eq!(refusal(&with(&format!(r#""core:offset":{bad}"#)), 0), 7);
        assert_eq!(refusal(&meta(G, &format!("{{$s:{bad}}}"), ""), 0), 7);
        assert_eq!(refusal(&meta(G, "", &format!("{{$s:0,$c:{bad}}}")), 0), 7);
    }
    assert_eq!(refusal(&with(r#""core:offset":18446744073709551615"#), 0), 0);
    assert_eq!(refusal(&meta(G, "{$s:null}", ""), 0), 7);
    assert_eq!(refusal(&meta(G, "", r#"{$s:0,"core:latitude":null,"core:longitude":[]}"#), 0), 0);
    assert_eq!(refusal(&meta(G, "", r#"{$s:0,$l:null}"#), 0), 7);
    assert_eq!(refusal(&meta(G, "", r#"{$s:0,"core:\u006cabel":null}"#), 0), 7);
    assert_eq!(refusal(&meta(G, "", r#"{$s:0,"core:freq_lower_edge":1e999999}"#), 0), 0);
    assert_eq!(refusal(&with(r#""core:extensions":{}"#), 0), 7);
    assert_eq!(refusal(&with(r#""core:geolocation":[]"#), 0), 7);
}

#[test]
fn sample_rate_place() {
    let text = with(r#""core:sample_rate": -1e999999 "#);
    let summary = open(&text, 0).summary;
    let place = text.find("-1e9").unwrap() as u64;
    assert_eq!((summary.refusal, summary.rate_place, summary.rate_length), (0, place, 9));
}

#[test]
fn version_datatype_channels() {
    let global = |datatype: &str, version: &str| meta(&format!(r#""core:datatype":"{datatype}","core:version":"{version}""#), "", "");
    assert_eq!(refusal(&global("ru8", "v1.0.0"), 0), 8);
    assert_eq!(refusal(&global("ru8", r"\u0031.0.0"), 0), 0);
    assert_eq!(refusal(&global(r"\u0072u8", "1.0.0"), 0), 0);
    for bad in ["i16_le", "ri8_le", "RU8", "rf64", "cf64", "rf64_LE", ""] {
        assert_eq!(refusal(&global(bad, "1.0.0"), 0), 9);
    }
    for (channels, expected) in [("0", 10), ("1", 0), ("1024", 0), ("1025", 10), ("9223372036854775808", 10)] {
        assert_eq!(refusal(&with(&format!(r#""core:num_channels":{channels}"#)), 0), expected);
    }
}

#[test]
fn extensions() {
    let list = |text: &str| refusal(&with(&format!(r#""core:extensions":[{text}]"#)), 0);
    let entry = |optional: &str| format!(r#"{{"name":"a","version":"",{optional}}}"#);
    let (ignored, needed) = (entry(r#""optional":true"#), entry(r#""optional":false"#));
    assert_eq!((list(""), list(&ignored), list(&needed)), (0, 0, 13));
    assert_eq!((list(&format!("{ignored},{needed}")), list(&format!("{needed},{ignored}"))), (13, 13));
    // A needed one beside a malformed one, in either order.
    assert_eq!((list(&format!("{needed},5")), list(&format!("5,{needed}")), list("5")), (12, 12, 12));
    assert_eq!((list(&entry(r#""\u006fptional":true"#)), list(&entry(r#""\u006fptional":false"#))), (0, 13));
    for malformed in [r#""optional":null"#, r#""optional":"true""#, r#""optional":true,"x":1"#, r#""Optional":true"#, r#""x":true"#] {
        assert_eq!(list(&entry(malformed)), 12, "{malformed}");
    }
    assert_eq!(list(r#"{"name":"a","version":""}"#), 12);
    for twice in [r#""optional":true,"name":"a""#, r#""optional":true,"optional":true"#, r#""optional":false,"optional":true"#] {
        assert_eq!(list(&entry(twice)), 3, "{twice}");
    }
    // Document 000's example: `extension-01` is used and not necessary, `extension-02` is necessary.
    let (one, two) = (IGNORED_ENTRIES[0], NEEDED_ENTRIES[0]);
    assert_eq!((list(one), list(two), list(&format!("{one},{two}"))), (0, 13, 13));
}

#[test]
fn datetime_metadata_only() {
    let at = |text: &str| meta(G, &format!(r#"{{$s:0,"core:datetime":"{text}"}}"#), "");
    assert_eq!(refusal(&at("2020-02-28T23:59:60Z"), 0), 11);
    assert_eq!(refusal(&at(r"\u0032020-02-29T23:59:60Z"), 0), 0);
    assert_eq!(refusal(&with(r#""core:metadata_only":false"#), 0), 0);
    assert_eq!(refusal(&with(r#""core:metadata_only":true"#), 0), 14);
    assert_eq!(refusal(&with(r#""core:metadata_only":false,"core:dataset":"x""#), 0), 14);
    assert_eq!(refusal(&with(r#""core:dataset":"x""#), 0), 0);
}

#[test]
fn lengths() {
    let half = 1u64 << 63;
    assert_eq!(refusal(&meta(G, &format!("{{$s:0,$h:{half}}},{{$s:0,$h:{half}}}"), ""), 0), 16);
    let global = format!(r#"{G},"core:trailing_bytes":{}"#, u64::MAX);
    assert_eq!(refusal(&meta(&global, "{$s:0,$h:1}", ""), 0), 16);
    assert_eq!(refusal(&meta(G, "", &format!("{{$s:1,$c:{}}}", u64::MAX)), 5), 17);
    let offset = |o: u64| with(&format!(r#""core:offset":{o}"#));
    assert_eq!(refusal(&offset(u64::MAX), 0), 0);
    assert_eq!(refusal(&offset(u64::MAX), 1), 17);
    assert_eq!(refusal(&offset(u64::MAX - 1), 1), 0);
    assert_eq!(refusal(&meta(G, "{$s:0}", "{$s:0}"), 0), 0);
    assert_eq!(refusal(&meta(G, "{$s:1}", ""), 0), 17);
    assert_eq!(refusal(&meta(&format!(r#"{G},"core:offset":5"#), "{$s:4}", ""), 3), 17);
    let state = open(&meta(G, "", "{$s:7}"), 7);
    assert_eq!(state.annotations, [7, 7, 0, 0]);
    let state = open(&meta(G, "{$s:3,$h:2},{$s:3,$h:5}", ""), 17);
    assert_eq!(state.captures, [3, 3, 5, 2, 3, 10, 10, 5]);
}

#[test]
fn long_texts() {
    let long = "\\u0030".repeat(10_000);
    assert_eq!(refusal(&with(&format!(r#""a:b{long}":1"#)), 0), 0);
    let datetime = format!("2020-01-01T00:00:00.{long}Z");
    assert_eq!(refusal(&meta(G, &format!(r#"{{$s:0,"core:datetime":"{datetime}"}}"#), ""), 0), 0);
    let name: String = "core:trailing_bytes".bytes().map(|b| format!("\\u{b:04x}")).collect();
    assert_eq!(refusal(&with(&format!(r#""{name}":null"#)), 0), 7);
}
