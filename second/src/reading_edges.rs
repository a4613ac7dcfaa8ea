//! Limits at their edges, and numbers near 2^64.

use crate::fields::Place;
use crate::json_cases::{members, nest};
use crate::reading_case::ReadingCase;
use crate::reading_cases::{case, meta, with_member, G};

/// Every case of this file.
pub fn cases() -> Vec<ReadingCase> {
    let mut list = Vec::new();
    list.extend(lengths());
    list.extend(depths());
    list.extend(member_counts());
    list.extend(long_texts());
    list.extend(rows());
    list.extend(offsets());
    list.extend(sizes());
    list.extend(ranges());
    list.extend(rates());
    list
}

/// A text with blanks after it, up to a length.
fn padded(text: &str, length: usize) -> String {
    format!("{text}{}", " ".repeat(length - text.len()))
}

/// "metadata 1 to 61,440 bytes; D at most 2^48"
fn lengths() -> Vec<ReadingCase> {
    let text = meta(G, "", "{$s:0}");
    let mut list = vec![case("", 0), case("", u64::MAX), case(" ", 0), case("{", (1 << 48) + 1), case("1", 0)];
    list.extend([61_440, 61_441].map(|n| case(&padded(&text, n), 7)));
    list.push(case(&padded("", 61_440), 7));
    for d in [(1 << 48) - 1, 1 << 48, (1 << 48) + 1, 1 << 49, 1 << 63, u64::MAX] {
        list.push(case(&text, d));
        for (datatype, end) in [("cf32_le", 34_359_738_368u64), ("rf64_be", 34_359_738_368), ("cf64_le", 17_179_869_184)] {
            let wide = format!(r#""core:datatype":"{datatype}","core:version":"1.0.0","core:num_channels":1024"#);
            for start in [end, end + 1] {
                list.push(case(&meta(&wide, &format!("{{$s:0}},{{$s:{start}}}"), ""), d));
            }
        }
        list.push(case(&meta(&format!(r#"{G},"core:trailing_bytes":{d}"#), "{$s:0}", ""), d));
        list.push(case(&meta(G, &format!("{{$s:0,$h:{d}}}"), ""), d));
    }
    list
}

/// Where an ignored or any value may stand, and how many containers are around it.
const SPOTS: [(Place, &str, usize); 7] = [
    (Place::Global, r#""a:b":$"#, 2), (Place::Global, r#""core:geolocation":{"x":$}"#, 3), (Place::Capture, r#""a:b":$"#, 3),
    (Place::Capture, r#""core:geolocation":{"x":$}"#, 4), (Place::Annotation, r#""a:b":$"#, 3), (Place::Annotation, r#""core:latitude":$"#, 3),
    (Place::Global, r#""core:extensions":[{"name":$}]"#, 4),
];

/// "nesting 32"
fn depths() -> Vec<ReadingCase> {
    let mut list = Vec::new();
    for depth in [32, 33] {
        for (k, (place, member, around)) in SPOTS.iter().enumerate() {
            for core in ["", "1"] {
                let deep = String::from_utf8(nest(k % 5, depth - around, core.as_bytes())).unwrap_or_default();
                list.push(case(&with_member(*place, &member.replace('$', &deep)), 1));
            }
        }
        for pattern in 0..5 {
            let deep = String::from_utf8(nest(pattern, depth - 1, b"")).unwrap_or_default();
            list.push(case(&meta(G, "", "").replacen('{', &format!(r#"{{"x":{deep},"#), 1), 1));
            list.push(case(&String::from_utf8(nest(pattern, depth, b"")).unwrap_or_default(), 1));
        }
    }
    list
}

/// "256 members per object"
fn member_counts() -> Vec<ReadingCase> {
    let mut list = Vec::new();
    let more = |count: usize| members(count, b"q:a", b"0");
    let inside = |object: Vec<u8>| String::from_utf8(object).unwrap_or_default().trim_matches(['{', '}']).to_string();
    for count in [256, 257] {
        list.push(case(&with_member(Place::Global, &inside(more(count - 2))), 1));
        list.push(case(&with_member(Place::Capture, &inside(more(count - 1))), 1));
        list.push(case(&with_member(Place::Annotation, &inside(more(count - 1))), 1));
        list.push(case(&meta(G, "", "").replacen('{', &format!("{{{},", inside(more(count - 3))), 1), 1));
        for (place, member, _) in [SPOTS[1], SPOTS[2], SPOTS[6]] {
            let object = format!("{{{}}}", inside(more(count)));
            list.push(case(&with_member(place, &member.replace('$', &object)), 1));
        }
        let entry = format!(r#""core:extensions":[{{{}}}]"#, inside(more(count)));
        list.push(case(&with_member(Place::Global, &entry), 1));
    }
    list.push(case(&with_member(Place::Global, &format!(r#""a:b":[{}0]"#, "0,".repeat(600))), 1));
    list
}

/// Names and datetimes that are long, every byte an escape.
fn long_texts() -> Vec<ReadingCase> {
    let mut list = Vec::new();
    for (count, last) in [(333, "\\u0030"), (333, "\\u002d"), (333, "0"), (10_000, "\\u0030")] {
        let long = format!("{}{last}", "\\u0030".repeat(count));
        list.push(case(&with_member(Place::Annotation, &format!(r#""a:b{long}":1"#)), 1));
        list.push(case(&with_member(Place::Capture, &format!(r#""core:datetime":"2020-01-01T00:00:00.{long}Z""#)), 1));
        if count < 1_000 {
            list.push(case(&with_member(Place::Global, &format!(r#""a{long}:b":1"#)), 1));
            list.push(case(&with_member(Place::Capture, &format!(r#""core:datetime":"{long}""#)), 1));
            list.push(case(&meta(&format!(r#""core:datatype":"ru8{long}","core:version":"1.0.0""#), "", ""), 1));
            list.push(case(&meta(&format!(r#""core:version":"1.0.0{long}","core:datatype":"ru8""#), "", ""), 1));
            list.push(case(&with_member(Place::Annotation, &format!(r#""core:label":"{long}""#)), 1));
        }
    }
    let text = meta(G, "", r#"{$s:0,$l:"$"}"#);
    list.push(case(&text.replace('$', &"x".repeat(61_440 - text.len() + 1)), 0));
    let escaped = |name: &str| name.bytes().map(|b| format!("\\u{b:04X}")).collect::<String>();
    for (place, name, value) in [
        (Place::Global, "core:trailing_bytes", "1"), (Place::Global, "core:metadata_only", "null"), (Place::Capture, "core:header_bytes", "1"),
        (Place::Annotation, "core:freq_lower_edge", "\"\""), (Place::Annotation, "core:label", "\"x\\u0022\""), (Place::Annotation, "core:sample_count", "0"),
    ] {
        list.push(case(&with_member(place, &format!("\"{}\":{value}", escaped(name))), 1));
        list.push(case(&with_member(place, &format!("\"{}\\u0000\":{value}", escaped(name))), 1));
    }
    list
}

/// As many rows as the largest room holds, and one more.
fn rows() -> Vec<ReadingCase> {
    let mut list = Vec::new();
    let many = |n: usize| vec!["{$s:0}"; n].join(",");
    for (count, room) in [(1_024, 4_096), (1_024, 4_095), (1_025, 4_096)] {
        list.push(ReadingCase { captures: room, annotations: 0, ..case(&meta(G, &many(count), ""), 1) });
        list.push(ReadingCase { captures: 0, annotations: room, ..case(&meta(G, "", &many(count)), 1) });
    }
    let text = meta(G, "{$s:0},{$s:0,$h:1},{$s:1}", "{$s:0},{$s:1}");
    for (captures, annotations) in [(12, 8), (11, 8), (12, 7), (11, 7), (13, 9), (15, 11), (0, 8), (12, 0), (8, 8), (4, 4), (16, 12)] {
        list.push(ReadingCase { captures, annotations, ..case(&text, 2) });
        list.push(ReadingCase { captures, annotations, ..case(&text, 0) });
    }
    for (captures, annotations) in [(0, 0), (1, 0), (0, 1)] {
        list.push(ReadingCase { captures, annotations, ..case(&meta(G, "", ""), 2) });
        list.push(ReadingCase { captures, annotations, ..case(&meta(G, "{$s:0}", ""), 2) });
        list.push(ReadingCase { captures, annotations, ..case(&meta(G, "", "{$s:0}"), 2) });
    }
    list
}

/// Offsets near 2^64, starts and counts around O and O + N.
fn offsets() -> Vec<ReadingCase> {
    let mut list = Vec::new();
    let top = u64::MAX;
    for (o, d) in [(top, 0), (top, 1), (top - 1, 1), (top - 1, 2), (top - 5, 5), (top - 5, 6), (1 << 63, 9), (0, 0), (7, 0), (0, 5), (3, 4)] {
        let global = format!(r#"{G},"core:offset":{o}"#);
        let end = o.saturating_add(d);
        list.push(case(&meta(&global, "", ""), d));
        for start in [o, end, o.wrapping_sub(1), end.wrapping_add(1), 0, top] {
            list.push(case(&meta(&global, &format!("{{$s:{start}}}"), ""), d));
            list.push(case(&meta(&global, "", &format!("{{$s:{start}}}")), d));
        }
        for (start, count) in [(o, d), (o, d + 1), (end, 0), (end, 1), (o, top), (end, top), (o, top - o), (o, 0)] {
            list.push(case(&meta(&global, "", &format!("{{$s:{start},$c:{count}}}")), d));
        }
    }
    for (channels, d) in [(1, 4), (2, 8), (1, 8), (1, 0)] {
        let global = format!(r#""core:datatype":"rf32_be","core:version":"1.0.0","core:num_channels":{channels},"core:offset":{}"#, top - 1);
        list.push(case(&meta(&global, &format!("{{$s:{}}}", top - 1), ""), d));
    }
    list
}

/// Headers and trailers whose sums are near D or 2^64.
fn sizes() -> Vec<ReadingCase> {
    let mut list = Vec::new();
    let (half, top) = (1u64 << 63, u64::MAX);
    for headers in [vec![half, half], vec![top, 1], vec![top, top], vec![1, top], vec![half, half, 5], vec![top - 4, 5], vec![5], vec![2, 3], vec![0, 5, 0]] {
        let captures: Vec<String> = headers.iter().map(|h| format!("{{$s:0,$h:{h}}}")).collect();
        for (t, d) in [(0, 0), (0, 5), (0, 6), (1, 5), (1, 6), (top, 4), (top - 4, 5), (half, 5)] {
            list.push(case(&meta(&format!(r#"{G},"core:trailing_bytes":{t}"#), &captures.join(","), ""), d));
        }
    }
    for (datatype, d) in [("ri16_le", 9), ("ri16_le", 10), ("ci32_be", 16), ("ci32_be", 17), ("ci32_be", 7), ("cu8", 1), ("cf32_le", 24), ("rf64_le", 24), ("cf64_be", 48), ("cf64_be", 24)] {
        let global = format!(r#""core:datatype":"{datatype}","core:version":"1.0.0","core:num_channels":3"#);
        for (t, h) in [(0, 0), (1, 0), (0, 1), (3, 4)] {
            let global = format!(r#"{global},"core:trailing_bytes":{t}"#);
            list.push(case(&meta(&global, &format!("{{$s:0,$h:{h}}}"), "{$s:0}"), d));
        }
    }
    list
}

/// Orders of starts, equal ones, headers at them, and empty rows.
fn ranges() -> Vec<ReadingCase> {
    let texts = [
        ("{$s:3,$h:2},{$s:3,$h:5}", "", 17), ("{$s:0},{$s:0},{$s:0}", "{$s:0},{$s:0}", 4), ("{$s:1},{$s:0}", "", 4), ("", "{$s:1},{$s:0}", 4),
        ("{$s:0},{$s:2},{$s:1}", "", 4), ("", "{$s:0},{$s:2},{$s:2},{$s:1}", 4), ("{$s:1},{$s:0,$h:9}", "", 1), ("{$s:4},{$s:4,$h:3}", "{$s:4}", 7),
        ("{$s:0},{$s:5}", "", 4), ("{$s:4,$h:1}", "{$s:0,$c:4},{$s:1,$c:3},{$s:2,$c:3}", 5), ("", "{$s:7}", 7), ("", "{$s:7,$c:0}", 7), ("", "{$s:8}", 7),
        ("{$s:0,$h:1},{$s:1,$h:1},{$s:2,$h:1},{$s:3,$h:1}", "", 8), ("{$h:7,$s:1}", "{$c:1,$s:2}", 10), ("{$s:2}", "{$s:0,$c:9}", 9), ("{$s:2}", "{$s:1,$c:9}", 9),
        ("{$s:18446744073709551615},{$s:0}", "", 9), ("", "{$s:18446744073709551615},{$s:0}", 9), ("{$s:5},{$s:4}", "{$s:9},{$s:8}", 3),
    ];
    texts.iter().map(|(c, a, d)| case(&meta(G, c, a), *d)).collect()
}

/// The place of sample_rate and of labels, with blanks and escapes around them.
fn rates() -> Vec<ReadingCase> {
    let mut list = Vec::new();
    for rate in ["0", " -1e999999 ", "\n1.5\t", "-0", "1E+5", "18446744073709551616", "0.000000000000000000000000000000000000001", "\"1\"", "null"] {
        list.push(case(&with_member(Place::Global, &format!(r#""core:sample_rate":{rate}"#)), 1));
        list.push(case(&meta(G, "", "").replacen('{', r#"{"core:sample_rate":5,"#, 1).replace(G, &format!(r#""core:sample_rate"  :{rate},{G}"#)), 1));
    }
    for label in ["", "a", "\\\"", "\\\\", "\\u0022", "a\\nb", "é", "\\ud83d\\ude00", "\\\\\\\"", "\"core:label", "}", "\u{7f}", "\\u0000"] {
        list.push(case(&with_member(Place::Annotation, &format!(r#""core:label" : "{label}" "#)), 1));
        list.push(case(&meta(G, "", &format!(r#"{{$l:"{label}",$s:0}},{{$s:0,"a:b":"{label}"}},{{$s:1,"core:l\u0061bel":"{label}"}}"#)), 1));
    }
    list
}
