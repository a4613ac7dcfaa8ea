//! Names, values and texts of recordings, good ones and broken ones.

use crate::fields::Type;

/// Bytes that are wrong inside a string and between tokens.
pub const BAD_BYTES: &[&[u8]] = &[
    b"\0", b"\x01", b"\x0B", b"\x0C", b"\x1F", b"\x80", b"\xBF", b"\xC0\x80", b"\xC2", b"\xE0\x80\x80", b"\xED\xA0\x80",
    b"\xF4\x90\x80\x80",
    b"\xF5\x80\x80\x80", b"\xFF", b"\xF0\x9F\x98",
];

/// Values that are not JSON.
pub const BAD_VALUES: &[&str] = &[
    "01", "-01", "1.", ".5", "+1", "1e", "-", "tru", "nulll", "NaN", "'a'", "\"a", "\"\\x\"", "\"\\ud800\"",
    "\"\\ude00\"", "\"\\ud83d\\u0041\"",
    "\"\u{1}\"", "\"\t\"", "\"\\u12\"", "[1,]", "[,]", "{,}", "{\"a\"}", "{\"a\":}", "{1:1}", "[", "]", "{", "[}",
    "1 2", "", "0x1", "{\"a\":1,}", "\u{a0}1",
];

/// Names' bodies that are not JSON.
pub const BAD_BODIES: &[&str] = &[
    "\\x", "a:\\ud800", "\\ude00:a", "a\\", "a:b\n", "\u{0}", "a\"b", "\\u00", "a:\\ud83d\\ud83d\\ude00", "a:\\U0041", "core:label\\",
];

/// Names of the wrong form.
pub const BAD_NAMES: &[&str] = &[
    "a:b:c", "core", ":a", "a:", ":", "", "9a:b", "a:9", "a:9b", "a:b-c", "a b:c", "a: b", "a:b ", " a:b", "é:a", "a:é",
    "a::b", "a.b:c", "a:b.c", "core:sample/start",
    "a\\/b:c", "a:b\\u0000", "\\u0000a:b", "a\\u003a\\u003ab", "a\\u003ab:c", "a:b\\u003a", "\\u0039a:b", "a:\\u0039",
    "a:b\\u002dc", "a\\n:b", "core:label\\u0020",
    "a:\\ud83d\\ude00", "core;label", "core\\u0000:label", "a:b\u{7f}", "/:a", "@:a", "[:a", "`:a", "{:a", "a:`", "a:@",
    "a:/", "a:;", "a:{", "a:[", "a:-", "\u{ff21}:a",
];

/// Names of the right form, known nowhere or not everywhere.
pub const GOOD_NAMES: &[&str] = &[
    "-:a", "_:_", "a-9:b", "a\\u003ab", "core:unknown", "core:Label", "Core:label", "extension-01:x", "a:b9", "A:Z",
    "z_9-:_9", "--:_", "c\\u006fre:l\\u0061bel_",
    "core:header_byte", "core:sample_starts", "core-:offset", "a:b_c", "\\u0061:\\u0062", "core:core", "_9:a", "-9:a",
    "core:labe", "core:latitud", "core:longitudes",
];

/// Values of every type.
pub const VALUES: &[&str] = &[
    "null", "true", "false", "0", "1", "-0", "1.0", "1e3", "-1", "18446744073709551615", "18446744073709551616",
    "1000000000000000000000000", "\"\"",
    "\"1\"", "\"null\"", "{}", "[]", "{\"a\":1}", "[{}]", "1E999999", "0.0", "\"\\u0031\"",
];

/// The uint fields.
pub const UINTS: &[(&str, &str)] = &[
    ("global", "core:num_channels"), ("global", "core:offset"), ("global", "core:trailing_bytes"), ("captures", "core:sample_start"),
    ("captures", "core:global_index"), ("captures", "core:header_bytes"), ("annotations", "core:sample_start"),
    ("annotations", "core:sample_count"),
];

/// Values that are no uint.
pub const BAD_UINTS: &[&str] = &[
    "-0", "-1", "1.0", "0.0", "1e3", "1E0", "0e0", "18446744073709551616", "18446744073709551625",
    "36893488147419103232", "99999999999999999999",
    "100000000000000000000", "1000000000000000000000000", "184467440737095516160", "null", "\"0\"", "[0]", "{}", "true",
    "-18446744073709551615",
];

/// Values of another type than the one.
pub fn wrong_values(kind: Type) -> &'static [&'static str] {
    match kind {
        Type::Text => &["null", "1", "true", "{}", "[]", "[\"a\"]", "-0.5"],
        Type::Uint => BAD_UINTS,
        Type::Double => &["null", "\"1\"", "true", "{}", "[]", "[1]", "\"1e3\""],
        Type::Boolean => &["null", "0", "1", "\"true\"", "{}", "[]", "[true]"],
        Type::Object => &["null", "0", "\"{}\"", "true", "[]", "[{}]"],
        Type::Array => &["null", "0", "\"[]\"", "false", "{}", "{\"a\":[]}"],
        Type::Any => &[],
    }
}

/// Bodies of versions that are not `1.0.0`.
pub const BAD_VERSIONS: &[&str] = &[
    "", "v1.0.0", "1.0", "1.0.0 ", " 1.0.0", "1.0.1", "0.0.2", "01.0.0", "1.0.0.0", "1,0,0", "1.0.00", "\\u0031.0.1",
    "1.0.0\\u0000", "1.0.0\\n", "1\\u002e0", "2.0.0",
    "1.0.O", "\\\\u0031.0.0", "\u{ff11}.0.0",
];

/// Bodies of datatypes that are not listed.
pub const BAD_DATATYPES: &[&str] = &[
    "", "i16_le", "ri8_le", "ri8_be", "cu8_le", "RU8", "Ru8", "rf64", "cf64", "rf64_LE", "f64_le", "CF64_be", "rf64_me", "rf46_le", "ru8 ", " ru8", "cf32", "rf32",
    "ri16", "cf32_LE", "rf32_l", "rf32_lee", "cf32le", "r", "c",
    "ru", "ru88", "xu8", "ri64_le", "ci24_le", "rf16_le", "ru8\\u0000", "\\u0052u8", "cf32-le", "ri32_ba", "bu8", "rb8",
    "ru\\\\u0038", "crf32_le", "null", "11",
];

/// Numbers of channels that are too few or too many.
pub const BAD_CHANNELS: &[&str] = &[
    "0", "1025", "2048", "65536", "4294967296", "4294967297", "9223372036854775808", "18446744073709551615",
    "1152921504606846977", "281474976710656",
];

/// Bodies of datetimes that break the rule.
pub const BAD_DATETIMES: &[&str] = &[
    "", "Z", "2020-02-28T23:59:60Z", "1900-02-29T00:00:00Z", "2100-02-29T00:00:00Z", "2021-02-29T00:00:00Z",
    "2020-02-30T00:00:00Z", "2020-04-31T00:00:00Z", "2020-06-31T00:00:00Z",
    "2020-09-31T00:00:00Z", "2020-11-31T00:00:00Z", "2020-01-32T00:00:00Z", "2020-00-01T00:00:00Z",
    "2020-13-01T00:00:00Z", "2020-01-00T00:00:00Z", "2020-01-01T24:00:00Z",
    "2020-01-01T00:60:00Z", "2020-01-01T00:00:60Z", "2020-01-31T23:59:61Z", "2020-01-31T23:58:60Z",
    "2020-01-31T22:59:60Z", "2020-01-30T23:59:60Z", "2020-01-01T00:00:00.Z",
    "2020-01-01t00:00:00Z", "2020-01-01T00:00:00z", "2020-01-01T00:00:00+00:00", "2020-01-01T00:00:00",
    "2020-01-01T00:00:00.5", "2020-01-01 00:00:00Z", "2020-1-01T00:00:00Z",
    "20200-01-01T00:00:00Z", "+020-01-01T00:00:00Z", "-020-01-01T00:00:00Z", "2020-01-01T00:00:00.5.5Z",
    "2020-01-01T00:00:00.5aZ", "2020-01-01T00:00:00,5Z", "2020-01-01T00:00:00ZZ",
    " 2020-01-01T00:00:00Z", "2020-01-01T00:00:00Z ", "2020-01-01T00:00:00.5Z\\u0000", "2020-01-01T00:00:00.-5Z",
    "2020-01-01T00:00:00.\\u0660Z", "2020/01/01T00:00:00Z",
    "2020-01-01T00.00:00Z", "2020-01-01T00:00Z", "2020-01-01Z", "20200101T000000Z", "2020-01-01T00:00:0Z",
    "\\u0032020-02-30T00:00:00Z", "2020-01-01T00:00:00.5 Z", "202O-01-01T00:00:00Z",
];

/// Bodies of datetimes that keep the rule.
pub const GOOD_DATETIMES: &[&str] = &[
    "2016-12-31T23:59:60.5Z", "2021-02-28T23:59:60Z", "2020-02-29T23:59:60Z", "0000-02-29T00:00:00Z",
    "0000-01-01T00:00:00Z", "2000-02-29T12:34:56.000Z", "9999-12-31T23:59:59Z",
    "1970-01-01T00:00:00.0Z", "2021-06-30T23:59:60.99Z", "2400-02-29T23:59:59.123456789012345678901234567890Z",
    "\\u0032020-01-01T00:00:00Z", "2020-01-01T00:00:00\\u002e5\\u005a",
    "2020\\u002d01-01\\u005400:00\\u003a00Z", "2020-01-31T00:00:00Z", "2020-12-31T23:59:00Z", "0400-02-29T00:00:00Z",
    "2019-04-30T23:59:60Z",
];

/// Extension entries that are malformed.
pub const BAD_ENTRIES: &[&str] = &[
    "5", "null", "true", "\"a\"", "[]", "{}", "[{}]", r#"{"name":"a"}"#, r#"{"name":"a","version":"b"}"#,
    r#"{"name":"a","optional":true}"#, r#"{"version":"b","optional":false}"#,
    r#"{"name":"a","version":"b","optional":"true"}"#, r#"{"name":"a","version":"b","optional":1}"#,
    r#"{"name":"a","version":"b","optional":null}"#, r#"{"name":1,"version":"b","optional":true}"#,
    r#"{"name":null,"version":"b","optional":false}"#, r#"{"name":"a","version":1.0,"optional":false}"#,
    r#"{"name":"a","version":{},"optional":true}"#,
    r#"{"name":"a","version":"b","optional":false,"x":1}"#, r#"{"name":"a","version":"b","optional":true,"":null}"#,
    r#"{"name":"a","version":"b","Optional":false}"#,
    r#"{"Name":"a","version":"b","optional":true}"#, r#"{"name":"a","version":"b","optional ":true}"#,
    r#"{"core:name":"a","core:version":"b","core:optional":true}"#,
    r#"{"name":"a","versio":"b","optional":true}"#, r#"{"name":"a","version":"b","optional\u0000":false}"#,
    r#"{"name":["a"],"version":"b","optional":true}"#,
    r#"{"name":"a","version":"b","optional":[true]}"#, r#"{"name":"a","version":"b","optional":{}}"#,
    r#"{"name":"a","version":"b","optional":true,"Name":"a"}"#,
];

/// Well-formed extension entries that may be ignored; the first is document
/// 000's.
pub const IGNORED_ENTRIES: &[&str] = &[
    r#"{"name":"extension-01","version":"0.0.5","optional":true}"#,
    r#"{"name":"a","version":"b","optional":true}"#, r#"{"optional":true,"name":"","version":""}"#,
    r#"{"n\u0061me":"a","\u0076ersion":"b","\u006fptional":true}"#,
    r#"{ "name" : "a\"b" ,"version":"\\", "optional" : true }"#,
    r#"{"version":"false","optional":true,"name":"false"}"#, r#"{"name":"a",
"version":"b","optional":	true}"#,
];

/// Extension entries that are needed; the first is document 000's.
pub const NEEDED_ENTRIES: &[&str] = &[
    r#"{"name":"extension-02","version":"1.2.3","optional":false}"#,
    r#"{"name":"a","version":"b","optional":false}"#, r#"{"name":"","version":"","optional":false}"#,
    r#"{"optional":false,"version":"1.0.0","name":"antenna"}"#,
    r#"{"n\u0061me":"a","\u0076ersion":"b","\u006fptional":false}"#,
    r#"{ "name" : "a\"b" ,"version":"\\", "optional" : false }"#,
    r#"{"version":"true","name":"optional","optional":false}"#,
];
