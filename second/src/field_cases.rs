//! Fixed cases about one value or name, and the whole stream with random ones
//! after.

use crate::fields::{datatypes, days_in};
use crate::field_names::name_cases;
use crate::field_random::random_case;
use crate::frames::Case;
use crate::reading_lists::*;
use crate::rng::filled_up;
use std::collections::HashSet;

/// The fixed cases, then random ones up to `count`.
pub fn field_cases(seed: u64, count: usize) -> Vec<Case> {
    filled_up(fixed_cases(), seed, count, random_case)
}

/// Every fixed case, once.
pub fn fixed_cases() -> Vec<Case> {
    let mut list = List(Vec::new());
    list.uints();
    list.datatypes();
    list.versions();
    list.dates();
    list.clocks();
    list.datetime_forms();
    list.name_bytes();
    list.name_forms();
    list.0.extend(name_cases());
    list.values();
    list.entries();
    list.entry_members();
    let mut seen = HashSet::new();
    list.0.retain(|case| seen.insert(case.clone()));
    list.0
}

/// The escape of one byte.
pub fn escaped(byte: u8) -> String {
    format!("\\u{byte:04x}")
}

/// The same in upper case.
pub fn escaped_upper(byte: u8) -> String {
    format!("\\u{byte:04X}")
}

/// A plain ASCII text with the byte at a position escaped.
pub fn escaped_at(text: &str, k: usize, escape: fn(u8) -> String) -> String {
    format!("{}{}{}", &text[..k], escape(text.as_bytes()[k]), &text[k + 1..])
}

/// A plain ASCII text as a body, with escapes for what needs them.
pub fn body_of(text: &[u8]) -> String {
    text.iter().map(|&b| if b < 0x20 || b"\"\\".contains(&b) || b > 0x7E { escaped(b) } else { char::from(b).to_string() }).collect()
}

/// A plain ASCII text with each position in turn written as an escape, and with
/// all of them so.
pub fn escapes_of(text: &str) -> Vec<String> {
    let mut list: Vec<String> = (0..text.len()).map(|k| escaped_at(text, k, escaped)).collect();
    list.extend([escaped, escaped_upper].map(|escape| text.bytes().map(escape).collect()));
    list
}

/// A plain ASCII text with the byte at a position changed in one of three ways.
pub fn changed(text: &str, k: usize, way: usize) -> String {
    let byte = text.as_bytes()[k];
    let other = [byte ^ 0x20, byte + 1, byte - 1][way % 3];
    format!("{}{}{}", &text[..k], body_of(&[other]), &text[k + 1..])
}

/// A plain ASCII text with one byte changed, left out or doubled at each position.
fn misses_of(text: &str) -> Vec<String> {
    let mut list = vec![format!("{text}\\u0000"), format!("{text} "), format!(" {text}"), text.to_uppercase(), format!("\\\\u0030{text}"), String::new()];
    for k in 0..text.len() {
        list.push(format!("{}{}", &text[..k], &text[k + 1..]));
        list.push(changed(text, k, k));
        if k % 3 == 0 {
            list.push(format!("{}{}", &text[..k + 1], &text[k..]));
        }
    }
    list
}

/// The growing list of cases.
struct List(Vec<Case>);

impl List {
    fn add(&mut self, letter: u8, payload: &str) {
        self.0.push(Case { letter, payload: payload.as_bytes().to_vec() });
    }

    /// A string's body, in quotes.
    fn text(&mut self, letter: u8, body: &str) {
        self.add(letter, &format!("\"{body}\""));
    }

    /// Numbers around 2^32, 2^63, 2^64 and their multiples, and other values.
    fn uints(&mut self) {
        let wide = |x: u128| (x - 3..x + 4).map(|n| n.to_string()).collect::<Vec<_>>();
        let mut numbers: Vec<String> = [10, 1 << 16, 1 << 32, 1 << 48, 1 << 63, 1 << 64, 2 << 64, 10 << 64, 1 << 65, 1 << 96].into_iter().flat_map(wide).collect();
        numbers.extend((0..10).map(|d| format!("1844674407370955161{d}")));
        for length in (1..=25).chain([100, 2_000]) {
            numbers.extend(["9".repeat(length), format!("1{}", "0".repeat(length)), "1".repeat(length)]);
        }
        for number in &numbers {
            self.add(b'u', number);
        }
        for number in ["0", "1", "18446744073709551615", "18446744073709551616"] {
            for (head, tail) in [("-", ""), ("", ".0"), ("", "e0"), ("", "E+0"), ("", "e-0"), ("-", ".5e3"), ("", "e1"), ("", ".00000")] {
                self.add(b'u', &format!("{head}{number}{tail}"));
            }
            self.add(b'u', &format!("\"{number}\""));
            self.add(b'u', &format!("[{number}]"));
        }
        for value in VALUES.iter().chain(&["{\"a\":0}", "\"0\\u0030\"", "-0.0"]) {
            self.add(b'u', value);
        }
    }

    /// The listed datatypes in many spellings, and near misses.
    fn datatypes(&mut self) {
        for (k, name) in datatypes().iter().enumerate() {
            self.text(b'd', name);
            for body in escapes_of(name) {
                self.text(b'd', &body);
            }
            if k % 5 == 0 || name.len() == 3 {
                for body in misses_of(name) {
                    self.text(b'd', &body);
                }
            }
            self.text(b'd', &format!("{name}_le"));
            self.text(b'd', &name[1..]);
        }
        for body in BAD_DATATYPES {
            self.text(b'd', body);
        }
        self.text(b'd', &"\\u0030".repeat(333));
        self.text(b'd', &format!("ru8{}", "\\u0000".repeat(333)));
        for body in ["\\ud83d\\ude00", "é", "ru8\\n", "\\/", "\\\"ru8\\\""] {
            self.text(b'd', body);
        }
    }

    /// `1.0.0` in many spellings, and near misses.
    fn versions(&mut self) {
        self.text(b'v', "1.0.0");
        for body in escapes_of("1.0.0").iter().chain(&misses_of("1.0.0")) {
            self.text(b'v', body);
        }
        for body in BAD_VERSIONS {
            self.text(b'v', body);
        }
        self.text(b'v', &"\\u0030".repeat(333));
        self.text(b'v', &format!("1.0.0{}", "\\u0030".repeat(333)));
        self.text(b'v', &format!("1.0.{}", "0".repeat(2_000)));
    }

    /// Every month and its last days, and the leap rules.
    fn dates(&mut self) {
        for year in [2023, 2024] {
            for month in 0..=13 {
                for day in [0, 1, 28, 29, 30, 31, 32] {
                    self.text(b'm', &format!("{year}-{month:02}-{day:02}T00:00:00Z"));
                }
            }
        }
        for year in [0, 1, 3, 4, 8, 96, 99, 100, 200, 400, 800, 1600, 1700, 1896, 1900, 2000, 2004, 2100, 2200, 2400, 9996, 9999] {
            for day in [28, 29, 30] {
                self.text(b'm', &format!("{year:04}-02-{day}T00:00:00.5Z"));
            }
            self.text(b'm', &format!("{year:04}-02-{}T23:59:60Z", days_in(year, 2)));
            self.text(b'm', &format!("{year:04}-02-28T23:59:60Z"));
        }
        for (month, day) in [(19, 1), (10, 1), (99, 1), (1, 99), (1, 10), (1, 19), (1, 20), (11, 31), (20, 1)] {
            self.text(b'm', &format!("2020-{month:02}-{day:02}T00:00:00Z"));
        }
    }

    /// Hours, minutes and seconds, and second 60 in every month.
    fn clocks(&mut self) {
        for (limit, before, after) in [(24, "", ":00:00"), (60, "00:", ":00"), (60, "00:00:", "")] {
            for number in [0, 1, 9, 10, 19, 20, limit - 1, limit, limit + 1, 99] {
                self.text(b'm', &format!("2020-06-30T{before}{number:02}{after}Z"));
            }
        }
        for month in 1..=12 {
            let last = days_in(2024, month);
            for (day, clock) in [(last, "23:59:60"), (last - 1, "23:59:60"), (last, "23:59:60.9"), (1, "23:59:60"), (last, "23:58:60"), (last, "22:59:60"), (last, "23:59:61")] {
                self.text(b'm', &format!("2024-{month:02}-{day:02}T{clock}Z"));
            }
        }
        for clock in ["00:00:60", "23:00:60", "23:59:70", "24:00:00", "24:59:60", "23:60:60", "00:59:60", "12:59:60"] {
            self.text(b'm', &format!("2020-12-31T{clock}Z"));
        }
    }

    /// Every position of the form changed or escaped, and fractions.
    fn datetime_forms(&mut self) {
        let text = "2020-12-31T23:59:59.05Z";
        for body in escapes_of(text) {
            self.text(b'm', &body);
        }
        for k in 0..text.len() {
            for byte in *b"0 :-TZ./;a" {
                self.text(b'm', &format!("{}{}{}", &text[..k], char::from(byte), &text[k + 1..]));
            }
            self.text(b'm', &format!("{}{}", &text[..k], &text[k + 1..]));
            self.text(b'm', &format!("{}0{}", &text[..k], &text[k..]));
            self.text(b'm', &text[..k]);
        }
        let fractions = ["", ".", ".0", ".000", ".5", ".123456789", ".1.", "..1", ".-1", ".+1", ".1e3", ". 1", ".1 ", ".\\u0660", ".\\u0035", ",5", ".1Z", ".a", ".:", ".1/2"];
        for fraction in fractions {
            self.text(b'm', &format!("1999-01-01T01:02:03{fraction}Z"));
        }
        for (count, last) in [(333, ""), (332, "\\u002e"), (332, "9"), (332, "\\u005a"), (333, "/"), (333, ":")] {
            self.text(b'm', &format!("1999-01-01T01:02:03.{}{last}Z", "\\u0030".repeat(count)));
        }
        self.text(b'm', &"\\u0030".repeat(333));
        for body in BAD_DATETIMES.iter().chain(GOOD_DATETIMES) {
            self.text(b'm', body);
        }
    }

    /// Every byte of ASCII first and second in either part of a name.
    fn name_bytes(&mut self) {
        for byte in 0..=0x7Fu8 {
            let one = body_of(&[byte]);
            for name in [format!("{one}a:b"), format!("a{one}:b"), format!("a:{one}b"), format!("a:b{one}")] {
                self.add(b'n', &name);
            }
            if byte.is_ascii_punctuation() || byte % 8 == 0 {
                self.add(b'n', &format!("{}:{}", escaped(byte), "b"));
                self.add(b'n', &format!("a:{}", escaped(byte)));
            }
        }
    }

    /// Names of either form, long ones, and escapes in every position.
    fn name_forms(&mut self) {
        for name in BAD_NAMES.iter().chain(GOOD_NAMES) {
            self.add(b'n', name);
        }
        for name in escapes_of("a-9:b_9").iter().chain(&misses_of("a-9:b_9")) {
            self.add(b'n', name);
        }
        for c in ["é", "\u{80}", "\u{ff}", "\u{7ff}", "\u{800}", "\u{ff1a}", "\u{ffff}", "\u{10000}", "\\ud83d\\ude00", "\\u00e9", "\\uff1a", "\\ud800\\udc3a", "\\u013a", "\\u3a00"] {
            for name in [format!("{c}:b"), format!("a{c}b"), format!("a:b{c}"), format!("a{c}:b")] {
                self.add(b'n', &name);
            }
        }
        let long = "\\u0030".repeat(333);
        for name in [format!("a{long}:b"), format!("a:b{long}"), format!("{long}:b"), format!("a:{long}"), format!("a:b{long}\\u002d"), format!("a{long}\\u002d:b"), long.clone()] {
            self.add(b'n', &name);
        }
        let plain = "x".repeat(2_000);
        for name in [format!("{plain}:{plain}"), format!("{plain}{plain}"), format!("{plain}:{plain}:"), format!("{plain}:{plain}-")] {
            self.add(b'n', &name);
        }
    }

    /// Values of every type.
    fn values(&mut self) {
        let more = [
            "\"{}\"", "\"[]\"", "\"true\"", "[null]", "{\"a\":{}}", "-0.0", "18446744073709551614", "9007199254740993",
            "-18446744073709551615", "0e0", "1e-5",
            "\"\\ud83d\\ude00\"", "[[[[]]]]", "[1,2,3]", "{\"\":\"\"}", "\"\\\"\"", "\"[\"", "[ ]", "{ }", "[ 1 , 2 ]",
            "{ \"a\" : true }", "\"é\"", "\" \"", "123456789012345678901234567890",
        ];
        for value in VALUES.iter().chain(&more).chain(BAD_UINTS) {
            self.add(b'k', value);
        }
        self.add(b'k', &format!("\"{}\"", "\\u0030".repeat(333)));
        self.add(b'k', &"7".repeat(2_000));
    }

    /// Extension entries of every form.
    fn entries(&mut self) {
        for entry in BAD_ENTRIES.iter().chain(IGNORED_ENTRIES).chain(NEEDED_ENTRIES).chain(VALUES) {
            self.add(b'x', entry);
        }
        for optional in ["true", "false"] {
            let members = [r#""name":"a""#.to_string(), r#""version":"b""#.to_string(), format!(r#""optional":{optional}"#)];
            for order in [[0, 1, 2], [0, 2, 1], [1, 0, 2], [1, 2, 0], [2, 0, 1], [2, 1, 0]] {
                let parts: Vec<&str> = order.iter().map(|&k| members[k].as_str()).collect();
                self.add(b'x', &format!("{{{}}}", parts.join(",")));
                self.add(b'x', &format!("{{{}}}", parts[..2].join(",")));
                self.add(b'x', &format!("{{ {} ,\"name2\":\"a\" }}", parts.join(" ,\n")));
            }
            let long = "\\u0030".repeat(333);
            self.add(b'x', &format!(r#"{{"name":"{long}","version":"{long}","optional":{optional}}}"#));
            self.add(b'x', &format!(r#"{{"name{long}":"","version":"","optional":{optional}}}"#));
        }
    }

    /// Each member of an entry with other names and values.
    fn entry_members(&mut self) {
        for (k, name) in ["name", "version", "optional"].iter().enumerate() {
            for (j, value) in VALUES.iter().enumerate() {
                let mut values = ["\"a\"", "\"b\"", ["true", "false"][j % 2]];
                values[k] = value;
                self.add(b'x', &format!(r#"{{"name":{},"version":{},"optional":{}}}"#, values[0], values[1], values[2]));
            }
            let entry = format!(r#"{{"name":"a","version":"b","optional":{}}}"#, ["true", "false", "true"][k]);
            for other in escapes_of(name).iter().chain(&misses_of(name)) {
                self.add(b'x', &entry.replace(&format!("\"{name}\""), &format!("\"{other}\"")));
            }
        }
    }
}
