//! Fixed cases about label lookup, the listing and first lines, and the whole
//! stream with random ones after.

use crate::frames::Case;
use crate::json_cases::{ESCAPES, SEQUENCES};
use crate::listing::listing_text;
use crate::listing_case::{ListingCase, LISTING, LOOKUP};
use crate::listing_labels::hostile_labels;
use crate::listing_random::{asked, labelled, random_case, CHANGES};
use crate::reading_cases::{meta, G};
use crate::rng::{filled_up, Rng};
use crate::steps::State;
use crate::table_cases::EXAMPLE;
use crate::table_forged::FORGERIES;
use crate::table_random::{cut_of, open};

/// The fixed cases, then random ones up to `count`.
pub fn listing_cases(seed: u64, count: usize) -> Vec<Case> {
    filled_up(fixed_cases(), seed, count, random_case)
}

/// Every fixed case.
pub fn fixed_cases() -> Vec<Case> {
    let mut list = List(Vec::new());
    list.example();
    list.hostile();
    list.bodies();
    list.label_places();
    list.changed();
    list.forged();
    list.numbers();
    list.first_lines();
    list.first_bytes();
    list.0
}

/// The growing list of cases.
struct List(Vec<Case>);

impl List {
    fn lookup(&mut self, state: &State, metadata: &[u8], number: u64) {
        self.0.push(ListingCase::new(LOOKUP, number, state, metadata).frame());
    }

    fn listing(&mut self, state: &State, metadata: &[u8], room: u64) {
        self.0.push(ListingCase::new(LISTING, room, state, metadata).frame());
    }

    /// Listings into just enough room, one byte less and a few more.
    fn rooms(&mut self, state: &State, metadata: &[u8]) {
        let length = listing_text(&state.table(), metadata).map_or(100, |t| t.len() as u64);
        for room in [length, length - 1, length + 3] {
            self.listing(state, metadata, room);
        }
    }

    /// The paper's recording, and cuts of it.
    fn example(&mut self) {
        let state = open(EXAMPLE, 108);
        let text = EXAMPLE.as_bytes();
        for table in [state.clone(), cut_of(&state, 4, 12), cut_of(&state, 5, 6), cut_of(&state, 6, 9), cut_of(&state, 7, 7), open(EXAMPLE, 48), open(EXAMPLE, 107)] {
            self.rooms(&table, text);
            for number in [0, 1, u64::MAX] {
                self.lookup(&table, text, number);
            }
        }
        for room in [0, 1, 48, 49, 50, 66, 67, 84, 85, 86, 137, 138, 139, 140, 141, 142, 4_096] {
            self.listing(&state, text, room);
        }
        let long = format!("{EXAMPLE}{}", " ".repeat(61_500 - EXAMPLE.len()));
        self.lookup(&state, long.as_bytes(), 0);
        self.listing(&state, b"", 500);
    }

    /// Every hostile label, several in each recording.
    fn hostile(&mut self) {
        let mut rng = Rng::new(9);
        for (k, labels) in hostile_labels().chunks(12).enumerate() {
            let (state, metadata) = labelled(labels, &mut rng);
            self.rooms(&state, &metadata);
            for number in (k % 3..labels.len() + 1).step_by(3) {
                self.lookup(&state, &metadata, number as u64);
            }
        }
    }

    /// Bodies, good and broken, that are the whole of a label.
    fn bodies(&mut self) {
        let escapes = ESCAPES.iter().map(|e| e.as_bytes());
        let others: [&[u8]; 8] = [b"", b"\"", b"a\"b", b"\n", b"a\tb", b"\x1F", b"\0", b"plain"];
        for body in escapes.chain(SEQUENCES.iter().copied()).chain(others) {
            let metadata = [b"\"", body, b"\""].concat();
            let state = one_label(1, body.len() as u64);
            self.lookup(&state, &metadata, 0);
            self.listing(&state, &metadata, 120);
        }
    }

    /// Places around small metadata.
    fn label_places(&mut self) {
        for metadata in [&b""[..], b"\"", b"\"\"", b"\"a\"", b"\"a\"b\"", b"xa\"", b"\"ax", b"\"\\\"", b"\"\"\"\"", b"\"\\\"\""] {
            for place in 0..5 {
                for length in 0..4 {
                    let state = one_label(place, length);
                    self.lookup(&state, metadata, 0);
                    if (place + length) % 2 == 0 {
                        self.listing(&state, metadata, 90);
                    }
                }
            }
        }
        let top = u64::MAX;
        for (place, length) in [(0, 5), (61_440, 0), (61_441, 0), (61_439, 1), (61_440, 1), (top, 1), (1, top), (top, top), (top, 0), (0, 61_440), (0, 61_441), (1, 61_439)] {
            self.lookup(&one_label(place, length), b"\"abcde\"", 0);
            self.lookup(&one_label(place, length), b"\"abcde\"", 1);
            self.listing(&one_label(place, length), b"\"abcde\"", 90);
        }
        let quotes = b"\"".repeat(61_441);
        self.lookup(&one_label(61_440, 0), &quotes, 0);
    }

    /// Every change of a label or of the metadata, seen from each annotation.
    fn changed(&mut self) {
        let text = meta(G, "{$s:0}", r#"{$s:0,$l:"first"},{$s:1},{$s:2,$l:"a\"b\u00e9"},{$s:2,$l:""},{$s:3,$l:"last"}"#);
        for (j, change) in CHANGES.iter().enumerate() {
            for row in [0, 2, 3, 4] {
                let (mut state, mut metadata) = (open(&text, 4), text.clone().into_bytes());
                let mut rng = Rng::new(j as u64);
                change(&mut state, row, &mut metadata, &mut rng);
                for number in [row as u64, (j % 6) as u64] {
                    self.lookup(&state, &metadata, number);
                }
                self.listing(&state, &metadata, 200 + j as u64);
            }
        }
    }

    /// Every change of a table.
    fn forged(&mut self) {
        let text = meta(&format!(r#"{G},"core:sample_rate":8,"core:trailing_bytes":3"#), "{$s:0,$h:2},{$s:2,$h:1}", r#"{$s:0,$l:"a"},{$s:2,$c:1,$l:"b"},{$s:3}"#);
        for (k, forge) in FORGERIES.iter().enumerate() {
            let mut rng = Rng::new(k as u64);
            for letter in [LOOKUP, LISTING, LOOKUP] {
                let mut state = open(&text, 10);
                forge(&mut state, &mut rng);
                self.0.push(asked(letter, &state, text.as_bytes(), &mut rng).frame());
            }
        }
    }

    /// Numbers of one to twenty digits, all datatypes, no rows and many.
    fn numbers(&mut self) {
        let top = u64::MAX;
        for (o, d) in [(0, 0), (9, 1), (10, 0), (99, 1), (top, 0), (top - 1, 1), (1 << 63, 1 << 47), (9_999_999_999, 1 << 48), (0, 1 << 48)] {
            let end = o + d;
            let text = meta(&format!(r#"{G},"core:offset":{o}"#), &format!("{{$s:{o}}},{{$s:{end}}}"), &format!(r#"{{$s:{o},$l:"a"}},{{$s:{end},$c:0}}"#));
            self.rooms(&open(&text, d), text.as_bytes());
        }
        for (k, name) in crate::fields::datatypes().iter().enumerate() {
            let global = format!(r#""core:datatype":"{name}","core:version":"1.0.0","core:num_channels":{}"#, [1, 9, 10, 99, 100, 1_000, 1_024][k % 7]);
            let text = meta(&global, "", "");
            self.rooms(&open(&text, 0), text.as_bytes());
        }
        let many = vec![r#"{$s:0,$l:"\n"}"#; 100].join(",");
        let text = meta(G, &vec!["{$s:0}"; 100].join(","), &many);
        self.rooms(&open(&text, 1), text.as_bytes());
    }

    /// First lines of the program's input.
    fn first_lines(&mut self) {
        let lines = [
            "", "\n", "1", "0\n", "108\n{}", "000108\n{}", "1\r\n", "\r\n", "+1\n", "-0\n", "-1\n", " 1\n", "1 \n",
            "\t1\n", "1\t\n", "1\n\n", "\n1\n", "1\n2\n", "a\n", "1a\n", "a1\n", "0x1\n",
            "1_0\n", "1,0\n", "1.0\n", "1e3\n", "1\0\n", "\u{0}1\n", "\u{feff}1\n", "\u{661}\n", "1\u{b}\n", "12 34\n",
            "1\u{2028}", "1\u{85}", "281474976710656\n{}", "281474976710657\n{}", "{}\n1\n", "\"1\"\n",
            "00000000000000000000\n", "000000000000000000000\n", "00000000000000000001\nabc",
            "000000000000000000001\nabc", "99999999999999999999\n", "100000000000000000000\n", "10000000000000000000\n",
        ];
        for line in lines {
            self.0.push(Case { letter: b'q', payload: line.as_bytes().to_vec() });
        }
        for last in 0..20 {
            let line = format!("{}\n[]", (u128::from(u64::MAX) - 9) + last);
            self.0.push(Case { letter: b'q', payload: line.into_bytes() });
        }
        for count in (1..=25).chain([100, 1_000]) {
            for digit in ["0", "1", "9"] {
                self.0.push(Case { letter: b'q', payload: format!("{}\nx", digit.repeat(count)).into_bytes() });
            }
            self.0.push(Case { letter: b'q', payload: "1".repeat(count).into_bytes() });
        }
    }

    /// Every byte in place of a digit.
    fn first_bytes(&mut self) {
        for byte in 0..=255 {
            self.0.push(Case { letter: b'q', payload: vec![byte, b'\n'] });
            self.0.push(Case { letter: b'q', payload: vec![b'4', byte, b'2', b'\n', b'{'] });
        }
    }
}

/// A table of one annotation with a label's place, W = 1 and no samples.
pub fn one_label(place: u64, length: u64) -> State {
    let mut state = open(&meta(G, "", "{$s:0}"), 0);
    (state.annotations[2], state.annotations[3]) = (place, length);
    state
}
