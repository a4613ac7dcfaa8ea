//! Fixed cases about the metadata written from a table, and the whole stream with
//! random ones after.

use crate::fields::datatypes;
use crate::frames::Case;
use crate::json_cases::{ESCAPES, NUMBERS, SEQUENCES};
use crate::limits::METADATA_MAX;
use crate::listing_case::{ListingCase, OUTPUT_MAX, WRITING};
use crate::listing_cases::one_label;
use crate::listing_labels::hostile_labels;
use crate::listing_random::{labelled, CHANGES};
use crate::reading_cases::{meta, G};
use crate::rng::{filled_up, Rng};
use crate::steps::State;
use crate::table_cases::EXAMPLE;
use crate::table_forged::{settle, FORGERIES};
use crate::table_random::{cut_of, open};
use crate::writer::metadata_text;
use crate::writing_random::{random_case, rate_at_end, stretch, RATE_CHANGES};

/// The fixed cases, then random ones up to `count`.
pub fn writing_cases(seed: u64, count: usize) -> Vec<Case> {
    filled_up(fixed_cases(), seed, count, random_case)
}

/// Every fixed case.
pub fn fixed_cases() -> Vec<Case> {
    let mut list = List(Vec::new());
    list.example();
    list.hostile();
    list.bodies();
    list.label_places();
    list.changed();
    list.forged();
    list.ends();
    list.text_ends();
    list.rates();
    list.rate_places();
    list.numbers();
    list.rows();
    list.shared_label();
    list.long_texts();
    list.0
}

/// A sample rate, a trailer, headers, labels and none.
fn ordinary() -> String {
    let global = format!(r#"{G},"core:sample_rate":-2.5e+6,"core:trailing_bytes":3"#);
    meta(&global, "{$s:0,$h:2},{$s:2,$h:1}", r#"{$s:0,$l:"first"},{$s:1},{$s:2,$c:1,$l:"a\"b\u00e9"},{$s:2,$l:""},{$s:3,$l:"last"}"#)
}

/// The table of that recording.
fn ordinary_table() -> State {
    open(&ordinary(), 10)
}

/// Metadata of a sample rate and one label.
const SMALL: &[u8] = br#"5"ab""#;

/// A table with headers and a trailer, whose texts stand there.
fn small_table() -> State {
    let mut state = open(&meta(&format!(r#"{G},"core:trailing_bytes":3"#), "{$s:0,$h:2},{$s:2,$h:1}", "{$s:0},{$s:2,$c:1},{$s:3}"), 10);
    (state.summary.rate_place, state.summary.rate_length) = (0, 1);
    state.annotations[2..4].copy_from_slice(&[2, 2]);
    state.annotations[6..8].copy_from_slice(&[2, 2]);
    state
}

/// A table of so many annotations, W = 1 and no samples, and metadata whose labels
/// make a text of the length.
fn of_length(annotations: usize, length: usize) -> (State, Vec<u8>) {
    let mut state = one_label(0, 0);
    state.annotations = state.annotations.repeat(annotations);
    state.summary.annotations = annotations as u64;
    let mut metadata = Vec::new();
    stretch(&mut state, &mut metadata, length);
    (state, metadata)
}

/// The growing list of cases.
struct List(Vec<Case>);

impl List {
    fn add(&mut self, state: &State, metadata: &[u8], room: u64) {
        self.0.push(ListingCase::new(WRITING, room, state, metadata).frame());
    }

    /// Just enough room, one byte less and a few more.
    fn rooms(&mut self, state: &State, metadata: &[u8]) {
        let length = metadata_text(&state.table(), metadata).map_or(100, |text| text.len() as u64);
        for room in [length, length - 1, length + 3] {
            self.add(state, metadata, room);
        }
    }

    /// The paper's recording, cuts and cuts of cuts of it, and many rooms.
    fn example(&mut self) {
        let state = open(EXAMPLE, 108);
        let text = EXAMPLE.as_bytes();
        let cut = cut_of(&state, 4, 12);
        let cuts = [cut_of(&state, 5, 6), cut_of(&state, 6, 9), cut_of(&state, 7, 7), cut_of(&cut, 5, 11), cut_of(&cut_of(&cut, 5, 11), 6, 10)];
        for table in [state.clone(), cut, open(EXAMPLE, 48), open(EXAMPLE, 107)].iter().chain(&cuts) {
            self.rooms(table, text);
            self.add(table, text, 0);
        }
        for room in (1..400).step_by(19) {
            self.add(&state, text, room);
        }
        self.add(&state, b"", 500);
    }

    /// Every hostile label, several in each recording.
    fn hostile(&mut self) {
        let mut rng = Rng::new(9);
        for labels in hostile_labels().chunks(12) {
            let (state, metadata) = labelled(labels, &mut rng);
            self.rooms(&state, &metadata);
        }
    }

    /// Bodies, good and broken, that are the whole of a label.
    fn bodies(&mut self) {
        let escapes = ESCAPES.iter().map(|e| e.as_bytes());
        let others: [&[u8]; 8] = [b"", b"\"", b"a\"b", b"\n", b"a\tb", b"\x1F", b"\0", b"plain"];
        for body in escapes.chain(SEQUENCES.iter().copied()).chain(others) {
            let metadata = [b"\"", body, b"\""].concat();
            self.add(&one_label(1, body.len() as u64), &metadata, 250);
        }
    }

    /// Labels' places around small metadata.
    fn label_places(&mut self) {
        for metadata in [&b""[..], b"\"", b"\"\"", b"\"a\"", b"\"a\"b\"", b"xa\"", b"\"ax", b"\"\\\"", b"\"\\\"\""] {
            for (place, length) in (0..5).flat_map(|place| (0..4).map(move |length| (place, length))) {
                self.add(&one_label(place, length), metadata, 240);
            }
        }
        let top = u64::MAX;
        for (place, length) in [(0, 5), (61_440, 0), (61_441, 0), (61_439, 1), (61_440, 1), (top, 1), (1, top), (top, top), (top, 0), (1, 61_439)] {
            self.add(&one_label(place, length), b"\"abcde\"", 240);
        }
    }

    /// Every change of a label, of the sample rate or of the metadata.
    fn changed(&mut self) {
        for (j, change) in CHANGES.iter().enumerate() {
            for row in [0, 2, 3, 4] {
                let (mut state, mut metadata) = (ordinary_table(), ordinary().into_bytes());
                change(&mut state, row, &mut metadata, &mut Rng::new(j as u64));
                self.add(&state, &metadata, 620);
            }
        }
        for (j, change) in RATE_CHANGES.iter().enumerate() {
            for seed in [j, j + 100, j + 200] {
                let (mut state, mut metadata) = (ordinary_table(), ordinary().into_bytes());
                change(&mut state, &mut metadata, &mut Rng::new(seed as u64));
                self.add(&state, &metadata, 640);
            }
        }
    }

    /// Every change of a table and of its cut, several times; 18 goes before 20.
    fn forged(&mut self) {
        for (k, forge) in FORGERIES.iter().enumerate() {
            let mut rng = Rng::new(k as u64);
            for round in 0..8 {
                let honest = small_table();
                let mut state = if round % 4 == 3 { cut_of(&honest, 1, 4) } else { honest };
                forge(&mut state, &mut rng);
                let room = if round == 0 { 0 } else { 600 };
                self.add(&state, SMALL, room);
            }
        }
    }

    /// Ends about 2^64 where no capture has one.
    fn ends(&mut self) {
        let top = u64::MAX;
        for (offset, samples) in [(top, 0), (top, 1), (top - 1, 1), (top - 1, 2), (top - 9, 9), (top - 9, 10), (top - 9, 19), (2, top)] {
            for annotations in [0, 1] {
                let mut state = one_label(0, 0);
                let s = &mut state.summary;
                (s.offset, s.samples, s.dataset, s.annotations) = (offset, samples, samples, annotations);
                state.annotations[..2].fill(offset);
                self.add(&state, b"", 300);
            }
        }
    }

    /// Text places that end at 61,440 or one byte beyond.
    fn text_ends(&mut self) {
        for (label_end, rate_end) in [(61_440, 61_440), (61_441, 61_440), (61_430, 61_441)] {
            let mut metadata = vec![b'5'; 61_442];
            (metadata[label_end - 3], metadata[label_end]) = (b'"', b'"');
            let mut state = one_label(label_end as u64 - 2, 2);
            (state.summary.rate_place, state.summary.rate_length) = (rate_end - 1, 1);
            self.add(&state, &metadata, 300);
        }
    }

    /// Numbers and texts that are none, alone, inside others, and cut short.
    fn rates(&mut self) {
        let more: [&[u8]; 10] = [b"5 ", b" 5", b"5\n", b"\"5\"", b"null", b"true", b"NaN", b"[5]", b"Infinity", b"5,"];
        for number in NUMBERS.iter().copied().chain(more) {
            for (before, after) in [(&b""[..], &b""[..]), (b"\"", b"\""), (b":", b"}"), (b"1", b"1")] {
                let (mut state, mut metadata) = (open(&meta(G, "", ""), 0), Vec::new());
                rate_at_end(&mut state, &mut metadata, before, number, after);
                self.add(&state, &metadata, 170 + number.len() as u64);
            }
        }
        let digits = "1234567890".repeat(100);
        for rate in [digits.clone(), format!("0.{digits}"), format!("1e{digits}"), format!("{digits}."), format!("-0{digits}")] {
            let (mut state, mut metadata) = (ordinary_table(), ordinary().into_bytes());
            rate_at_end(&mut state, &mut metadata, b"", rate.as_bytes(), b"");
            self.rooms(&state, &metadata);
        }
    }

    /// Sample rates' places around small metadata.
    fn rate_places(&mut self) {
        let bare = open(&meta(G, "", ""), 0);
        let mut at = |place: u64, length: u64, metadata: &[u8]| {
            let mut state = bare.clone();
            (state.summary.rate_place, state.summary.rate_length) = (place, length);
            self.add(&state, metadata, 175);
        };
        for metadata in [&b""[..], b"5", b"5 ", b"50", b"-5", b"1.5", b"1e5", b"0.5"] {
            for (place, length) in (0..5).flat_map(|place| (0..5).map(move |length| (place, length))) {
                at(place, length, metadata);
            }
        }
        let top = u64::MAX;
        for (place, length) in [(0, 61_440), (0, 61_441), (61_440, 0), (61_441, 0), (61_439, 1), (61_440, 1), (top, 0), (top, 1), (1, top), (2, top), (top, top)] {
            at(place, length, b"12345");
        }
    }

    /// Numbers of one to twenty digits, all datatypes and channels.
    fn numbers(&mut self) {
        let top = u64::MAX;
        for (o, d) in [(0, 0), (9, 1), (10, 0), (99, 1), (top, 0), (top - 1, 1), (top - (1 << 48), 1 << 48), (1 << 63, 1 << 47), (9_999_999_999, 1 << 48), (0, 1 << 48)] {
            let end = o + d;
            let text = meta(&format!(r#"{G},"core:offset":{o}"#), &format!("{{$s:{o}}},{{$s:{end}}}"), &format!(r#"{{$s:{o},$l:"a"}},{{$s:{end},$c:0}}"#));
            self.rooms(&open(&text, d), text.as_bytes());
        }
        for (header, trailing) in [(0, 1 << 48), (1 << 48, 0), (1 << 47, 1 << 47), ((1 << 48) - 1, 1), (9, 99), (10, 100)] {
            let text = meta(&format!(r#"{G},"core:trailing_bytes":{trailing}"#), &format!("{{$s:0,$h:{header}}}"), "{$s:0}");
            self.rooms(&open(&text, header + trailing), text.as_bytes());
        }
        for (k, name) in datatypes().iter().enumerate() {
            let channels = [1, 9, 10, 99, 100, 1_000, 1_024][k % 7];
            let global = format!(r#""core:datatype":"{name}","core:version":"1.0.0","core:num_channels":{channels},"core:sample_rate":{k}e6"#);
            let text = meta(&global, "", "");
            self.rooms(&open(&text, 0), text.as_bytes());
        }
        let text = meta(r#""core:datatype":"cf64_le","core:version":"1.0.0","core:num_channels":1024"#, "{$s:17179869184}", "{$s:0}");
        self.rooms(&open(&text, 1 << 48), text.as_bytes());
    }

    /// None, one, some and many rows of either kind; more lent than counted.
    fn rows(&mut self) {
        for (captures, annotations) in [(0, 0), (1, 0), (0, 1), (1, 1), (2, 0), (0, 2), (3, 5), (100, 100)] {
            let notes = vec![r#"{$s:0,$l:"\n"}"#; annotations].join(",");
            let text = meta(G, &vec!["{$s:0}"; captures].join(","), &notes);
            let mut state = open(&text, 1);
            self.rooms(&state, text.as_bytes());
            state.captures.extend([1, 2, 3, 4, 5]);
            state.annotations.extend([6, 7, 8, 9]);
            self.rooms(&state, text.as_bytes());
        }
        let mut state = open(&meta(G, "{$s:0}", "{$s:0}"), 0);
        (state.summary.captures, state.captures) = (1_024, state.captures.repeat(1_024));
        (state.summary.annotations, state.annotations) = (300, state.annotations.repeat(300));
        settle(&mut state);
        self.add(&state, b"", OUTPUT_MAX);
        state.summary.annotations = 320;
        state.annotations = vec![0; 4 * 320];
        self.add(&state, b"", OUTPUT_MAX);
    }

    /// Labels that share a place or overlap.
    fn shared_label(&mut self) {
        let metadata = br#""a\"b\"c""#;
        for places in [[(1, 7), (1, 7)], [(1, 7), (0, 0)], [(4, 1), (1, 7)], [(1, 7), (7, 1)], [(1, 3), (4, 3)]] {
            let mut state = open(&meta(G, "", "{$s:0},{$s:0}"), 0);
            for (row, (place, length)) in state.annotations.chunks_exact_mut(4).zip(places) {
                (row[2], row[3]) = (place, length);
            }
            self.add(&state, metadata, 300);
        }
    }

    /// Texts about the limit, with room for them and without.
    fn long_texts(&mut self) {
        let limit = METADATA_MAX as u64;
        for length in [METADATA_MAX - 1, METADATA_MAX, METADATA_MAX + 1, METADATA_MAX + 1_000] {
            for room in [OUTPUT_MAX, limit - 1, limit, limit + 1, length as u64, 0] {
                let (state, metadata) = of_length(60, length);
                self.add(&state, &metadata, room);
            }
            let (mut state, metadata) = of_length(60, length);
            (state.summary.rate_place, state.summary.rate_length) = (1, 1);
            self.add(&state, &metadata, OUTPUT_MAX);
        }
        for length in [METADATA_MAX, METADATA_MAX + 1] {
            let (state, metadata) = of_length(1, length);
            self.add(&state, &metadata, OUTPUT_MAX);
        }
        let bare = meta(G, "", r#"{$s:0,$l:"L"}"#);
        let whole = bare.replace('L', &"é".repeat((METADATA_MAX - bare.len()) / 2));
        self.add(&open(&whole, 0), whole.as_bytes(), OUTPUT_MAX);
    }
}
