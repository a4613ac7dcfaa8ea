//! Fixed edge cases about tables, and the whole stream with random ones after.

use crate::fields::{datatype_count, datatypes, sample_width};
use crate::frames::Case;
use crate::reading_cases::meta;
use crate::rng::{filled_up, Rng};
use crate::steps::State;
use crate::table_case::{TableCase, BYTES_MAX, COPY, CUT, LOCATE, PIECES, WELL_FORMED};
use crate::table_forged::FORGERIES;
use crate::table_random::{case_of, cut_of, open, random_case};

/// The fixed cases, then random ones up to `count`.
pub fn table_cases(seed: u64, count: usize) -> Vec<Case> {
    filled_up(fixed_cases(), seed, count, random_case).iter().map(TableCase::frame).collect()
}

/// Every fixed case.
pub fn fixed_cases() -> Vec<TableCase> {
    let mut list = List(Vec::new());
    list.example();
    list.refused();
    list.offsets();
    list.headers();
    list.annotations();
    list.rooms();
    list.lent_rows();
    list.wrapping();
    list.places();
    list.cuts();
    list.copies();
    list.double_precision();
    list.forged();
    list.0
}

/// The paper's own recording.
pub const EXAMPLE: &str = concat!(
    r#"{"global":{"core:datatype":"ci16_le","core:version":"1.0.0"},"#,
    r#""captures":[{"core:sample_start":0},{"core:sample_start":10,"core:header_bytes":8}],"#,
    r#""annotations":[{"core:sample_start":4,"core:sample_count":2,"#,
    r#""core:label":"gate\nannotation 6 8 \"gate\""}]}"#
);

/// A table of bytes, W = 1, from O, T, D, captures (start, header) and
/// annotations (start, count).
fn bytes_table(o: u64, t: u64, d: u64, captures: &[(u64, u64)], annotations: &[(u64, u64)]) -> State {
    let captures: Vec<String> = captures
        .iter()
        .map(|(s, h)| format!(r#"{{"core:sample_start":{s},"core:header_bytes":{h}}}"#))
        .collect();
    let annotations: Vec<String> = annotations
        .iter()
        .map(|(s, c)| format!(r#"{{"core:sample_start":{s},"core:sample_count":{c},"core:label":"a"}}"#))
        .collect();
    let text = format!(
        r#"{{"global":{{"core:datatype":"ru8","core:version":"1.0.0","core:offset":{o},"core:trailing_bytes":{t},"core:sample_rate":8}},"captures":[{}],"annotations":[{}]}}"#,
        captures.join(","),
        annotations.join(",")
    );
    open(&text, d)
}

/// The growing list of cases.
struct List(Vec<TableCase>);

impl List {
    fn add(&mut self, operation: u64, state: &State, range: (u64, u64), sizes: &[u64]) {
        self.0.push(TableCase::new(operation, state, range, sizes));
    }

    /// Every operation on a range, with room.
    fn range(&mut self, state: &State, a: u64, b: u64) {
        self.add(PIECES, state, (a, b), &[64]);
        self.add(CUT, state, (a, b), &[64, 64]);
        self.add(COPY, state, (a, b), &[state.summary.dataset.min(BYTES_MAX), 300]);
    }

    /// Whether a table is well formed, and samples of it.
    fn table(&mut self, state: &State, samples: &[u64]) {
        self.add(WELL_FORMED, state, (0, 0), &[]);
        for &i in samples {
            self.add(LOCATE, state, (i, 0), &[]);
        }
    }

    /// A whole table: the edges of its samples and ranges.
    fn edges(&mut self, state: &State) {
        let (o, n) = (state.summary.offset, state.summary.samples);
        let e = o.wrapping_add(n);
        let (before, last, after) = (o.wrapping_sub(1), e.wrapping_sub(1), e.wrapping_add(1));
        self.table(state, &[before, o, last, e]);
        for (a, b) in [(o, e), (e, e), (before, e), (o, after), (e, o), (last, e)] {
            self.range(state, a, b);
        }
    }

    /// The paper's recording, at its own lengths.
    fn example(&mut self) {
        let state = open(EXAMPLE, 108);
        self.table(&state, &[0, 3, 4, 9, 10, 11, 24, 25, 26]);
        for (a, b) in [(4, 12), (0, 10), (25, 25), (25, 26), (0, 25), (10, 25), (9, 11), (10, 10), (5, 4), (7, 7)] {
            self.range(&state, a, b);
        }
        self.edges(&state);
        self.edges(&open(EXAMPLE, 48));
        for count in ["21", "22"] {
            self.edges(&open(&EXAMPLE.replace(r#"count":2"#, &format!(r#"count":{count}"#)), 108));
        }
    }

    /// Refused summaries handed back in.
    fn refused(&mut self) {
        for dataset in [107, 7, 44] {
            let state = open(EXAMPLE, dataset);
            self.table(&state, &[0]);
            self.range(&state, 0, 0);
        }
    }

    /// Offsets near 2^64, and empty recordings.
    fn offsets(&mut self) {
        let top = u64::MAX;
        for (o, d) in [(top, 0), (top - 1, 1), (top, 1), (top - 5, 5), (top - 5, 6), (1 << 63, 9), (0, 0), (7, 0), (0, 1)] {
            self.edges(&bytes_table(o, 0, d, &[(o, 0)], &[(o, d.min(top - o))]));
            self.edges(&bytes_table(o, 0, d, &[], &[]));
        }
        self.edges(&bytes_table(0, 0, 1 << 48, &[(1 << 47, 0)], &[(1, 1 << 40)]));
        self.edges(&bytes_table(top - (1 << 48), 0, 1 << 48, &[], &[]));
    }

    /// Headers at equal starts, at a range's ends and at the recording's end.
    fn headers(&mut self) {
        let equal = bytes_table(0, 0, 17, &[(3, 2), (3, 5)], &[(3, 1)]);
        self.edges(&equal);
        for (a, b) in [(0, 10), (3, 10), (0, 3), (3, 3), (2, 4)] {
            self.range(&equal, a, b);
        }
        let many = bytes_table(5, 4, 40, &[(5, 3), (7, 0), (9, 1), (9, 0), (9, 2), (20, 5), (29, 1)], &[(5, 24), (29, 0)]);
        self.edges(&many);
        for a in [5, 6, 7, 9, 10] {
            for b in [10, 20, 21, 29] {
                self.range(&many, a, b);
            }
        }
        self.table(&many, &[4, 5, 6, 7, 8, 9, 10, 19, 20, 21, 28, 29]);
    }

    /// Empty annotations, and those that touch a range.
    fn annotations(&mut self) {
        let state = bytes_table(0, 0, 10, &[(0, 0), (4, 0), (4, 0)], &[(0, 10), (2, 2), (4, 0), (4, 3), (10, 0)]);
        self.edges(&state);
        for (a, b) in [(0, 2), (2, 4), (3, 5), (4, 4), (4, 7), (7, 10), (10, 10)] {
            self.range(&state, a, b);
        }
    }

    /// Rooms that are just enough, one too small, none, and odd.
    fn rooms(&mut self) {
        let state = open(EXAMPLE, 108);
        for room in [0, 1, 2, 3, 4, 5, 7, 8, 9, 512] {
            self.add(PIECES, &state, (4, 12), &[room]);
            self.add(PIECES, &state, (0, 10), &[room]);
            self.add(PIECES, &state, (25, 25), &[room]);
            self.add(CUT, &state, (4, 12), &[room, 4]);
            self.add(CUT, &state, (4, 12), &[8, room]);
            self.add(CUT, &state, (7, 7), &[room, 0]);
            self.add(CUT, &state, (0, 26), &[room, room]);
        }
        for room in [0, 1, 31, 32, 33, 4_096] {
            self.add(COPY, &state, (4, 12), &[108, room]);
            self.add(COPY, &state, (25, 25), &[108, room]);
        }
    }

    /// Lent rows with numbers beyond the counts, and without a whole row.
    fn lent_rows(&mut self) {
        let mut state = open(EXAMPLE, 108);
        for length in [12, 11, 9, 8, 7, 4, 3, 0] {
            state.captures.resize(length, 5);
            self.table(&state, &[0]);
            self.range(&state, 4, 12);
        }
        let mut state = open(EXAMPLE, 108);
        for length in [9, 8, 7, 5, 4, 3, 0] {
            state.annotations.resize(length, 5);
            self.table(&state, &[0]);
            self.range(&state, 4, 12);
        }
    }

    /// Sums and products that would wrap.
    fn wrapping(&mut self) {
        let mut state = open(EXAMPLE, 108);
        (state.summary.samples, state.summary.dataset) = (1 << 62, 0);
        self.edges(&state);
        (state.summary.captures, state.summary.annotations) = (0, 0);
        self.edges(&state);
        let mut state = open(EXAMPLE, 108);
        (state.summary.trailing, state.summary.dataset) = (0u64.wrapping_sub(8), 100);
        self.edges(&state);
        for offset in [u64::MAX - 5, u64::MAX - 4, u64::MAX - 3, u64::MAX] {
            let mut state = bytes_table(0, 0, 5, &[], &[]);
            state.summary.offset = offset;
            self.edges(&state);
        }
        for count in [1 << 62, 1 << 63, u64::MAX, (1 << 62) + 2, (1 << 61) + 2] {
            let mut state = open(EXAMPLE, 108);
            state.summary.captures = count;
            self.table(&state, &[0]);
            let mut state = open(EXAMPLE, 108);
            state.summary.annotations = count;
            self.table(&state, &[0]);
        }
    }

    /// Text places at and beyond the longest metadata.
    fn places(&mut self) {
        let most = 61_440;
        let top = u64::MAX;
        let places = [(0, 0), (0, 5), (most, 0), (most, 1), (most + 1, 0), (most - 1, 1), (0, most), (0, most + 1), (top, 1), (1, top), (top, top), (5, 0)];
        for place in places {
            let mut state = open(EXAMPLE, 108);
            (state.annotations[2], state.annotations[3]) = place;
            self.table(&state, &[0]);
            self.range(&state, 4, 12);
            let mut state = open(EXAMPLE, 108);
            (state.summary.rate_place, state.summary.rate_length) = place;
            self.table(&state, &[0]);
            self.range(&state, 4, 12);
        }
    }

    /// Cuts handed back in.
    fn cuts(&mut self) {
        let state = open(EXAMPLE, 108);
        let part = cut_of(&state, 4, 12);
        self.edges(&part);
        self.range(&part, 5, 11);
        self.edges(&cut_of(&part, 5, 11));
        self.edges(&cut_of(&part, 6, 6));
        self.edges(&cut_of(&state, 0, 25));
        self.edges(&cut_of(&state, 25, 25));
    }

    /// Datasets of the right and other lengths, beside ranges of all kinds.
    fn copies(&mut self) {
        let state = open(EXAMPLE, 108);
        for length in [108, 107, 109, 0, 4_096] {
            for (range, room) in [((4, 12), 32), ((4, 12), 31), ((12, 4), 32), ((25, 26), 8), ((25, 25), 0)] {
                self.add(COPY, &state, range, &[length, room]);
            }
        }
        let largest = bytes_table(0, 0, BYTES_MAX, &[(9, 6)], &[]);
        self.add(COPY, &largest, (0, BYTES_MAX - 6), &[BYTES_MAX, BYTES_MAX]);
    }

    /// Request P4's datatypes, with samples of up to 16,384 bytes and as many of them as D = 2^48 holds.
    fn double_precision(&mut self) {
        for (code, name) in datatypes().iter().enumerate().filter(|(_, name)| name.contains("f64")) {
            for channels in [2, 1_024] {
                let width = sample_width(code as u64, channels).unwrap_or_default() as u64;
                let global = format!(r#""core:datatype":"{name}","core:version":"1.0.0","core:num_channels":{channels}"#);
                self.copied(&open(&meta(&global, "{$s:0},{$s:2,$h:5}", "{$s:1,$c:2}"), 5 + 3 * width));
                if channels == 2 {
                    self.other_codes(width);
                    continue;
                }
                self.edges(&open(&meta(&global, "{$s:0}", "{$s:1}"), 1 << 48));
                let offset = u64::MAX - ((1 << 48) / width - 1);
                let far = format!(r#"{global},"core:offset":{offset},"core:trailing_bytes":{}"#, width - 5);
                self.edges(&open(&meta(&far, &format!("{{$s:{},$h:5}}", u64::MAX), ""), 1 << 48));
            }
        }
    }

    /// Three samples and where they lie; copies of some of them, with just enough room and one byte less.
    fn copied(&mut self, state: &State) {
        self.table(state, &[0, 1, 2, 3]);
        for (a, b) in [(0, 1), (1, 2), (2, 3), (0, 2), (1, 3), (0, 3)] {
            for room in [(b - a) * state.summary.width, (b - a) * state.summary.width - 1] {
                self.add(COPY, state, (a, b), &[state.summary.dataset, room]);
            }
        }
    }

    /// Every code, and the first that is not listed, with two channels and a W.
    fn other_codes(&mut self, width: u64) {
        let mut state = bytes_table(0, 0, 4 * width, &[], &[]);
        (state.summary.channels, state.summary.width, state.summary.samples) = (2, width, 4);
        for code in 0..=datatype_count() {
            state.summary.code = code;
            self.table(&state, &[]);
        }
    }

    /// Every change of the example and of a fuller table.
    fn forged(&mut self) {
        let fuller = bytes_table(90, 6, 40, &[(90, 2), (95, 0), (95, 3), (100, 9), (110, 0)], &[(92, 3), (95, 0), (95, 15), (110, 0)]);
        for (k, forge) in FORGERIES.iter().enumerate() {
            let mut rng = Rng::new(k as u64);
            for operation in [WELL_FORMED, LOCATE, PIECES, CUT, COPY] {
                for base in [open(EXAMPLE, 108), fuller.clone()] {
                    let mut state = base;
                    forge(&mut state, &mut rng);
                    self.0.push(case_of(operation, &state, &mut rng));
                }
            }
        }
    }
}
