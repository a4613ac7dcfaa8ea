//! Fixed cases about steps, and the whole stream with random ones after.

use crate::frames::Case;
use crate::reading_cases::{meta, G};
use crate::rng::{filled_up, Rng};
use crate::steps::{State, Step};
use crate::steps_case::StepsCase;
use crate::steps_random::random_case;
use crate::table_cases::EXAMPLE;
use crate::table_forged::FORGERIES;
use crate::table_random::{cut_of, needs, open};

/// The fixed cases, then random ones up to `count`.
pub fn steps_cases(seed: u64, count: usize) -> Vec<Case> {
    filled_up(fixed_cases(), seed, count, random_case).iter().map(StepsCase::frame).collect()
}

/// Every fixed case.
pub fn fixed_cases() -> Vec<StepsCase> {
    let mut list = List(Vec::new());
    list.example();
    list.rooms();
    list.lent_rows();
    list.headers();
    list.offsets();
    list.empty();
    list.many();
    list.forged();
    list.0
}

/// A step with plenty of room.
fn roomy(a: u64, b: u64) -> Step {
    Step { a, b, capture_room: 500, annotation_room: 500, byte_room: 3_000 }
}

/// A step with just enough room on a table, its need being the original's.
fn exact(state: &State, a: u64, b: u64) -> Step {
    let need = needs(&state.table(), a, b);
    let rows = |count: u64| 4 * count as usize;
    Step { a, b, capture_room: rows(need.captures), annotation_room: rows(need.annotations), byte_room: need.bytes as usize }
}

/// The growing list of cases.
struct List(Vec<StepsCase>);

impl List {
    fn add(&mut self, state: &State, steps: &[Step]) {
        self.0.extend(StepsCase::new(state, steps));
    }

    /// The ranges in a row, with plenty of room and with just enough.
    fn ranges(&mut self, state: &State, ranges: &[(u64, u64)]) {
        let roomy: Vec<Step> = ranges.iter().map(|&(a, b)| roomy(a, b)).collect();
        let exact: Vec<Step> = ranges.iter().map(|&(a, b)| exact(state, a, b)).collect();
        self.add(state, &roomy);
        self.add(state, &exact);
    }

    /// The paper's recording: inside each other, outside, empty, turned round.
    fn example(&mut self) {
        let state = open(EXAMPLE, 108);
        let lists: [&[(u64, u64)]; 14] = [
            &[], &[(4, 12)], &[(0, 25)], &[(0, 25), (0, 25), (0, 25)], &[(4, 12), (5, 11), (6, 6)],
            &[(4, 12), (0, 25), (4, 12)], &[(4, 12), (3, 12), (4, 13), (12, 4), (5, 6)],
            &[(25, 25), (25, 25), (0, 0), (24, 25)], &[(10, 10), (10, 10), (9, 10)],
            &[(0, 26), (25, 26), (5, 4), (0, 10), (0, 10)], &[(10, 25), (10, 11), (10, 10)],
            &[(1, 24), (2, 23), (3, 22), (4, 21), (5, 20), (6, 19), (7, 18), (8, 17), (9, 16), (10, 15), (11, 14), (12, 13)],
            &[(9, 11), (9, 10), (9, 9)],
            &[(u64::MAX, 0), (0, u64::MAX), (u64::MAX, u64::MAX), (4, 6), (4, 5)],
        ];
        for ranges in lists {
            self.ranges(&state, ranges);
            self.ranges(&open(EXAMPLE, 48), ranges);
            self.ranges(&cut_of(&state, 2, 20), ranges);
        }
        self.ranges(&open(EXAMPLE, 107), &[(0, 0), (0, 1)]);
    }

    /// One too little of each room, then enough.
    fn rooms(&mut self) {
        let state = open(EXAMPLE, 108);
        let enough = exact(&state, 4, 12);
        let less = |k: usize, by: usize| Step {
            capture_room: enough.capture_room.saturating_sub(if k == 0 { by } else { 0 }),
            annotation_room: enough.annotation_room.saturating_sub(if k == 1 { by } else { 0 }),
            byte_room: enough.byte_room.saturating_sub(if k == 2 { by } else { 0 }),
            ..enough
        };
        for k in 0..3 {
            for by in [1, 3, 4, 100] {
                self.add(&state, &[less(k, by)]);
                self.add(&state, &[less(k, by), enough, less(k, by)]);
                self.add(&state, &[roomy(0, 20), less(k, by), roomy(0, 25), enough, roomy(3, 12)]);
                self.add(&state, &[roomy(3, 12), less(k, by), roomy(0, 12), less(k, by)]);
            }
        }
        for rooms in [(0, 0, 0), (1_024, 1_024, 4_096), (9, 5, 33), (11, 7, 35), (8, 4, 4_096)] {
            let (capture_room, annotation_room, byte_room) = rooms;
            let step = |a, b| Step { a, b, capture_room, annotation_room, byte_room };
            self.add(&state, &[step(4, 12), step(7, 7), step(4, 12), step(7, 7)]);
        }
    }

    /// Lent rows with numbers beyond the counts.
    fn lent_rows(&mut self) {
        let mut state = open(EXAMPLE, 108);
        for more in 1..6 {
            state.captures.push(more);
            state.annotations.extend([more, more]);
            self.ranges(&state, &[(4, 12), (11, 12), (4, 5)]);
        }
    }

    /// Headers at equal starts, at both ends and around ranges.
    fn headers(&mut self) {
        let equal = open(&meta(G, "{$s:3,$h:2},{$s:3,$h:5}", r#"{$s:3,$c:1,$l:"x"},{$s:3,$c:0}"#), 17);
        self.ranges(&equal, &[(0, 10), (3, 10), (3, 4)]);
        self.ranges(&equal, &[(2, 4), (3, 3)]);
        self.ranges(&equal, &[(0, 3), (0, 3)]);
        let global = format!(r#"{G},"core:offset":5,"core:trailing_bytes":4,"core:sample_rate":2.5"#);
        let text = meta(&global, "{$s:5,$h:3},{$s:7},{$s:9,$h:1},{$s:9},{$s:9,$h:2},{$s:20,$h:5},{$s:29,$h:1}", r#"{$s:5,$l:""},{$s:9,$c:11,$l:"\n"},{$s:29}"#);
        let many = open(&text, 40);
        for low in [5, 6, 8, 9, 10] {
            for high in [20, 21, 29] {
                self.ranges(&many, &[(5, 29), (low, high), (low + 1, high - 1), (10, 20), (low, high)]);
            }
        }
        for (datatype, width) in [("cf32_le", 16), ("cf64_le", 32), ("rf64_be", 16)] {
            let wide = format!(r#""core:datatype":"{datatype}","core:version":"1.0.0","core:num_channels":2"#);
            let text = meta(&wide, "{$s:0,$h:7},{$s:4,$h:1},{$s:6}", "{$s:1,$c:5}");
            self.ranges(&open(&text, 8 + 10 * width), &[(1, 9), (3, 5), (4, 5)]);
        }
    }

    /// Offsets near 2^64.
    fn offsets(&mut self) {
        let top = u64::MAX;
        for o in [top, top - 1, top - 9, 1 << 63] {
            let d = (top - o).min(9);
            let text = meta(&format!(r#"{G},"core:offset":{o}"#), &format!("{{$s:{o}}},{{$s:{}}}", o + d / 2), &format!("{{$s:{o}}},{{$s:{}}}", o + d));
            let end = o + d;
            self.ranges(&open(&text, d), &[(o, end), (o + d / 3, end), (o, end), (end, end), (end, end.wrapping_add(1)), (end, end)]);
            self.ranges(&open(&text, d), &[(o, o + d / 2), (o, end), (o, o)]);
        }
    }

    /// Recordings with no samples, or with no rows.
    fn empty(&mut self) {
        self.ranges(&open(&meta(G, "", ""), 0), &[(0, 0), (0, 1), (0, 0)]);
        self.ranges(&open(&meta(G, "", ""), 7), &[(1, 6), (2, 5), (0, 7), (3, 3)]);
        self.ranges(&open(&meta(G, "{$s:0,$h:3}", "{$s:0}"), 3), &[(0, 0), (0, 0), (1, 1)]);
        self.ranges(&open(&meta(&format!(r#"{G},"core:trailing_bytes":2"#), "", "{$s:0}"), 2), &[(0, 0), (0, 1)]);
    }

    /// Many rows, the longest dataset, and one sample less at each step.
    fn many(&mut self) {
        let captures: Vec<String> = (0..100).map(|k| format!("{{$s:{k},$h:{}}}", k % 3)).collect();
        let annotations: Vec<String> = (0..90).map(|k| format!("{{$s:{k},$c:{}}}", k % 7)).collect();
        let state = open(&meta(G, &captures.join(","), &annotations.join(",")), 99 + 150);
        self.ranges(&state, &[(0, 100), (10, 90), (11, 89), (50, 51)]);
        let each: Vec<(u64, u64)> = (0..40).map(|k| (k, 100 - k)).collect();
        self.ranges(&state, &each);
        let longest = open(&meta(G, "{$s:9,$h:6}", ""), 2_048);
        self.ranges(&longest, &[(0, 2_042), (9, 2_042), (9, 10)]);
    }

    /// Every change of a table that a frame may hold.
    fn forged(&mut self) {
        let text = meta(&format!(r#"{G},"core:sample_rate":8,"core:trailing_bytes":6"#), "{$s:0,$h:2},{$s:5},{$s:5,$h:3},{$s:10,$h:9}", r#"{$s:2,$c:3,$l:"a"},{$s:5,$c:0},{$s:5}"#);
        for (k, forge) in FORGERIES.iter().enumerate() {
            let mut rng = Rng::new(k as u64);
            for base in [open(EXAMPLE, 108), open(&text, 40)] {
                let mut state = base;
                forge(&mut state, &mut rng);
                self.add(&state, &[roomy(4, 9), roomy(0, 0), roomy(5, 6)]);
            }
        }
    }
}
