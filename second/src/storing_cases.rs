//! Fixed cases about tables kept in files, and the whole stream with random ones
//! after.

use crate::fields::{datatypes, sample_width};
use crate::frames::Case;
use crate::listing_case::{LENT_MAX, OUTPUT_MAX};
use crate::reading_cases::{meta, G};
use crate::rng::{filled_up, Rng};
use crate::steps::State;
use crate::stored::{load, opening, HEAD, OPENING, ROW, VERSION};
use crate::storing_case::StoringCase;
use crate::storing_random::{move_counts, number_in, random_case, raw_file, set_number, FILE_CHANGES};
use crate::table::Summary;
use crate::table_cases::EXAMPLE;
use crate::table_forged::{settle, FORGERIES};
use crate::table_random::{cut_of, open};
use crate::words::memory;

/// The fixed cases, then random ones up to `count`.
pub fn storing_cases(seed: u64, count: usize) -> Vec<Case> {
    filled_up(fixed_cases(), seed, count, random_case)
}

/// Every fixed case.
pub fn fixed_cases() -> Vec<Case> {
    let mut list = List(Vec::new());
    list.example();
    list.rooms();
    list.prefixes();
    list.longer();
    list.openings();
    list.counts();
    list.rows();
    list.exchanged();
    list.forged();
    list.changed();
    list.numbers();
    list.byte_order();
    list.datatypes();
    list.ends();
    list.text_places();
    list.refused();
    list.orders();
    list.again();
    list.many();
    list.0
}

/// The paper's recording.
fn example() -> State {
    open(EXAMPLE, 108)
}

/// A table with all its numbers: three captures, two annotations.
fn ordinary() -> State {
    let global = format!(r#"{G},"core:offset":90,"core:sample_rate":-2.5e+6,"core:trailing_bytes":6"#);
    open(&meta(&global, "{$s:90,$h:2},{$s:95},{$s:95,$h:3}", r#"{$s:92,$c:3,$l:"a"},{$s:95,$l:""}"#), 40)
}

/// A table of one sample with so many rows.
fn small(captures: usize, annotations: usize) -> State {
    let notes = vec![r#"{$s:0,$l:"a"}"#; annotations];
    open(&meta(G, &vec!["{$s:0}"; captures].join(","), &notes.join(",")), 1)
}

/// Many rows, no two alike.
fn large(captures: u64, annotations: u64) -> State {
    let mut state = small(0, 0);
    let s = &mut state.summary;
    (s.offset, s.samples, s.captures, s.annotations) = (100, 4_000, captures, annotations);
    state.captures = (0..captures).flat_map(|k| [100 + 3 * k, 0, 0, k % 5]).collect();
    state.annotations = (0..annotations).flat_map(|k| [100 + 3 * k, 100 + 3 * k + k % 7, 10 * k + 1, k % 4]).collect();
    settle(&mut state);
    state
}

/// The growing list of cases.
struct List(Vec<Case>);

impl List {
    fn store(&mut self, state: &State, room: usize) {
        self.0.push(StoringCase::store(state, (room as u64).min(OUTPUT_MAX)).frame());
    }

    fn load(&mut self, file: &[u8], captures: u64, annotations: u64) {
        self.0.push(StoringCase::load(file, captures, annotations).frame());
    }

    /// A file with room for eight rows of each kind.
    fn file(&mut self, file: &[u8]) {
        self.load(file, 32, 32);
    }

    /// A table stored, and its file loaded, with just enough room.
    fn both(&mut self, state: &State) {
        let file = raw_file(state);
        self.store(state, file.len());
        self.load(&file, state.captures.len() as u64, state.annotations.len() as u64);
    }

    /// The same with other rooms: one too small, none, some more.
    fn all_rooms(&mut self, state: &State) {
        self.both(state);
        let file = raw_file(state);
        for room in [file.len() - 1, file.len() + 3, 0] {
            self.store(state, room);
        }
        let (c, n) = (state.captures.len() as u64, state.annotations.len() as u64);
        for (captures, annotations) in [(c.saturating_sub(1), n), (c, n.saturating_sub(1)), (c + 5, n + 3), (0, 0)] {
            self.load(&file, captures, annotations);
        }
    }

    /// The paper's recording, cuts and cuts of cuts of it.
    fn example(&mut self) {
        let state = example();
        let cut = cut_of(&state, 4, 12);
        let cuts = [cut_of(&state, 0, 25), cut_of(&state, 6, 9), cut_of(&state, 7, 7), cut_of(&cut, 5, 11), cut_of(&cut_of(&cut, 5, 11), 6, 10)];
        for table in [state, cut, open(EXAMPLE, 48), open(EXAMPLE, 107)].iter().chain(&cuts) {
            self.all_rooms(table);
        }
    }

    /// Rooms about every part, for rows and parts of rows.
    fn rooms(&mut self) {
        let state = ordinary();
        let file = raw_file(&state);
        let parts = [0, OPENING, HEAD, HEAD + ROW, HEAD + 3 * ROW, file.len() - ROW, file.len(), file.len() + ROW];
        for room in parts.iter().flat_map(|&part| [part.saturating_sub(1), part, part + 1]) {
            self.store(&state, room);
        }
        self.store(&state, OUTPUT_MAX as usize);
        for captures in [0, 4, 8, 11, 12, 13, 15, LENT_MAX] {
            for annotations in [0, 4, 7, 8, 11, LENT_MAX] {
                self.load(&file, captures, annotations);
            }
        }
    }

    /// Every prefix of a file, and another file cut at its numbers.
    fn prefixes(&mut self) {
        let file = raw_file(&example());
        for length in 0..=file.len() {
            self.load(&file[..length], 8, 4);
        }
        let file = raw_file(&ordinary());
        for length in (OPENING..file.len()).step_by(8) {
            self.file(&file[..length]);
        }
    }

    /// Bytes after a file, before it, and one left out.
    fn longer(&mut self) {
        for file in [raw_file(&example()), raw_file(&small(0, 0))] {
            for more in [1, 2, 7, 8, 9, 16, 31, 32, 33, 64, 256, file.len()] {
                self.file(&[&file[..], &vec![0; more]].concat());
                self.file(&[&file[..], &file[file.len() - more.min(file.len())..]].concat());
            }
            self.file(&[b"S", &file[..]].concat());
            self.file(&file[1..]);
            for at in [0, OPENING, OPENING + 8, HEAD - 1] {
                self.file(&[&file[..at], &file[at + 1..]].concat());
            }
        }
    }

    /// Other marks and versions, on whole files and on shorter ones.
    fn openings(&mut self) {
        let file = raw_file(&example());
        let mut others = Vec::new();
        for bit in 0..8 * OPENING {
            let mut other = opening(VERSION);
            other[bit / 8] ^= 1 << (bit % 8);
            others.push(other);
        }
        others.extend([0, 2, 3, 255, 256, 257, 258, 513, 0x0101, u16::MAX].map(opening));
        others.extend([&b"sgt\x01\0"[..], b"TGS\x01\0", b"SGT\0\x01", b"SGT1\0", b"SGT\x01 ", b"\x01\0SGT", b"SigMF", b"\0\0\0\0\0"].map(<[u8]>::to_vec));
        for other in others {
            self.file(&[&other[..], &file[OPENING..]].concat());
        }
        for length in 0..=OPENING {
            self.file(&b"sgt\x01\0"[..length]);
            self.file(&b"SGT\x02\0"[..length]);
            self.file(&[0; OPENING][..length]);
        }
    }

    /// Other counts beside the same rows, most of which wrap to the right length.
    fn counts(&mut self) {
        for state in [ordinary(), small(0, 0)] {
            for (captures, annotations) in other_counts(state.summary.captures, state.summary.annotations) {
                let mut other = state.clone();
                (other.summary.captures, other.summary.annotations) = (captures, annotations);
                self.file(&raw_file(&other));
                self.store(&other, 400);
            }
        }
    }

    /// None, one, some and many rows of either kind; more lent than counted.
    fn rows(&mut self) {
        for (captures, annotations) in [(0, 0), (1, 0), (0, 1), (1, 1), (2, 0), (0, 2), (3, 5), (5, 3), (100, 90)] {
            let mut state = small(captures, annotations);
            self.all_rooms(&state);
            state.captures.extend([1, 2, 3, 4, 5]);
            state.annotations.extend([6, 7, 8, 9]);
            self.store(&state, 65_000);
            self.load(&raw_file(&state), 500, 500);
        }
    }

    /// Counts, rows of both kinds, two rows or numbers of rows exchanged.
    fn exchanged(&mut self) {
        for state in [example(), ordinary(), small(1, 1), small(2, 2), small(0, 3), small(3, 0), cut_of(&example(), 0, 10)] {
            let file = raw_file(&state);
            let mut counts = state.clone();
            (counts.summary.captures, counts.summary.annotations) = (state.summary.annotations, state.summary.captures);
            let rows = State { captures: state.annotations.clone(), annotations: state.captures.clone(), ..state.clone() };
            let all = State { summary: counts.summary, ..rows.clone() };
            for other in [counts, rows, all] {
                self.file(&raw_file(&other));
                self.store(&other, file.len());
            }
            for more in [1, u64::MAX] {
                let mut moved = file.clone();
                move_counts(&mut moved, more);
                self.file(&moved);
            }
            let mut backward = state.clone();
            backward.captures.reverse();
            backward.annotations.reverse();
            self.both(&backward);
        }
    }

    /// Every change of a table, in tables to store and in files; 18 goes before 20.
    fn forged(&mut self) {
        for (k, forge) in FORGERIES.iter().enumerate() {
            let mut rng = Rng::new(k as u64);
            for round in 0..4 {
                let mut state = [ordinary(), example(), cut_of(&ordinary(), 93, 97)][round % 3].clone();
                forge(&mut state, &mut rng);
                let room = if round == 0 { 0 } else { 32 };
                self.store(&state, 12 * room);
                self.load(&raw_file(&state), room as u64, room as u64);
            }
        }
    }

    /// Each byte of a file changed, and every change of a file.
    fn changed(&mut self) {
        let file = raw_file(&example());
        for at in OPENING..file.len() {
            let mut other = file.clone();
            other[at] ^= 1 << (at % 8);
            self.file(&other);
        }
        for (k, change) in FILE_CHANGES.iter().enumerate() {
            for seed in [k, k + 100, k + 200] {
                let mut file = raw_file(&ordinary());
                change(&mut file, &mut Rng::new(seed as u64));
                self.file(&file);
            }
        }
    }

    /// Each number of a file replaced.
    fn numbers(&mut self) {
        let file = raw_file(&ordinary());
        for k in 0..(file.len() - OPENING) / 8 {
            for x in [0, 1 << 48, u64::MAX, number_in(&file, k).swap_bytes()] {
                let mut other = file.clone();
                set_number(&mut other, k, |_| x);
                self.file(&other);
            }
        }
    }

    /// Numbers of eight different bytes, and whole files the other way round.
    fn byte_order(&mut self) {
        let global = format!(r#"{G},"core:offset":{},"core:trailing_bytes":{}"#, 0x0102_0304_0506_0708u64, 0x0908_0706_0504u64);
        let start = 0x0102_0304_0506_0708u64 + 0x1122_3344_5566;
        let text = meta(&global, &format!("{{$s:{start},$h:{}}}", 0x0A0B_0C0D_0E0Fu64), &format!(r#"{{$s:{start},$c:{},$l:"abc"}}"#, 0x0403_0201u64));
        for state in [open(&text, 0x5432_1012_3456), example(), ordinary(), small(0, 0), small(0, 1)] {
            self.all_rooms(&state);
            let mut file = raw_file(&state);
            file[3..OPENING].reverse();
            self.file(&file);
            file[OPENING..].chunks_exact_mut(8).for_each(<[u8]>::reverse);
            self.file(&file);
            file[3..OPENING].reverse();
            self.file(&file);
        }
    }

    /// All datatypes, with few channels and many.
    fn datatypes(&mut self) {
        for (k, name) in datatypes().iter().enumerate() {
            let channels = [1, 2, 3, 255, 256, 1_023, 1_024][k % 7];
            let global = format!(r#""core:datatype":"{name}","core:version":"1.0.0","core:num_channels":{channels},"core:sample_rate":{k}"#);
            let width = sample_width(k as u64, channels).unwrap_or_default() as u64;
            self.both(&open(&meta(&global, "{$s:0},{$s:3,$h:1}", "{$s:1}"), 1 + 4 * width));
        }
        let text = meta(r#""core:datatype":"cf64_le","core:version":"1.0.0","core:num_channels":1024"#, "{$s:17179869184}", "{$s:0}");
        self.all_rooms(&open(&text, 1 << 48));
    }

    /// Offsets and ends about 2^64, headers and trailers about 2^48.
    fn ends(&mut self) {
        let top = u64::MAX;
        for (offset, samples) in [(top, 0), (top, 1), (top - 1, 1), (top - 1, 2), (top - 9, 9), (top - 9, 10), (2, top), (1 << 63, 1 << 47), (top - (1 << 48), 1 << 48)] {
            for rows in [0, 1] {
                let mut state = small(rows, rows);
                (state.summary.offset, state.summary.samples) = (offset, samples);
                state.captures.iter_mut().take(1).for_each(|start| *start = offset);
                state.annotations.iter_mut().take(2).for_each(|index| *index = offset);
                settle(&mut state);
                self.both(&state);
            }
        }
        for (header, trailing) in [(0, 1 << 48), (1 << 48, 0), (1 << 47, 1 << 47), ((1 << 48) - 1, 1), (1 << 48, 1), (top, 1), (1 << 63, 1 << 63)] {
            let mut state = small(1, 0);
            (state.summary.samples, state.summary.trailing, state.captures[3]) = (0, trailing, header);
            settle(&mut state);
            self.both(&state);
        }
    }

    /// Text places at and beyond the longest metadata.
    fn text_places(&mut self) {
        let (most, top) = (61_440, u64::MAX);
        for place in [(0, 0), (0, 5), (5, 0), (most, 0), (most, 1), (most + 1, 0), (most - 1, 1), (0, most), (0, most + 1), (top, 1), (1, top), (top, top)] {
            let mut label = ordinary();
            (label.annotations[6], label.annotations[7]) = place;
            let mut rate = ordinary();
            (rate.summary.rate_place, rate.summary.rate_length) = place;
            self.both(&label);
            self.both(&rate);
        }
    }

    /// Refused summaries.
    fn refused(&mut self) {
        for number in (1..=23).chain([256, 1 << 32, 1 << 63, u64::MAX]) {
            let mut state = small(0, 0);
            state.summary = Summary::refused(number);
            self.both(&state);
        }
    }

    /// Two or more refusals at once.
    fn orders(&mut self) {
        let mut forged = ordinary();
        forged.captures[2] += 1;
        for state in [ordinary(), forged] {
            let file = raw_file(&state);
            for version in [VERSION, 2] {
                let whole = [&opening(version)[..], &file[OPENING..]].concat();
                let longer = [&whole[..], &[0]].concat();
                for other in [&whole[..], &longer, &whole[..whole.len() - 1], &whole[..HEAD], &whole[..HEAD - 1], &whole[..OPENING], &whole[..OPENING - 1]] {
                    for (captures, annotations) in [(12, 8), (11, 7), (0, 0)] {
                        self.load(other, captures, annotations);
                    }
                }
            }
            self.store(&state, file.len());
            self.store(&state, file.len() - 1);
        }
    }

    /// Tables that were loaded into more memory than they need, stored from there.
    fn again(&mut self) {
        for state in [example(), ordinary(), small(0, 0), small(7, 0), cut_of(&ordinary(), 91, 96), large(20, 30)] {
            let file = raw_file(&state);
            for more in [0, 3, 9] {
                let mut captures = memory(state.captures.len() as u64 + more);
                let mut annotations = memory(state.annotations.len() as u64 + more);
                let summary = load(&file, &mut captures, &mut annotations);
                let loaded = State { summary, captures, annotations, dataset: Vec::new() };
                self.store(&loaded, file.len());
                self.store(&loaded, file.len() + 20);
            }
        }
    }

    /// Several hundred rows, as many as there is room for, and a fault in the last one.
    fn many(&mut self) {
        for (captures, annotations) in [(300, 500), (1_024, 0), (0, 1_024), (700, 1_020)] {
            self.both(&large(captures, annotations));
        }
        let state = large(400, 200);
        self.all_rooms(&state);
        for at in [4 * 400 - 4, 4 * 400 - 1] {
            let mut other = state.clone();
            other.captures[at] += 1;
            self.both(&other);
        }
        for at in [4 * 200 - 4, 4 * 200 - 1] {
            let mut other = state.clone();
            other.annotations[at] += 1 << 40;
            self.both(&other);
        }
    }
}

/// Pairs of counts near a pair, and pairs that give it or its length modulo a power
/// of two.
fn other_counts(c: u64, n: u64) -> Vec<(u64, u64)> {
    let (all, top) = (c + n, u64::MAX);
    let mut list = vec![
        (c + 1, n), (c, n + 1), (c.wrapping_sub(1), n), (c, n.wrapping_sub(1)), (all, 0), (0, all), (0, 0), (top, all + 1), (all + 1, top),
        (1 << 63, (1 << 63) + all), ((1 << 63) + all, 1 << 63), (top, top), (top, 0), (0, top), (1 << 60, 1 << 60), ((1 << 59) - 1, all + 1),
        (all + 1, (1 << 59) - 1), ((1 << 58) + c, (1 << 58) + n), ((3 << 58) + c, (1 << 58) + n), ((7 << 59) + c, n), (c, (31 << 59) + n),
    ];
    for power in [8, 16, 27, 32, 48, 56, 57, 58, 59, 60, 61, 62, 63] {
        let more = 1 << power;
        list.extend([(c + more, n), (c, n + more), (c + more, n.wrapping_sub(more)), (c.wrapping_sub(more), n + more)]);
    }
    list
}
