//! Random tables, ranges and rooms.

use crate::fields::{datatype_name, sample_width};
use crate::reader::read;
use crate::recording_random::random_code;
use crate::rng::Rng;
use crate::steps::State;
use crate::table::{cut, pieces, Table};
use crate::table_case::{TableCase, BYTES_MAX, COPY, CUT, LOCATE, NUMBERS_MAX, PIECES, WELL_FORMED};
use crate::table_forged::FORGERIES;

/// The table that the reader makes of a text, with no dataset bytes.
pub fn open(text: &str, dataset: u64) -> State {
    let mut captures = vec![0; NUMBERS_MAX as usize];
    let mut annotations = captures.clone();
    let summary = read(text.as_bytes(), dataset, &mut captures, &mut annotations);
    captures.truncate(4 * summary.captures as usize);
    annotations.truncate(4 * summary.annotations as usize);
    State { summary, captures, annotations, dataset: Vec::new() }
}

/// A cut's table, with plenty of room.
pub fn cut_of(state: &State, a: u64, b: u64) -> State {
    let mut captures = vec![0; NUMBERS_MAX as usize];
    let mut annotations = captures.clone();
    let summary = cut(&state.table(), a, b, &mut captures, &mut annotations);
    captures.truncate(4 * summary.captures as usize);
    annotations.truncate(4 * summary.annotations as usize);
    State { summary, captures, annotations, dataset: Vec::new() }
}

/// A random case: an honest table, a cut of one, a cut of a cut, or a forged one.
pub fn random_case(rng: &mut Rng) -> TableCase {
    let mut state = random_table(rng);
    for _ in 0..[0, 0, 0, 1, 2][rng.below(5)] {
        let (a, b) = range_inside(&state, rng);
        state = cut_of(&state, a, b);
    }
    if rng.once_in(2) {
        FORGERIES[rng.below(FORGERIES.len())](&mut state, rng);
    }
    let operations = [WELL_FORMED, LOCATE, LOCATE, PIECES, PIECES, CUT, CUT, CUT, COPY, COPY];
    case_of(operations[rng.below(operations.len())], &state, rng)
}

/// A case of an operation on a table, with random ranges and rooms.
pub fn case_of(operation: u64, state: &State, rng: &mut Rng) -> TableCase {
    let range = match operation {
        LOCATE => (point(state, rng), 0),
        _ if rng.once_in(5) => (point(state, rng), point(state, rng)),
        _ => range_inside(state, rng),
    };
    let need = needs(&state.table(), range.0, range.1);
    let sizes = match operation {
        PIECES => vec![room(need.pieces, 2, rng)],
        CUT => vec![room(need.captures, 4, rng), room(need.annotations, 4, rng)],
        COPY => vec![length(state.summary.dataset, rng), byte_room(need.bytes, rng)],
        _ => Vec::new(),
    };
    TableCase::new(operation, state, range, &sizes)
}

/// How much a range needs: pieces, rows and bytes.
pub struct Needs {
    pub pieces: u64,
    pub captures: u64,
    pub annotations: u64,
    pub bytes: u64,
}

/// The needs of a range; none where it is refused.
pub fn needs(table: &Table, a: u64, b: u64) -> Needs {
    let mut lent = vec![0; 4 * NUMBERS_MAX as usize];
    let mut other = lent.clone();
    let pieces = pieces(table, a, b, &mut lent).count;
    let summary = cut(table, a, b, &mut lent, &mut other);
    Needs { pieces, captures: summary.captures, annotations: summary.annotations, bytes: summary.dataset }
}

/// Numbers for so many rows: just enough, one too few, some more, any.
pub fn room(rows: u64, width: u64, rng: &mut Rng) -> u64 {
    let enough = rows * width;
    let size = match rng.below(8) {
        0 | 1 => enough,
        2 | 3 => enough.saturating_sub(1),
        4 => enough + rng.between(1, width as usize - 1) as u64,
        5 => enough + width * rng.between(1, 3) as u64,
        6 => rng.below(24) as u64,
        _ => enough + rng.below(9) as u64,
    };
    size.min(NUMBERS_MAX)
}

/// So many bytes; now and then one off, none or any number.
fn length(bytes: u64, rng: &mut Rng) -> u64 {
    let size = match rng.below(12) {
        0 => bytes.saturating_sub(1),
        1 => bytes.saturating_add(1),
        2 => 0,
        3 => rng.below(64) as u64,
        4 => bytes.saturating_add(rng.below(16) as u64),
        _ => bytes,
    };
    size.min(BYTES_MAX)
}

/// Room for so many bytes, or too little once in 4 times.
pub fn byte_room(bytes: u64, rng: &mut Rng) -> u64 {
    if rng.once_in(4) {
        bytes.saturating_sub(rng.between(1, 3) as u64).min(BYTES_MAX)
    } else {
        length(bytes, rng)
    }
}

/// An index worth asking: the edges of the recording and of its rows, one beside, any.
pub fn point(state: &State, rng: &mut Rng) -> u64 {
    let s = &state.summary;
    let end = s.offset.wrapping_add(s.samples);
    let mut edges = vec![s.offset, end];
    for row in state.captures.chunks_exact(4).chain(state.annotations.chunks_exact(4)) {
        edges.extend([row[0], row[1]]);
    }
    let edge = match rng.below(4) {
        0 => s.offset,
        1 => end,
        2 => edges[rng.below(edges.len())],
        _ => s.offset.wrapping_add(rng.bits() % s.samples.saturating_add(1).max(1)),
    };
    match rng.below(8) {
        0 | 1 => edge.wrapping_sub(1),
        2 => edge.wrapping_add(1),
        3 if rng.once_in(8) => rng.bits(),
        _ => edge,
    }
}

/// A range inside the recording, as far as two tries find one.
pub fn range_inside(state: &State, rng: &mut Rng) -> (u64, u64) {
    let s = &state.summary;
    let end = s.offset.saturating_add(s.samples);
    let mut next = || point(state, rng).clamp(s.offset, end);
    let (a, b) = (next(), next());
    (a.min(b), a.max(b))
}

/// An honest table, by the reader from a random text.
pub fn random_table(rng: &mut Rng) -> State {
    let code = random_code(rng);
    let channels = [1, 1, 1, 1, 2, 3, 7, 16, 1_024][rng.below(9)];
    let width = sample_width(code, channels).unwrap_or(1) as u64;
    let samples = match rng.below(12) {
        0 => 0,
        1 => rng.bits() % ((1 << 47) / width),
        2 => rng.below(3) as u64,
        _ => rng.below(40) as u64 % (BYTES_MAX / width + 1),
    };
    let offset = match rng.below(5) {
        0 | 1 => 0,
        2 => rng.below(50) as u64,
        3 => u64::MAX - samples - rng.below(3) as u64,
        _ => rng.bits() >> rng.between(1, 40),
    };
    let trailing = if rng.once_in(3) { rng.below(20) as u64 } else { 0 };
    let (captures, headers) = random_captures(offset, samples, rng);
    let annotations = random_annotations(offset, samples, rng);
    let rate = if rng.once_in(2) { r#","core:sample_rate":-1.5e3"# } else { "" };
    let text = format!(
        r#"{{"global":{{"core:datatype":"{}","core:version":"1.0.0","core:num_channels":{channels},"core:offset":{offset},"core:trailing_bytes":{trailing}{rate}}},"captures":[{captures}],"annotations":[{annotations}]}}"#,
        datatype_name(code).unwrap_or_default(),
    );
    open(&text, trailing + headers + samples * width)
}

/// Ascending starts in the recording, its end included, some of them equal.
pub fn starts(count: usize, offset: u64, samples: u64, rng: &mut Rng) -> Vec<u64> {
    let mut list: Vec<u64> = Vec::new();
    for _ in 0..count {
        let start = match rng.below(8) {
            0 => offset,
            1 => offset + samples,
            2 => list.last().copied().unwrap_or(offset),
            _ => offset + rng.bits() % (samples + 1),
        };
        list.push(start);
    }
    list.sort_unstable();
    list
}

/// The captures' text, and the sum of their headers.
fn random_captures(offset: u64, samples: u64, rng: &mut Rng) -> (String, u64) {
    let mut all = 0;
    let mut list = Vec::new();
    let count = if rng.once_in(20) { rng.below(40) } else { rng.below(6) };
    for start in starts(count, offset, samples, rng) {
        let header = if rng.once_in(2) { rng.below(9) as u64 } else { 0 };
        all += header;
        list.push(format!(r#"{{"core:sample_start":{start},"core:header_bytes":{header}}}"#));
    }
    (list.join(","), all)
}

/// The annotations' text.
fn random_annotations(offset: u64, samples: u64, rng: &mut Rng) -> String {
    let mut list = Vec::new();
    let count = if rng.once_in(20) { rng.below(40) } else { rng.below(6) };
    for start in starts(count, offset, samples, rng) {
        let left = offset + samples - start;
        let count = match rng.below(4) {
            0 => String::new(),
            1 => r#","core:sample_count":0"#.to_string(),
            2 => format!(r#","core:sample_count":{left}"#),
            _ => format!(r#","core:sample_count":{}"#, rng.bits() % (left + 1)),
        };
        let label = rng.pick(&["", r#","core:label":"""#, r#","core:label":"gate""#]);
        list.push(format!(r#"{{"core:sample_start":{start}{count}{label}}}"#));
    }
    list.join(",")
}
