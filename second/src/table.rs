//! Tables handed back in: their form (18), samples, pieces, cuts and copies.

use crate::fields::sample_width;
use crate::limits::{CHANNELS_MAX, DATASET_MAX, INDEX_MAX, METADATA_MAX};
use std::collections::HashMap;

/// "Summary: refusal, datatype code, channels, W, O, T, N, D, both counts, place
/// and length of sample_rate (0, 0 if absent)."
#[derive(Clone, Copy, PartialEq, Eq, Debug, Default)]
pub struct Summary {
    pub refusal: u64,
    pub code: u64,
    pub channels: u64,
    /// W
    pub width: u64,
    /// O
    pub offset: u64,
    /// T
    pub trailing: u64,
    /// N
    pub samples: u64,
    /// D
    pub dataset: u64,
    pub captures: u64,
    pub annotations: u64,
    pub rate_place: u64,
    pub rate_length: u64,
}

impl Summary {
    /// "A refusal gives that number, 0 in every other number of the answer"
    pub fn refused(refusal: u64) -> Summary {
        Summary { refusal, ..Summary::default() }
    }
}

/// A summary with the lent rows of both kinds.
#[derive(Clone, Copy, Debug)]
pub struct Table<'a> {
    pub summary: &'a Summary,
    pub captures: &'a [u64],
    pub annotations: &'a [u64],
}

/// A row: four u64.
pub type Row = [u64; 4];

/// How many rows of four the lent numbers hold.
pub fn rows_held(lent: &[u64]) -> u64 {
    lent.len() as u64 / 4
}

/// The first `count` rows of the lent numbers.
fn first_rows(lent: &[u64], count: u64) -> Vec<Row> {
    let rows = lent.chunks_exact(4).map(|r| [r[0], r[1], r[2], r[3]]);
    rows.take(count as usize).collect()
}

impl Table<'_> {
    /// The capture rows that the count says.
    pub fn capture_rows(&self) -> Vec<Row> {
        first_rows(self.captures, self.summary.captures)
    }

    /// The annotation rows that the count says.
    pub fn annotation_rows(&self) -> Vec<Row> {
        first_rows(self.annotations, self.summary.annotations)
    }

    /// O + N, as a whole number.
    pub fn end(&self) -> u128 {
        u128::from(self.summary.offset) + u128::from(self.summary.samples)
    }
}

/// "A table is well formed if it says acceptance, its code is a listed one,
/// channels are 1 to 1,024 and W follows from both, its counts fit the lent
/// rows, T + H + N*W = D <= 2^48, O + N <= 2^64 - 1, rows obey the rules above,
/// and text places end within 61,440."
pub fn well_formed(table: &Table) -> bool {
    let s = table.summary;
    let width = sample_width(s.code, s.channels);
    s.refusal == 0
        && (1..=CHANNELS_MAX).contains(&s.channels)
        && width == Some(u128::from(s.width))
        && s.captures <= rows_held(table.captures)
        && s.annotations <= rows_held(table.annotations)
        && lengths_agree(table)
        && table.end() <= INDEX_MAX
        && captures_obey(table)
        && annotations_obey(table)
        && ends_within(s.rate_place, s.rate_length)
}

/// "T + H + N*W = D <= 2^48", H being the sum of all header bytes.
fn lengths_agree(table: &Table) -> bool {
    let s = table.summary;
    let headers: u128 = table.capture_rows().iter().map(|r| u128::from(r[3])).sum();
    let data = u128::from(s.samples) * u128::from(s.width);
    u128::from(s.trailing) + headers + data == u128::from(s.dataset) && s.dataset <= DATASET_MAX
}

/// "text places end within 61,440"
fn ends_within(place: u64, length: u64) -> bool {
    u128::from(place) + u128::from(length) <= METADATA_MAX as u128
}

/// "Every start s has O <= s <= O + N", starts ascend.
fn starts_obey(table: &Table, rows: &[Row]) -> bool {
    let inside = |r: &Row| r[0] >= table.summary.offset && u128::from(r[0]) <= table.end();
    rows.iter().all(inside) && rows.is_sorted_by_key(|r| r[0])
}

/// "A capture ends where the next starts, the last at O + N"; "first byte counts
/// the headers up to and including this capture's own".
fn captures_obey(table: &Table) -> bool {
    let rows = table.capture_rows();
    if !starts_obey(table, &rows) {
        return false;
    }
    let ends = rows.iter().skip(1).map(|r| u128::from(r[0])).chain([table.end()]);
    let ends_ok = rows.iter().zip(ends).all(|(r, end)| u128::from(r[1]) == end);
    let mut headers = 0u128;
    let firsts_ok = rows.iter().all(|r| {
        headers += u128::from(r[3]);
        let before = u128::from(r[0] - table.summary.offset) * u128::from(table.summary.width);
        u128::from(r[2]) == before + headers
    });
    ends_ok && firsts_ok
}

/// Annotations ascend, lie inside the dataset and end no earlier than they start.
fn annotations_obey(table: &Table) -> bool {
    let rows = table.annotation_rows();
    let ends_ok = rows.iter().all(|r| r[0] <= r[1] && u128::from(r[1]) <= table.end());
    starts_obey(table, &rows) && ends_ok && rows.iter().all(|r| ends_within(r[2], r[3]))
}

/// Up to this many samples a recording is walked sample by sample.
const WALKED: u64 = 3_000;

/// The first byte of each sample, by walking through the dataset from its front:
/// before sample i stand the headers of the captures that start at i.
pub fn places_by_walk(table: &Table) -> Vec<u64> {
    let s = table.summary;
    let mut headers_at: HashMap<u64, u64> = HashMap::new();
    for [start, _, _, header] in table.capture_rows() {
        *headers_at.entry(start).or_default() += header;
    }
    let mut at = 0;
    let mut places = Vec::new();
    for k in 0..s.samples {
        at += headers_at.get(&(s.offset + k)).copied().unwrap_or(0);
        places.push(at);
        at += s.width;
    }
    places
}

/// "Sample i starts at byte (i - O)*W + the headers of all captures with start
/// <= i."
pub fn place_by_formula(table: &Table, sample: u64) -> u64 {
    let s = table.summary;
    let rows = table.capture_rows();
    let headers: u128 = rows.iter().filter(|r| r[0] <= sample).map(|r| u128::from(r[3])).sum();
    let place = u128::from(sample - s.offset) * u128::from(s.width) + headers;
    place as u64
}

/// Where a sample lies.
#[derive(Clone, Copy, PartialEq, Eq, Debug, Default)]
pub struct Location {
    pub refusal: u64,
    /// The sample's first byte in the dataset.
    pub byte: u64,
}

/// "A single sample has O <= i < O + N"; gives 18 or 19.
pub fn locate(table: &Table, sample: u64) -> Location {
    if !well_formed(table) {
        return Location { refusal: 18, byte: 0 };
    }
    let s = table.summary;
    if sample < s.offset || u128::from(sample) >= table.end() {
        return Location { refusal: 19, byte: 0 };
    }
    let byte = if s.samples <= WALKED {
        places_by_walk(table)[(sample - s.offset) as usize]
    } else {
        place_by_formula(table, sample)
    };
    Location { refusal: 0, byte }
}

/// The number of the capture a sample is in: "Samples before the first capture
/// have bytes and no capture; every later one is in exactly one." The table is
/// well formed.
pub fn capture_of(table: &Table, sample: u64) -> Option<usize> {
    table.capture_rows().iter().position(|r| r[0] <= sample && sample < r[1])
}

/// A range's refusal: "O <= a <= b <= O + N", else 19.
fn range_refusal(table: &Table, a: u64, b: u64) -> u64 {
    let outside = a < table.summary.offset || u128::from(b) > table.end();
    if a > b || outside {
        19
    } else {
        0
    }
}

/// A run of consecutive bytes: its first byte and its length.
pub type Piece = (u64, u64);

/// The pieces from the list of all bytes of the samples: "maximal runs of
/// consecutive bytes, each first byte and length, ascending; none if a = b."
pub fn pieces_by_bytes(table: &Table, a: u64, b: u64) -> Vec<Piece> {
    let s = table.summary;
    let places = places_by_walk(table);
    let wanted = &places[(a - s.offset) as usize..(b - s.offset) as usize];
    let mut pieces: Vec<Piece> = Vec::new();
    for byte in wanted.iter().flat_map(|&p| p..p + s.width) {
        match pieces.last_mut() {
            Some((first, length)) if *first + *length == byte => *length += 1,
            _ => pieces.push((byte, 1)),
        }
    }
    pieces
}

/// The pieces from the captures that start inside the range: between two starts
/// the samples lie side by side, and pieces that touch are joined.
pub fn pieces_by_captures(table: &Table, a: u64, b: u64) -> Vec<Piece> {
    let mut borders: Vec<u64> = table.capture_rows().iter().map(|r| r[0]).collect();
    borders.retain(|&start| a < start && start < b);
    borders.extend([a, b]);
    borders.sort_unstable();
    borders.dedup();
    let mut pieces: Vec<Piece> = Vec::new();
    for pair in borders.windows(2) {
        let first = place_by_formula(table, pair[0]);
        let length = (pair[1] - pair[0]) * table.summary.width;
        match pieces.last_mut() {
            Some((f, l)) if *f + *l == first => *l += length,
            _ => pieces.push((first, length)),
        }
    }
    pieces
}

/// The pieces of a range inside a well-formed table.
fn all_pieces(table: &Table, a: u64, b: u64) -> Vec<Piece> {
    let s = table.summary;
    if s.samples <= WALKED && (b - a) * s.width <= 50_000 {
        pieces_by_bytes(table, a, b)
    } else {
        pieces_by_captures(table, a, b)
    }
}

/// A refusal and how many pieces or bytes were written.
#[derive(Clone, Copy, PartialEq, Eq, Debug, Default)]
pub struct Written {
    pub refusal: u64,
    pub count: u64,
}

impl Written {
    /// A refused answer.
    pub fn refused(refusal: u64) -> Written {
        Written { refusal, count: 0 }
    }
}

/// The pieces of [a, b), two u64 each, to the front of the lent numbers; gives
/// 18 to 20, and reports how many pieces it wrote.
pub fn pieces(table: &Table, a: u64, b: u64, lent: &mut [u64]) -> Written {
    if !well_formed(table) {
        return Written::refused(18);
    }
    if range_refusal(table, a, b) != 0 {
        return Written::refused(19);
    }
    let list = all_pieces(table, a, b);
    if list.len() > lent.len() / 2 {
        return Written::refused(20);
    }
    for (k, (first, length)) in list.iter().enumerate() {
        lent[2 * k] = *first;
        lent[2 * k + 1] = *length;
    }
    Written { refusal: 0, count: list.len() as u64 }
}

/// What [start, end) shares with [a, b), by trying every sample.
pub fn shared_by_samples(start: u64, end: u64, a: u64, b: u64) -> Option<(u64, u64)> {
    let shared: Vec<u64> = (a..b).filter(|&i| start <= i && i < end).collect();
    Some((*shared.first()?, *shared.last()? + 1))
}

/// What [start, end) shares with [a, b), by its bounds.
pub fn shared_by_bounds(start: u64, end: u64, a: u64, b: u64) -> Option<(u64, u64)> {
    let (low, high) = (start.max(a), end.min(b));
    (low < high).then_some((low, high))
}

/// What is kept of [start, end): "Captures and annotations that share a sample
/// with [a, b) are kept in order and clipped to it; empty ones go".
pub fn shared(start: u64, end: u64, a: u64, b: u64) -> Option<(u64, u64)> {
    if b - a <= 500 {
        shared_by_samples(start, end, a, b)
    } else {
        shared_by_bounds(start, end, a, b)
    }
}

/// The rows of a cut of a well-formed table.
fn cut_rows(table: &Table, a: u64, b: u64) -> (Vec<Row>, Vec<Row>) {
    let width = table.summary.width;
    let captures = table.capture_rows().into_iter().filter_map(|r| {
        let (start, end) = shared(r[0], r[1], a, b)?;
        Some([start, end, (start - a) * width, 0])
    });
    let annotations = table.annotation_rows().into_iter().filter_map(|r| {
        let (start, end) = shared(r[0], r[1], a, b)?;
        Some([start, end, r[2], r[3]])
    });
    (captures.collect(), annotations.collect())
}

/// Writes rows to the front of the lent numbers.
pub fn write_rows(rows: &[Row], lent: &mut [u64]) {
    for (slot, row) in lent.chunks_exact_mut(4).zip(rows) {
        slot.copy_from_slice(row);
    }
}

/// "Cut to [a, b): O becomes a, N becomes b - a, T and headers 0, D = N*W. ...
/// The rest of the summary and the text places stay." Gives 18 to 20; the rows
/// go to the front of the lent numbers.
pub fn cut(table: &Table, a: u64, b: u64, captures: &mut [u64], annotations: &mut [u64]) -> Summary {
    if !well_formed(table) {
        return Summary::refused(18);
    }
    if range_refusal(table, a, b) != 0 {
        return Summary::refused(19);
    }
    let (capture_rows, annotation_rows) = cut_rows(table, a, b);
    let (capture_count, annotation_count) = (capture_rows.len() as u64, annotation_rows.len() as u64);
    if capture_count > rows_held(captures) || annotation_count > rows_held(annotations) {
        return Summary::refused(20);
    }
    write_rows(&capture_rows, captures);
    write_rows(&annotation_rows, annotations);
    Summary {
        offset: a,
        samples: b - a,
        trailing: 0,
        dataset: (b - a) * table.summary.width,
        captures: capture_count,
        annotations: annotation_count,
        ..*table.summary
    }
}

/// "Its data are the bytes of the pieces in order; a copy writes them from a lent
/// dataset, whose length must be D (else 18), to the front of the lent output."
/// Gives 18 to 20, and reports how many bytes it wrote.
pub fn copy(table: &Table, dataset: &[u8], a: u64, b: u64, output: &mut [u8]) -> Written {
    if !well_formed(table) || dataset.len() as u64 != table.summary.dataset {
        return Written::refused(18);
    }
    if range_refusal(table, a, b) != 0 {
        return Written::refused(19);
    }
    let mut bytes: Vec<u8> = Vec::new();
    for (first, length) in all_pieces(table, a, b) {
        bytes.extend_from_slice(&dataset[first as usize..(first + length) as usize]);
    }
    if bytes.len() > output.len() {
        return Written::refused(20);
    }
    output[..bytes.len()].copy_from_slice(&bytes);
    Written { refusal: 0, count: bytes.len() as u64 }
}

/// The bytes of the samples of [a, b), sample by sample: "Sample i has the W
/// bytes from its start." For a well-formed table and a range inside it.
pub fn bytes_by_samples(table: &Table, dataset: &[u8], a: u64, b: u64) -> Vec<u8> {
    let width = table.summary.width as usize;
    let starts = (a..b).map(|i| place_by_formula(table, i) as usize);
    starts.flat_map(|start| dataset[start..start + width].iter().copied()).collect()
}
