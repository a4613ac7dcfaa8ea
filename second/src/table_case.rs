//! One case about a table: its numbers, and the frame that holds them.

use crate::frames::Case;
use crate::steps::State;
use crate::table::Summary;

/// What a case asks for.
pub const WELL_FORMED: u64 = 0;
pub const LOCATE: u64 = 1;
pub const PIECES: u64 = 2;
pub const CUT: u64 = 3;
pub const COPY: u64 = 4;

/// The most numbers of a lent memory.
pub const NUMBERS_MAX: u64 = 512;
/// The most bytes of a lent dataset or output.
pub const BYTES_MAX: u64 = 65_536;

/// A table handed in, and what is asked of it.
#[derive(Clone, PartialEq, Eq, Debug)]
pub struct TableCase {
    pub operation: u64,
    pub summary: Summary,
    /// The range, or the sample and an unused number.
    pub a: u64,
    pub b: u64,
    pub captures: Vec<u64>,
    pub annotations: Vec<u64>,
    /// Pieces: the numbers lent. Cut: the numbers lent for captures and for
    /// annotations. Copy: the bytes of the dataset, and the bytes lent.
    pub sizes: Vec<u64>,
}

/// The largest sizes that an operation takes.
fn largest(operation: u64) -> Option<&'static [u64]> {
    match operation {
        WELL_FORMED | LOCATE => Some(&[]),
        PIECES => Some(&[NUMBERS_MAX]),
        CUT => Some(&[NUMBERS_MAX, NUMBERS_MAX]),
        COPY => Some(&[BYTES_MAX, BYTES_MAX]),
        _ => None,
    }
}

impl TableCase {
    /// A case about a state's table.
    pub fn new(operation: u64, state: &State, range: (u64, u64), sizes: &[u64]) -> TableCase {
        TableCase {
            operation,
            summary: state.summary,
            a: range.0,
            b: range.1,
            captures: state.captures.clone(),
            annotations: state.annotations.clone(),
            sizes: sizes.to_vec(),
        }
    }

    /// The frame: little-endian numbers.
    pub fn frame(&self) -> Case {
        let mut numbers = vec![self.operation];
        numbers.extend(summary_numbers(&self.summary));
        numbers.extend([self.a, self.b]);
        for rows in [&self.captures, &self.annotations] {
            numbers.push(rows.len() as u64);
            numbers.extend(rows);
        }
        numbers.extend(&self.sizes);
        let payload = numbers.iter().flat_map(|x| x.to_le_bytes()).collect();
        Case { letter: b't', payload }
    }

    /// The case of a payload, if it is one.
    pub fn read(payload: &[u8]) -> Option<TableCase> {
        if payload.len() % 8 != 0 {
            return None;
        }
        let word = |c: &[u8]| c.iter().rev().fold(0, |x, &b| x << 8 | u64::from(b));
        let numbers: Vec<u64> = payload.chunks(8).map(word).collect();
        let (head, rest) = (numbers.get(..15)?, numbers.get(15..)?);
        let (captures, rest) = counted(rest)?;
        let (annotations, sizes) = counted(rest)?;
        let largest = largest(head[0])?;
        let fits = sizes.len() == largest.len() && sizes.iter().zip(largest).all(|(x, most)| x <= most);
        fits.then(|| TableCase {
            operation: head[0],
            summary: summary_of(&head[1..13]),
            a: head[13],
            b: head[14],
            captures: captures.to_vec(),
            annotations: annotations.to_vec(),
            sizes: sizes.to_vec(),
        })
    }
}

/// Numbers with their count before them, and what follows.
fn counted(numbers: &[u64]) -> Option<(&[u64], &[u64])> {
    let (&count, rest) = numbers.split_first()?;
    let count = usize::try_from(count).ok().filter(|&n| n <= rest.len() && n as u64 <= NUMBERS_MAX)?;
    Some(rest.split_at(count))
}

/// The twelve numbers in the paper's order.
pub fn summary_numbers(s: &Summary) -> [u64; 12] {
    [
        s.refusal, s.code, s.channels, s.width, s.offset, s.trailing, s.samples, s.dataset, s.captures, s.annotations,
        s.rate_place, s.rate_length,
    ]
}

/// The summary of twelve numbers.
pub fn summary_of(x: &[u64]) -> Summary {
    Summary {
        refusal: x[0],
        code: x[1],
        channels: x[2],
        width: x[3],
        offset: x[4],
        trailing: x[5],
        samples: x[6],
        dataset: x[7],
        captures: x[8],
        annotations: x[9],
        rate_place: x[10],
        rate_length: x[11],
    }
}
