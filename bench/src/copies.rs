// Times the copy of a recording's samples against memcpy of the same runs of bytes.
use crate::export::{Summary, Table};
use crate::shared::{median, ratio, repeats_in, run};
use std::hint::black_box;

// The table of a recording of complex 16-bit samples, with equal captures that have a header of 16 bytes each.
pub struct Equal {
    summary: Summary,
    captures: Vec<u64>,
}

// Such a recording with its dataset.
struct Recording {
    name: &'static str,
    equal: Equal,
    dataset: Vec<u8>,
    // First byte and length of each piece.
    pieces: Vec<(usize, usize)>,
}

const WIDTH: u64 = 4;
const HEADER: u64 = 16;
// 1 MB of samples.
pub const SAMPLES: u64 = 250_000;
// How long one side runs at a time, in nanoseconds.
const TURN: f64 = 2e6;

impl Equal {
    pub fn new(captures: u64) -> Equal {
        let each = SAMPLES / captures;
        let row = |k: u64| {
            // The last capture also has the samples that are left over.
            let end = if k + 1 == captures { SAMPLES } else { (k + 1) * each };
            [k * each, end, k * each * WIDTH + (k + 1) * HEADER, HEADER]
        };
        let summary = Summary {
            datatype: 16,
            channels: 1,
            width: WIDTH,
            samples: SAMPLES,
            size: SAMPLES * WIDTH + captures * HEADER,
            captures,
            ..Summary::default()
        };
        Equal { summary, captures: (0..captures).flat_map(row).collect() }
    }

    pub fn table(&self) -> Table<'_> {
        Table { summary: self.summary, captures: &self.captures, annotations: &[] }
    }
}

impl Recording {
    fn new(name: &'static str, captures: u64) -> Recording {
        let equal = Equal::new(captures);
        let piece = |row: &[u64]| (row[2] as usize, ((row[1] - row[0]) * WIDTH) as usize);
        let pieces = equal.captures.chunks(4).map(piece).collect();
        let dataset = (0..equal.summary.size).map(|k| (k * 7 + 3) as u8).collect();
        Recording { name, equal, dataset, pieces }
    }

    fn copy(&self, out: &mut [u8]) -> u64 {
        let r = self.equal.table().copy(&self.dataset, 0, SAMPLES, out);
        assert_eq!(r.refusal, 0);
        r.number
    }

    // The same bytes, each piece by one memcpy.
    fn memcpy(&self, out: &mut [u8]) -> u64 {
        let mut at = 0;
        for &(first, length) in black_box(&self.pieces) {
            out[at..at + length].copy_from_slice(&self.dataset[first..first + length]);
            at += length;
        }
        at as u64
    }
}

// Prints the copy's speed and its time over memcpy's, the two interleaved.
pub fn print_copies(rounds: usize) {
    println!("\nThe copy's speed, and its time over that of memcpy (1 is as fast)\n");
    println!("{:12} {:>8} {:>8} {:>8}", "recording", "pieces", "MB/s", "memcpy");
    for r in [Recording::new("one piece", 1), Recording::new("many", 1_000)] {
        let length = (SAMPLES * WIDTH) as usize;
        let (mut out, mut other) = (vec![1; length], vec![2; length]);
        assert_eq!((r.copy(&mut out), r.memcpy(&mut other)), (length as u64, length as u64));
        assert_eq!(out, other);
        let ours = repeats_in(TURN, &mut || r.copy(black_box(&mut out)));
        let theirs = repeats_in(TURN, &mut || r.memcpy(black_box(&mut out)));
        let mut times: [Vec<f64>; 2] = Default::default();
        for _ in 0..rounds {
            times[0].push(run(ours, &mut || r.copy(black_box(&mut out))));
            times[1].push(run(theirs, &mut || r.memcpy(black_box(&mut out))));
        }
        let speed = 1e3 * length as f64 / median(times[0].clone());
        let ratio = ratio(&times[0], &times[1]);
        println!("{:12} {:>8} {speed:>8.0} {ratio:>8.2}", r.name, r.pieces.len());
    }
}
