// Times the metadata of a table against serde_json's text of the same recording, kept as structs.
use crate::export::{recording_read, Summary, Table};
use crate::shared::{digits, median, ratio, repeats_in, run, DATASET, SIZES, TURN};
use serde::Serialize;
use std::hint::black_box;

// A recording with the members of the written metadata, in their order. Labels are decoded.
#[derive(Serialize)]
struct Recording {
    global: Global,
    captures: Vec<Capture>,
    annotations: Vec<Annotation>,
}

#[derive(Serialize)]
struct Global {
    #[serde(rename = "core:datatype")]
    datatype: &'static str,
    #[serde(rename = "core:version")]
    version: &'static str,
    #[serde(rename = "core:num_channels")]
    num_channels: u64,
    #[serde(rename = "core:offset")]
    offset: u64,
    #[serde(rename = "core:trailing_bytes")]
    trailing_bytes: u64,
    #[serde(rename = "core:sample_rate")]
    sample_rate: f64,
}

#[derive(Serialize)]
struct Capture {
    #[serde(rename = "core:sample_start")]
    sample_start: u64,
    #[serde(rename = "core:header_bytes")]
    header_bytes: u64,
}

#[derive(Serialize)]
struct Annotation {
    #[serde(rename = "core:sample_start")]
    sample_start: u64,
    #[serde(rename = "core:sample_count")]
    sample_count: u64,
    #[serde(rename = "core:label", skip_serializing_if = "Option::is_none")]
    label: Option<String>,
}

struct Kind {
    name: &'static str,
    // The recording of some rows.
    make: fn(usize) -> Recording,
}

const KINDS: [Kind; 8] = [
    Kind { name: "annotations", make: |n| annotations(n, |i| Some(format!("burst {i}"))) },
    Kind { name: "escaped", make: |n| annotations(n, |i| Some(format!("door \"{i}\"\n\tback\\slash"))) },
    Kind { name: "long", make: |n| annotations(n, |i| Some(format!("{}{i}", "the same key again, ".repeat(6)))) },
    Kind { name: "non-ascii", make: |n| annotations(n, |i| Some(format!("дверь {i}, ключ"))) },
    Kind { name: "wide", make: |n| annotations(n, |i| Some(format!("{}{i}", "ключ от двери, ".repeat(4)))) },
    Kind { name: "unlabelled", make: |n| annotations(n, |_| None) },
    Kind { name: "captures", make: |n| recording(0, n, 1, |_| None) },
    Kind { name: "late", make: |n| recording(1_000_000_000_000_000_000, 1, n, |i| Some(format!("burst {i}"))) },
];

fn annotations(rows: usize, label: fn(usize) -> Option<String>) -> Recording {
    recording(0, 1, rows, label)
}

fn recording(offset: u64, captures: usize, annotations: usize, label: fn(usize) -> Option<String>) -> Recording {
    let capture = |i| Capture { sample_start: offset + 65_536 * i as u64, header_bytes: 16 * (i as u64 % 5) };
    let annotation = |i| Annotation {
        sample_start: offset + 4096 * i as u64,
        sample_count: 1024 + 128 * (i as u64 % 7),
        label: label(i),
    };
    Recording {
        global: Global {
            datatype: "ci16_le",
            version: "1.0.0",
            num_channels: 1,
            offset,
            trailing_bytes: 0,
            sample_rate: 2.4e6,
        },
        captures: (0..captures).map(capture).collect(),
        annotations: (0..annotations).map(annotation).collect(),
    }
}

// The proved writer is the first, then serde_json into the same lent memory and into a Vec that keeps its memory.
const WRITERS: usize = 3;

// A recording as structs and as the table read from its text, with the times of each writer: for each round, the nanoseconds of one run.
struct Case {
    recording: Recording,
    text: Vec<u8>,
    summary: Summary,
    rows: Vec<u64>,
    notes: Vec<u64>,
    out: Vec<u8>,
    repeats: [u32; WRITERS],
    times: [Vec<f64>; WRITERS],
}

impl Case {
    // As many rows as fit the size.
    fn new(kind: &Kind, size: usize) -> Case {
        let text = |rows| serde_json::to_vec(&(kind.make)(rows)).unwrap();
        let rows = (1..).take_while(|&rows| text(rows).len() <= size).last().unwrap();
        let text = text(rows);
        let mut case = Case {
            recording: (kind.make)(rows),
            out: vec![0; text.len()],
            text,
            summary: Summary::default(),
            rows: vec![0; 4 * rows],
            notes: vec![0; 4 * rows],
            repeats: [1; WRITERS],
            times: Default::default(),
        };
        case.summary = recording_read(&case.text, DATASET, &mut case.rows, &mut case.notes);
        assert_eq!(case.summary.refusal, 0);
        for w in 0..WRITERS {
            case.out.fill(0);
            assert_eq!(case.write(w), case.text.len());
            assert_eq!(case.out[..case.text.len()], case.text, "writer {w} of {}", kind.name);
            case.repeats[w] = repeats_in(TURN, &mut || black_box(&mut case).write(w));
        }
        case
    }

    // Writes the text, and says how long it is.
    fn write(&mut self, writer: usize) -> usize {
        match writer {
            0 => {
                let table = Table { summary: self.summary, captures: &self.rows, annotations: &self.notes };
                let r = table.metadata(&self.text, &mut self.out);
                assert_eq!(r.refusal, 0);
                r.number as usize
            }
            1 => {
                let size = self.out.len();
                let mut left = &mut self.out[..];
                serde_json::to_writer(&mut left, &self.recording).unwrap();
                size - left.len()
            }
            _ => {
                self.out.clear();
                serde_json::to_writer(&mut self.out, &self.recording).unwrap();
                self.out.len()
            }
        }
    }

    // Each writer has its turn, another one first in each round.
    fn round(&mut self, round: usize) {
        for i in 0..WRITERS {
            let w = (i + round) % WRITERS;
            let time = run(self.repeats[w], &mut || black_box(&mut *self).write(w));
            self.times[w].push(time);
        }
    }
}

// Prints the speed of the metadata's text, and that speed over serde_json's.
pub fn print_writes(rounds: usize) {
    println!("\nThe speed of writing a table's metadata, and that speed over serde_json's (above 1 it is faster)\n");
    println!("{:12} {:>6} {:>7} {:>10} {:>10}", "rows", "bytes", "MB/s", "slice", "Vec");
    let row = |kind| SIZES.map(|size| Case::new(kind, size));
    let mut cases: Vec<[Case; 3]> = KINDS.iter().map(row).collect();
    for round in 0..rounds {
        for case in cases.iter_mut().flatten() {
            case.round(round);
        }
    }
    for (kind, row) in KINDS.iter().zip(&cases) {
        for case in row {
            let [own, slice, vec] = &case.times;
            let speed = 1e3 * case.text.len() as f64 / median(own.clone());
            print!("{:12} {:>6} {:>7}", kind.name, case.text.len(), digits(speed));
            println!(" {:>10} {:>10}", digits(ratio(slice, own)), digits(ratio(vec, own)));
        }
    }
}
