// Times the load of a stored table against reading its metadata, a memcpy of its file and a load in plain Rust, and the store.
use crate::export::{recording_read, Summary, Table};
use crate::export_stored::{load, stored_bytes};
use crate::plain;
use crate::shared::{digits, median, ratio, repeats_in, run, DATASET, SIZES, TURN};
use crate::texts::{Kind, KINDS};
use std::hint::black_box;

// What is timed; each answers the number of refusal.
const SIDES: [fn(&mut Case) -> u64; 5] = [Case::load, Case::store, Case::read, Case::memcpy, Case::plain];

// A recording as metadata, as table and as stored file, with the times of each side: for each round, the nanoseconds of one run.
struct Case {
    text: Vec<u8>,
    summary: Summary,
    rows: [Vec<u64>; 2],
    file: Vec<u8>,
    // The rows and the file that the sides write.
    rows_out: [Vec<u64>; 2],
    file_out: Vec<u8>,
    repeats: [u32; 5],
    times: [Vec<f64>; 5],
}

impl Case {
    fn new(kind: &Kind, size: usize) -> Case {
        let text = (kind.make)(size).into_bytes();
        let (mut captures, mut annotations) = (vec![0; size], vec![0; size]);
        let summary = recording_read(&text, DATASET, &mut captures, &mut annotations);
        assert_eq!(summary.refusal, 0);
        captures.truncate(4 * summary.captures as usize);
        annotations.truncate(4 * summary.annotations as usize);
        let mut file = vec![0; stored_bytes((captures.len() + annotations.len()) / 4)];
        let stored = Table { summary, captures: &captures, annotations: &annotations }.store(&mut file);
        assert_eq!((stored.refusal, stored.number), (0, file.len() as u64));
        let mut case = Case {
            text,
            summary,
            rows_out: [captures.clone(), annotations.clone()],
            rows: [captures, annotations],
            file_out: file.clone(),
            file,
            repeats: [1; 5],
            times: Default::default(),
        };
        for (i, side) in SIDES.iter().enumerate() {
            case.rows_out.iter_mut().for_each(|rows| rows.fill(u64::MAX));
            case.file_out.fill(u8::MAX);
            assert_eq!(side(&mut case), 0);
            assert!(case.rows_out == case.rows || case.file_out == case.file, "side {i} of {}", kind.name);
            case.repeats[i] = repeats_in(TURN, &mut || side(black_box(&mut case)));
        }
        case
    }

    fn load(&mut self) -> u64 {
        let [captures, annotations] = &mut self.rows_out;
        black_box(load(&self.file, captures, annotations)).refusal
    }

    fn store(&mut self) -> u64 {
        let [captures, annotations] = &self.rows;
        black_box(Table { summary: self.summary, captures, annotations }.store(&mut self.file_out)).refusal
    }

    fn read(&mut self) -> u64 {
        let [captures, annotations] = &mut self.rows_out;
        black_box(recording_read(&self.text, DATASET, captures, annotations)).refusal
    }

    fn memcpy(&mut self) -> u64 {
        self.file_out.copy_from_slice(&self.file);
        0
    }

    fn plain(&mut self) -> u64 {
        let [captures, annotations] = &mut self.rows_out;
        black_box(plain::load(&self.file, captures, annotations)).refusal
    }

    // Each side has its turn, another one first in each round.
    fn round(&mut self, round: usize) {
        for i in 0..SIDES.len() {
            let s = (i + round) % SIDES.len();
            let time = run(self.repeats[s], &mut || SIDES[s](black_box(&mut *self)));
            self.times[s].push(time);
        }
    }
}

// Prints the speed of load and store, the reader's time over theirs, and the load's time over the others'.
pub fn print_stored(rounds: usize) {
    println!("\nThe speed of load and store, in MB/s of the stored form, and the reader's time over theirs; the load's time over that of a memcpy and of plain Rust (1 is as fast)\n");
    println!(
        "{:12} {:>6} {:>6} {:>7} {:>9} {:>7} {:>10} {:>8} {:>8}",
        "text", "bytes", "stored", "load", "read/load", "store", "read/store", "memcpy", "plain"
    );
    let recordings = || KINDS.iter().filter(|kind| kind.recording);
    let mut cases: Vec<[Case; 3]> = recordings().map(|kind| SIZES.map(|size| Case::new(kind, size))).collect();
    for round in 0..rounds {
        for case in cases.iter_mut().flatten() {
            case.round(round);
        }
    }
    for (kind, row) in recordings().zip(&cases) {
        for case in row {
            let [load, store, read, memcpy, plain] = &case.times;
            let speed = |times: &Vec<f64>| digits(1e3 * case.file.len() as f64 / median(times.clone()));
            print!("{:12} {:>6} {:>6}", kind.name, case.text.len(), case.file.len());
            print!(" {:>7} {:>9} {:>7} {:>10}", speed(load), digits(ratio(read, load)), speed(store), digits(ratio(read, store)));
            println!(" {:>8} {:>8}", digits(ratio(load, memcpy)), digits(ratio(load, plain)));
        }
    }
}
