// Times the place of a sample and the pieces of all samples, by the row of the table.
use crate::copies::{Equal, SAMPLES};
use crate::shared::{digits, median, run, TURN};
use std::hint::black_box;

const ROWS: [u64; 3] = [16, 128, 1024];

// What a table of some rows is asked, and the times of each question: for each round, the nanoseconds of one run by the row.
struct Asked {
    rows: u64,
    equal: Equal,
    out: Vec<u64>,
    times: [Vec<f64>; 2],
}

impl Asked {
    fn new(rows: u64) -> Asked {
        Asked { rows, equal: Equal::new(rows), out: vec![0; 2 * rows as usize], times: Default::default() }
    }

    // The place of the last sample, or the pieces of all.
    fn ask(&mut self, question: usize) -> u64 {
        let table = self.equal.table();
        let r = if question == 0 { table.locate(SAMPLES - 1) } else { table.pieces(0, SAMPLES, &mut self.out) };
        assert_eq!(r.refusal, 0);
        r.number
    }

    fn round(&mut self) {
        for question in 0..2 {
            // Some four nanoseconds a row.
            let repeats = (TURN / (4.0 * self.rows as f64)) as u32;
            let once = run(repeats, &mut || self.ask(black_box(question)));
            self.times[question].push(once / self.rows as f64);
        }
    }
}

// Prints the nanoseconds by the row; the tables take turns.
pub fn print_rows(rounds: usize) {
    println!("\nNanoseconds by the row: the place of the last sample, and the pieces of all samples\n");
    println!("{:>8} {:>8} {:>8}", "captures", "place", "pieces");
    let mut asked = ROWS.map(Asked::new);
    for _ in 0..rounds {
        asked.iter_mut().for_each(Asked::round);
    }
    for a in &asked {
        println!("{:>8} {:>8} {:>8}", a.rows, digits(median(a.times[0].clone())), digits(median(a.times[1].clone())));
    }
}
