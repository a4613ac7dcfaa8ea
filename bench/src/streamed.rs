// Times a text judged as it arrives, in one chunk and in chunks of 1,460, 64 and 1 bytes, against the judge of the whole text, and a text that is
// lost at its first byte.
use crate::export::json_judge;
use crate::export_stream::fresh;
use crate::shared::{digits, median, ratio, repeats_in, run, SIZES, TURN};
use crate::texts::{Kind, KINDS};
use std::hint::black_box;

// The longest chunk of each side: the whole text, a packet's payload, a line's worth, a byte.
const CHUNKS: [usize; 4] = [61440, 1460, 64, 1];

// The sides: the judge, then the text in chunks of each length, then the text in one chunk after a byte that no JSON begins with.
const JUDGE: usize = 0;
const LOST: usize = 1 + CHUNKS.len();
const SIDES: usize = LOST + 1;

fn streamed(text: &[u8], longest: usize) -> u64 {
    text.chunks(longest).fold(fresh(), |state, chunk| state.feed(chunk).state).finish()
}

// A text, the same lost, and the times of each side: for each round, the nanoseconds of one run.
struct Case {
    text: Vec<u8>,
    lost: Vec<u8>,
    repeats: [u32; SIDES],
    times: [Vec<f64>; SIDES],
}

impl Case {
    fn new(kind: &Kind, size: usize) -> Case {
        let text = (kind.make)(size).into_bytes();
        let mut lost = text.clone();
        lost[0] = b'x';
        let mut case = Case { text, lost, repeats: [1; SIDES], times: Default::default() };
        for side in 0..SIDES {
            assert_eq!(case.answer(side), if side == LOST { 2 } else { 0 }, "side {side} of {}", kind.name);
            case.repeats[side] = repeats_in(TURN, &mut || black_box(&case).answer(side));
        }
        case
    }

    fn answer(&self, side: usize) -> u64 {
        match side {
            JUDGE => u64::from(json_judge(&self.text)),
            LOST => streamed(&self.lost, CHUNKS[0]),
            _ => streamed(&self.text, CHUNKS[side - 1]),
        }
    }

    // Each side has its turn, another one first in each round.
    fn round(&mut self, round: usize) {
        for i in 0..SIDES {
            let side = (i + round) % SIDES;
            let time = run(self.repeats[side], &mut || black_box(&*self).answer(side));
            self.times[side].push(time);
        }
    }
}

// Prints the speed in one chunk, and that in chunks of each length over the judge's.
pub fn print_streamed(rounds: usize) {
    println!("\nThe speed of a text judged as it arrives, in one chunk, and its speed in one chunk and in chunks of 1,460, 64 and 1 bytes over the judge's (above 1 it is faster); the last is of a text lost at its first byte\n");
    println!("{:12} {:>6} {:>7} {:>7} {:>7} {:>7} {:>7} {:>7}", "text", "bytes", "MB/s", "whole", "1460", "64", "1", "lost");
    let mut cases: Vec<[Case; 3]> = KINDS.iter().map(|kind| SIZES.map(|size| Case::new(kind, size))).collect();
    for round in 0..rounds {
        for case in cases.iter_mut().flatten() {
            case.round(round);
        }
    }
    for (kind, row) in KINDS.iter().zip(&cases) {
        for case in row {
            let speed = 1e3 * case.text.len() as f64 / median(case.times[1].clone());
            print!("{:12} {:>6} {:>7}", kind.name, case.text.len(), digits(speed));
            for times in &case.times[1..] {
                print!(" {:>7}", digits(ratio(&case.times[JUDGE], times)));
            }
            println!();
        }
    }
}
