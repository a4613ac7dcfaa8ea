// What the harnesses of bench/run and bench/against share: sizes, turns, medians and ratios.
use std::cell::RefCell;
use std::hint::black_box;
use std::time::Instant;

pub const SIZES: [usize; 3] = [1024, 8192, 61440];
const ROUNDS: usize = 31;
// How long one side runs at a time, in nanoseconds.
pub const TURN: f64 = 1e6;

// Long enough for every recording here, and whole samples of four bytes.
pub const DATASET: u64 = 1 << 40;

// The rows that the reader fills, those of captures and those of annotations.
const ROOM: usize = 4096;

thread_local! {
    pub static ROWS: RefCell<[[u64; ROOM]; 2]> = const { RefCell::new([[0; ROOM]; 2]) };
}

// How many rounds the first word after the program's name asks for.
pub fn rounds() -> usize {
    match std::env::args().nth(1) {
        Some(word) => word.parse().expect("ROUNDS is a number"),
        None => ROUNDS,
    }
}

// Nanoseconds of one run. The closure is called as it stands, so that no side's code is made to fit the loop.
pub fn run<T>(repeats: u32, once: &mut dyn FnMut() -> T) -> f64 {
    let start = Instant::now();
    for _ in 0..repeats {
        black_box(once());
    }
    start.elapsed().as_nanos() as f64 / f64::from(repeats)
}

// How many runs fill a turn of some nanoseconds, by the quickest of a few, so that a busy moment does not make the turns short.
pub fn repeats_in<T>(turn: f64, once: &mut dyn FnMut() -> T) -> u32 {
    let quickest = (0..5).map(|_| run(3, once)).fold(f64::MAX, f64::min);
    (turn / quickest).max(1.0) as u32
}

pub fn median(mut v: Vec<f64>) -> f64 {
    v.sort_by(f64::total_cmp);
    v[v.len() / 2]
}

// The median of the ratios within each round, so that a slow moment of the machine hits both.
pub fn ratio(a: &[f64], b: &[f64]) -> f64 {
    median(a.iter().zip(b).map(|(x, y)| x / y).collect())
}

// Three digits that count.
pub fn digits(x: f64) -> String {
    let places = (2.0 - x.log10().floor()).clamp(0.0, 5.0) as usize;
    format!("{x:.places$}")
}
