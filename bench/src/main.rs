// Times the judge and the reader against serde_json on texts of each kind and length, the copy against memcpy, pieces and places
// by the row, the writer against serde_json, the load of a stored table against the reader, and a text judged as it arrives against the judge, all interleaved, and
// prints ratios.
mod copies;
#[path = "../../crates/export/export.rs"]
#[allow(dead_code)]
mod export;
#[path = "../../crates/export_stored/export_stored.rs"]
mod export_stored;
#[path = "../../crates/export_stream/export_stream.rs"]
mod export_stream;
#[path = "../../crates/export_writer/export_writer.rs"]
mod export_writer;
mod plain;
mod rows;
mod shared;
mod stored;
mod streamed;
mod texts;
mod typed;
mod writes;

use export::{json_judge, recording_read};
use shared::{digits, median, ratio, repeats_in, rounds, run, DATASET, ROWS, SIZES, TURN};
use std::hint::black_box;
use texts::{COSTLY, KINDS, ORDINARY};

type Parser = fn(&[u8]) -> bool;

// The judge is the first. Only recordings have the last two, the typed parse and the reader.
const PARSERS: [Parser; 5] = [judge, value, ignored, recording, read];
const TYPED: usize = 3;
const READER: usize = 4;

fn judge(text: &[u8]) -> bool {
    json_judge(text) == 0
}

fn value(text: &[u8]) -> bool {
    serde_json::from_slice::<serde_json::Value>(text)
        .map(black_box)
        .is_ok()
}

fn ignored(text: &[u8]) -> bool {
    serde_json::from_slice::<serde::de::IgnoredAny>(text).is_ok()
}

fn recording(text: &[u8]) -> bool {
    serde_json::from_slice::<typed::Recording>(text)
        .map(|r| drop(black_box(r)))
        .is_ok()
}

fn read(text: &[u8]) -> bool {
    ROWS.with_borrow_mut(|[rows, notes]| black_box(recording_read(text, DATASET, rows, notes)).refusal == 0)
}

// A text of a kind and a size, with the times of each parser: for each round, the nanoseconds of one run.
struct Case {
    text: Vec<u8>,
    parsers: usize,
    repeats: [u32; 5],
    times: [Vec<f64>; 5],
}

impl Case {
    fn new(kind: usize, size: usize) -> Case {
        let text = (KINDS[kind].make)(size).into_bytes();
        assert!(
            text.len() <= size,
            "{} is too long: {} bytes",
            KINDS[kind].name,
            text.len()
        );
        let parsers = if KINDS[kind].recording { 5 } else { 3 };
        let mut repeats = [1; 5];
        for p in 0..parsers {
            assert!(
                PARSERS[p](&text),
                "parser {p} refuses {} of {} bytes",
                KINDS[kind].name,
                text.len()
            );
            repeats[p] = repeats_in(TURN, &mut || PARSERS[p](black_box(&text)));
        }
        Case {
            text,
            parsers,
            repeats,
            times: Default::default(),
        }
    }

    // Each parser has its turn, another one first in each round.
    fn round(&mut self, round: usize) {
        for i in 0..self.parsers {
            let p = (i + round) % self.parsers;
            let time = run(self.repeats[p], &mut || PARSERS[p](black_box(&self.text)));
            self.times[p].push(time);
        }
    }

    // The judge's nanoseconds for a byte, by round.
    fn per_byte(&self) -> Vec<f64> {
        self.times[0]
            .iter()
            .map(|t| t / self.text.len() as f64)
            .collect()
    }
}

fn print_speeds(cases: &[Vec<Case>]) {
    println!("The judge's speed, and that speed over serde_json's (above 1 the judge is faster)\n");
    println!(
        "{:12} {:>6} {:>7} {:>10} {:>10} {:>10}",
        "text", "bytes", "MB/s", "Value", "IgnoredAny", "typed"
    );
    for (kind, row) in KINDS.iter().zip(cases) {
        for case in row {
            let speed = 1e3 / median(case.per_byte());
            print!(
                "{:12} {:>6} {:>7}",
                kind.name,
                case.text.len(),
                digits(speed)
            );
            for p in 1..case.parsers.min(READER) {
                print!(" {:>10}", digits(ratio(&case.times[p], &case.times[0])));
            }
            println!();
        }
    }
}

fn print_reads(cases: &[Vec<Case>]) {
    println!("\nThe reader's speed, and that speed over serde_json's; the last column is its time for the text over that for the size before\n");
    println!(
        "{:12} {:>6} {:>7} {:>10} {:>10} {:>10} {:>8}",
        "text", "bytes", "MB/s", "Value", "IgnoredAny", "typed", "growth"
    );
    for (kind, row) in KINDS.iter().zip(cases).filter(|(kind, _)| kind.recording) {
        for (i, case) in row.iter().enumerate() {
            let own = &case.times[READER];
            let speed = 1e3 * case.text.len() as f64 / median(own.clone());
            print!("{:12} {:>6} {:>7}", kind.name, case.text.len(), digits(speed));
            for p in 1..=TYPED {
                print!(" {:>10}", digits(ratio(&case.times[p], own)));
            }
            if i > 0 {
                print!(" {:>8}", digits(ratio(own, &row[i - 1].times[READER])));
            }
            println!();
        }
    }
}

fn print_growth(cases: &[Vec<Case>]) {
    println!("\nThe judge's time for an eightfold text over that for the text (8 is linear)\n");
    println!("{:12} {:>12} {:>12}", "text", "1 to 8 KB", "8 to 60 KB");
    for (kind, row) in KINDS.iter().zip(cases) {
        let small = 8.0 * ratio(&row[1].per_byte(), &row[0].per_byte());
        let large = 8.0 * ratio(&row[2].per_byte(), &row[1].per_byte());
        println!(
            "{:12} {:>12} {:>12}",
            kind.name,
            digits(small),
            digits(large)
        );
    }
}

fn print_worst(cases: &[Vec<Case>]) {
    println!(
        "\nThe judge's time for the costliest names over that for {} of the same length\n",
        KINDS[ORDINARY].name
    );
    println!("{:12} {:>8} {:>8} {:>8}", "text", "1 KB", "8 KB", "60 KB");
    for kind in COSTLY {
        print!("{:12}", KINDS[kind].name);
        for (case, ordinary) in cases[kind].iter().zip(&cases[ORDINARY]) {
            let times = ratio(&case.per_byte(), &ordinary.per_byte());
            print!(" {:>8}", digits(times));
        }
        println!();
    }
}

fn main() {
    let rounds = rounds();
    // The archive holds the judge that is meant: a good text, no JSON, and a name that stands twice.
    assert_eq!(
        [
            json_judge(b"[1]"),
            json_judge(b"[1"),
            json_judge(br#"{"a":1,"\u0061":2}"#)
        ],
        [0, 2, 3]
    );
    let row = |kind| SIZES.iter().map(|size| Case::new(kind, *size)).collect();
    let mut cases: Vec<Vec<Case>> = (0..KINDS.len()).map(row).collect();
    for round in 0..rounds {
        for case in cases.iter_mut().flatten() {
            case.round(round);
        }
    }
    print_speeds(&cases);
    print_reads(&cases);
    print_growth(&cases);
    print_worst(&cases);
    copies::print_copies(rounds);
    rows::print_rows(rounds);
    writes::print_writes(rounds);
    stored::print_stored(rounds);
    streamed::print_streamed(rounds);
}
