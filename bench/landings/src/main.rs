// Times this tree's lookup of names, reader and judge against those of an earlier commit, interleaved, and prints ratios.
#[path = "../../target/sides/before_export.rs"]
#[allow(dead_code)]
mod before_export;
#[path = "../../target/sides/before_export_names.rs"]
#[allow(dead_code)]
mod before_export_names;
mod names;
#[path = "../../target/sides/now_export.rs"]
#[allow(dead_code)]
mod now_export;
#[path = "../../target/sides/now_export_names.rs"]
#[allow(dead_code)]
mod now_export_names;
#[path = "../../src/shared.rs"]
mod shared;
#[path = "../../src/texts.rs"]
#[allow(dead_code)]
mod texts;

use names::{shuffled, Name, GROUPS, OBJECTS};
use shared::{digits, median, ratio, repeats_in, rounds, run, DATASET, ROWS, SIZES, TURN};
use std::hint::black_box;
use texts::{Kind, KINDS};

// The functions of a side, called by its own declarations.
struct Side {
    judge: fn(&[u8]) -> u32,
    // Fills the rows, and answers the refusal, or the whole summary in words.
    read: fn(&[u8]) -> u64,
    summary: fn(&[u8]) -> String,
    // For each kind of object: looks names up one after the other, and adds their numbers up.
    look_up: [fn(&[&[u8]]) -> usize; 3],
}

macro_rules! side {
    ($export:ident, $names:ident) => {
        Side {
            judge: $export::json_judge,
            read: |text| ROWS.with_borrow_mut(|[rows, notes]| $export::recording_read(text, DATASET, rows, notes).refusal),
            summary: |text| ROWS.with_borrow_mut(|[rows, notes]| format!("{:?}", $export::recording_read(text, DATASET, rows, notes))),
            look_up: [
                |names| names.iter().map(|name| $names::global_lookup(name).number).sum(),
                |names| names.iter().map(|name| $names::capture_lookup(name).number).sum(),
                |names| names.iter().map(|name| $names::annotation_lookup(name).number).sum(),
            ],
        }
    };
}

// The commit and this tree.
static SIDES: [Side; 2] = [side!(before_export, before_export_names), side!(now_export, now_export_names)];

// What both sides do, and their times: for each round, the nanoseconds of one run.
struct Case<'a> {
    name: String,
    work: Box<dyn Fn(&Side) -> usize + 'a>,
    // A run's nanoseconds over this are printed.
    unit: f64,
    repeats: [u32; 2],
    times: [Vec<f64>; 2],
}

impl<'a> Case<'a> {
    fn new(name: String, unit: f64, work: impl Fn(&Side) -> usize + 'a) -> Case<'a> {
        let repeats = [0, 1].map(|s| repeats_in(TURN, &mut || work(&SIDES[s])));
        Case { name, work: Box::new(work), unit, repeats, times: Default::default() }
    }

    // Looks up some names of each kind of object, all in one order; both sides find each where it is.
    fn lookup(name: String, names: [Vec<&'a Name>; 3]) -> Case<'a> {
        for (object, names) in names.iter().enumerate() {
            for name in names {
                let numbers = [0, 1].map(|s| (SIDES[s].look_up[object])(&[name.raw.as_bytes()]));
                assert_eq!(numbers, [name.number; 2], "{}", name.raw);
            }
        }
        let calls = names.map(|names| if names.is_empty() { Vec::new() } else { shuffled(&names) });
        let count = calls.iter().map(Vec::len).sum::<usize>();
        Case::new(name, count as f64, move |side| (0..3).map(|object| (side.look_up[object])(black_box(&calls[object]))).sum())
    }

    fn text(kind: &Kind, size: usize, work: fn(&Side, &[u8]) -> usize) -> Case<'a> {
        let text = (kind.make)(size).into_bytes();
        Case::new(format!("{:12} {:>6}", kind.name, text.len()), 1e3, move |side| work(side, black_box(&text)))
    }

    // Each side has its turn, the other one first in each round.
    fn round(&mut self, round: usize) {
        for i in 0..2 {
            let s = (i + round) % 2;
            let time = run(self.repeats[s], &mut || (self.work)(&SIDES[s]));
            self.times[s].push(time);
        }
    }
}

// Both sides judge a text alike and read it alike, summary and rows.
fn assert_alike(kind: &Kind, size: usize) {
    let text = (kind.make)(size).into_bytes();
    let answer = |side: &Side| {
        ROWS.with_borrow_mut(|memories| memories.iter_mut().for_each(|rows| rows.fill(0)));
        ((side.judge)(&text), (side.summary)(&text), ROWS.with_borrow(|rows| rows.concat()))
    };
    assert!(answer(&SIDES[0]) == answer(&SIDES[1]), "{} of {} bytes", kind.name, text.len());
    assert_eq!((SIDES[1].judge)(&text), 0);
    assert_eq!((SIDES[1].read)(&text) == 0, kind.recording);
}

fn print(title: &str, head: &str, cases: &[Case]) {
    println!("{title}\n");
    println!("{head:20} {:>8} {:>8} {:>8}", "before", "now", "ratio");
    for case in cases {
        let [before, now] = &case.times;
        let shown = |times: &[f64]| digits(median(times.to_vec()) / case.unit);
        println!("{:20} {:>8} {:>8} {:>8}", case.name, shown(before), shown(now), digits(ratio(before, now)));
    }
    println!();
}

fn main() {
    let rounds = rounds();
    let names = OBJECTS.map(|(_, place)| GROUPS.map(|(_, group)| group(place)));
    let mut lookups = Vec::new();
    for (o, (object, _)) in OBJECTS.iter().enumerate() {
        for (g, (group, _)) in GROUPS.iter().enumerate() {
            let mut own: [Vec<&Name>; 3] = Default::default();
            own[o] = names[o][g].iter().collect();
            lookups.push(Case::lookup(format!("{object:12}{group}"), own));
        }
    }
    let all = [0, 1, 2].map(|o| names[o].iter().flatten().collect());
    lookups.push(Case::lookup("all".to_string(), all));
    let texts = || KINDS.iter().flat_map(|kind| SIZES.map(|size| (kind, size)));
    texts().for_each(|(kind, size)| assert_alike(kind, size));
    let recordings = texts().filter(|(kind, _)| kind.recording);
    let mut reads: Vec<Case> = recordings.map(|(kind, size)| Case::text(kind, size, |side, text| (side.read)(text) as usize)).collect();
    let mut judges: Vec<Case> = texts().map(|(kind, size)| Case::text(kind, size, |side, text| (side.judge)(text) as usize)).collect();
    for round in 0..rounds {
        lookups.iter_mut().chain(&mut reads).chain(&mut judges).for_each(|case| case.round(round));
    }
    println!("Before over now: above 1 this tree is faster.\n");
    print("Looking up a name, in nanoseconds", "object      names", &lookups);
    print("Reading a recording, in microseconds", "text          bytes", &reads);
    print("Judging a text, in microseconds", "text          bytes", &judges);
}
