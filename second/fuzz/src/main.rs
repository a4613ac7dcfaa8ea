//! Compares the proved functions with the second program on fresh random and mutated cases, for as long as it is told.

#[path = "../../../crates/export/export.rs"]
mod export;
#[path = "../../../crates/export_listing/export_listing.rs"]
mod export_listing;
#[path = "../../../crates/export_names/export_names.rs"]
mod export_names;
#[path = "../../../crates/export_stored/export_stored.rs"]
mod export_stored;
#[path = "../../../crates/export_stream/export_stream.rs"]
mod export_stream;
#[path = "../../../crates/export_writer/export_writer.rs"]
mod export_writer;

use export::{Answer, Summary};
use export_listing::Labelled;
use export_names::NameLookup;
use second::fields::{look_up, Place};
use second::frames::{write_frames, Case};
use second::json_random::mutate;
use second::listing::{label, listing};
use second::listing_case::{ListingCase, LISTING};
use second::rng::Rng;
use second::steps::{State, Step};
use second::steps_case::StepsCase;
use second::storing_case::{LoadingCase, StoringCase};
use second::stream_answers::{fed_chunks, fed_states};
use second::stream_case::{Chunk, StreamCase};
use second::table::{copy, cut, locate, pieces, Table, Written};
use second::table_case::{summary_numbers, TableCase, COPY, CUT, LOCATE, PIECES};
use second::words::{byte_memory, dataset_bytes, memory};
use second::writer::{reads_back, write};
use second::{field_random, json_answers, json_random, listing_random, reading_answers, reading_random};
use second::{steps_answers, steps_random, storing_answers, storing_random, stream, stream_random, table_random, writing_random};
use std::process::ExitCode;
use std::time::{Duration, Instant};

/// A kind of case: a fresh one is answered by both programs, and handed back where they disagree.
type Compare = fn(&mut Rng) -> Result<(), Case>;

const KINDS: [(&str, Compare); 9] = [
    ("json", json), ("reading", reading), ("tables", tables), ("listings", listings), ("writing", writing), ("steps", steps), ("names", names),
    ("storing", storing), ("stream", streams),
];

fn agree(same: bool, case: Case) -> Result<(), Case> {
    if same {
        Ok(())
    } else {
        Err(case)
    }
}

/// The second program's summary as the exported functions have it.
fn numbers(summary: &second::table::Summary) -> Summary {
    let [refusal, datatype, channels, width, offset, trailing, samples, size, captures, annotations, rate, ratelen] =
        summary_numbers(summary);
    Summary { refusal, datatype, channels, width, offset, trailing, samples, size, captures, annotations, rate, ratelen }
}

/// A table lent to the exported functions.
fn lent<'a>(table: &Table<'a>) -> export::Table<'a> {
    export::Table { summary: numbers(table.summary), captures: table.captures, annotations: table.annotations }
}

fn answer(written: Written) -> Answer {
    Answer { refusal: written.refusal, number: written.count }
}

/// A JSON text, judged by both.
fn json(rng: &mut Rng) -> Result<(), Case> {
    let case = loop {
        let case = json_random::random_case(rng);
        if case.letter == b'j' {
            break case;
        }
    };
    let expected = json_answers::answer(&case).and_then(|line| line.split(' ').nth(1)?.parse().ok());
    agree(expected == Some(export::json_judge(&case.payload)), case)
}

/// A recording, mutated or not, read by both, with the lent memory afterwards.
fn reading(rng: &mut Rng) -> Result<(), Case> {
    let mut case = reading_random::random_case(rng);
    if rng.once_in(2) {
        mutate(rng, &mut case.text);
    }
    let (summary, captures, annotations) = reading_answers::result(&case);
    let (mut rows, mut notes) = (memory(case.captures), memory(case.annotations));
    let found = export::recording_read(&case.text, case.dataset, &mut rows, &mut notes);
    agree((found, rows, notes) == (numbers(&summary), captures, annotations), case.frame())
}

/// A sample's place, the pieces, the cut or the copy of a range of an honest or forged table by both, with the lent memory afterwards.
fn tables(rng: &mut Rng) -> Result<(), Case> {
    let case = table_random::random_case(rng);
    let table = Table { summary: &case.summary, captures: &case.captures, annotations: &case.annotations };
    agree(same_answer(&case, &table, &lent(&table)), case.frame())
}

fn same_answer(case: &TableCase, table: &Table, t: &export::Table) -> bool {
    let (a, b, sizes) = (case.a, case.b, &case.sizes);
    match case.operation {
        PIECES => {
            let (mut one, mut other) = (memory(sizes[0]), memory(sizes[0]));
            answer(pieces(table, a, b, &mut one)) == t.pieces(a, b, &mut other) && one == other
        }
        CUT => {
            let mut one = (memory(sizes[0]), memory(sizes[1]));
            let mut other = one.clone();
            let summary = cut(table, a, b, &mut one.0, &mut one.1);
            numbers(&summary) == t.cut(a, b, &mut other.0, &mut other.1) && one == other
        }
        COPY => {
            let bytes = dataset_bytes(sizes[0]);
            let (mut one, mut other) = (byte_memory(sizes[1]), byte_memory(sizes[1]));
            answer(copy(table, &bytes, a, b, &mut one)) == t.copy(&bytes, a, b, &mut other) && one == other
        }
        // Whether a table is well formed is not exported; the place of its first sample tells.
        _ => {
            let i = if case.operation == LOCATE { a } else { table.summary.offset };
            let place = locate(table, i);
            Answer { refusal: place.refusal, number: place.byte } == t.locate(i)
        }
    }
}

/// A label, or the listing, of a table and its metadata by both, with the lent output afterwards.
fn listings(rng: &mut Rng) -> Result<(), Case> {
    let case = loop {
        if let Some(case) = ListingCase::read(&listing_random::random_case(rng)) {
            break case;
        }
    };
    let (table, text) = (case.table(), &case.metadata);
    let same = if case.letter == LISTING {
        let (mut one, mut other) = (byte_memory(case.number), byte_memory(case.number));
        answer(listing(&table, text, &mut one)) == lent(&table).listing(text, &mut other) && one == other
    } else {
        let expected = label(&table, text, case.number);
        let Labelled { refusal, present, label, labellen } = lent(&table).label(text, case.number);
        let part = text.get(label as usize..(label + labellen) as usize);
        (refusal, present, part) == (expected.refusal, u64::from(expected.present), Some(expected.part))
    };
    agree(same, case.frame())
}

/// The metadata of a table by both, with the lent output afterwards; where it was written, it reads back as the table.
fn writing(rng: &mut Rng) -> Result<(), Case> {
    let frame = writing_random::random_case(rng);
    let case = ListingCase::read(&frame).expect("a case that was just made");
    let (table, text) = (case.table(), &case.metadata);
    let (mut one, mut other) = (byte_memory(case.number), byte_memory(case.number));
    let expected = write(&table, text, &mut one);
    let same = answer(expected) == lent(&table).metadata(text, &mut other) && one == other;
    agree(same && (expected.refusal != 0 || reads_back(&table, text, &other[..expected.count as usize])), frame)
}

/// Cuts and copies one after the other, refused ones included, by both.
fn steps(rng: &mut Rng) -> Result<(), Case> {
    let case: StepsCase = steps_random::random_case(rng);
    let (expected, last) = steps_answers::run(&case);
    let (mut state, mut summary) = (case.state.clone(), numbers(&case.state.summary));
    let refusals: Vec<u64> = case.steps.iter().map(|step| take(&mut state, &mut summary, step)).collect();
    let same = refusals == expected
        && summary == numbers(&last.summary)
        && (state.captures, state.annotations, state.dataset) == (last.captures, last.annotations, last.dataset);
    agree(same, case.frame())
}

/// One step by the exported functions: the refusal of the cut, or else that of the copy.
fn take(state: &mut State, summary: &mut Summary, step: &Step) -> u64 {
    let table = export::Table { summary: *summary, captures: &state.captures, annotations: &state.annotations };
    let (mut captures, mut annotations) = (vec![0; step.capture_room], vec![0; step.annotation_room]);
    let mut output = vec![0; step.byte_room];
    let part = table.cut(step.a, step.b, &mut captures, &mut annotations);
    let copied = table.copy(&state.dataset, step.a, step.b, &mut output);
    if part.refusal == 0 && copied.refusal == 0 {
        output.truncate(copied.number as usize);
        *summary = part;
        *state = State { summary: state.summary, captures, annotations, dataset: output };
    }
    if part.refusal == 0 {
        copied.refusal
    } else {
        part.refusal
    }
}

/// A name, mutated or not, looked up by both.
fn names(rng: &mut Rng) -> Result<(), Case> {
    let mut case = field_random::random_name(rng);
    if rng.once_in(2) {
        mutate(rng, &mut case.payload);
    }
    let (place, found) = match case.letter {
        b'g' => (Place::Global, export_names::global_lookup(&case.payload)),
        b'c' => (Place::Capture, export_names::capture_lookup(&case.payload)),
        _ => (Place::Annotation, export_names::annotation_lookup(&case.payload)),
    };
    let (number, compared) = look_up(place, &case.payload);
    agree(found == NameLookup { number, compared }, case)
}

/// A table stored or a file loaded by both, with the lent memory afterwards; what was stored loads back, and what was loaded stores back.
fn storing(rng: &mut Rng) -> Result<(), Case> {
    let frame = storing_random::random_case(rng);
    let case = StoringCase::read(&frame).expect("a case that was just made");
    let same = match &case {
        StoringCase::Store(case) => same_stored(case),
        StoringCase::Load(case) => same_loaded(case),
    };
    agree(same, frame)
}

fn same_stored(case: &ListingCase) -> bool {
    let (expected, output) = storing_answers::stored(case);
    let table = lent(&case.table());
    let mut other = byte_memory(case.number);
    let same = table.store(&mut other) == answer(expected) && other == output;
    same && (expected.refusal != 0 || loads_back(&table, &other[..expected.count as usize]))
}

fn loads_back(table: &export::Table, file: &[u8]) -> bool {
    let captures = &table.captures[..4 * table.summary.captures as usize];
    let annotations = &table.annotations[..4 * table.summary.annotations as usize];
    let (mut rows, mut notes) = (memory(captures.len() as u64), memory(annotations.len() as u64));
    let summary = export_stored::load(file, &mut rows, &mut notes);
    summary == table.summary && rows == captures && notes == annotations
}

fn same_loaded(case: &LoadingCase) -> bool {
    let (expected, captures, annotations) = storing_answers::loaded(case);
    let (mut rows, mut notes) = (memory(case.captures), memory(case.annotations));
    let summary = export_stored::load(&case.file, &mut rows, &mut notes);
    let same = summary == numbers(&expected) && rows == captures && notes == annotations;
    same && (summary.refusal != 0 || stores_back(&export::Table { summary, captures: &rows, annotations: &notes }, &case.file))
}

fn stores_back(table: &export::Table, file: &[u8]) -> bool {
    let mut back = byte_memory(file.len() as u64);
    let stored = table.store(&mut back);
    stored == Answer { refusal: 0, number: file.len() as u64 } && back == file
}

/// A text in chunks from its beginning or from a state on, or states in a row with one byte each, by both; states are honest or forged.
fn streams(rng: &mut Rng) -> Result<(), Case> {
    let frame = stream_random::random_case(rng);
    let same = match StreamCase::read(&frame).expect("a case that was just made") {
        StreamCase::Chunks(start, chunks) => same_chunks(start, &chunks),
        StreamCase::States(first, step, count) => same_states(&first, &step, count),
    };
    agree(same, frame)
}

/// The second program's state as the exported functions have it.
fn handed_in(state: stream::State) -> export_stream::State {
    let [place, token, stack, count] = state.numbers();
    export_stream::State { place, token, stack, count: count as usize }
}

/// The second program's answers, with those of finishing, as the exported functions give them.
fn answers(list: Vec<(stream::Fed, u64)>) -> Vec<(export_stream::Fed, u64)> {
    let one = |fed: stream::Fed| export_stream::Fed { refusal: fed.refusal, lost: u64::from(fed.lost), state: handed_in(fed.state) };
    list.into_iter().map(|(fed, finish)| (one(fed), finish)).collect()
}

fn same_chunks(start: Option<stream::State>, chunks: &[Chunk]) -> bool {
    let mut state = start.map_or_else(export_stream::fresh, handed_in);
    let mut found = vec![(export_stream::Fed { refusal: 0, lost: 0, state }, state.finish())];
    for chunk in chunks {
        let fed = state.feed(&chunk.bytes());
        state = fed.state;
        found.push((fed, state.finish()));
    }
    found == answers(fed_chunks(start, chunks))
}

fn same_states(first: &stream::State, step: &[u64; 4], count: u64) -> bool {
    let one = |k| {
        let state = handed_in(StreamCase::state_in_row(first, step, k));
        (state.feed(&[k as u8]), state.finish())
    };
    let found: Vec<(export_stream::Fed, u64)> = (0..count).map(one).collect();
    found == answers(fed_states(first, step, count))
}

/// How many cases of each kind agreed.
fn counted(counts: &[u64]) -> String {
    let words: Vec<String> = KINDS.iter().zip(counts).map(|((name, _), n)| format!("{name} {n}")).collect();
    words.join(", ")
}

fn run(minutes: u64, seed: u64) -> ExitCode {
    let mut rng = Rng::new(seed);
    let mut counts = [0u64; KINDS.len()];
    let (start, mut said) = (Instant::now(), Instant::now());
    while start.elapsed() < Duration::from_secs(60 * minutes) {
        for (count, (name, compare)) in counts.iter_mut().zip(KINDS) {
            for _ in 0..100 {
                if let Err(case) = compare(&mut rng) {
                    let file = format!("disagreement-{name}-{seed}-{count}");
                    let stored = std::fs::write(&file, write_frames(&[case]));
                    eprintln!("{name}: the programs disagree; the case is in {file} ({stored:?})");
                    return ExitCode::FAILURE;
                }
                *count += 1;
            }
        }
        if said.elapsed() > Duration::from_secs(10) {
            said = Instant::now();
            println!("{} s: {}", start.elapsed().as_secs(), counted(&counts));
        }
    }
    println!("no disagreement: seed {seed}, {minutes} minutes, {}", counted(&counts));
    ExitCode::SUCCESS
}

fn main() -> ExitCode {
    let numbers: Vec<Option<u64>> = std::env::args().skip(1).map(|word| word.parse().ok()).collect();
    match numbers.as_slice() {
        [Some(minutes)] => run(*minutes, 1),
        [Some(minutes), Some(seed)] => run(*minutes, *seed),
        _ => {
            eprintln!("usage: fuzz MINUTES [SEED]");
            ExitCode::from(2)
        }
    }
}
