//! Cuts and copies one after the other, and what they are compared with.

use crate::table::{bytes_by_samples, copy, cut, shared_by_bounds, well_formed, Row, Summary, Table};

/// A table with its dataset.
#[derive(Clone, PartialEq, Eq, Debug)]
pub struct State {
    pub summary: Summary,
    pub captures: Vec<u64>,
    pub annotations: Vec<u64>,
    pub dataset: Vec<u8>,
}

impl State {
    /// The table lent from the state.
    pub fn table(&self) -> Table<'_> {
        Table { summary: &self.summary, captures: &self.captures, annotations: &self.annotations }
    }

    /// The summary, the rows it counts and the dataset, without memory beyond.
    pub fn content(&self) -> (Summary, Vec<Row>, Vec<Row>, &[u8]) {
        let table = self.table();
        (self.summary, table.capture_rows(), table.annotation_rows(), &self.dataset)
    }
}

/// "a step asks the cut and copy of any a and b, into other memory of any size".
/// The rooms are the lengths of the lent memory: numbers for rows, bytes.
#[derive(Clone, Copy, PartialEq, Eq, Debug)]
pub struct Step {
    pub a: u64,
    pub b: u64,
    pub capture_room: usize,
    pub annotation_room: usize,
    pub byte_room: usize,
}

/// The refusals of the cut and of the copy, 0 for acceptance.
pub type Refusals = (u64, u64);

/// "It is accepted if both are, and leaves the cut's table and, as dataset, the
/// bytes copied; otherwise the old ones."
pub fn run_step(state: &mut State, step: &Step) -> Refusals {
    let mut captures = vec![0; step.capture_room];
    let mut annotations = vec![0; step.annotation_room];
    let mut output = vec![0; step.byte_room];
    let summary = cut(&state.table(), step.a, step.b, &mut captures, &mut annotations);
    let copied = copy(&state.table(), &state.dataset, step.a, step.b, &mut output);
    if summary.refusal == 0 && copied.refusal == 0 {
        output.truncate(copied.count as usize);
        *state = State { summary, captures, annotations, dataset: output };
    }
    (summary.refusal, copied.refusal)
}

/// "What this is compared with keeps only the original and the last accepted
/// range, and is fed only each step's a, b and memory sizes."
#[derive(Clone, PartialEq, Eq, Debug)]
pub struct Model {
    pub original: State,
    pub range: Option<(u64, u64)>,
}

impl Model {
    /// The model before the first step.
    pub fn new(original: State) -> Model {
        Model { original, range: None }
    }

    /// The refusals of a step, from the original and the range alone.
    pub fn step(&mut self, step: &Step) -> Refusals {
        let refusals = self.refusals(step);
        if refusals == (0, 0) {
            self.range = Some((step.a, step.b));
        }
        refusals
    }

    fn refusals(&self, step: &Step) -> Refusals {
        let table = self.original.table();
        if !well_formed(&table) {
            return (18, 18);
        }
        let fits = self.original.dataset.len() as u64 == self.original.summary.dataset;
        let whole = (u128::from(self.original.summary.offset), table.end());
        let (low, high) = self.range.map_or(whole, |(a, b)| (a.into(), b.into()));
        if u128::from(step.a) < low || u128::from(step.b) > high || step.a > step.b {
            return (19, if fits { 19 } else { 18 });
        }
        let kept = |rows: Vec<Row>| {
            let shared = |r: &&Row| shared_by_bounds(r[0], r[1], step.a, step.b).is_some();
            rows.iter().filter(shared).count()
        };
        let captures_fit = kept(table.capture_rows()) <= step.capture_room / 4;
        let annotations_fit = kept(table.annotation_rows()) <= step.annotation_room / 4;
        let bytes = u128::from(step.b - step.a) * u128::from(self.original.summary.width);
        let cut = if captures_fit && annotations_fit { 0 } else { 20 };
        let copy = if bytes <= step.byte_room as u128 { 0 } else { 20 };
        (cut, if fits { copy } else { 18 })
    }

    /// The table and dataset that the model stands for.
    pub fn content(&self) -> (Summary, Vec<Row>, Vec<Row>, Vec<u8>) {
        let (summary, captures, annotations, dataset) = self.original.content();
        let Some((a, b)) = self.range else {
            return (summary, captures, annotations, dataset.to_vec());
        };
        let width = summary.width;
        let clip = |r: &Row| Some((*r, shared_by_bounds(r[0], r[1], a, b)?));
        let captures: Vec<Row> = captures.iter().filter_map(clip).map(|(_, (s, e))| [s, e, (s - a) * width, 0]).collect();
        let annotations: Vec<Row> = annotations.iter().filter_map(clip).map(|(r, (s, e))| [s, e, r[2], r[3]]).collect();
        let bytes = bytes_by_samples(&self.original.table(), dataset, a, b);
        let summary = Summary {
            offset: a,
            samples: b - a,
            trailing: 0,
            dataset: (b - a) * width,
            captures: captures.len() as u64,
            annotations: annotations.len() as u64,
            ..summary
        };
        (summary, captures, annotations, bytes)
    }
}
