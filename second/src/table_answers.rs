//! The expected answer line of each case about a table.

use crate::frames::{checksum, Case};
use crate::table::{copy, cut, locate, pieces, well_formed, Table};
use crate::table_case::{summary_numbers, TableCase, COPY, CUT, LOCATE, PIECES};
use crate::words::{byte_memory, dataset_bytes, memory};

/// The answer line of a case, without its line feed; none for a broken case.
pub fn answer(case: &Case) -> Option<String> {
    if case.letter != b't' {
        return None;
    }
    let (numbers, h) = results(&TableCase::read(&case.payload)?);
    let words: Vec<String> = numbers.iter().map(u64::to_string).collect();
    Some(format!("t {} {h}", words.join(" ")))
}

/// The answer's numbers, and the checksum of all lent output.
fn results(case: &TableCase) -> (Vec<u64>, u64) {
    let table = Table { summary: &case.summary, captures: &case.captures, annotations: &case.annotations };
    let (a, b, sizes) = (case.a, case.b, &case.sizes);
    match case.operation {
        LOCATE => {
            let place = locate(&table, a);
            (vec![place.refusal, place.byte], checksum([]))
        }
        PIECES => {
            let mut lent = memory(sizes[0]);
            let written = pieces(&table, a, b, &mut lent);
            (vec![written.refusal, written.count], checksum(lent))
        }
        CUT => {
            let (mut captures, mut annotations) = (memory(sizes[0]), memory(sizes[1]));
            let summary = cut(&table, a, b, &mut captures, &mut annotations);
            captures.append(&mut annotations);
            (summary_numbers(&summary).to_vec(), checksum(captures))
        }
        COPY => {
            let dataset = dataset_bytes(sizes[0]);
            let mut output = byte_memory(sizes[1]);
            let written = copy(&table, &dataset, a, b, &mut output);
            (vec![written.refusal, written.count], checksum(output.iter().map(|&x| u64::from(x))))
        }
        _ => (vec![u64::from(well_formed(&table))], checksum([])),
    }
}
