//! Programs with one fault each: the answer lines of the fixed cases, and of the
//! random ones, tell them from the right one.

use crate::frames::Case;
use crate::listing_case::ListingCase;
use crate::steps::State;
use crate::stored::{file_of, HEAD, OPENING, ROW};
use crate::storing_answers::{answer, loaded_line, stored_line};
use crate::storing_case::{LoadingCase, StoringCase};
use crate::storing_cases::{fixed_cases, storing_cases};
use crate::table::{well_formed, Summary, Written};
use crate::table_case::summary_of;
use crate::words::{byte_memory, memory};

/// What a program gets wrong.
#[derive(Clone, Copy, PartialEq, Eq, Debug)]
enum Fault {
    Nothing,
    AnnotationsFirst,
    BigEndian,
    BigEndianVersion,
    SecondVersion,
    AnyVersion,
    BytesAfter,
    FormBeforeLength,
    RoomBeforeForm,
    WrappedLength,
    WrappedRows,
    PartOnRefusal,
    RowsBeyond,
}

use Fault::*;

const FAULTS: [Fault; 12] = [
    AnnotationsFirst, BigEndian, BigEndianVersion, SecondVersion, AnyVersion, BytesAfter, FormBeforeLength, RoomBeforeForm, WrappedLength, WrappedRows,
    PartOnRefusal, RowsBeyond,
];

/// The numbers of bytes.
fn numbers(fault: Fault, bytes: &[u8]) -> Vec<u64> {
    let number = if fault == BigEndian { u64::from_be_bytes } else { u64::from_le_bytes };
    bytes.chunks_exact(8).map(|eight| number(eight.try_into().unwrap())).collect()
}

fn opens(fault: Fault, file: &[u8]) -> bool {
    match fault {
        BigEndianVersion => file.starts_with(b"SGT\0\x01"),
        SecondVersion => file.starts_with(b"SGT\x01\0") || file.starts_with(b"SGT\x02\0"),
        AnyVersion => file.len() >= OPENING && file.starts_with(b"SGT"),
        _ => file.starts_with(b"SGT\x01\0"),
    }
}

fn fits(fault: Fault, length: usize, s: &Summary) -> bool {
    let rows = u128::from(s.captures) + u128::from(s.annotations);
    let whole = HEAD as u128 + rows * ROW as u128;
    match fault {
        BytesAfter => whole <= length as u128,
        WrappedLength => whole as u64 == length as u64,
        WrappedRows => HEAD as u128 + u128::from(rows as u64) * ROW as u128 == length as u128,
        _ => whole == length as u128,
    }
}

/// The rows of a file: the captures, then the annotations.
fn rows(fault: Fault, file: &[u8], s: &Summary) -> (Vec<u64>, Vec<u64>) {
    let mut all = numbers(fault, &file[HEAD..]);
    let first = if fault == AnnotationsFirst { s.annotations } else { s.captures };
    let mut rest = all.split_off((first as usize).saturating_mul(4).min(all.len()));
    rest.truncate((s.captures.saturating_add(s.annotations) as usize).saturating_mul(4).saturating_sub(all.len()));
    if fault == AnnotationsFirst { (rest, all) } else { (all, rest) }
}

/// As many of the rows as there is room for.
fn put<T: Copy>(rows: &[T], lent: &mut [T]) {
    lent.iter_mut().zip(rows).for_each(|(slot, x)| *slot = *x);
}

fn load(fault: Fault, case: &LoadingCase) -> (Summary, Vec<u64>, Vec<u64>) {
    let (file, mut captures, mut annotations) = (&case.file, memory(case.captures), memory(case.annotations));
    if !opens(fault, file) || file.len() < HEAD {
        let refusal = if opens(fault, file) { 22 } else { 21 };
        return (Summary::refused(refusal), captures, annotations);
    }
    let summary = summary_of(&numbers(fault, &file[OPENING..HEAD]));
    let (c, n) = rows(fault, file, &summary);
    let state = State { summary, captures: c.clone(), annotations: n.clone(), dataset: Vec::new() };
    let length = (22, fits(fault, file.len(), &summary));
    let form = (18, well_formed(&state.table()));
    let room = (20, c.len() <= captures.len() && n.len() <= annotations.len());
    let order = match fault {
        FormBeforeLength => [form, length, room],
        RoomBeforeForm => [length, room, form],
        _ => [length, form, room],
    };
    let refusal = order.iter().find(|(_, good)| !good).map_or(0, |(number, _)| *number);
    if refusal == 0 || fault == PartOnRefusal {
        put(&c, &mut captures);
        put(&n, &mut annotations);
    }
    if refusal == 0 && fault == RowsBeyond {
        captures.iter_mut().skip(c.len()).for_each(|x| *x = 0);
    }
    (if refusal == 0 { summary } else { Summary::refused(refusal) }, captures, annotations)
}

fn store(fault: Fault, case: &ListingCase) -> (Written, Vec<u8>) {
    let (table, mut output) = (case.table(), byte_memory(case.number));
    let (mut c, mut n) = (table.capture_rows().concat(), table.annotation_rows().concat());
    if fault == AnnotationsFirst {
        std::mem::swap(&mut c, &mut n);
    }
    let mut file = file_of(table.summary, &c, &n);
    match fault {
        BigEndian => file[OPENING..].chunks_exact_mut(8).for_each(<[u8]>::reverse),
        BigEndianVersion => file[3..OPENING].reverse(),
        _ => {}
    }
    let form = (18, well_formed(&table));
    let room = (20, file.len() <= output.len());
    let order = if fault == RoomBeforeForm { [room, form] } else { [form, room] };
    let refusal = order.iter().find(|(_, good)| !good).map_or(0, |(number, _)| *number);
    if refusal == 0 || fault == PartOnRefusal {
        put(&file, &mut output);
    }
    let count = if refusal == 0 { file.len() as u64 } else { 0 };
    (Written { refusal, count }, output)
}

/// Whether a program with a fault answers a case as the right one does.
fn same(fault: Fault, frame: &Case) -> bool {
    let line = match StoringCase::read(frame).unwrap() {
        StoringCase::Store(case) => stored_line(store(fault, &case)),
        StoringCase::Load(case) => loaded_line(load(fault, &case)),
    };
    answer(frame) == Some(line)
}

#[test]
fn every_fault_is_seen() {
    let fixed = fixed_cases();
    let random = storing_cases(1, 3_000).split_off(fixed.len());
    for cases in [fixed, random] {
        assert!(cases.iter().all(|case| same(Nothing, case)));
        for fault in FAULTS {
            let seen = cases.iter().filter(|case| !same(fault, case)).count();
            assert!(seen >= 2, "{fault:?}: {seen}");
        }
    }
}
