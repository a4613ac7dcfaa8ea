//! The expected answer line of each case about label lookup, the listing and the
//! program's first line.

use crate::frames::{checksum, Case};
use crate::listing::{first_line, label, listing};
use crate::listing_case::{ListingCase, LISTING, LOOKUP};
use crate::words::byte_memory;

/// The answer line of a case, without its line feed; none for a broken case.
pub fn answer(case: &Case) -> Option<String> {
    match case.letter {
        LOOKUP => Some(lookup_answer(&ListingCase::read(case)?)),
        LISTING => Some(listing_answer(&ListingCase::read(case)?)),
        b'q' => Some(first_line_answer(&case.payload)),
        _ => None,
    }
}

/// The checksum of bytes.
fn sum(bytes: &[u8]) -> u64 {
    checksum(bytes.iter().map(|&b| u64::from(b)))
}

/// `l`: the refusal, whether there is a label, and its part.
fn lookup_answer(case: &ListingCase) -> String {
    let found = label(&case.table(), &case.metadata, case.number);
    format!("l {} {} {} {}", found.refusal, u8::from(found.present), found.part.len(), sum(found.part))
}

/// `p`: the refusal, the bytes written, and the lent output afterwards.
fn listing_answer(case: &ListingCase) -> String {
    let mut output = byte_memory(case.number);
    let written = listing(&case.table(), &case.metadata, &mut output);
    format!("p {} {} {}", written.refusal, written.count, sum(&output))
}

/// `q`: D and the place past the line feed; a D above 2^64 - 1 is none.
fn first_line_answer(input: &[u8]) -> String {
    let found = first_line(input).and_then(|(d, rest)| Some((u64::try_from(d).ok()?, input.len() - rest.len())));
    found.map_or("q 0".to_string(), |(d, place)| format!("q 1 {d} {place}"))
}
