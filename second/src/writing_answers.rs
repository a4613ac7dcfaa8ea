//! The expected answer line of each case about written metadata.

use crate::frames::{checksum, Case};
use crate::listing_case::{ListingCase, WRITING};
use crate::table::Written;
use crate::words::byte_memory;
use crate::writer::{reads_back, write};

/// The answer line of a case, without its line feed; none for a broken case.
pub fn answer(case: &Case) -> Option<String> {
    if case.letter != WRITING {
        return None;
    }
    let (written, output) = result(&ListingCase::read(case)?);
    let sum = checksum(output.iter().map(|&b| u64::from(b)));
    Some(format!("w {} {} {sum}", written.refusal, written.count))
}

/// The refusal, the bytes written, and the lent output afterwards. What was written
/// is read back and compared with the table.
pub fn result(case: &ListingCase) -> (Written, Vec<u8>) {
    let mut output = byte_memory(case.number);
    let written = write(&case.table(), &case.metadata, &mut output);
    let text = &output[..written.count as usize];
    assert!(written.refusal != 0 || reads_back(&case.table(), &case.metadata, text), "{case:?}");
    (written, output)
}
