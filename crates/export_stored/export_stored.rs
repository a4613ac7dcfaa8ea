//! The functions of libexport_stored.a, which `scripts/staticlib export_stored` writes to target/staticlib/, for Rust, beside export.rs.
//! export_stored.h says what each does.

use crate::export::{Answer, Summary, Table};

mod c {
    use crate::export::{Answer, Summary};

    extern "C" {
        pub fn table_store(
            t: Summary,
            caps: *const u64,
            caps_len: usize,
            notes: *const u64,
            notes_len: usize,
            out: *mut u8,
            out_len: usize,
        ) -> Answer;
        pub fn table_load(
            file: *const u8,
            file_len: usize,
            caps: *mut u64,
            caps_len: usize,
            notes: *mut u64,
            notes_len: usize,
        ) -> Summary;
    }
}

/// How many bytes a table has in the stored form, by its captures and annotations together.
pub const fn stored_bytes(rows: usize) -> usize {
    101 + 32 * rows
}

// SAFETY, of both calls below: each pointer and length are those of a slice, so none is null; the slices that are written are
// borrowed uniquely, so they overlap no other.

impl Table<'_> {
    pub fn store(&self, out: &mut [u8]) -> Answer {
        let (t, caps, notes) = (self.summary, self.captures, self.annotations);
        unsafe { c::table_store(t, caps.as_ptr(), caps.len(), notes.as_ptr(), notes.len(), out.as_mut_ptr(), out.len()) }
    }
}

pub fn load(file: &[u8], caps: &mut [u64], notes: &mut [u64]) -> Summary {
    unsafe { c::table_load(file.as_ptr(), file.len(), caps.as_mut_ptr(), caps.len(), notes.as_mut_ptr(), notes.len()) }
}
