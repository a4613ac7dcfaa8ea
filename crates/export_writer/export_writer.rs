//! The function of libexport_writer.a, which `scripts/staticlib export_writer` writes to target/staticlib/, for Rust, beside export.rs.
//! export_writer.h says what it does.

use crate::export::{Answer, Table};

mod c {
    use crate::export::{Answer, Summary};

    extern "C" {
        pub fn table_metadata(
            t: Summary,
            caps: *const u64,
            caps_len: usize,
            notes: *const u64,
            notes_len: usize,
            text: *const u8,
            text_len: usize,
            out: *mut u8,
            out_len: usize,
        ) -> Answer;
    }
}

impl Table<'_> {
    pub fn metadata(&self, text: &[u8], out: &mut [u8]) -> Answer {
        let (t, caps, notes) = (self.summary, self.captures, self.annotations);
        // SAFETY: each pointer and length are those of a slice, so none is null; `out` is borrowed uniquely, so it overlaps no other.
        unsafe {
            c::table_metadata(t, caps.as_ptr(), caps.len(), notes.as_ptr(), notes.len(), text.as_ptr(), text.len(), out.as_mut_ptr(), out.len())
        }
    }
}
