//! The functions of libexport_listing.a, which `scripts/staticlib export_listing` writes to target/staticlib/, for Rust, beside export.rs.
//! export_listing.h says what each does.

use crate::export::{Answer, Table};

/// A label's place and length in the metadata.
#[repr(C)]
#[derive(Clone, Copy, PartialEq, Eq, Debug)]
pub struct Labelled {
    pub refusal: u64,
    pub present: u64,
    pub label: u64,
    pub labellen: u64,
}

mod c {
    use super::Labelled;
    use crate::export::{Answer, Summary};

    extern "C" {
        pub fn table_label(
            t: Summary,
            caps: *const u64,
            caps_len: usize,
            notes: *const u64,
            notes_len: usize,
            text: *const u8,
            text_len: usize,
            n: u64,
        ) -> Labelled;
        pub fn table_listing(
            t: Summary,
            caps: *const u64,
            caps_len: usize,
            notes: *const u64,
            notes_len: usize,
            text: *const u8,
            text_len: usize,
            out: *mut u8,
            out_len: usize,
        ) -> Answer;
    }
}

// SAFETY, of every call below: each pointer and length are those of a slice, so none is null; the slices that are written are
// borrowed uniquely, so they overlap no other; the numbers of refusal and of lengths need no care.

impl Table<'_> {
    pub fn label(&self, text: &[u8], n: u64) -> Labelled {
        let (t, caps, notes) = (self.summary, self.captures, self.annotations);
        unsafe { c::table_label(t, caps.as_ptr(), caps.len(), notes.as_ptr(), notes.len(), text.as_ptr(), text.len(), n) }
    }

    pub fn listing(&self, text: &[u8], out: &mut [u8]) -> Answer {
        let (t, caps, notes) = (self.summary, self.captures, self.annotations);
        unsafe {
            c::table_listing(t, caps.as_ptr(), caps.len(), notes.as_ptr(), notes.len(), text.as_ptr(), text.len(), out.as_mut_ptr(), out.len())
        }
    }
}
