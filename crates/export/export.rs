//! The functions of libexport.a, which `scripts/staticlib export` writes to target/staticlib/, for Rust. export.h says what each does.

/// The twelve numbers of a table, in document 01's order. `datatype` is a code from 0 to 27, and `width` at most 16,384; export.h lists the codes.
#[repr(C)]
#[derive(Clone, Copy, PartialEq, Eq, Debug, Default)]
pub struct Summary {
    pub refusal: u64,
    pub datatype: u64,
    pub channels: u64,
    pub width: u64,
    pub offset: u64,
    pub trailing: u64,
    pub samples: u64,
    pub size: u64,
    pub captures: u64,
    pub annotations: u64,
    pub rate: u64,
    pub ratelen: u64,
}

/// A number of refusal, and the place or the count that was asked for.
#[repr(C)]
#[derive(Clone, Copy, PartialEq, Eq, Debug)]
pub struct Answer {
    pub refusal: u64,
    pub number: u64,
}

/// A table lent: its numbers, its capture rows and its annotation rows.
#[derive(Clone, Copy)]
pub struct Table<'a> {
    pub summary: Summary,
    pub captures: &'a [u64],
    pub annotations: &'a [u64],
}

mod c {
    use super::{Answer, Summary};

    extern "C" {
        pub fn json_judge(text: *const u8, text_len: usize) -> u32;
        pub fn recording_read(
            text: *const u8,
            text_len: usize,
            d: u64,
            rows: *mut u64,
            rows_len: usize,
            notes: *mut u64,
            notes_len: usize,
        ) -> Summary;
        pub fn table_locate(
            t: Summary,
            caps: *const u64,
            caps_len: usize,
            notes: *const u64,
            notes_len: usize,
            i: u64,
        ) -> Answer;
        pub fn table_pieces(
            t: Summary,
            caps: *const u64,
            caps_len: usize,
            notes: *const u64,
            notes_len: usize,
            a: u64,
            b: u64,
            out: *mut u64,
            out_len: usize,
        ) -> Answer;
        pub fn table_cut(
            t: Summary,
            caps: *const u64,
            caps_len: usize,
            notes: *const u64,
            notes_len: usize,
            a: u64,
            b: u64,
            capto: *mut u64,
            capto_len: usize,
            noteto: *mut u64,
            noteto_len: usize,
        ) -> Summary;
        pub fn table_copy(
            t: Summary,
            caps: *const u64,
            caps_len: usize,
            notes: *const u64,
            notes_len: usize,
            bytes: *const u8,
            bytes_len: usize,
            a: u64,
            b: u64,
            out: *mut u8,
            out_len: usize,
        ) -> Answer;
    }
}

// SAFETY, of every call below: each pointer and length are those of a slice, so none is null; the slices that are written are
// borrowed uniquely, so they overlap no other; the numbers of refusal and of lengths need no care.

pub fn json_judge(text: &[u8]) -> u32 {
    unsafe { c::json_judge(text.as_ptr(), text.len()) }
}

pub fn recording_read(text: &[u8], d: u64, rows: &mut [u64], notes: &mut [u64]) -> Summary {
    unsafe { c::recording_read(text.as_ptr(), text.len(), d, rows.as_mut_ptr(), rows.len(), notes.as_mut_ptr(), notes.len()) }
}

impl Table<'_> {
    pub fn locate(&self, i: u64) -> Answer {
        let (t, caps, notes) = (self.summary, self.captures, self.annotations);
        unsafe { c::table_locate(t, caps.as_ptr(), caps.len(), notes.as_ptr(), notes.len(), i) }
    }

    pub fn pieces(&self, a: u64, b: u64, out: &mut [u64]) -> Answer {
        let (t, caps, notes) = (self.summary, self.captures, self.annotations);
        unsafe { c::table_pieces(t, caps.as_ptr(), caps.len(), notes.as_ptr(), notes.len(), a, b, out.as_mut_ptr(), out.len()) }
    }

    pub fn cut(&self, a: u64, b: u64, capto: &mut [u64], noteto: &mut [u64]) -> Summary {
        let (t, caps, notes) = (self.summary, self.captures, self.annotations);
        unsafe {
            c::table_cut(
                t,
                caps.as_ptr(),
                caps.len(),
                notes.as_ptr(),
                notes.len(),
                a,
                b,
                capto.as_mut_ptr(),
                capto.len(),
                noteto.as_mut_ptr(),
                noteto.len(),
            )
        }
    }

    pub fn copy(&self, bytes: &[u8], a: u64, b: u64, out: &mut [u8]) -> Answer {
        let (t, caps, notes) = (self.summary, self.captures, self.annotations);
        unsafe {
            c::table_copy(
                t,
                caps.as_ptr(),
                caps.len(),
                notes.as_ptr(),
                notes.len(),
                bytes.as_ptr(),
                bytes.len(),
                a,
                b,
                out.as_mut_ptr(),
                out.len(),
            )
        }
    }
}
