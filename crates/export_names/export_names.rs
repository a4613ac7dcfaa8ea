//! The functions of libexport_names.a, which `scripts/staticlib export_names` writes to target/staticlib/, for Rust. export_names.h says what
//! they do.

/// A field's number, or how many fields there are, and how many names were compared.
#[repr(C)]
#[derive(Clone, Copy, PartialEq, Eq, Debug)]
pub struct NameLookup {
    pub number: usize,
    pub compared: usize,
}

mod c {
    use super::NameLookup;

    extern "C" {
        pub fn global_lookup(name: *const u8, name_len: usize) -> NameLookup;
        pub fn capture_lookup(name: *const u8, name_len: usize) -> NameLookup;
        pub fn annotation_lookup(name: *const u8, name_len: usize) -> NameLookup;
    }
}

// SAFETY of each call: pointer and length are those of a slice, so the pointer is not null.

pub fn global_lookup(name: &[u8]) -> NameLookup {
    unsafe { c::global_lookup(name.as_ptr(), name.len()) }
}

pub fn capture_lookup(name: &[u8]) -> NameLookup {
    unsafe { c::capture_lookup(name.as_ptr(), name.len()) }
}

pub fn annotation_lookup(name: &[u8]) -> NameLookup {
    unsafe { c::annotation_lookup(name.as_ptr(), name.len()) }
}
