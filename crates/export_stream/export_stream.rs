//! The functions of libexport_stream.a, which `scripts/staticlib export_stream` writes to target/staticlib/, for Rust. export_stream.h says
//! what each does.

/// The state between two chunks.
#[repr(C)]
#[derive(Clone, Copy, Debug, PartialEq, Eq)]
pub struct State {
    pub place: u64,
    pub token: u64,
    pub stack: u64,
    pub count: usize,
}

/// The answer between chunks: a refusal, or 0 with whether the text is lost (1) or open (0), and the next state.
#[repr(C)]
#[derive(Clone, Copy, Debug, PartialEq, Eq)]
pub struct Fed {
    pub refusal: u64,
    pub lost: u64,
    pub state: State,
}

mod c {
    use super::{Fed, State};

    extern "C" {
        pub fn json_fresh() -> State;
        pub fn json_feed(st: State, chunk: *const u8, chunk_len: usize) -> Fed;
        pub fn json_finish(st: State) -> u64;
    }
}

// SAFETY, of the three calls below: two take numbers alone; of the other, pointer and length are those of a slice, so it is not null.

pub fn fresh() -> State {
    unsafe { c::json_fresh() }
}

impl State {
    pub fn feed(self, chunk: &[u8]) -> Fed {
        unsafe { c::json_feed(self, chunk.as_ptr(), chunk.len()) }
    }

    pub fn finish(self) -> u64 {
        unsafe { c::json_finish(self) }
    }
}
