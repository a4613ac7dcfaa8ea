//! Fixed cases about JSON text judged as it arrives, and the whole stream with random
//! ones after.

use crate::frames::Case;
use crate::json_cases::{join, nest, BLANKS, ESCAPES, NUMBERS, SEQUENCES, STRUCTURES, TEXTS};
use crate::limits::METADATA_MAX;
use crate::rng::filled_up;
use crate::stream::{state_of, State, Stream, AFTER, LOST, VALUE, WORDS};
use crate::stream_case::{Chunk, StreamCase, CHUNK_MAX, STATES_MAX};
use crate::stream_random::random_case;

/// The fixed cases, then random ones up to `count`.
pub fn stream_cases(seed: u64, count: usize) -> Vec<Case> {
    filled_up(fixed_cases(), seed, count, random_case)
}

/// Every fixed case.
pub fn fixed_cases() -> Vec<Case> {
    let mut list = List(Vec::new());
    list.examples();
    list.divided();
    list.byte_by_byte();
    list.runs();
    list.handed_in();
    list.longest();
    list.depths();
    list.next_bytes();
    list.tokens();
    list.least_counts();
    list.large_counts();
    list.stacks();
    list.places();
    list.wild_numbers();
    list.lost_states();
    list.0
}

/// Chunks in a row.
const EXAMPLES: &[&[&[u8]]] = &[
    &[], &[b""], &[b"", b""], &[b"", b"0", b""], &[b"0", b"1"], &[b"1", b"0"], &[b"1", b"2"], &[b"1 ", b"2"], &[b"1", b" ", b"2"],
    &[b"-"], &[b"0."], &[b"0e"], &[b"1e+"], &[b"tru"], &[b"\""], &[b"tru", b"e"], &[b"tru", b"", b"", b"e"], &[b"tru", b"E"],
    &[b"[1,", b"]"], &[b"{\"a\":1,", b"}"], &[b"[1,", b"2]"], &[b"{\"a\":1,", b"\"a\":1}"], &[b"[", b"]"], &[b"[", b",]"],
    &[b"\"\\ud8", b"\""], &[b"\"\\ud800", b"n"], &[b"\"\\ud800", b"\""], &[b"\"\\ud800\\", b"\""], &[b"\"\\ud800\\", b"n"],
    &[b"\"\\ud800\\ud", b"8"], &[b"\"\\ud800\\ud", b"c", b"00\""], &[b"\"\\ud", b"c"], &[b"\"\\ud", b"7ff\""], &[b"\"\\uD", b"B"],
    &[b"\"\xE0", b"\x80"], &[b"\"\xED", b"\xA0"], &[b"\"\xF0", b"\x80"], &[b"\"\xF4", b"\x90"], &[b"\"", b"\xC0"], &[b"\"", b"\xF5"],
    &[b"\"\xE0", b"\xA0", b"\x80", b"\""], &[b"\"\xED", b"\x9F", b"\xBF", b"\""], &[b"\"\xF0\x90", b"\x80\x80\""], &[b"\"\xF4\x8F\xBF", b"\xBF\""],
    &[b"\xEF", b"\xBB", b"\xBF0"], &[b"\0"], &[b"[]", b"x"], &[b"[]", b" "], &[b"[]", b" ", b"\n"], &[b"[", b"}"], &[b"{", b"]"], &[b"[", b":"],
    &[b"[\"a\"", b":"], &[b"{\"a\"", b","], &[b"{\"a\"", b"}"], &[b"{\"a\":", b"}"], &[b"{", b","], &[b"{\"a\":1", b"]"], &[b"]"], &[b"}"], &[b","], &[b":"],
    &[b"x", b"", b"[]"], &[b"{\"a\":1,\"a\":2}", b""], &[b"{\"a\":1,", b"\"a\":2}"], &[b"nul", b"l", b"l"], &[b"-", b"-"], &[b"-", b"0", b"0"],
    &[b"\"\\", b"\""], &[b"\"\\", b"u0", b"041\""], &[b"\"\\", b"u", b"\""], &[b"\"", b"\n"], &[b"\"", b"\x7F", b"\""], &[b"\"", b"\x1F"],
];

/// Texts that are divided everywhere.
const DIVIDED: &[&[u8]] = &[
    b"{\"a\":[1,{}]}", b"-10.25e+30", b"\"\\ud83d\\uDE00\"", b"\"\xC3\xA9\xE2\x82\xAC\xF0\x9F\x98\x80\"", b" [ true , null\n] ",
    b"{\"\\u00e9\":false}", b"01 ", b"[1,]", b"{\"a\":1,}", b"[[],[[]]]", b"1 2", b"tru e", b"[\"\\udc00\"]", b"[\"a\nb\"]", b"{\"a\" 1}", b"[}]",
    b"\xEF\xBB\xBF0", b"{\"a\":1}}", b"\"\\ud83d\\u0041\"", b"[0,-0.0E-0]", b"[\"\xED\xA0\x80\"]", b"{\"a\":{\"b\":{}}}", b"\"\\b\\\\\\\"\"",
];

/// Stacks of 32 brackets: arrays, objects, both by turns.
const FULL: [u64; 4] = [1 << 32, (1 << 33) - 1, 0x1_5555_5555, 0x1_AAAA_AAAA];

/// The growing list of cases.
struct List(Vec<Case>);

impl List {
    fn fed(&mut self, start: Option<State>, chunks: Vec<Chunk>) {
        self.0.push(StreamCase::Chunks(start, chunks).frame());
    }

    /// Chunks from a state on.
    fn from(&mut self, start: [u64; 4], chunks: &[&[u8]]) {
        self.fed(Some(State::of(start)), chunks.iter().map(|part| Chunk::once(part)).collect());
    }

    /// Chunks of a text from its beginning on.
    fn chunks(&mut self, chunks: &[&[u8]]) {
        self.fed(None, chunks.iter().map(|part| Chunk::once(part)).collect());
    }

    /// Chunks of a part again and again up to a size; from a state on, if one is given.
    fn sized(&mut self, start: Option<[u64; 4]>, chunks: &[(u64, &str)]) {
        let chunks = chunks.iter().map(|&(size, part)| Chunk { size, part: part.as_bytes().to_vec() });
        self.fed(start.map(State::of), chunks.collect());
    }

    /// A text one byte at a time.
    fn bytes(&mut self, text: &[u8]) {
        self.chunks(&text.chunks(1).collect::<Vec<_>>());
    }

    fn states(&mut self, first: [u64; 4], step: [u64; 4], count: u64) {
        self.0.push(StreamCase::States(State::of(first), step, count).frame());
    }

    fn examples(&mut self) {
        EXAMPLES.iter().for_each(|chunks| self.chunks(chunks));
    }

    /// Texts whole, in two chunks however cut, byte by byte, and so with empty chunks.
    fn divided(&mut self) {
        for text in DIVIDED {
            for at in 0..=text.len() {
                self.chunks(&[&text[..at], &text[at..]]);
            }
            self.chunks(&[text]);
            self.bytes(text);
            let apart: Vec<&[u8]> = text.chunks(1).flat_map(|byte| [byte, &[]]).collect();
            self.chunks(&apart);
        }
    }

    /// Every edge of JSON texts one byte at a time.
    fn byte_by_byte(&mut self) {
        for text in TEXTS.iter().chain(STRUCTURES).chain(NUMBERS) {
            self.bytes(text);
        }
        for blank in BLANKS {
            self.bytes(&join(&[b"[", blank, b"1", blank, b"]"]));
        }
        for sequence in SEQUENCES {
            self.bytes(&join(&[b"\"", sequence, b"\""]));
        }
        for escape in ESCAPES {
            self.bytes(&join(&[b"{\"", escape.as_bytes(), b"\":1}"]));
        }
    }

    /// Runs of plain bytes and of blanks, of each length up to a few words, and what may
    /// end them.
    fn runs(&mut self) {
        for length in 0..=18 {
            let plain = &b"abcdefghijklmnopqr"[..length];
            for end in [&b"\""[..], b"\\n", b"\x1F", b"\x80", b"\xC3\xA9"] {
                self.chunks(&[&join(&[b"[\"", plain, end, plain, b"\"]"]), b" "]);
            }
            let blanks = [b"\n", &b" ".repeat(length)[..]].concat();
            for end in [&b"]"[..], b"\t]", b"\x0B]", b"0"] {
                self.chunks(&[&join(&[b"[", &blanks, end]), &blanks, b"]"]);
            }
        }
    }

    /// The state of a text so far handed in, with other counts too, and the rest after it.
    fn handed_in(&mut self) {
        for text in DIVIDED {
            for at in 0..text.len() {
                let state = state_of(&text[..at]);
                let count = if at % 3 == 0 { state.count + 1_000 } else { state.count };
                self.from([state.place, state.token, state.stack, count], &[&text[at..]]);
            }
        }
    }

    /// Texts about as long as the limit, and chunks longer than it.
    fn longest(&mut self) {
        let most = METADATA_MAX as u64;
        for last in [(0, ""), (1, " "), (1, "0"), (1, "x")] {
            self.sized(None, &[(most - 1, " "), last, (1, "0"), (1, "]")]);
            self.sized(None, &[(most, " "), last, last]);
            self.sized(None, &[(most + 1, " "), last]);
            self.sized(None, &[(1, "x"), (most - 1, " "), last, last]);
            self.sized(None, &[(1, "["), (most - 2, " "), (1, "]"), last]);
        }
        for size in [most - 1, most, most + 1] {
            self.sized(None, &[(1, "\""), (size - 2, "a"), (1, "\"")]);
            self.sized(None, &[(1, "\""), (size - 1, "ab"), (0, "")]);
            self.sized(None, &[(size, "1")]);
            self.sized(None, &[(size, "x"), (0, ""), (1, "x")]);
            self.sized(None, &[(size, "[0],")]);
            self.sized(None, &[(2, "[0"), (size - 3, ",0"), (1, "]"), (1, " ")]);
            self.sized(Some([AFTER, 0, 1, 2]), &[(size - 2, "\n"), (1, "\n")]);
        }
        self.sized(None, &[(most / 3, " "), (most / 3, "\t"), (most / 3 - 2, "\r"), (2, "{}"), (0, ""), (1, "\n")]);
        self.sized(None, &[(3, "[0]"), (CHUNK_MAX, " \n"), (0, "")]);
        self.sized(Some([AFTER, 0, 1, most]), &[(CHUNK_MAX, " "), (CHUNK_MAX, " "), (CHUNK_MAX, " ")]);
    }

    /// Depths 31, 32 and 33 of each pattern, and each byte that opens, closes or goes on.
    fn depths(&mut self) {
        for pattern in 0..5 {
            for depth in 31..=33 {
                self.chunks(&nest(pattern, depth, b"").chunks(7).collect::<Vec<_>>());
            }
            self.bytes(&nest(pattern, 33, b"1"));
            let full = nest(pattern, 32, b"1");
            let (before, after) = full.split_at(full.iter().position(|&b| b == b'1').expect("the core"));
            for more in [&b"["[..], b"{", b"]", b"}", b"0", b"\"", b",", b":", b"1]", b"1}"] {
                self.chunks(&[before, more, b"", &after[1..]]);
            }
            self.chunks(&[&full, b" ", b"]"]);
        }
        self.chunks(&[&[b'['; 32], b"]", b",[", b"["]);
        self.chunks(&[&[b'['; 32], b"]]", b",[[]", b",{", b"\"\":", b"["]);
        self.chunks(&[b"[", &b"[],".repeat(40), b"[]]"]);
    }

    /// Every place, token and stack that a text can have, and every byte.
    fn next_bytes(&mut self) {
        for [place, token, stack] in controls(&[1, 2, 3]).into_iter().chain(full_controls()) {
            self.states([place, token, stack, 200], [0; 4], 256);
        }
    }

    /// Every token at every place.
    fn tokens(&mut self) {
        for place in 0..=LOST + 1 {
            for stack in [0, 1, 2, 3, 5, 6, 1 << 33].into_iter().chain(FULL) {
                self.states([place, 0, stack, 200], [0, 1, 0, 0], 42);
            }
        }
    }

    /// Counts about the fewest bytes that a text needs.
    fn least_counts(&mut self) {
        for [place, token, stack] in controls(&[1, 2, 3]) {
            self.states([place, token, stack, 0], [0, 0, 0, 1], 17);
        }
        for [place, token, stack] in full_controls() {
            self.states([place, token, stack, 20], [0, 0, 0, 1], 130);
        }
    }

    /// Counts about the limit.
    fn large_counts(&mut self) {
        let some = [[1, 0, 1], [2, 0, 2], [3, 0, 3], [4, 5, 3], [5, 0, 1], [5, 22, 1], [5, 1, 2], [6, 0, 0], [5, 28, FULL[1]]];
        for [place, token, stack] in some {
            self.states([place, token, stack, METADATA_MAX as u64 - 6], [0, 0, 0, 1], 10);
        }
    }

    /// Stacks from 0 on and about each end.
    fn stacks(&mut self) {
        for (place, token) in [(1, 0), (2, 0), (3, 0), (4, 0), (4, 7), (5, 0), (5, 13), (5, 30)] {
            self.states([place, token, 0, 300], [0, 0, 1, 0], 80);
            for end in [1 << 32, 1 << 33, 1 << 34, 1 << 63, 0] {
                self.states([place, token, 0u64.wrapping_sub(8).wrapping_add(end), 300], [0, 0, 1, 0], 16);
            }
        }
    }

    /// Places about all that there are, and all numbers at once.
    fn places(&mut self) {
        for (token, stack) in [(0, 0), (0, 1), (0, 2), (0, 3), (1, 3), (22, 1), (37, 2), (38, 3)] {
            self.states([u64::MAX - 3, token, stack, 300], [1, 0, 0, 0], 14);
        }
        self.states([0; 4], [1; 4], 16);
        self.states([1, 0, 1, 0], [1 << 32, 0, 0, 0], 4);
        self.states([1, 0, 1, 0], [0, 1 << 32, 0, 0], 4);
        self.states([1, 0, 1, 0], [0, 0, 1 << 32, 0], 4);
        self.states([1, 0, 1, 0], [0, 0, 0, 1 << 32], 4);
        self.states([5, 22, 1, 1], [1, 1, 1, u64::MAX], STATES_MAX);
    }

    /// A number of a state that is far too large, or wrong in its upper half alone.
    fn wild_numbers(&mut self) {
        for base in [[1, 0, 1, 0], [4, 1, 3, 2], [5, 22, 2, 2], [2, 0, FULL[1], 300]] {
            for k in 0..4 {
                let wild = [0, 7, 38, 61_441, 61_442, 1 << 32, (1 << 33) - 1, 1 << 33, 1 << 63, u64::MAX];
                for x in wild.into_iter().chain([base[k] + (1 << 32), base[k] + (1 << 63)]) {
                    let mut numbers = base;
                    numbers[k] = x;
                    self.from(numbers, &[b"", b"]", b"0"]);
                }
            }
        }
    }

    /// Lost states, and states that look like one of a text.
    fn lost_states(&mut self) {
        for count in [0, 1, 2, 61_439, 61_440, 61_441, 61_442, 1 << 32, (1 << 32) + 5, 1 << 63, u64::MAX] {
            self.from([LOST, 0, 0, count], &[b"", b"[", b"]"]);
        }
        for (token, stack) in [(1, 0), (37, 0), (38, 0), (0, 1), (0, 2), (0, 3), (0, 1 << 32), (1 << 32, 0), (1, 1)] {
            self.from([LOST, token, stack, 5], &[b" "]);
            self.from([LOST, token, stack, 61_441], &[b" "]);
        }
        let others = [
            [0, 0, 0, 0], [0, 0, 1, 0], [0, 0, 0, 1], [1, 0, 1, 61_441], [1, 0, 2, 10], [1, 0, 3, 4], [1, 0, 3, 3], [2, 0, 1, 10], [3, 0, 1, 10],
            [4, 0, 1, 10], [5, 0, 1, 1], [5, 0, 1, 2], [5, 22, 1, 1], [5, 22, 1, 0], [4, 1, 2, 10], [4, 21, 3, 10], [4, 20, 3, 11], [4, 20, 3, 10],
            [5, 1, 7, 8], [5, 1, 7, 9], [1, 1, 1, 5], [2, 1, 2, 5], [3, 0, 2, 2], [3, 0, 2, 3], [3, 0, 3, 5], [3, 0, 3, 6], [5, 38, 1, 10],
            [1, 0, 1, 61_440], [5, 0, 1, 61_440], [5, 0, 0, 10],
        ];
        for state in others {
            self.from(state, &[b"", b" ", b"]"]);
        }
    }
}

/// Places, tokens and stacks that some texts have, of the stacks given.
fn controls(stacks: &[u64]) -> Vec<[u64; 3]> {
    let mut list = Vec::new();
    for place in VALUE..=AFTER {
        for token in 0..WORDS.len() as u64 {
            list.extend(stacks.iter().map(|&stack| [place, token, stack]));
        }
    }
    list.retain(|&[place, token, stack]| Stream::at(&State { place, token, stack, count: 200 }).is_reached());
    list
}

/// Some of those with 32 brackets open.
fn full_controls() -> Vec<[u64; 3]> {
    let mut list = controls(&FULL);
    list.retain(|[_, token, _]| [0, 20, 28].contains(token));
    list
}
