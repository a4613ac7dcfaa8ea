//! JSON text judged as it arrives, chunk by chunk.
//!
//! The whole text so far is kept, and the parser of whole texts is asked about
//! completions of it: the endings that its last token takes tell the token, and what
//! may follow then tells the place. A state that is handed in is one that chunks lead
//! to if a text is found that has it.

use crate::json::{parse, string_end, too_deep};
use crate::limits::{METADATA_MAX, NESTING_MAX};
use std::collections::{HashMap, VecDeque};
use std::sync::OnceLock;

/// What may stand next, once the token being read has ended.
pub const VALUE: u64 = 1;
pub const FIRST: u64 = 2;
pub const NEXT: u64 = 3;
pub const COLON: u64 = 4;
pub const AFTER: u64 = 5;
pub const LOST: u64 = 6;

/// Where a text so far has ended.
#[derive(Clone, Copy, PartialEq, Eq, Hash, Debug)]
pub struct State {
    pub place: u64,
    pub token: u64,
    pub stack: u64,
    pub count: u64,
}

impl State {
    /// The state of four numbers.
    pub fn of([place, token, stack, count]: [u64; 4]) -> State {
        State { place, token, stack, count }
    }

    /// Its four numbers.
    pub fn numbers(&self) -> [u64; 4] {
        [self.place, self.token, self.stack, self.count]
    }
}

/// The answer to a chunk.
#[derive(Clone, Copy, PartialEq, Eq, Debug)]
pub struct Fed {
    pub refusal: u64,
    pub lost: bool,
    pub state: State,
}

/// The text so far; none if no chunks lead to the state handed in.
#[derive(Clone, Debug)]
pub struct Stream(Option<Vec<u8>>);

impl Stream {
    /// No text yet.
    pub fn fresh() -> Stream {
        Stream(Some(Vec::new()))
    }

    /// Some text that leads to the state.
    pub fn at(state: &State) -> Stream {
        Stream(leading_text(state).filter(|text| state_of(text) == *state))
    }

    /// Whether chunks lead here.
    pub fn is_reached(&self) -> bool {
        self.0.is_some()
    }

    /// One chunk more: 18, or whether the text is lost now, and its state.
    pub fn feed(&mut self, chunk: &[u8]) -> Fed {
        let Some(text) = &mut self.0 else {
            return Fed { refusal: 18, lost: false, state: State::of([0; 4]) };
        };
        text.extend_from_slice(chunk);
        let state = state_of(text);
        Fed { refusal: 0, lost: state.place == LOST, state }
    }

    /// The answer if the text ends here: 18, 1, 2, or 0 if it passes.
    pub fn finish(&self) -> u64 {
        match &self.0 {
            None => 18,
            Some(text) if text.is_empty() || text.len() > METADATA_MAX => 1,
            Some(text) if is_json(text) => 0,
            Some(_) => 2,
        }
    }
}

/// "one JSON value in valid UTF-8", not nested too deep; names may repeat.
fn is_json(text: &[u8]) -> bool {
    parse(text).is_some_and(|tree| !too_deep(&tree))
}

/// The state of a whole text so far.
pub fn state_of(text: &[u8]) -> State {
    let count = text.len().min(METADATA_MAX + 1) as u64;
    let open = if text.len() > METADATA_MAX { None } else { standing(text) };
    let (place, token, stack) = open.unwrap_or((LOST, 0, 0));
    State { place, token, stack, count }
}

/// Place, token and stack of a text that some completion makes JSON; none if it is lost.
fn standing(text: &[u8]) -> Option<(u64, u64, u64)> {
    let (open, tail) = open_parts(text);
    let (token, ending) = token_of(&text[tail..])?;
    let place = place_of(&[text, ending].concat(), &open)?;
    Some((place, token, stack_of(&open)))
}

/// The brackets that are open, true for an object, and where a token that may go on
/// begins, or the text's end; judges nothing.
fn open_parts(text: &[u8]) -> (Vec<bool>, usize) {
    let (mut open, mut at, mut tail) = (Vec::new(), 0, 0);
    while at < text.len() {
        match text[at] {
            b'"' => match string_end(text, at) {
                Some(end) => at = end - 1,
                None => return (open, at),
            },
            b'[' | b'{' => open.push(text[at] == b'{'),
            b']' | b'}' => drop(open.pop()),
            b',' | b':' | b' ' | b'\t' | b'\n' | b'\r' => {}
            _ => {
                at += 1;
                continue;
            }
        }
        at += 1;
        tail = at;
    }
    (open, tail)
}

/// A 1, then a binary digit for each open bracket, 0 array, 1 object.
fn stack_of(open: &[bool]) -> u64 {
    open.iter().fold(1, |stack, &object| 2 * stack + u64::from(object))
}

/// The brackets of a stack, if it is one.
fn brackets_of(stack: u64) -> Option<Vec<bool>> {
    let digits = format!("{stack:b}");
    let open: Vec<bool> = digits.strip_prefix('1')?.bytes().map(|digit| digit == b'1').collect();
    (open.len() <= NESTING_MAX).then_some(open)
}

/// For each number of a token a beginning that ends inside it; a whole token for 0.
pub const WORDS: [&[u8]; 38] = [
    b"\"\"", b"\"", b"\"\xC2", b"\"\xE1", b"\"\xF1", b"\"\xE0", b"\"\xED", b"\"\xF0", b"\"\xF4", b"\"\\", b"\"\\u000", b"\"\\u00", b"\"\\u0",
    b"\"\\u", b"\"\\ud", b"\"\\ud8", b"\"\\ud80", b"\"\\ud800", b"\"\\ud800\\", b"\"\\ud800\\u", b"\"\\ud800\\ud", b"-", b"0", b"1", b"0.", b"0.0",
    b"0e", b"0e+", b"0e0", b"t", b"tr", b"tru", b"f", b"fa", b"fal", b"n", b"nu", b"nul",
];

/// Endings of tokens, enough to end each and to tell any two apart.
const ENDINGS: [&[u8]; 36] = [
    b"", b"\"", b"\x80\"", b"\x80\x80\"", b"\xBF\x80\"", b"\x80\x80\x80\"", b"\xBF\x80\x80\"", b"n\"", b"0\"", b"00\"", b"000\"", b"800\"",
    b"0000\"", b"00\\udc00\"", b"0\\udc00\"", b"\\udc00\"", b"udc00\"", b"dc00\"", b"c00\"", b"0", b"00", b"0e0", b"+0", b".0", b"e0", b"rue", b"ue",
    b"e", b"alse", b"lse", b"se", b"ull", b"ll", b"l", b"1", b"-0",
];

/// Which endings make a token of the beginning, a bit for each.
fn endings_of(beginning: &[u8]) -> u64 {
    let taken = |ending: &&[u8]| u64::from(parse(&[beginning, *ending].concat()).is_some());
    ENDINGS.iter().rev().fold(0, |bits, ending| 2 * bits + taken(ending))
}

/// The number of a token by its beginning, the one that takes the same endings, and one
/// of these; none if it takes no ending.
fn token_of(beginning: &[u8]) -> Option<(u64, &'static [u8])> {
    static TOKENS: OnceLock<HashMap<u64, u64>> = OnceLock::new();
    let tokens = TOKENS.get_or_init(|| (0..).zip(WORDS).map(|(token, word)| (endings_of(word), token)).collect());
    if beginning.is_empty() {
        return Some((0, b""));
    }
    let taken = endings_of(beginning);
    let ending = ENDINGS.get(taken.trailing_zeros() as usize)?;
    Some((tokens[&taken], ending))
}

/// The place of a text whose last token has ended, by what it takes before its brackets
/// are closed: nothing, a value, a member or the rest of one; none if it is lost.
fn place_of(text: &[u8], open: &[bool]) -> Option<u64> {
    let closes: Vec<u8> = open.iter().rev().map(|&object| if object { b'}' } else { b']' }).collect();
    let takes = ["", "0", "\"\":0", ":0"].map(|part| is_json(&[text, b" ", part.as_bytes(), &closes].concat()));
    let place = match (takes, open.last()) {
        ([false, false, false, false], _) => return None,
        ([true, false, false, false], _) => AFTER,
        ([true, true, false, false], Some(false)) | ([true, false, true, false], Some(true)) => FIRST,
        ([false, true, false, false], Some(false)) | ([false, false, true, false], Some(true)) => NEXT,
        ([false, true, false, false], _) => VALUE,
        ([false, false, false, true], Some(true)) => COLON,
        other => panic!("a place of no number: {other:?}"),
    };
    Some(place)
}

/// A text for a state, if there is one: the shortest for its place, token and brackets,
/// with blanks in front up to its count; of lost texts one byte again and again.
fn leading_text(state: &State) -> Option<Vec<u8>> {
    let count = usize::try_from(state.count).ok().filter(|&count| count <= METADATA_MAX + 1)?;
    if state.place == LOST {
        return Some(vec![b'x'; count]);
    }
    let text = shortest_text(state.place, state.token, state.stack)?;
    let blanks = vec![b' '; count.checked_sub(text.len())?];
    Some([blanks, text].concat())
}

/// The shortest text that ends at a place and in a token with brackets open: the
/// shortest from each of these to the next, and on from the last.
pub fn shortest_text(place: u64, token: u64, stack: u64) -> Option<Vec<u8>> {
    let (mut text, mut around) = (Vec::new(), None);
    for object in brackets_of(stack)? {
        let inside = 2 * start_stack(around) + u64::from(object);
        text.extend_from_slice(found_from(around).get(&(FIRST, 0, inside))?);
        around = Some(object);
    }
    text.extend_from_slice(found_from(around).get(&(place, token, start_stack(around)))?);
    Some(text)
}

/// Texts by the place, token and stack they lead to.
type Found = HashMap<(u64, u64, u64), Vec<u8>>;

/// The stack inside a bracket, or outside of all.
fn start_stack(around: Option<bool>) -> u64 {
    stack_of(around.as_slice())
}

/// The shortest texts past a bracket, or from nothing, that don't close it.
fn found_from(around: Option<bool>) -> &'static Found {
    static FOUND: OnceLock<[Found; 3]> = OnceLock::new();
    let all = FOUND.get_or_init(|| [search(b""), search(b"["), search(b"{")]);
    &all[around.map_or(0, |object| 1 + usize::from(object))]
}

/// Breadth first over all bytes, with one bracket more at most.
fn search(start: &[u8]) -> Found {
    let first = standing(start).expect("nothing, or an open bracket");
    let outer = first.2;
    let mut found = Found::from([(first, Vec::new())]);
    let mut queue = VecDeque::from([Vec::new()]);
    while let Some(text) = queue.pop_front() {
        for byte in 0..=u8::MAX {
            let longer = [&text[..], &[byte]].concat();
            let Some(key) = standing(&[start, &longer].concat()) else { continue };
            let inside = key.2 == outer || key.2 / 2 == outer;
            if inside && !found.contains_key(&key) {
                found.insert(key, longer.clone());
                queue.push_back(longer);
            }
        }
    }
    found
}
