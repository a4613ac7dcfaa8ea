use crate::json::judge;
use crate::json_cases::nest;
use crate::json_random;
use crate::limits::METADATA_MAX;
use crate::rng::Rng;
use crate::stream::*;
use std::collections::HashSet;

/// The numbers of a text's state.
fn state(text: &[u8]) -> [u64; 4] {
    state_of(text).numbers()
}

fn is_lost(text: &[u8]) -> bool {
    state_of(text).place == LOST
}

/// The answer where a text ends, fed in one chunk.
fn finished(text: &[u8]) -> u64 {
    let mut stream = Stream::fresh();
    stream.feed(text);
    stream.finish()
}

fn reached(numbers: [u64; 4]) -> bool {
    Stream::at(&State::of(numbers)).is_reached()
}

#[test]
fn states_of_texts() {
    assert_eq!(state(b""), [1, 0, 1, 0]);
    assert_eq!(state(&b" ".repeat(METADATA_MAX)), [1, 0, 1, 61_440]);
    assert_eq!((finished(b""), finished(&b" ".repeat(METADATA_MAX))), (1, 2));
    assert_eq!(state(b"0"), [5, 22, 1, 1]);
    assert_eq!((state(b"01"), state(b"10"), state(b"1 2")), ([6, 0, 0, 2], [5, 23, 1, 2], [6, 0, 0, 3]));
    for open in [&b"-"[..], b"0.", b"0e", b"1e+", b"tru", b"\"", b"[", b"{\"a\"", b" "] {
        assert!(!is_lost(open) && finished(open) == 2, "{open:?}");
    }
    for lost in [&b"[1,]"[..], b"{\"a\":1,}", b"[}", b"{]", b"[:", b"\xEF", b"\0", b"[]x", b"\"\\udc", b"\"\xC0", b"\"\xE0\x80", b"\"\xED\xA0"] {
        assert_eq!(state(lost), [6, 0, 0, lost.len() as u64]);
        assert!(!is_lost(&lost[..lost.len() - 1]), "{lost:?}");
    }
    assert_eq!(state(b"[] "), [5, 0, 1, 3]);
    assert_eq!(state(b"{\"a\":[{\"\\ud800\\uD"), [4, 20, 13, 17]);
    assert_eq!(state(b"[1,"), [3, 0, 2, 3]);
    assert_eq!(state(b"[false"), [5, 0, 2, 6]);
}

#[test]
fn too_long() {
    let unfinished = [b"[", &b" ".repeat(METADATA_MAX - 1)[..]].concat();
    let mut stream = Stream::fresh();
    assert!(!stream.feed(&unfinished).lost);
    assert_eq!(stream.finish(), 2);
    assert_eq!(stream.feed(b" "), Fed { refusal: 0, lost: true, state: State::of([6, 0, 0, 61_441]) });
    assert_eq!(stream.finish(), 1);
    assert_eq!(stream.feed(&unfinished).state, State::of([6, 0, 0, 61_441]));
    let lost = [b"x", &b" ".repeat(METADATA_MAX)[..]].concat();
    assert_eq!((finished(&lost[..METADATA_MAX]), finished(&lost)), (2, 1));
}

#[test]
fn depths() {
    for pattern in 0..5 {
        let text = nest(pattern, 33, b"");
        let opens: Vec<usize> = (0..text.len()).filter(|&at| b"[{".contains(&text[at])).collect();
        assert!(!is_lost(&text[..opens[32]]) && is_lost(&text[..opens[32] + 1]));
        assert_eq!(finished(&nest(pattern, 32, b"1")), 0);
    }
}

#[test]
fn states_handed_in() {
    let refused = [
        [0, 0, 0, 0], [1, 0, 1, 61_441], [1, 0, 2, 9], [2, 0, 1, 9], [5, 0, 1, 1], [4, 1, 2, 9], [4, 21, 3, 9], [6, 0, 1, 9], [6, 0, 0, 0],
        [6, 0, 0, 61_442], [5, 0, 1 << 33, 900], [5, 1, 7, 8], [0, 0, 1, 0], [7, 0, 1, 9], [5, 38, 1, 9], [5, 0, 0, 9], [1, 1, 1, 9], [6, 1, 0, 9],
        [5, 0, u64::MAX, 900], [5, 0, 1, u64::MAX], [5, u64::MAX, 1, 9], [u64::MAX, 0, 1, 9], [5, 20, (1 << 33) - 1, 137], [5, 1, 1 << 32, 32],
    ];
    for numbers in refused {
        let mut stream = Stream::at(&State::of(numbers));
        assert_eq!(stream.finish(), 18, "{numbers:?}");
        assert_eq!(stream.feed(b"0"), Fed { refusal: 18, lost: false, state: State::of([0; 4]) });
    }
    let taken = [
        [1, 0, 1, 0], [1, 0, 1, 61_440], [1, 0, 3, 4], [2, 0, 2, 1], [3, 0, 2, 3], [3, 0, 3, 6], [5, 0, 1, 2], [5, 22, 1, 1], [5, 1, 7, 9],
        [6, 0, 0, 1], [6, 0, 0, 61_441], [5, 20, (1 << 33) - 1, 138], [5, 1, 1 << 32, 33], [4, 20, 3, 11],
    ];
    assert!(taken.iter().all(|&numbers| reached(numbers)));
}

#[test]
fn words_have_their_numbers() {
    for (token, word) in (0..).zip(WORDS) {
        assert_eq!(state(word), [5, token, 1, word.len() as u64]);
        assert_eq!(state(&[b"[", word].concat())[..3], [5, token, 2]);
    }
    let numbers: HashSet<[u64; 4]> = WORDS.iter().map(|word| state(&[b"{\"\":", *word].concat())).collect();
    assert_eq!(numbers.len(), WORDS.len());
}

/// Whether no more than so many of the parts make the text JSON.
fn never_json(text: &[u8], parts: &[&[u8]], most: usize) -> bool {
    let good = judge(text).err() != Some(2);
    !good && (most == 0 || parts.iter().all(|part| never_json(&[text, *part].concat(), parts, most - 1)))
}

/// The texts that go on from one by so many bytes: what is called lost, and was not
/// before, has no completion; all others have their state again where it is handed in,
/// and every byte leads on alike.
fn judged_alike(text: &[u8], bytes: &[u8], longest: usize, parts: &[&[u8]], most: usize) {
    if is_lost(text) {
        assert!(never_json(text, parts, most), "{text:?}");
        return;
    }
    let here = state_of(text);
    let shortest = shortest_text(here.place, here.token, here.stack).unwrap();
    assert!(shortest.len() <= text.len() && Stream::at(&here).is_reached(), "{text:?}");
    for byte in 0..=u8::MAX {
        let fed = Stream::at(&here).feed(&[byte]);
        assert_eq!(fed.state, state_of(&[text, &[byte]].concat()), "{text:?} {byte}");
    }
    if longest == 0 {
        return;
    }
    for byte in bytes {
        judged_alike(&[text, &[*byte]].concat(), bytes, longest - 1, parts, most);
    }
}

#[test]
fn lost_structures() {
    let parts: [&[u8]; 9] = [b"[", b"]", b"{", b"}", b",", b":", b"\"", b"0", b"\":0"];
    judged_alike(b"", b"[]{},:\"0 ", 3, &parts, 4);
    for start in [&b"{\"\""[..], b"{\"\":0", b"[{", b"[[]"] {
        judged_alike(start, b"[]{},:\"0 ", 2, &parts, 4);
    }
}

#[test]
fn lost_numbers_and_words() {
    let parts: [&[u8]; 7] = [b"0", b"1", b"-", b"+", b".", b"e", b" "];
    judged_alike(b"", b"-01.eE+ ", 4, &parts, 3);
    let parts: [&[u8]; 9] = [b"t", b"r", b"u", b"e", b"f", b"a", b"l", b"s", b"n"];
    judged_alike(b"", b"truefalsn", 4, &parts, 4);
}

#[test]
fn lost_strings() {
    let parts: [&[u8]; 6] = [b"\"", b"\x80", b"\x90", b"\xA0", b"\xBF", b"a"];
    judged_alike(b"\"", b"a\"\\\n\x7F\x80\x8F\x90\x9F\xA0\xBF\xC1\xC2\xDF\xE0\xE1\xED\xEF\xF0\xF1\xF4\xF5", 2, &parts, 4);
    let parts: [&[u8]; 9] = [b"\"", b"0", b"00", b"000", b"\\udc00", b"udc00", b"dc00", b"c00", b"n"];
    judged_alike(b"\"", b"\\udD8c0n\"", 3, &parts, 3);
    for start in [&b"\"\\ud8"[..], b"\"\\uDbFf", b"\"\\ud800\\u", b"{\"\\u0"] {
        judged_alike(start, b"\\udD8c0n\"/", 2, &parts, 3);
    }
}

#[test]
fn states_have_the_fewest_bytes() {
    let mut rng = Rng::new(4);
    for _ in 0..3_000 {
        let (place, token, depth) = (rng.between(1, 5) as u64, rng.below(38) as u64, rng.below(33));
        let stack = 1 << depth | rng.bits() % (1 << depth);
        if let Some(text) = shortest_text(place, token, stack) {
            let least = text.len() as u64;
            assert_eq!(state(&text), [place, token, stack, least]);
            assert!(reached([place, token, stack, least + 7]));
            assert!(least == 0 || !reached([place, token, stack, least - 1]));
        }
    }
}

#[test]
fn divisions_make_no_difference() {
    let mut rng = Rng::new(8);
    for _ in 0..2_000 {
        let text = json_random::random_case(&mut rng).payload;
        let at = rng.below(text.len() + 1);
        let (mut whole, mut parts) = (Stream::fresh(), Stream::fresh());
        let first = parts.feed(&text[..at]);
        let mut later = Stream::at(&first.state);
        let answer = whole.feed(&text);
        assert_eq!((parts.feed(&text[at..]), later.feed(&text[at..])), (answer, answer));
        let expected = if text.is_empty() { 1 } else { judge(&text).err().filter(|&n| n == 2).unwrap_or(0) };
        assert_eq!((whole.finish(), parts.finish(), later.finish()), (expected, expected, expected));
        assert!(expected != 0 || !answer.lost);
    }
}
