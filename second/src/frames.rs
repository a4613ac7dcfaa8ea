//! Framed cases: a letter, a space, the payload's length, a line feed, the payload.

/// One case to be answered.
#[derive(Clone, PartialEq, Eq, Hash, Debug)]
pub struct Case {
    pub letter: u8,
    pub payload: Vec<u8>,
}

/// The cases as one stream of bytes.
pub fn write_frames(cases: &[Case]) -> Vec<u8> {
    let mut out = Vec::new();
    for case in cases {
        out.extend_from_slice(format!("{} {}\n", case.letter as char, case.payload.len()).as_bytes());
        out.extend_from_slice(&case.payload);
    }
    out
}

/// The cases of a stream, or what is wrong with it.
pub fn read_frames(stream: &[u8]) -> Result<Vec<Case>, String> {
    let mut cases = Vec::new();
    let mut rest = stream;
    while !rest.is_empty() {
        let place = stream.len() - rest.len();
        let (case, after) = one_frame(rest).ok_or(format!("bad frame at byte {place}"))?;
        cases.push(case);
        rest = after;
    }
    Ok(cases)
}

/// The first case of a stream and what follows it.
fn one_frame(stream: &[u8]) -> Option<(Case, &[u8])> {
    let line_end = stream.iter().position(|&b| b == b'\n')?;
    let [letter @ b'a'..=b'z', b' ', digits @ ..] = &stream[..line_end] else {
        return None;
    };
    if !digits.iter().all(u8::is_ascii_digit) {
        return None;
    }
    let len: usize = std::str::from_utf8(digits).ok()?.parse().ok()?;
    let body = &stream[line_end + 1..];
    let payload = body.get(..len)?.to_vec();
    Some((Case { letter: *letter, payload }, &body[len..]))
}

/// The checksum over numbers: h = 7, then h = (h * 31 + x) mod 2^32.
pub fn checksum(numbers: impl IntoIterator<Item = u64>) -> u64 {
    numbers.into_iter().fold(7u64, |h, x| {
        let wide = u128::from(h) * 31 + u128::from(x);
        (wide % 4_294_967_296) as u64
    })
}
