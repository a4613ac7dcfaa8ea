// Loads a stored table in plain Rust: the same refusals, and rows that a refusal leaves as they were.
use crate::export::Summary;

const OPENING: &[u8] = b"SGT\x01\x00";
const HEAD: usize = OPENING.len() + 12 * 8;
const ROW: usize = 4 * 8;
const LONGEST_METADATA: u64 = 61_440;
const LONGEST_DATASET: u64 = 1 << 48;

pub fn load(file: &[u8], caps: &mut [u64], notes: &mut [u64]) -> Summary {
    if !file.starts_with(OPENING) {
        return refused(21);
    }
    if file.len() < HEAD {
        return refused(22);
    }
    let t = summary(&file[OPENING.len()..HEAD]);
    let rows = &file[HEAD..];
    let bytes = t.captures.checked_add(t.annotations).and_then(|n| n.checked_mul(ROW as u64));
    if bytes != Some(rows.len() as u64) {
        return refused(22);
    }
    let (captures, annotations) = rows.split_at(ROW * t.captures as usize);
    if !well_formed(&t, captures, annotations) {
        return refused(18);
    }
    if captures.len() / 8 > caps.len() || annotations.len() / 8 > notes.len() {
        return refused(20);
    }
    copy(captures, caps);
    copy(annotations, notes);
    t
}

fn refused(refusal: u64) -> Summary {
    Summary { refusal, ..Summary::default() }
}

fn number(bytes: &[u8]) -> u64 {
    u64::from_le_bytes(bytes.try_into().unwrap())
}

fn row(bytes: &[u8]) -> [u64; 4] {
    std::array::from_fn(|k| number(&bytes[8 * k..8 * k + 8]))
}

fn copy(bytes: &[u8], out: &mut [u64]) {
    for (x, bytes) in out.iter_mut().zip(bytes.chunks_exact(8)) {
        *x = number(bytes);
    }
}

fn summary(bytes: &[u8]) -> Summary {
    let at = |k: usize| number(&bytes[8 * k..8 * k + 8]);
    Summary {
        refusal: at(0),
        datatype: at(1),
        channels: at(2),
        width: at(3),
        offset: at(4),
        trailing: at(5),
        samples: at(6),
        size: at(7),
        captures: at(8),
        annotations: at(9),
        rate: at(10),
        ratelen: at(11),
    }
}

fn well_formed(t: &Summary, captures: &[u8], annotations: &[u8]) -> bool {
    let Some(end) = t.offset.checked_add(t.samples) else { return false };
    t.refusal == 0
        && width(t.datatype, t.channels) == Some(t.width)
        && t.size <= LONGEST_DATASET
        && ends_within(t.rate, t.ratelen)
        && captures_ok(t, end, captures)
        && annotations_ok(t.offset, end, annotations)
}

// The bytes of a sample.
fn width(datatype: u64, channels: u64) -> Option<u64> {
    const REAL: [u64; 12] = [4, 4, 4, 4, 2, 2, 4, 4, 2, 2, 1, 1];
    let one = match datatype {
        0..=11 => REAL[datatype as usize],
        12..=23 => 2 * REAL[datatype as usize - 12],
        24..=25 => 8,
        26..=27 => 16,
        _ => return None,
    };
    (1..=1024).contains(&channels).then_some(one * channels)
}

fn ends_within(at: u64, length: u64) -> bool {
    at.checked_add(length).is_some_and(|end| end <= LONGEST_METADATA)
}

// The captures are in order, each ends where the next one starts, and headers, samples and trailer make the size.
fn captures_ok(t: &Summary, end: u64, rows: &[u8]) -> bool {
    let fixed = t.samples.checked_mul(t.width).and_then(|n| n.checked_add(t.trailing));
    let Some(all) = fixed.and_then(|n| t.size.checked_sub(n)) else { return false };
    let (mut last, mut headers, mut due) = (t.offset, 0, None);
    for [start, stop, first, header] in rows.chunks_exact(ROW).map(row) {
        if header > all - headers {
            return false;
        }
        headers += header;
        if start < last || start > end || due.is_some_and(|d| d != start) || first != (start - t.offset) * t.width + headers {
            return false;
        }
        (last, due) = (start, Some(stop));
    }
    headers == all && due.map_or(true, |d| d == end)
}

fn annotations_ok(offset: u64, end: u64, rows: &[u8]) -> bool {
    let mut last = offset;
    for [start, stop, label, length] in rows.chunks_exact(ROW).map(row) {
        if start < last || stop < start || stop > end || !ends_within(label, length) {
            return false;
        }
        last = start;
    }
    true
}
