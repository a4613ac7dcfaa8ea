//! Label lookup, the listing and the program.

use crate::fields::datatype_name;
use crate::json::{all_digits, decode_body};
use crate::reader::read;
use crate::table::{well_formed, Row, Summary, Table, Written};

/// "It has room for 1,024 captures, 1,024 annotations and 61,440 output bytes"
pub const PROGRAM_CAPTURES: usize = 1_024;
/// See [`PROGRAM_CAPTURES`].
pub const PROGRAM_ANNOTATIONS: usize = 1_024;
/// See [`PROGRAM_CAPTURES`].
pub const PROGRAM_BYTES: usize = 61_440;

/// The answer of a label lookup.
#[derive(Clone, Copy, PartialEq, Eq, Debug)]
pub struct Label<'a> {
    pub refusal: u64,
    pub present: bool,
    /// The raw label, a part of the lent metadata.
    pub part: &'a [u8],
}

/// What an annotation row's text place says of its label.
pub enum RowLabel<'a> {
    Absent,
    /// The raw label, a part of the lent metadata.
    Raw(&'a [u8]),
    /// The place does not fit the metadata.
    Misfit,
}

/// "each present label's place has a `"` byte just before and just after it in
/// the lent metadata and holds a JSON string body in valid UTF-8"
pub fn row_label<'a>(row: &Row, metadata: &'a [u8]) -> RowLabel<'a> {
    let (place, length) = (u128::from(row[2]), u128::from(row[3]));
    if (place, length) == (0, 0) {
        return RowLabel::Absent;
    }
    let end = place + length;
    if place == 0 || end >= metadata.len() as u128 {
        return RowLabel::Misfit;
    }
    let (place, end) = (place as usize, end as usize);
    let body = &metadata[place..end];
    let quoted = metadata[place - 1] == b'"' && metadata[end] == b'"';
    if quoted && decode_body(body).is_some() {
        RowLabel::Raw(body)
    } else {
        RowLabel::Misfit
    }
}

/// "The raw label is handed back as that part of the caller's own metadata. An
/// absent one is answered as absent with an empty part; an empty label is
/// present." Gives 18 for the table, then 19, then 18 for its own label.
pub fn label<'a>(table: &Table, metadata: &'a [u8], number: u64) -> Label<'a> {
    let answer = |refusal, present, part| Label { refusal, present, part };
    let nothing = &metadata[..0];
    if !well_formed(table) {
        return answer(18, false, nothing);
    }
    if number >= table.summary.annotations {
        return answer(19, false, nothing);
    }
    match row_label(&table.annotation_rows()[number as usize], metadata) {
        RowLabel::Absent => answer(0, false, nothing),
        RowLabel::Raw(part) => answer(0, true, part),
        RowLabel::Misfit => answer(18, false, nothing),
    }
}

/// "A label stands in quotes, decoded to UTF-8: bytes 0x20 to 0x7E except `"` and
/// `\` as they are, others as `\x` and two lower-case hex digits."
pub fn shown_label(raw: &[u8]) -> Option<String> {
    let mut shown = String::from("\"");
    for byte in decode_body(raw)? {
        match byte {
            b'"' | b'\\' => shown.push_str(&format!("\\x{byte:02x}")),
            0x20..=0x7E => shown.push(char::from(byte)),
            _ => shown.push_str(&format!("\\x{byte:02x}")),
        }
    }
    shown.push('"');
    Some(shown)
}

/// The lines of the listing, or none where its answer is 18.
pub fn listing_text(table: &Table, metadata: &[u8]) -> Option<String> {
    if !well_formed(table) {
        return None;
    }
    let s = table.summary;
    let datatype = datatype_name(s.code)?;
    let first = [("channels", s.channels), ("offset", s.offset), ("samples", s.samples)];
    let mut text = format!("recording {datatype}");
    for (word, number) in first {
        text.push_str(&format!(" {word} {number}"));
    }
    text.push('\n');
    for [start, end, byte, header] in table.capture_rows() {
        text.push_str(&format!("capture {start} {end} {byte} {header}\n"));
    }
    for row in table.annotation_rows() {
        let shown = match row_label(&row, metadata) {
            RowLabel::Absent => "-".to_string(),
            RowLabel::Raw(raw) => shown_label(raw)?,
            RowLabel::Misfit => return None,
        };
        text.push_str(&format!("annotation {} {} {shown}\n", row[0], row[1]));
    }
    Some(text)
}

/// The listing at the front of the lent output; gives 18 or 20, and reports how
/// many bytes it wrote.
pub fn listing(table: &Table, metadata: &[u8], output: &mut [u8]) -> Written {
    let Some(text) = listing_text(table, metadata) else {
        return Written::refused(18);
    };
    if text.len() > output.len() {
        return Written::refused(20);
    }
    output[..text.len()].copy_from_slice(text.as_bytes());
    Written { refusal: 0, count: text.len() as u64 }
}

/// "The program reads D on standard input's first line (1 to 20 digits and a line
/// feed), then the metadata": D and the metadata, or none for any other first
/// line.
pub fn first_line(input: &[u8]) -> Option<(u128, &[u8])> {
    let end = input.iter().position(|&b| b == b'\n')?;
    let digits = &input[..end];
    if !all_digits(digits) || digits.len() > 20 {
        return None;
    }
    let dataset = std::str::from_utf8(digits).ok()?.parse().ok()?;
    Some((dataset, &input[end + 1..]))
}

/// The refusal or the whole listing of the program's input.
fn program_listing(input: &[u8]) -> Result<Vec<u8>, u64> {
    let (dataset, metadata) = first_line(input).ok_or(1u64)?;
    let dataset = u64::try_from(dataset).map_err(|_| 1u64)?;
    let mut captures = vec![0; 4 * PROGRAM_CAPTURES];
    let mut annotations = vec![0; 4 * PROGRAM_ANNOTATIONS];
    let summary: Summary = read(metadata, dataset, &mut captures, &mut annotations);
    if summary.refusal != 0 {
        return Err(summary.refusal);
    }
    let table = Table { summary: &summary, captures: &captures, annotations: &annotations };
    let mut output = vec![0; PROGRAM_BYTES];
    let written = listing(&table, metadata, &mut output);
    if written.refusal != 0 {
        return Err(written.refusal);
    }
    output.truncate(written.count as usize);
    Ok(output)
}

/// What the program prints for its standard input: the listing, "and prints
/// `refused N` otherwise".
pub fn program(input: &[u8]) -> Vec<u8> {
    match program_listing(input) {
        Ok(listing) => listing,
        Err(refusal) => format!("refused {refusal}\n").into_bytes(),
    }
}
