//! The metadata written from a table, and what is read back from it.

use crate::fields::datatype_name;
use crate::limits::METADATA_MAX;
use crate::listing::{row_label, RowLabel};
use crate::reader::read;
use crate::table::{well_formed, Row, Summary, Table, Written};

/// How far a number of ECMA-404 has been spelled.
#[derive(Clone, Copy)]
enum Spelled {
    Nothing,
    Minus,
    Zero,
    Whole,
    Point,
    Fraction,
    Mark,
    Sign,
    Exponent,
}

/// A number with one byte more, if there is such a one.
fn spelled(so_far: Spelled, byte: u8) -> Option<Spelled> {
    use Spelled::*;
    match (so_far, byte) {
        (Nothing, b'-') => Some(Minus),
        (Nothing | Minus, b'0') => Some(Zero),
        (Nothing | Minus, b'1'..=b'9') | (Whole, b'0'..=b'9') => Some(Whole),
        (Zero | Whole, b'.') => Some(Point),
        (Point | Fraction, b'0'..=b'9') => Some(Fraction),
        (Zero | Whole | Fraction, b'e' | b'E') => Some(Mark),
        (Mark, b'+' | b'-') => Some(Sign),
        (Mark | Sign | Exponent, b'0'..=b'9') => Some(Exponent),
        _ => None,
    }
}

/// Whether the bytes are one JSON number and nothing else.
pub fn one_number(bytes: &[u8]) -> bool {
    let end = bytes.iter().try_fold(Spelled::Nothing, |so_far, &byte| spelled(so_far, byte));
    matches!(end, Some(Spelled::Zero | Spelled::Whole | Spelled::Fraction | Spelled::Exponent))
}

/// The bytes at a text's place, if that is inside the metadata.
fn text_at(metadata: &[u8], place: u64, length: u64) -> Option<&[u8]> {
    let end = place.checked_add(length)?;
    metadata.get(usize::try_from(place).ok()?..usize::try_from(end).ok()?)
}

/// A name and the value as it is written.
type Member = (&'static str, String);

fn object(members: &[Member]) -> String {
    let list: Vec<String> = members.iter().map(|(name, value)| format!("\"{name}\":{value}")).collect();
    format!("{{{}}}", list.join(","))
}

fn array(items: &[String]) -> String {
    format!("[{}]", items.join(","))
}

/// "global with datatype, version, num_channels, offset and trailing_bytes";
/// "Sample rate text, if present, is copied as the last member of global." None
/// "if the sample rate text isn't a JSON number".
fn global(s: &Summary, metadata: &[u8]) -> Option<String> {
    let mut members = vec![
        ("core:datatype", format!("\"{}\"", datatype_name(s.code)?)),
        ("core:version", "\"1.0.0\"".to_string()),
        ("core:num_channels", s.channels.to_string()),
        ("core:offset", s.offset.to_string()),
        ("core:trailing_bytes", s.trailing.to_string()),
    ];
    if (s.rate_place, s.rate_length) != (0, 0) {
        let rate = text_at(metadata, s.rate_place, s.rate_length).filter(|text| one_number(text))?;
        members.push(("core:sample_rate", std::str::from_utf8(rate).ok()?.to_string()));
    }
    Some(object(&members))
}

/// "each capture with its start and header_bytes"
fn capture(row: &Row) -> String {
    object(&[("core:sample_start", row[0].to_string()), ("core:header_bytes", row[3].to_string())])
}

/// "each annotation with start, count and its raw label", "an absent label left
/// out". None where the label's place does not fit the metadata.
fn annotation(row: &Row, metadata: &[u8]) -> Option<String> {
    let count = row[1] - row[0];
    let mut members = vec![("core:sample_start", row[0].to_string()), ("core:sample_count", count.to_string())];
    match row_label(row, metadata) {
        RowLabel::Absent => {}
        RowLabel::Raw(raw) => members.push(("core:label", format!("\"{}\"", std::str::from_utf8(raw).ok()?))),
        RowLabel::Misfit => return None,
    }
    Some(object(&members))
}

/// The whole text, "in that order, nothing between or after tokens", or none where
/// the answer is 18.
pub fn metadata_text(table: &Table, metadata: &[u8]) -> Option<String> {
    if !well_formed(table) {
        return None;
    }
    let captures: Vec<String> = table.capture_rows().iter().map(capture).collect();
    let annotations: Option<Vec<String>> = table.annotation_rows().iter().map(|row| annotation(row, metadata)).collect();
    let global = global(table.summary, metadata)?;
    Some(object(&[("global", global), ("captures", array(&captures)), ("annotations", array(&annotations?))]))
}

/// The text at the front of the lent output. "Refusals: 18 as for the listing, and
/// if the sample rate text isn't a JSON number; 20 if the text exceeds the lent
/// room or 61,440 bytes." Reports how many bytes it wrote.
pub fn write(table: &Table, metadata: &[u8], output: &mut [u8]) -> Written {
    let Some(text) = metadata_text(table, metadata) else {
        return Written::refused(18);
    };
    if text.len() > output.len() || text.len() > METADATA_MAX {
        return Written::refused(20);
    }
    output[..text.len()].copy_from_slice(text.as_bytes());
    Written { refusal: 0, count: text.len() as u64 }
}

/// The sample rate's text, then each annotation's label; none for an absent one.
fn texts<'a>(table: &Table, metadata: &'a [u8]) -> Vec<Option<&'a [u8]>> {
    let labels = table.annotation_rows().into_iter().map(|r| (r[2], r[3]));
    let places = [(table.summary.rate_place, table.summary.rate_length)].into_iter().chain(labels);
    places.map(|(place, length)| text_at(metadata, place, length).filter(|_| (place, length) != (0, 0))).collect()
}

/// The summary without the sample rate's place.
fn numbers(table: &Table) -> Summary {
    Summary { rate_place: 0, rate_length: 0, ..*table.summary }
}

/// The annotations' starts and ends.
fn ranges(table: &Table) -> Vec<(u64, u64)> {
    table.annotation_rows().iter().map(|r| (r[0], r[1])).collect()
}

/// "Reading it with the same D must give the same table; only text places may
/// differ, and the texts found there are equal bytes." And the table that was read
/// gives the same text again.
pub fn reads_back(table: &Table, metadata: &[u8], text: &[u8]) -> bool {
    let mut captures = vec![0; 4 * table.summary.captures as usize];
    let mut annotations = vec![0; 4 * table.summary.annotations as usize];
    let summary = read(text, table.summary.dataset, &mut captures, &mut annotations);
    let back = Table { summary: &summary, captures: &captures, annotations: &annotations };
    numbers(&back) == numbers(table)
        && back.capture_rows() == table.capture_rows()
        && ranges(&back) == ranges(table)
        && texts(&back, text) == texts(table, metadata)
        && metadata_text(&back, text).is_some_and(|again| again.as_bytes() == text)
}
