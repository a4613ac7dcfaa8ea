//! The whole reader: refusals 1 to 17 and 20, the summary and the rows.

use crate::fields::{self, Place};
use crate::json::{has_bad_object, parse, too_deep, Kind, NodeId, Span, Tree};
use crate::limits::{CHANNELS_MAX, DATASET_MAX, INDEX_MAX, METADATA_MAX};
use crate::table::{rows_held, write_rows, Row, Summary};

/// What the reader is asked.
struct Input<'a> {
    text: &'a [u8],
    dataset: u64,
    /// The tree, unless the text is not JSON at all.
    tree: Option<Tree>,
    capture_room: u64,
    annotation_room: u64,
}

/// A refusal number and its condition, read with all smaller ones not holding.
type Condition = (u64, fn(&Input) -> bool);

/// The conditions of the table of refusals that the reader judges.
const CONDITIONS: [Condition; 18] = [
    (1, wrong_length),
    (2, not_json),
    (3, repeated_or_many),
    (4, wrong_shape),
    (5, wrong_name),
    (6, missing_field),
    (7, wrong_type),
    (8, wrong_version),
    (9, wrong_datatype),
    (10, wrong_channels),
    (11, wrong_datetime),
    (12, wrong_extension),
    (13, needed_extension),
    (14, metadata_only),
    (15, not_ascending),
    (16, wrong_size),
    (17, wrong_index),
    (20, too_little_room),
];

/// Reads metadata beside a dataset of a length. Rows go to the front of the lent
/// numbers, four for each capture and annotation; "A refusal gives that number,
/// 0 in every other number of the answer ... and every lent row and byte keeps
/// its content."
pub fn read(text: &[u8], dataset: u64, captures: &mut [u64], annotations: &mut [u64]) -> Summary {
    let input = Input {
        text,
        dataset,
        tree: parse(text),
        capture_room: rows_held(captures),
        annotation_room: rows_held(annotations),
    };
    // "The answer is the smallest number whose condition holds"
    if let Some((number, _)) = CONDITIONS.iter().find(|(_, holds)| holds(&input)) {
        return Summary::refused(*number);
    }
    write_rows(&capture_rows(&input), captures);
    write_rows(&annotation_rows(&input), annotations);
    summary(&input)
}

impl Input<'_> {
    /// The tree of a text that is JSON.
    fn tree(&self) -> &Tree {
        self.tree.as_ref().expect("refusal 2 does not hold")
    }

    /// A member of the top level.
    fn top(&self, name: &str) -> Option<NodeId> {
        self.tree().get(self.tree().root, name.as_bytes())
    }

    /// The elements of `captures` or `annotations`.
    fn list(&self, name: &str) -> Vec<NodeId> {
        let array = self.top(name).and_then(|id| self.tree().elements(id));
        array.unwrap_or_default().to_vec()
    }

    /// The global object, the captures and the annotations, each with its kind.
    fn objects(&self) -> Vec<(Place, NodeId)> {
        let global = self.top("global").map(|id| (Place::Global, id));
        let captures = self.list("captures").into_iter().map(|id| (Place::Capture, id));
        let annotations = self.list("annotations").into_iter().map(|id| (Place::Annotation, id));
        global.into_iter().chain(captures).chain(annotations).collect()
    }

    /// A core field of an object.
    fn core(&self, object: NodeId, name: &str) -> Option<NodeId> {
        self.tree().get(object, format!("core:{name}").as_bytes())
    }

    /// A core field of the global object.
    fn global(&self, name: &str) -> Option<NodeId> {
        self.core(self.top("global")?, name)
    }

    /// The number of a uint field.
    fn uint(&self, object: NodeId, name: &str) -> Option<u64> {
        let span = self.tree().node(self.core(object, name)?).span;
        fields::uint(&self.text[span.start..span.end])
    }

    /// The number of a global uint field.
    fn global_uint(&self, name: &str) -> Option<u64> {
        self.uint(self.top("global")?, name)
    }

    /// The decoded text of a value.
    fn decoded(&self, value: NodeId) -> &[u8] {
        match &self.tree().node(value).kind {
            Kind::Text(bytes) => bytes,
            _ => b"",
        }
    }

    /// The entries of core:extensions.
    fn extensions(&self) -> Vec<NodeId> {
        let array = self.global("extensions").and_then(|id| self.tree().elements(id));
        array.unwrap_or_default().to_vec()
    }
}

/// 1: "metadata empty or too long, or D above 2^48"
fn wrong_length(input: &Input) -> bool {
    input.text.is_empty() || input.text.len() > METADATA_MAX || input.dataset > DATASET_MAX
}

/// 2: "not one JSON value in valid UTF-8, or nested beyond 32"
fn not_json(input: &Input) -> bool {
    input.tree.as_ref().is_none_or(too_deep)
}

/// 3: "some object, however deep, has a name twice or over 256 members"
fn repeated_or_many(input: &Input) -> bool {
    has_bad_object(input.tree())
}

/// 4: "top level not an object; `global` not an object, `captures` or
/// `annotations` not an array, or one missing; an element of either array not an
/// object"
fn wrong_shape(input: &Input) -> bool {
    let tree = input.tree();
    let global_ok = input.top("global").is_some_and(|id| tree.members(id).is_some());
    let list_ok = |name: &str| {
        let elements = input.top(name).and_then(|id| tree.elements(id));
        elements.is_some_and(|list| list.iter().all(|&id| tree.members(id).is_some()))
    };
    tree.members(tree.root).is_none() || !global_ok || !list_ok("captures") || !list_ok("annotations")
}

/// 5: "a field name in global, a capture or an annotation has the wrong form"
fn wrong_name(input: &Input) -> bool {
    let objects = input.objects();
    let mut members = objects.iter().flat_map(|&(_, id)| input.tree().members(id).unwrap_or_default());
    members.any(|m| !fields::has_form(&m.name))
}

/// 6: "a required core field missing"
fn missing_field(input: &Input) -> bool {
    let missing = |&(place, id): &(Place, NodeId)| {
        fields::required(place).iter().any(|name| input.core(id, name).is_none())
    };
    input.objects().iter().any(missing)
}

/// 7: "a core field of the wrong type"
fn wrong_type(input: &Input) -> bool {
    let tree = input.tree();
    input.objects().iter().any(|&(place, id)| {
        tree.members(id).unwrap_or_default().iter().any(|m| {
            let wanted = fields::known_type(place, &m.name);
            wanted.is_some_and(|kind| !fields::matches(input.text, tree, m.value, kind))
        })
    })
}

/// 8: "`core:version` is not `1.0.0`"
fn wrong_version(input: &Input) -> bool {
    input.global("version").map(|id| input.decoded(id)) != Some(b"1.0.0")
}

/// 9: "`core:datatype` is not in the list"
fn wrong_datatype(input: &Input) -> bool {
    code(input).is_none()
}

/// 10: "`core:num_channels` is 0 or above 1,024"
fn wrong_channels(input: &Input) -> bool {
    !(1..=CHANNELS_MAX).contains(&channels(input))
}

/// 11: "a `core:datetime` breaks its rule"
fn wrong_datetime(input: &Input) -> bool {
    let captures = input.list("captures");
    let mut datetimes = captures.iter().filter_map(|&id| input.core(id, "datetime"));
    datetimes.any(|id| !fields::is_datetime(input.decoded(id)))
}

/// 12: "an extension entry is malformed"
fn wrong_extension(input: &Input) -> bool {
    let entries = input.extensions();
    entries.iter().any(|&id| !fields::is_extension_entry(input.text, input.tree(), id))
}

/// 13: "an extension is needed (none is known yet)"
fn needed_extension(input: &Input) -> bool {
    input.extensions().iter().any(|&id| fields::is_needed(input.tree(), id))
}

/// 14: "`core:metadata_only` is true, or present beside `core:dataset`"
fn metadata_only(input: &Input) -> bool {
    let beside = input.global("dataset").is_some();
    input.global("metadata_only").is_some_and(|id| beside || input.tree().node(id).kind == Kind::True)
}

/// 15: "captures or annotations not ascending by start"; "Equal starts are
/// allowed".
fn not_ascending(input: &Input) -> bool {
    !starts(input, "captures").is_sorted() || !starts(input, "annotations").is_sorted()
}

/// 16: "headers and trailer exceed D, or the rest isn't whole samples"
fn wrong_size(input: &Input) -> bool {
    samples(input).is_none()
}

/// 17: "an index outside the dataset, or the end index above 2^64 - 1"
fn wrong_index(input: &Input) -> bool {
    let (offset, end) = (u128::from(offset(input)), end(input));
    let mut all = starts(input, "captures");
    all.extend(starts(input, "annotations"));
    let start_outside = all.iter().any(|&s| u128::from(s) < offset || u128::from(s) > end);
    let annotations = input.list("annotations");
    let end_outside = annotations.iter().any(|&id| annotation_end(input, id, end) > end);
    end > INDEX_MAX || start_outside || end_outside
}

/// 20: "the answer needs more rows, pieces or bytes than the lent memory holds"
fn too_little_room(input: &Input) -> bool {
    let captures = input.list("captures").len() as u64;
    let annotations = input.list("annotations").len() as u64;
    captures > input.capture_room || annotations > input.annotation_room
}

/// The datatype's code, if it is listed.
fn code(input: &Input) -> Option<u64> {
    fields::datatype_code(input.decoded(input.global("datatype")?))
}

/// "num_channels (default 1)"
fn channels(input: &Input) -> u64 {
    input.global_uint("num_channels").unwrap_or(1)
}

/// O: "offset (0)"
fn offset(input: &Input) -> u64 {
    input.global_uint("offset").unwrap_or(0)
}

/// T: "trailing_bytes (0)"
fn trailing(input: &Input) -> u64 {
    input.global_uint("trailing_bytes").unwrap_or(0)
}

/// The starts of the captures or annotations in file order.
fn starts(input: &Input, name: &str) -> Vec<u64> {
    input.list(name).iter().filter_map(|&id| input.uint(id, "sample_start")).collect()
}

/// The header bytes of the captures in file order.
fn headers(input: &Input) -> Vec<u64> {
    let captures = input.list("captures");
    captures.iter().map(|&id| input.uint(id, "header_bytes").unwrap_or(0)).collect()
}

/// "W = component bytes x (2 if complex) x channels"
fn width(input: &Input) -> u128 {
    let known = code(input).and_then(|c| fields::sample_width(c, channels(input)));
    known.expect("refusal 9 does not hold")
}

/// "N = (D - T - H) / W", if that is a whole number and not below 0.
fn samples(input: &Input) -> Option<u128> {
    let all_headers: u128 = headers(input).iter().map(|&h| u128::from(h)).sum();
    let other = u128::from(trailing(input)) + all_headers;
    let data = u128::from(input.dataset).checked_sub(other)?;
    (data % width(input) == 0).then(|| data / width(input))
}

/// O + N.
fn end(input: &Input) -> u128 {
    u128::from(offset(input)) + samples(input).expect("refusal 16 does not hold")
}

/// "An annotation without a count runs to the end of the dataset; with one, start
/// + count <= O + N."
fn annotation_end(input: &Input, annotation: NodeId, dataset_end: u128) -> u128 {
    let start = input.uint(annotation, "sample_start").map_or(0, u128::from);
    let count = input.uint(annotation, "sample_count").map(u128::from);
    count.map_or(dataset_end, |c| start + c)
}

/// "Capture row, four u64: start, end, first byte, header bytes, where first byte
/// counts the headers up to and including this capture's own."
fn capture_rows(input: &Input) -> Vec<Row> {
    let (starts, headers) = (starts(input, "captures"), headers(input));
    let (offset, width, dataset_end) = (offset(input), width(input), end(input));
    let row = |k: usize| {
        let end = starts.get(k + 1).map_or(dataset_end, |&next| u128::from(next));
        let before: u128 = headers[..=k].iter().map(|&h| u128::from(h)).sum();
        let first = u128::from(starts[k] - offset) * width + before;
        [starts[k], end as u64, first as u64, headers[k]]
    };
    (0..starts.len()).map(row).collect()
}

/// "Annotation row, four u64: start, end, place and length of the raw label
/// between its quotes; 0, 0 if absent."
fn annotation_rows(input: &Input) -> Vec<Row> {
    let dataset_end = end(input);
    let row = |&id: &NodeId| {
        let start = input.uint(id, "sample_start").unwrap_or(0);
        let label = input.core(id, "label").map(|value| inside_quotes(input.tree().node(value).span));
        let (place, length) = label.map_or((0, 0), |s| (s.start as u64, s.len() as u64));
        [start, annotation_end(input, id, dataset_end) as u64, place, length]
    };
    input.list("annotations").iter().map(row).collect()
}

/// A string's span without its quotes.
fn inside_quotes(quoted: Span) -> Span {
    Span { start: quoted.start + 1, end: quoted.end - 1 }
}

/// The summary of an accepted recording.
fn summary(input: &Input) -> Summary {
    let rate = input.global("sample_rate").map(|id| input.tree().node(id).span);
    let (rate_place, rate_length) = rate.map_or((0, 0), |s| (s.start as u64, s.len() as u64));
    Summary {
        refusal: 0,
        code: code(input).unwrap_or(0),
        channels: channels(input),
        width: width(input) as u64,
        offset: offset(input),
        trailing: trailing(input),
        samples: samples(input).unwrap_or(0) as u64,
        dataset: input.dataset,
        captures: input.list("captures").len() as u64,
        annotations: input.list("annotations").len() as u64,
        rate_place,
        rate_length,
    }
}
