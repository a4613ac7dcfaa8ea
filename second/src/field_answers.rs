//! The expected answer line of each case about one value or name.

use crate::fields::{self, Place, Type};
use crate::frames::{checksum, Case};
use crate::json::{decode_body, judge, Tree};

/// The types in the order of their numbers.
pub const TYPES: [Type; 7] = [Type::Text, Type::Uint, Type::Double, Type::Boolean, Type::Object, Type::Array, Type::Any];

/// The kinds of object, by the letter of the cases about names in them.
pub const KINDS: [(u8, Place); 3] = [(b'g', Place::Global), (b'c', Place::Capture), (b'a', Place::Annotation)];

/// The answer line of a case, without its line feed; none for a broken case.
pub fn answer(case: &Case) -> Option<String> {
    let numbers = match case.letter {
        b'u' => uint(&case.payload),
        b'd' => Some(vec![fields::datatype_code(&text(&case.payload)?).unwrap_or_else(fields::datatype_count)]),
        b'v' => Some(vec![u64::from(text(&case.payload)? == b"1.0.0")]),
        b'm' => Some(datetime(&text(&case.payload)?)),
        b'n' => Some(name(&decode_body(&case.payload)?)),
        b'k' => types(&case.payload),
        b'x' => Some(vec![entry(&case.payload)?]),
        letter => KINDS.iter().find(|kind| kind.0 == letter).map(|kind| known(kind.1, &case.payload)),
    }?;
    let words: Vec<String> = numbers.iter().map(u64::to_string).collect();
    Some(format!("{} {}", case.letter as char, words.join(" ")))
}

/// The tree of one value's part: JSON with no blank around it.
fn tree_of(part: &[u8]) -> Option<Tree> {
    let tree = judge(part).ok()?;
    (tree.node(tree.root).span.len() == part.len()).then_some(tree)
}

/// The decoded bytes of a string with its quotes.
fn text(part: &[u8]) -> Option<Vec<u8>> {
    decode_body(part.strip_prefix(b"\"")?.strip_suffix(b"\"")?)
}

/// The checksum of bytes.
fn sum(bytes: &[u8]) -> u64 {
    checksum(bytes.iter().map(|&b| u64::from(b)))
}

/// `u`: whether a value is a uint, and which.
fn uint(part: &[u8]) -> Option<Vec<u64>> {
    tree_of(part)?;
    Some(fields::uint(part).map_or(vec![0], |x| vec![1, x]))
}

/// `m`: whether a text is a datetime, its numbers and its fraction.
fn datetime(text: &[u8]) -> Vec<u64> {
    let Some(found) = fields::datetime(text) else {
        return vec![0];
    };
    let mut list = vec![1];
    list.extend(found.numbers.map(u64::from));
    list.extend([found.fraction.len() as u64, sum(found.fraction)]);
    list
}

/// `n`: whether a name has the form, and the part after its colon.
fn name(name: &[u8]) -> Vec<u64> {
    fields::after_colon(name).map_or(vec![0], |part| vec![1, part.len() as u64, sum(part)])
}

/// `g`, `c`, `a`: the number and type of a core field, one past the last and any
/// type if the name is unknown, and how many core names have its decoded length.
fn known(place: Place, raw: &[u8]) -> Vec<u64> {
    let (number, compared) = fields::look_up(place, raw);
    let kind = fields::core_fields(place).get(number).map_or(Type::Any, |f| f.0);
    let code = TYPES.iter().position(|t| *t == kind).unwrap_or(TYPES.len());
    vec![number as u64, code as u64, compared as u64]
}

/// `k`: whether a value is of each of the six types.
fn types(part: &[u8]) -> Option<Vec<u64>> {
    let tree = tree_of(part)?;
    Some(TYPES[..6].iter().map(|&kind| u64::from(fields::matches(part, &tree, tree.root, kind))).collect())
}

/// `x`: an extension entry may be ignored, is malformed or is needed.
fn entry(part: &[u8]) -> Option<u64> {
    let tree = tree_of(part)?;
    if !fields::is_extension_entry(part, &tree, tree.root) {
        return Some(12);
    }
    Some(if fields::is_needed(&tree, tree.root) { 13 } else { 0 })
}
