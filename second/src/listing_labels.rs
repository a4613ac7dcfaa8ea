//! Labels that are hard to list.

/// Raw labels between their quotes; none for an absent one.
pub fn hostile_labels() -> Vec<Option<String>> {
    let mut list: Vec<Option<String>> = vec![None];
    list.extend((0..=255).map(|byte| Some(format!("\\u{byte:04x}"))));
    let plain = (0x20..=0xFFu8).map(char::from).filter(|c| *c != '"' && *c != '\\');
    list.extend(plain.map(|c| Some(format!("{c}{c}"))));
    list.extend(LABELS.iter().map(|l| Some(l.to_string())));
    list.push(None);
    for (text, count) in [("\\u0030", 333), ("\\u0000", 333), ("é", 300), ("\\\\", 400), ("\\ud83d\\ude00", 100), ("a", 2_000)] {
        list.push(Some(text.repeat(count)));
    }
    list
}

/// Escapes, other characters, and texts that look like lines of the listing.
pub const LABELS: &[&str] = &[
    "", "-", " ", "  ", "\\\"", "\\\"\\\"", "\\\\", "\\\\\\\\", "\\\\\\\"", "\\/", "\\b\\f\\n\\r\\t", "\\n", "\\u000a",
    "\\u000A", "\\u0022", "\\u005c", "\\u005C\\u0022", "\\u002f",
    "gate\\nannotation 6 8 \\\"gate\\\"", "\\\"\\nannotation 0 0 -", "x\\\"\\ncapture 0 1 0 0\\nannotation 0 1 \\\"",
    "\\nrecording ru8 channels 1 offset 0 samples 0\\n", "\\\" -", "-\\n", "\\n-",
    "\\\\x0a", "\\\\x22", "x22", "\\\\x", "\\\\x5c", "\\\\xc3\\\\xa9", "\\\\u0041", "\\u005cx41", "\\\\n", "\\\\\\n",
    "%0a", "&quot;", "'", "`", "~", "\u{7f}", "\\u007F", "\u{80}", "\\u0080",
    "é", "\\u00e9", "e\\u0301", "\u{7ff}", "\\u07ff", "\u{800}", "\\u0800", "\u{2028}", "\\u2028", "\u{d7ff}",
    "\\ud7ff", "\u{e000}", "\\uE000", "\u{feff}", "\\ufeff", "\u{fffd}", "\u{ffff}", "\\uffff",
    "\u{10000}", "\\ud800\\udc00", "😀", "\\ud83d\\ude00", "\\uD83D\\uDE00", "\u{10ffff}", "\\udbff\\udfff",
    "\\ud83d\\ude00\\ud83d\\ude00", "a\\u0000b", "\\u0000\\u0001\\u001f", "\\u001f ~\\u007f",
    "{\\\"core:label\\\":\\\"x\\\"}", "],}", "core:label", "\\\"core:label\\\":\\\"y", "a b  c", "tab\\there", "\\r\\n",
    "refused 18", "refused 18\\n", "annotation 4 6 \\\"gate\\\"", "0", "null", "true",
];
