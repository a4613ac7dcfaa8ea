//! JSON values in parts, to be changed before they are written.

use crate::json_random::spell;
use crate::rng::Rng;

/// A value: a text as it stands, or a container of parts.
#[derive(Clone, PartialEq, Eq, Debug)]
pub enum Part {
    Raw(String),
    List(Vec<Part>),
    Object(Vec<Member>),
}

/// A raw name between its quotes, and the value.
pub type Member = (String, Part);

/// A text as it stands.
pub fn raw(text: impl ToString) -> Part {
    Part::Raw(text.to_string())
}

/// The value of a name.
pub fn find<'a>(members: &'a mut [Member], name: &str) -> Option<&'a mut Part> {
    members.iter_mut().find(|m| m.0 == name).map(|m| &mut m.1)
}

/// Another value of a name, or a new member at the end.
pub fn set(members: &mut Vec<Member>, name: &str, value: Part) {
    match find(members, name) {
        Some(part) => *part = value,
        None => members.push((name.to_string(), value)),
    }
}

/// Without the member of a name.
pub fn remove(members: &mut Vec<Member>, name: &str) {
    members.retain(|m| m.0 != name);
}

/// How parts are written.
#[derive(Clone, Copy, PartialEq, Eq, Debug, Default)]
pub struct Style {
    /// 0 none, 1 here and there, 2 indented lines.
    pub blanks: usize,
    /// Whether some names are written with escapes.
    pub escapes: bool,
    /// Whether members of objects are written in any order.
    pub any_order: bool,
}

/// Any style.
pub fn random_style(rng: &mut Rng) -> Style {
    Style { blanks: [0, 0, 0, 1, 2][rng.below(5)], escapes: rng.once_in(4), any_order: rng.once_in(3) }
}

/// The text of a value.
pub fn written(part: &Part, style: Style, rng: &mut Rng) -> String {
    let mut out = String::new();
    write(part, style, 0, rng, &mut out);
    out
}

fn write(part: &Part, style: Style, depth: usize, rng: &mut Rng, out: &mut String) {
    match part {
        Part::Raw(text) => out.push_str(text),
        Part::List(list) => {
            out.push('[');
            for (k, item) in list.iter().enumerate() {
                comma(k, style, depth + 1, rng, out);
                write(item, style, depth + 1, rng, out);
            }
            blanks(style, depth, rng, out);
            out.push(']');
        }
        Part::Object(members) => {
            out.push('{');
            for (k, (name, value)) in ordered(members, style, rng).into_iter().enumerate() {
                comma(k, style, depth + 1, rng, out);
                out.push_str(&format!("\"{}\"", written_name(name, style, rng)));
                blanks(Style { blanks: style.blanks % 2, ..style }, depth, rng, out);
                out.push(':');
                blanks(Style { blanks: style.blanks % 2, ..style }, depth, rng, out);
                write(value, style, depth + 1, rng, out);
            }
            blanks(style, depth, rng, out);
            out.push('}');
        }
    }
}

/// The members in the order they are written in.
fn ordered<'a>(members: &'a [Member], style: Style, rng: &mut Rng) -> Vec<&'a Member> {
    let mut list: Vec<&Member> = members.iter().collect();
    if style.any_order {
        for k in (1..list.len()).rev() {
            list.swap(k, rng.below(k + 1));
        }
    }
    list
}

/// A comma except before the first item, with blanks around it.
fn comma(k: usize, style: Style, depth: usize, rng: &mut Rng, out: &mut String) {
    if k > 0 {
        blanks(Style { blanks: style.blanks % 2, ..style }, depth, rng, out);
        out.push(',');
    }
    blanks(style, depth, rng, out);
}

fn blanks(style: Style, depth: usize, rng: &mut Rng, out: &mut String) {
    match style.blanks {
        0 => {}
        1 if rng.once_in(2) => out.push_str(rng.pick(&[" ", "\t", "\n", "\r", "\r\n", "  ", " \t"])),
        1 => {}
        _ => {
            out.push('\n');
            out.push_str(&" ".repeat(depth));
        }
    }
}

/// A name, with escapes now and then where it has none and needs none.
fn written_name(name: &str, style: Style, rng: &mut Rng) -> String {
    let plain = name.chars().all(|c| c >= ' ' && c != '"' && c != '\\') && name.len() < 100;
    if !style.escapes || !plain || rng.once_in(2) {
        return name.to_string();
    }
    let chars: Vec<char> = name.chars().collect();
    String::from_utf8(spell(rng, &chars)).unwrap_or_default()
}
