//! A recording's text in parts, with the numbers it stands for.

use crate::fields::{datatype_name, sample_width};
use crate::part::{raw, set, Member, Part};

/// The numbers of a recording that is accepted.
#[derive(Clone, PartialEq, Eq, Debug, Default)]
pub struct Plan {
    pub code: u64,
    pub channels: u64,
    /// O
    pub offset: u64,
    /// T
    pub trailing: u64,
    /// N
    pub samples: u64,
    /// Start and header bytes, ascending.
    pub captures: Vec<(u64, u64)>,
    pub annotations: Vec<Note>,
}

/// Start, count and the raw label between its quotes.
pub type Note = (u64, Option<u64>, Option<String>);

impl Plan {
    /// W
    pub fn width(&self) -> u64 {
        sample_width(self.code, self.channels).unwrap_or(1) as u64
    }

    /// D = T + H + N * W.
    pub fn dataset(&self) -> u64 {
        let headers: u64 = self.captures.iter().map(|c| c.1).sum();
        self.trailing + headers + self.samples * self.width()
    }

    /// The recording of these numbers, with no field that has its default.
    pub fn recording(&self) -> Recording {
        let mut global = vec![member("datatype", format!("\"{}\"", datatype_name(self.code).unwrap_or_default()))];
        global.push(member("version", "\"1.0.0\""));
        for (name, number, default) in
            [("num_channels", self.channels, 1), ("offset", self.offset, 0), ("trailing_bytes", self.trailing, 0)]
        {
            if number != default {
                global.push(member(name, number));
            }
        }
        let captures = self.captures.iter().map(|&c| Part::Object(capture(c))).collect();
        let annotations = self.annotations.iter().map(|n| Part::Object(annotation(n))).collect();
        let top = vec![
            ("global".to_string(), Part::Object(global)),
            ("captures".to_string(), Part::List(captures)),
            ("annotations".to_string(), Part::List(annotations)),
        ];
        Recording { top: Part::Object(top), dataset: self.dataset(), plan: self.clone() }
    }
}

/// A core field.
pub fn member(name: &str, value: impl ToString) -> Member {
    (format!("core:{name}"), raw(value))
}

fn capture((start, header): (u64, u64)) -> Vec<Member> {
    let mut list = vec![member("sample_start", start)];
    if header != 0 {
        list.push(member("header_bytes", header));
    }
    list
}

fn annotation((start, count, label): &Note) -> Vec<Member> {
    let mut list = vec![member("sample_start", start)];
    if let Some(count) = count {
        list.push(member("sample_count", count));
    }
    if let Some(label) = label {
        list.push(member("label", format!("\"{label}\"")));
    }
    list
}

/// The text in parts, the dataset's length, and the numbers they come from.
#[derive(Clone, PartialEq, Eq, Debug)]
pub struct Recording {
    pub top: Part,
    pub dataset: u64,
    pub plan: Plan,
}

impl Recording {
    /// The top level's members.
    pub fn members(&mut self) -> Option<&mut Vec<Member>> {
        match &mut self.top {
            Part::Object(members) => Some(members),
            _ => None,
        }
    }

    /// A top-level value.
    pub fn value(&mut self, name: &str) -> Option<&mut Part> {
        self.members().and_then(|m| m.iter_mut().find(|m| m.0 == name)).map(|m| &mut m.1)
    }

    /// The elements of `captures` or `annotations`.
    pub fn list(&mut self, name: &str) -> Option<&mut Vec<Part>> {
        match self.value(name) {
            Some(Part::List(list)) => Some(list),
            _ => None,
        }
    }

    /// The members of the global object, or of an element by its number.
    pub fn object(&mut self, place: (&str, usize)) -> Option<&mut Vec<Member>> {
        let part = match place {
            ("global", _) => self.value("global"),
            (name, k) => self.list(name).and_then(|l| l.get_mut(k)),
        };
        match part {
            Some(Part::Object(members)) => Some(members),
            _ => None,
        }
    }

    /// A field of an object with another value, or a new one.
    pub fn set(&mut self, place: (&str, usize), name: &str, value: Part) {
        if let Some(members) = self.object(place) {
            set(members, name, value);
        }
    }

    /// O + N.
    pub fn end(&self) -> u64 {
        self.plan.offset + self.plan.samples
    }
}
