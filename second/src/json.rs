//! JSON text to a tree: refusals 2 and 3, and the decoding of strings.
//!
//! The text is first cut into lexemes; the lexemes are then put on a stack and
//! reduced bottom-up at each closing bracket. Nothing here is recursive.

use crate::limits::{MEMBERS_MAX, NESTING_MAX};
use std::collections::HashSet;

/// A half-open range of byte places in the text.
#[derive(Clone, Copy, PartialEq, Eq, Debug)]
pub struct Span {
    pub start: usize,
    pub end: usize,
}

impl Span {
    /// The number of bytes in the range.
    pub fn len(&self) -> usize {
        self.end - self.start
    }

    /// Whether the range holds no byte.
    pub fn is_empty(&self) -> bool {
        self.start == self.end
    }
}

/// The number of a node in its tree.
pub type NodeId = usize;

/// One name and value of an object.
#[derive(Clone, PartialEq, Eq, Debug)]
pub struct Member {
    /// The raw name between its quotes.
    pub raw: Span,
    /// The name after escapes are decoded.
    pub name: Vec<u8>,
    pub value: NodeId,
}

/// What a node is.
#[derive(Clone, PartialEq, Eq, Debug)]
pub enum Kind {
    Object(Vec<Member>),
    Array(Vec<NodeId>),
    /// The decoded bytes.
    Text(Vec<u8>),
    Number,
    True,
    False,
    Null,
}

/// A value with the part of the text that holds it.
#[derive(Clone, PartialEq, Eq, Debug)]
pub struct Node {
    pub span: Span,
    pub kind: Kind,
    /// 0 for a scalar; for a container, 1 more than its deepest child.
    pub height: usize,
}

/// A whole text as nodes; names of members are nodes of their own, unreferenced.
#[derive(Clone, PartialEq, Eq, Debug)]
pub struct Tree {
    pub nodes: Vec<Node>,
    pub root: NodeId,
}

impl Tree {
    /// The node with the number.
    pub fn node(&self, id: NodeId) -> &Node {
        &self.nodes[id]
    }

    /// The members of a node, if it is an object.
    pub fn members(&self, id: NodeId) -> Option<&[Member]> {
        match &self.nodes[id].kind {
            Kind::Object(members) => Some(members),
            _ => None,
        }
    }

    /// The elements of a node, if it is an array.
    pub fn elements(&self, id: NodeId) -> Option<&[NodeId]> {
        match &self.nodes[id].kind {
            Kind::Array(elements) => Some(elements),
            _ => None,
        }
    }

    /// The value of an object's member by its decoded name.
    pub fn get(&self, object: NodeId, name: &[u8]) -> Option<NodeId> {
        let members = self.members(object)?;
        members.iter().find(|m| m.name == name).map(|m| m.value)
    }
}

/// "Spaces, tabs, line feeds and carriage returns may stand between tokens"
fn is_blank(byte: u8) -> bool {
    [0x20, 0x09, 0x0A, 0x0D].contains(&byte)
}

/// What a lexeme or a reduced part stands for on the stack.
enum Symbol {
    Open { object: bool, at: usize },
    Colon,
    Comma,
    Value(NodeId),
}

/// The text judged for refusals 2 and 3 alone.
pub fn judge(text: &[u8]) -> Result<Tree, u64> {
    let tree = parse(text).ok_or(2u64)?;
    if too_deep(&tree) {
        return Err(2);
    }
    if has_bad_object(&tree) {
        return Err(3);
    }
    Ok(tree)
}

/// "nested beyond 32": "a bare number has depth 0, `[]` has depth 1"
pub fn too_deep(tree: &Tree) -> bool {
    tree.node(tree.root).height > NESTING_MAX
}

/// "some object, however deep, has a name twice or over 256 members"
pub fn has_bad_object(tree: &Tree) -> bool {
    tree.nodes.iter().any(|node| match &node.kind {
        Kind::Object(members) => members.len() > MEMBERS_MAX || repeats(members),
        _ => false,
    })
}

/// Whether two members have the same decoded name.
fn repeats(members: &[Member]) -> bool {
    let names: HashSet<&[u8]> = members.iter().map(|m| m.name.as_slice()).collect();
    names.len() < members.len()
}

/// The tree of "one JSON value in valid UTF-8", of any depth, or none.
pub fn parse(text: &[u8]) -> Option<Tree> {
    std::str::from_utf8(text).ok()?;
    let mut nodes = Vec::new();
    let mut stack = Vec::new();
    let mut at = 0;
    while at < text.len() {
        if is_blank(text[at]) {
            at += 1;
            continue;
        }
        at = shift(text, at, &mut nodes, &mut stack)?;
    }
    match stack.as_slice() {
        [Symbol::Value(root)] => Some(Tree { root: *root, nodes }),
        _ => None,
    }
}

/// Takes the lexeme at a place and gives the place after it.
fn shift(text: &[u8], at: usize, nodes: &mut Vec<Node>, stack: &mut Vec<Symbol>) -> Option<usize> {
    let (end, kind) = match text[at] {
        b'{' | b'[' => {
            stack.push(Symbol::Open { object: text[at] == b'{', at });
            return Some(at + 1);
        }
        b':' => {
            stack.push(Symbol::Colon);
            return Some(at + 1);
        }
        b',' => {
            stack.push(Symbol::Comma);
            return Some(at + 1);
        }
        b'}' | b']' => {
            reduce(text[at] == b'}', at + 1, nodes, stack)?;
            return Some(at + 1);
        }
        b'"' => string_lexeme(text, at)?,
        b'-' | b'0'..=b'9' => number_lexeme(text, at)?,
        _ => word_lexeme(text, at)?,
    };
    nodes.push(Node { span: Span { start: at, end }, kind, height: 0 });
    stack.push(Symbol::Value(nodes.len() - 1));
    Some(end)
}

/// Replaces everything back to the last opening bracket by one container.
fn reduce(object: bool, end: usize, nodes: &mut Vec<Node>, stack: &mut Vec<Symbol>) -> Option<()> {
    let open = stack.iter().rposition(|s| matches!(s, Symbol::Open { .. }))?;
    let inside = stack.split_off(open + 1);
    let start = match stack.pop() {
        Some(Symbol::Open { object: o, at }) if o == object => at,
        _ => return None,
    };
    let items = split_by_commas(&inside)?;
    let mut height = 1;
    let kind = if object {
        let mut members = Vec::new();
        for item in items {
            let member = as_member(item, nodes)?;
            height = height.max(1 + nodes[member.value].height);
            members.push(member);
        }
        Kind::Object(members)
    } else {
        let mut elements = Vec::new();
        for item in items {
            let [Symbol::Value(id)] = item else { return None };
            height = height.max(1 + nodes[*id].height);
            elements.push(*id);
        }
        Kind::Array(elements)
    };
    nodes.push(Node { span: Span { start, end }, kind, height });
    stack.push(Symbol::Value(nodes.len() - 1));
    Some(())
}

/// The items between brackets: none at all, or one more than there are commas.
fn split_by_commas(inside: &[Symbol]) -> Option<Vec<&[Symbol]>> {
    if inside.is_empty() {
        return Some(Vec::new());
    }
    let items: Vec<&[Symbol]> = inside.split(|s| matches!(s, Symbol::Comma)).collect();
    if items.iter().any(|item| item.is_empty()) {
        return None;
    }
    Some(items)
}

/// A string, a colon and a value as a member.
fn as_member(item: &[Symbol], nodes: &[Node]) -> Option<Member> {
    let [Symbol::Value(name), Symbol::Colon, Symbol::Value(value)] = item else {
        return None;
    };
    let Kind::Text(decoded) = &nodes[*name].kind else {
        return None;
    };
    let quoted = nodes[*name].span;
    let raw = Span { start: quoted.start + 1, end: quoted.end - 1 };
    Some(Member { raw, name: decoded.clone(), value: *value })
}

/// A string from its opening quote: the place after its closing quote.
fn string_lexeme(text: &[u8], at: usize) -> Option<(usize, Kind)> {
    let end = string_end(text, at)?;
    let decoded = decode_body(&text[at + 1..end - 1])?;
    Some((end, Kind::Text(decoded)))
}

/// The place after a string's closing quote, if it has one.
pub fn string_end(text: &[u8], at: usize) -> Option<usize> {
    let mut end = at + 1;
    while *text.get(end)? != b'"' {
        end += if text[end] == b'\\' { 2 } else { 1 };
    }
    Some(end + 1)
}

/// The longest run of bytes that numbers are made of, if it is a number.
fn number_lexeme(text: &[u8], at: usize) -> Option<(usize, Kind)> {
    let run = text[at..].iter().take_while(|b| b"+-.0123456789eE".contains(b)).count();
    is_number(&text[at..at + run]).then_some((at + run, Kind::Number))
}

/// The longest run of letters, if it is one of the three words of JSON.
fn word_lexeme(text: &[u8], at: usize) -> Option<(usize, Kind)> {
    let run = text[at..].iter().take_while(|b| b.is_ascii_alphabetic()).count();
    let kind = match &text[at..at + run] {
        b"true" => Kind::True,
        b"false" => Kind::False,
        b"null" => Kind::Null,
        _ => return None,
    };
    Some((at + run, kind))
}

/// Whether the part is a number by ECMA-404.
pub fn is_number(part: &[u8]) -> bool {
    let unsigned = part.strip_prefix(b"-").unwrap_or(part);
    let (mantissa, exponent) = split_at_any(unsigned, b"eE");
    let (whole, fraction) = split_at_any(mantissa, b".");
    let whole_ok = all_digits(whole) && (whole.len() == 1 || whole[0] != b'0');
    let exponent_ok = exponent.is_none_or(|e| {
        let sign = e.first().is_some_and(|b| b"+-".contains(b));
        all_digits(&e[usize::from(sign)..])
    });
    whole_ok && fraction.is_none_or(all_digits) && exponent_ok
}

/// The part before the first of the marks, and the part after it if there is one.
fn split_at_any<'a>(part: &'a [u8], marks: &[u8]) -> (&'a [u8], Option<&'a [u8]>) {
    match part.iter().position(|b| marks.contains(b)) {
        Some(k) => (&part[..k], Some(&part[k + 1..])),
        None => (part, None),
    }
}

/// One digit or more and nothing else.
pub fn all_digits(part: &[u8]) -> bool {
    !part.is_empty() && part.iter().all(u8::is_ascii_digit)
}

/// The decoded bytes of a string's body, or none if it is not a JSON string
/// body in valid UTF-8. The characters go through UTF-16, where "a `\u`
/// surrogate without its partner" shows.
pub fn decode_body(raw: &[u8]) -> Option<Vec<u8>> {
    let text = std::str::from_utf8(raw).ok()?;
    let mut units: Vec<u16> = Vec::new();
    let mut chars = text.chars();
    while let Some(c) = chars.next() {
        if c == '\\' {
            units.push(escape(&mut chars)?);
        } else if c == '"' || u32::from(c) < 0x20 {
            return None;
        } else {
            units.extend_from_slice(c.encode_utf16(&mut [0; 2]));
        }
    }
    String::from_utf16(&units).ok().map(String::into_bytes)
}

/// What any bytes stand for as a string's body: up to a bare quote, each escape
/// decoded, every other byte itself, a backslash that begins no escape included.
pub fn decode_any(raw: &[u8]) -> Vec<u8> {
    let mut out = Vec::new();
    let mut rest = raw;
    while let Some((&byte, after)) = rest.split_first().filter(|(&byte, _)| byte != b'"') {
        let escape = |length: usize| Some((decode_body(rest.get(..length)?)?, &rest[length..]));
        let found = if byte == b'\\' { [2, 6, 12].into_iter().find_map(escape) } else { None };
        let (bytes, left) = found.unwrap_or((vec![byte], after));
        out.extend(bytes);
        rest = left;
    }
    out
}

/// The UTF-16 unit of the escape after its backslash.
fn escape(chars: &mut std::str::Chars) -> Option<u16> {
    let unit = match chars.next()? {
        '"' => 0x22,
        '\\' => 0x5C,
        '/' => 0x2F,
        'b' => 0x08,
        'f' => 0x0C,
        'n' => 0x0A,
        'r' => 0x0D,
        't' => 0x09,
        'u' => {
            let mut value = 0;
            for _ in 0..4 {
                value = value * 16 + chars.next()?.to_digit(16)?;
            }
            value
        }
        _ => return None,
    };
    u16::try_from(unit).ok()
}
