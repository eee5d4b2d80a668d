//! A second reader of markup, written from the rules page alone: it makes a tree of owned texts. And a writer, which spells a tree in
//! one of the many ways there are.

use crate::random::Random;

/// An element. Values of attributes are decoded.
#[derive(Clone, PartialEq, Debug)]
pub struct Element {
    pub name: String,
    pub attributes: Vec<(String, String)>,
    pub children: Vec<Element>,
}

/// How many elements may be open at once.
pub const MOST_OPEN: usize = 8;

/// The references, each without its `&`, and what they stand for.
const REFERENCES: [(&str, char); 5] = [("amp;", '&'), ("lt;", '<'), ("gt;", '>'), ("quot;", '"'), ("apos;", '\'')];

const WHITE_SPACE: [char; 4] = [' ', '\t', '\r', '\n'];

impl Element {
    pub fn new(name: &str) -> Element {
        Element { name: name.to_string(), attributes: Vec::new(), children: Vec::new() }
    }

    pub fn with(mut self, name: &str, value: &str) -> Element {
        self.attributes.push((name.to_string(), value.to_string()));
        self
    }

    pub fn holding(mut self, child: Element) -> Element {
        self.children.push(child);
        self
    }

    /// The value of an attribute.
    pub fn get(&self, name: &str) -> Option<&str> {
        self.attributes.iter().find(|(n, _)| n == name).map(|(_, value)| value.as_str())
    }

    /// How many elements are open at once in this one, itself included.
    pub fn depth(&self) -> usize {
        1 + self.children.iter().map(Element::depth).max().unwrap_or(0)
    }

    /// The n-th of this element and all below it, counted from 0; `n` falls by as many as were passed.
    pub fn nth_mut(&mut self, n: &mut usize) -> Option<&mut Element> {
        if *n == 0 {
            return Some(self);
        }
        *n -= 1;
        self.children.iter_mut().find_map(|c| c.nth_mut(n))
    }

    /// How many elements this one is, with all below it.
    pub fn count(&self) -> usize {
        1 + self.children.iter().map(Element::count).sum::<usize>()
    }
}

// ---- Reading -------------------------------------------------------------------------------------------------------

/// The element that a text is, or None where the markup rules have none.
pub fn read(text: &str) -> Option<Element> {
    let (element, rest) = read_element(skip_space(text), 1)?;
    skip_space(rest).is_empty().then_some(element)
}

fn skip_space(text: &str) -> &str {
    text.trim_start_matches(WHITE_SPACE)
}

fn read_name(text: &str) -> Option<(&str, &str)> {
    let may_follow = |c: char| c.is_ascii_alphanumeric() || ['.', '_', '-', ':'].contains(&c);
    if !text.starts_with(|c: char| c.is_ascii_alphabetic() || c == '_') {
        return None;
    }
    Some(text.split_at(text.find(|c| !may_follow(c)).unwrap_or(text.len())))
}

/// An element that begins here, with as many open as said, itself included, and what follows it.
fn read_element(text: &str, open: usize) -> Option<(Element, &str)> {
    if open > MOST_OPEN {
        return None;
    }
    let (name, mut rest) = read_name(text.strip_prefix('<')?)?;
    let mut element = Element::new(name);
    loop {
        let after_space = skip_space(rest);
        if let Some(after) = after_space.strip_prefix("/>") {
            return Some((element, after));
        }
        if let Some(after) = after_space.strip_prefix('>') {
            rest = after;
            break;
        }
        if after_space.len() == rest.len() {
            return None;
        }
        let (name, value, after) = read_attribute(after_space)?;
        if element.get(name).is_some() {
            return None;
        }
        element.attributes.push((name.to_string(), value));
        rest = after;
    }
    loop {
        rest = skip_space(rest);
        if let Some(end) = rest.strip_prefix("</") {
            let after = skip_space(end.strip_prefix(name)?).strip_prefix('>')?;
            return Some((element, after));
        }
        let (child, after) = read_element(rest, open + 1)?;
        element.children.push(child);
        rest = after;
    }
}

/// A name, the decoded value and what follows.
fn read_attribute(text: &str) -> Option<(&str, String, &str)> {
    let (name, rest) = read_name(text)?;
    let quoted = skip_space(skip_space(rest).strip_prefix('=')?).strip_prefix('"')?;
    let (raw, rest) = quoted.split_once('"')?;
    Some((name, decode(raw)?, rest))
}

fn decode(raw: &str) -> Option<String> {
    if raw.contains(|c: char| c == '<' || c < ' ' || c == '\u{FFFE}' || c == '\u{FFFF}') {
        return None;
    }
    let mut pieces = raw.split('&');
    let mut value = pieces.next()?.to_string();
    for piece in pieces {
        let (reference, stands_for) = REFERENCES.iter().find(|(r, _)| piece.starts_with(r))?;
        value.push(*stands_for);
        value += &piece[reference.len()..];
    }
    Some(value)
}

// ---- Writing -------------------------------------------------------------------------------------------------------

/// How freely a record is spelled: white space where it may stand, references where they need not.
#[derive(Clone, Copy)]
pub struct Spelling {
    pub spaces: bool,
    pub references: bool,
}

impl Spelling {
    pub const PLAIN: Spelling = Spelling { spaces: false, references: false };

    pub fn any(random: &mut Random) -> Spelling {
        Spelling { spaces: random.once_in(3), references: random.once_in(3) }
    }
}

/// Writes an element as it is spelled, with white space around it where that is asked for.
pub fn write(element: &Element, spelling: Spelling, random: &mut Random) -> Vec<u8> {
    let mut text = String::new();
    write_space(spelling, random, &mut text);
    write_element(element, spelling, random, &mut text);
    write_space(spelling, random, &mut text);
    text.into_bytes()
}

fn write_space(spelling: Spelling, random: &mut Random, text: &mut String) {
    while spelling.spaces && random.once_in(3) {
        text.push(random.one_of(&WHITE_SPACE));
    }
}

fn write_element(element: &Element, spelling: Spelling, random: &mut Random, text: &mut String) {
    text.push('<');
    text.push_str(&element.name);
    for (name, value) in &element.attributes {
        text.push(if spelling.spaces { random.one_of(&WHITE_SPACE) } else { ' ' });
        write_space(spelling, random, text);
        text.push_str(name);
        write_space(spelling, random, text);
        text.push('=');
        write_space(spelling, random, text);
        text.push('"');
        for c in value.chars() {
            write_character(c, spelling, random, text);
        }
        text.push('"');
    }
    write_space(spelling, random, text);
    if element.children.is_empty() && !(spelling.spaces && random.once_in(3)) {
        text.push_str("/>");
        return;
    }
    text.push('>');
    for child in &element.children {
        write_space(spelling, random, text);
        write_element(child, spelling, random, text);
    }
    write_space(spelling, random, text);
    text.push_str("</");
    text.push_str(&element.name);
    write_space(spelling, random, text);
    text.push('>');
}

fn write_character(c: char, spelling: Spelling, random: &mut Random, text: &mut String) {
    match REFERENCES.iter().find(|(_, stands_for)| *stands_for == c) {
        Some((reference, _)) if ['&', '<', '"'].contains(&c) || spelling.references && random.once_in(2) => {
            text.push('&');
            text.push_str(reference);
        }
        _ => text.push(c),
    }
}
