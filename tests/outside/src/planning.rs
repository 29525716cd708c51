//! Plans drawn at random, with their lists of names.

use crate::drawing::draw_names;
use reference::fields::{NAME, NAMES_LIMIT, NAME_LENGTH_LIMIT};
use reference::plan::is_white;
use reference::plan_rows::{Asked, LEVELS_LIMIT};
use reference::random::Random;
use reference::table::write_field;

/// What the texts of a plan hold.
#[derive(Clone, Copy, Debug, PartialEq, Eq)]
pub enum Text {
    /// Any bytes that a text may hold.
    Any,
    /// Of these only ASCII characters that XML 1.0 allows, and no `]`.
    Plain,
}

/// How large a plan may be.
#[derive(Clone, Copy, Debug)]
struct Shape {
    elements: usize,
    levels: usize,
    text: Text,
}

/// A plan with the list of names that it is read with.
#[derive(Clone, Debug)]
pub struct Plan {
    pub bytes: Vec<u8>,
    pub names: Vec<Vec<u8>>,
    pub chosen: usize,
}

impl Plan {
    pub fn list(&self) -> Vec<u8> {
        let mut bytes = vec![];
        for name in &self.names {
            write_field(&mut bytes, NAME, name);
        }
        bytes
    }

    /// These bytes, read with a list and this plan's chosen number.
    pub fn ask<'a>(&self, plan: &'a [u8], list: &'a [u8]) -> Asked<'a> {
        Asked { plan, names: list, chosen: self.chosen as u8 }
    }
}

/// A plan of few elements with short texts.
pub fn draw_small_plan(random: &mut Random, text: Text) -> Plan {
    let shape = Shape { elements: random.between(1, 6), levels: random.between(1, 4), text };
    draw_shape(random, shape)
}

/// A plan of up to so many elements, on up to sixteen levels.
pub fn draw_plan(random: &mut Random, elements: usize, text: Text) -> Plan {
    let shape = Shape { elements: random.between(1, elements), levels: random.between(1, LEVELS_LIMIT), text };
    draw_shape(random, shape)
}

/// A plan without 14, 15 and 16: the chosen element's children are in the list.
fn draw_shape(random: &mut Random, shape: Shape) -> Plan {
    let most = if random.once_in(20) { NAMES_LIMIT } else { 5 };
    let count = random.between(1, most);
    let names = draw_names(random, count);
    let chosen = random.below(names.len());
    let others = near_names(random, &names);
    let mut drawing = Drawing { random, shape, names: &names, others, chosen, left: shape.elements, bytes: vec![] };
    drawing.white();
    drawing.element(None, 1);
    drawing.white();
    Plan { bytes: drawing.bytes, names, chosen }
}

/// Names that are not in the list, most of them near one that is: cut, longer by a byte, or with another last byte.
pub fn near_names(random: &mut Random, names: &[Vec<u8>]) -> Vec<Vec<u8>> {
    let mut others = draw_names(random, 3);
    for name in names.iter().take(3) {
        others.push(name[..name.len() - 1].to_vec());
        others.push([&name[..], b"a"].concat());
        others.push([&name[..name.len() - 1], b"Z"].concat());
    }
    others.retain(|other| !other.is_empty() && other.len() <= NAME_LENGTH_LIMIT && !names.contains(other));
    others.push(b"_none".to_vec());
    others.retain(|other| !names.contains(other));
    others
}

struct Drawing<'a> {
    random: &'a mut Random,
    shape: Shape,
    names: &'a [Vec<u8>],
    others: Vec<Vec<u8>>,
    chosen: usize,
    /// How many elements may still come.
    left: usize,
    bytes: Vec<u8>,
}

impl Drawing<'_> {
    /// An element with all that is in it, on this level.
    fn element(&mut self, parent: Option<&[u8]>, level: usize) {
        self.left -= 1;
        let name = self.name(parent);
        self.bytes.push(b'<');
        self.bytes.extend(&name);
        self.white();
        if self.random.once_in(4) {
            self.bytes.extend(b"/>");
            return;
        }
        self.bytes.push(b'>');
        self.text();
        while self.left > 0 && level < self.shape.levels && !self.random.once_in(5) {
            self.element(Some(&name), level + 1);
            self.text();
        }
        self.bytes.extend(b"</");
        self.bytes.extend(&name);
        self.white();
        self.bytes.push(b'>');
    }

    /// The chosen name, another of the list, or one that is not in it where that is no fault.
    fn name(&mut self, parent: Option<&[u8]>) -> Vec<u8> {
        let chosen = &self.names[self.chosen];
        match self.random.below(4) {
            0 | 1 if parent != Some(chosen) => chosen.clone(),
            2 if parent != Some(chosen) => self.random.choose(&self.others).unwrap_or(chosen).clone(),
            _ => self.names[self.random.below(self.names.len())].clone(),
        }
    }

    fn white(&mut self) {
        if self.random.once_in(4) {
            for _ in 0..self.random.between(1, 3) {
                self.bytes.push(b" \t\r\n"[self.random.below(4)]);
            }
        }
    }

    fn text(&mut self) {
        if self.random.once_in(3) {
            for _ in 0..self.random.between(1, 4) {
                self.bytes.push(draw_text_byte(self.random, self.shape.text));
            }
        }
    }
}

pub fn draw_text_byte(random: &mut Random, text: Text) -> u8 {
    const USUAL: &[u8] = b">/ \n\taZ0;:\"'=!?-";
    loop {
        let byte = if random.once_in(2) { USUAL[random.below(USUAL.len())] } else { random.byte() };
        if byte != b'<' && byte != b'&' && (text == Text::Any || is_plain(byte)) {
            return byte;
        }
    }
}

/// An ASCII character that XML 1.0 allows in any text.
fn is_plain(byte: u8) -> bool {
    byte != b']' && (is_white(byte) || (0x20..=0x7E).contains(&byte))
}

/// Places in a plan where an element or text may be put in: behind each `>` of a tag, but the last tag's.
pub fn places_inside(plan: &[u8]) -> Vec<usize> {
    let mut places = vec![];
    let mut in_tag = false;
    for (place, &byte) in plan.iter().enumerate() {
        if in_tag && byte == b'>' {
            places.push(place + 1);
        }
        in_tag = byte == b'<' || (in_tag && byte != b'>');
    }
    places.pop();
    places
}

/// Elements of a name inside one another, and these bytes inside the last.
pub fn nested(name: &[u8], depth: usize, inside: &[u8]) -> Vec<u8> {
    let start = [b"<", name, b">"].concat().repeat(depth);
    let end = [b"</", name, b">"].concat().repeat(depth);
    [&start[..], inside, &end].concat()
}

/// A name's element with these bytes inside.
pub fn element(name: &[u8], inside: &[u8]) -> Vec<u8> {
    nested(name, 1, inside)
}

/// An empty-element tag.
pub fn empty(name: &[u8]) -> Vec<u8> {
    [b"<", name, b"/>"].concat()
}
