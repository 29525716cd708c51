//! Books, tables and lists of names read from their fields. Each field is judged by the refusals that concern it, in ascending number.

use crate::refusal::Refusal;
use crate::table::{Arc, State, Table};

pub const NAME: u8 = 1;
pub const CLASS: u8 = 2;
pub const ROW: u8 = 3;
pub const STATE: u8 = 4;
pub const COUNTS: u8 = 5;

pub const NAMES_LIMIT: usize = 64;
pub const NAME_LENGTH_LIMIT: usize = 32;
pub const ROWS_LIMIT: usize = 256;
pub const ROW_LIMIT: usize = 40;
pub const STATES_LIMIT: usize = 512;

#[derive(Clone, Copy, Debug, PartialEq, Eq)]
pub enum Class {
    Context { k: u8, h: u8 },
    SeenSet,
    LastNames { j: u8 },
}

impl Class {
    /// The class of a book that names none.
    pub const DEFAULT: Class = Class::Context { k: 2, h: 1 };

    pub fn bytes(self) -> [u8; 3] {
        match self {
            Class::Context { k, h } => [0, k, h],
            Class::SeenSet => [1, 0, 0],
            Class::LastNames { j } => [2, j, 0],
        }
    }
}

#[derive(Clone, Debug, PartialEq, Eq)]
pub struct Book {
    pub names: Vec<Vec<u8>>,
    pub class: Class,
    pub rows: Vec<Vec<u8>>,
}

/// One field: its mark and bytes.
#[derive(Clone, Copy, Debug, PartialEq, Eq)]
pub struct Field<'a> {
    pub mark: u8,
    pub bytes: &'a [u8],
}

/// The first field of the input, and what follows it; refusal 2 where it runs past the end.
pub fn split_field(input: &[u8]) -> Result<(Field<'_>, &[u8]), Refusal> {
    if input.len() < 3 {
        return Err(Refusal::CutOff);
    }
    let length = usize::from(input[1]) * 256 + usize::from(input[2]);
    if input.len() - 3 < length {
        return Err(Refusal::CutOff);
    }
    let (bytes, rest) = input[3..].split_at(length);
    Ok((Field { mark: input[0], bytes }, rest))
}

pub fn read_book(mut input: &[u8]) -> Result<Book, Refusal> {
    let mut book = Book { names: vec![], class: Class::DEFAULT, rows: vec![] };
    let mut before = None;
    while !input.is_empty() {
        let (field, rest) = split_field(input)?;
        match (before, field.mark) {
            (None | Some(NAME), NAME) => read_name(&mut book.names, field.bytes)?,
            (Some(NAME), CLASS) => book.class = read_class(field.bytes)?,
            (Some(NAME | CLASS | ROW), ROW) => read_row(&mut book.rows, field.bytes, book.names.len())?,
            _ => return Err(Refusal::Misplaced),
        }
        before = Some(field.mark);
        input = rest;
    }
    if before != Some(ROW) {
        return Err(Refusal::Unfinished);
    }
    Ok(book)
}

pub fn read_table(mut input: &[u8]) -> Result<Table, Refusal> {
    let mut table = Table { names: vec![], class: Class::DEFAULT, states: vec![] };
    let mut before = None;
    while !input.is_empty() {
        let (field, rest) = split_field(input)?;
        match (before, field.mark) {
            (None | Some(NAME), NAME) => read_name(&mut table.names, field.bytes)?,
            (Some(NAME), CLASS) => table.class = read_class(field.bytes)?,
            (Some(CLASS | STATE), STATE) => read_state(&mut table.states, field.bytes, table.names.len())?,
            _ => return Err(Refusal::Misplaced),
        }
        before = Some(field.mark);
        input = rest;
    }
    if before != Some(STATE) {
        return Err(Refusal::Unfinished);
    }
    if !table.is_numbered_first_met() {
        return Err(Refusal::BadNumbering);
    }
    Ok(table)
}

/// A list of names: one name field or more, and nothing else.
pub fn read_names(mut input: &[u8]) -> Result<Vec<Vec<u8>>, Refusal> {
    let mut names = vec![];
    while !input.is_empty() {
        let (field, rest) = split_field(input)?;
        if field.mark != NAME {
            return Err(Refusal::Misplaced);
        }
        read_name(&mut names, field.bytes)?;
        input = rest;
    }
    if names.is_empty() {
        return Err(Refusal::Unfinished);
    }
    Ok(names)
}

fn read_name(names: &mut Vec<Vec<u8>>, bytes: &[u8]) -> Result<(), Refusal> {
    if !is_name(bytes) {
        return Err(Refusal::BadName);
    }
    if names.last().is_some_and(|before| before.as_slice() >= bytes) {
        return Err(Refusal::NameOrder);
    }
    if names.len() == NAMES_LIMIT {
        return Err(Refusal::TooMany);
    }
    names.push(bytes.to_vec());
    Ok(())
}

fn is_name(bytes: &[u8]) -> bool {
    match bytes {
        [] => false,
        [head, tail @ ..] => bytes.len() <= NAME_LENGTH_LIMIT && begins_name(*head) && tail.iter().all(|&byte| is_in_name(byte)),
    }
}

/// The byte may be a name's first.
pub fn begins_name(byte: u8) -> bool {
    byte.is_ascii_alphabetic() || byte == b'_' || byte == b':'
}

/// The byte may stand in a name after the first.
pub fn is_in_name(byte: u8) -> bool {
    begins_name(byte) || byte.is_ascii_digit() || byte == b'.' || byte == b'-'
}

fn read_class(bytes: &[u8]) -> Result<Class, Refusal> {
    match *bytes {
        [0, k @ 1..=8, h] if 1 <= h && h <= k => Ok(Class::Context { k, h }),
        [1, 0, 0] => Ok(Class::SeenSet),
        [2, j @ 0..=8, 0] => Ok(Class::LastNames { j }),
        _ => Err(Refusal::BadClass),
    }
}

fn read_row(rows: &mut Vec<Vec<u8>>, bytes: &[u8], names: usize) -> Result<(), Refusal> {
    if rows.len() == ROWS_LIMIT {
        return Err(Refusal::TooMany);
    }
    check_row(bytes, names)?;
    rows.push(bytes.to_vec());
    Ok(())
}

/// Refusal 9: a row too long, or an entry that is no name's number.
pub fn check_row(bytes: &[u8], names: usize) -> Result<(), Refusal> {
    if bytes.len() > ROW_LIMIT || bytes.iter().any(|&entry| usize::from(entry) >= names) {
        return Err(Refusal::BadRow);
    }
    Ok(())
}

fn read_state(states: &mut Vec<State>, bytes: &[u8], names: usize) -> Result<(), Refusal> {
    if states.len() == STATES_LIMIT {
        return Err(Refusal::TooMany);
    }
    if bytes.len() % 3 != 1 || bytes[0] > 1 {
        return Err(Refusal::BadState);
    }
    let mut arcs: Vec<Arc> = vec![];
    for arc in bytes[1..].chunks(3) {
        let (name, target) = (usize::from(arc[0]), usize::from(arc[1]) * 256 + usize::from(arc[2]));
        if name >= names || arcs.last().is_some_and(|before| before.name >= name) {
            return Err(Refusal::BadState);
        }
        arcs.push(Arc { name, target });
    }
    states.push(State { accepting: bytes[0] == 1, arcs });
    Ok(())
}
