//! The fields that books and tables begin with: the names and the class.

use super::refusals::Refusal;
use crate::book::{Class, NAME_LIMIT};

pub const NAME: u8 = 1;
pub const CLASS: u8 = 2;
pub const ROW: u8 = 3;
pub const STATE: u8 = 4;

/// What stands before the rows or states.
pub struct Front {
    pub names: usize,
    pub names_end: usize,
    pub class: Class,
    pub class_given: bool,
    pub end: usize,
}

/// The mark of the field at an offset before the end, and its body.
pub fn field_at(bytes: &[u8], at: usize) -> Result<(u8, &[u8]), Refusal> {
    match &bytes[at..] {
        [mark, high, low, rest @ ..] => {
            let length = usize::from(u16::from_be_bytes([*high, *low]));
            let body = rest.get(..length).ok_or(Refusal::CutOff)?;
            Ok((*mark, body))
        }
        _ => Err(Refusal::CutOff),
    }
}

fn is_name(body: &[u8]) -> bool {
    let starts = |byte: u8| byte.is_ascii_alphabetic() || byte == b'_' || byte == b':';
    let goes_on = |byte: u8| starts(byte) || byte.is_ascii_digit() || byte == b'.' || byte == b'-';
    match body {
        [first, rest @ ..] => rest.len() < 32 && starts(*first) && rest.iter().all(|&byte| goes_on(byte)),
        [] => false,
    }
}

fn class_of(body: &[u8]) -> Result<Class, Refusal> {
    match *body {
        [0, k @ 1..=8, h] if (1..=k).contains(&h) => Ok(Class::Context(k, h)),
        [1, 0, 0] => Ok(Class::SeenSet),
        [2, j @ 0..=8, 0] => Ok(Class::Last(j)),
        _ => Err(Refusal::BadClass),
    }
}

/// Reads names and class, up to the first field that is neither.
pub fn read_front(bytes: &[u8]) -> Result<Front, Refusal> {
    let mut front = Front { names: 0, names_end: 0, class: Class::Context(2, 1), class_given: false, end: 0 };
    let mut last: &[u8] = &[];
    while front.end < bytes.len() {
        let (mark, body) = field_at(bytes, front.end)?;
        match mark {
            NAME if !front.class_given => {
                check_name(body, last, front.names)?;
                last = body;
                front.names += 1;
                front.names_end = front.end + 3 + body.len();
            }
            CLASS if !front.class_given && front.names > 0 => {
                front.class = class_of(body)?;
                front.class_given = true;
            }
            _ if front.names == 0 => return Err(Refusal::Misplaced),
            _ => return Ok(front),
        }
        front.end += 3 + body.len();
    }
    Err(Refusal::Unfinished)
}

fn check_name(body: &[u8], last: &[u8], count: usize) -> Result<(), Refusal> {
    if !is_name(body) {
        return Err(Refusal::BadName);
    }
    if count > 0 && body <= last {
        return Err(Refusal::NameOrder);
    }
    if count == NAME_LIMIT {
        return Err(Refusal::TooMany);
    }
    Ok(())
}
