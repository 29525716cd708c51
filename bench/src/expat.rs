//! Expat, a parser of XML in C, where the machine has it. It is declared once, in tests/outside.

use crate::plans::Plan;

/// What the bench asks of expat.
pub struct Expat {
    /// Parses a document with handlers that do nothing; whether expat accepts it.
    pub parse: fn(&[u8]) -> bool,
    /// The row fields that a plan's tags give; none where expat does not accept it.
    pub rows: fn(&Plan) -> Option<Vec<u8>>,
}

#[cfg(expat)]
pub const EXPAT: Option<Expat> = Some(Expat { parse: found::parse, rows: found::rows });

#[cfg(not(expat))]
pub const EXPAT: Option<Expat> = None;

#[cfg(expat)]
#[path = "../../tests/outside/src/expat.rs"]
mod calls;

#[cfg(expat)]
mod found {
    use super::calls::{self, Tag};
    use crate::book::put_rows;
    use crate::plans::Plan;
    use std::ffi::{c_char, c_void};
    use std::ptr;

    unsafe extern "C" fn ignore_start(_data: *mut c_void, _name: *const c_char, _attributes: *const *const c_char) {}

    unsafe extern "C" fn ignore_end(_data: *mut c_void, _name: *const c_char) {}

    pub fn parse(document: &[u8]) -> bool {
        // SAFETY: these handlers touch no memory
        unsafe { calls::parse(document, ptr::null_mut(), ignore_start, ignore_end) }
    }

    pub fn rows(plan: &Plan) -> Option<Vec<u8>> {
        let mut rows: Vec<Vec<u8>> = Vec::new();
        // for each open element its row's number, none where its name is another
        let mut open: Vec<Option<usize>> = Vec::new();
        for tag in calls::tags(&plan.bytes)? {
            let Tag::Start(name) = tag else {
                open.pop();
                continue;
            };
            let number = plan.names.iter().position(|known| *known == name);
            if let (Some(&Some(row)), Some(number)) = (open.last(), number) {
                rows[row].push(number as u8);
            }
            let is_chosen = number == Some(usize::from(plan.chosen));
            open.push(is_chosen.then_some(rows.len()));
            rows.extend(is_chosen.then(Vec::new));
        }
        let mut bytes = Vec::new();
        put_rows(&mut bytes, &rows);
        Some(bytes)
    }
}
