//! Rows straight from a plan: one for each element of the chosen name.

use crate::fields::{read_names, ROW, ROWS_LIMIT, ROW_LIMIT};
use crate::plan::{read, Element, Reading};
use crate::refusal::Refusal;
use crate::table::write_field;
use crate::{check_sizes, Lent};

/// Elements may stand on so many levels, the outermost on the first.
pub const LEVELS_LIMIT: usize = 16;

/// What is handed in: a plan, a list of name fields and the number of one of the names.
#[derive(Clone, Copy, Debug)]
pub struct Asked<'a> {
    pub plan: &'a [u8],
    pub names: &'a [u8],
    pub chosen: u8,
}

/// The row fields, and how many they are.
#[derive(Clone, Debug, PartialEq, Eq)]
pub struct PlanRows {
    pub bytes: Vec<u8>,
    pub rows: usize,
}

#[derive(Clone, Copy, Debug, PartialEq, Eq)]
pub struct Refused {
    pub refusal: Refusal,
    /// The place in the plan of 14, 15 and 16; 0 for others.
    pub at: usize,
}

impl From<Refusal> for Refused {
    fn from(refusal: Refusal) -> Refused {
        Refused { refusal, at: 0 }
    }
}

/// Judges the sizes, the list, the chosen number, then the plan, then its rows and the output's length.
pub fn read_rows(asked: Asked, lent: Lent) -> Result<PlanRows, Refused> {
    check_sizes(asked.plan, lent.work)?;
    check_sizes(asked.names, lent.work)?;
    let names = read_names(asked.names)?;
    let chosen = names.get(usize::from(asked.chosen)).ok_or(Refusal::BadRow)?;
    let reading = read(asked.plan);
    if let Some(first) = faults(&reading, &names, chosen).into_iter().min_by_key(|fault| (fault.at, fault.refusal.number())) {
        return Err(first);
    }
    let rows = rows_of(&reading.elements, &names, chosen);
    Ok(fit(&rows, lent.output)?)
}

/// Every 14, 15 and 16 of the plan, in any order.
fn faults(reading: &Reading, names: &[Vec<u8>], chosen: &[u8]) -> Vec<Refused> {
    let mut faults = vec![];
    faults.extend(reading.impossible.map(|at| Refused { refusal: Refusal::BadPlan, at }));
    for (element, depth) in reading.elements.iter().zip(depths(&reading.elements)) {
        if depth >= LEVELS_LIMIT {
            faults.push(Refused { refusal: Refusal::TooDeep, at: element.after_name });
        }
        let is_under_chosen = element.parent.is_some_and(|parent| reading.elements[parent].name == chosen);
        if is_under_chosen && !names.iter().any(|name| name == element.name) {
            faults.push(Refused { refusal: Refusal::UnknownChild, at: element.after_name });
        }
    }
    faults
}

/// How many others each element is inside of.
fn depths(elements: &[Element]) -> Vec<usize> {
    let mut depths: Vec<usize> = vec![];
    for element in elements {
        depths.push(element.parent.map_or(0, |parent| depths[parent] + 1));
    }
    depths
}

/// The numbers of the children's names, for each element of the chosen name; all these children are in the list.
fn rows_of(elements: &[Element], names: &[Vec<u8>], chosen: &[u8]) -> Vec<Vec<u8>> {
    let mut rows = vec![vec![]; elements.len()];
    for element in elements {
        if let Some(parent) = element.parent.filter(|&parent| elements[parent].name == chosen) {
            let number = names.iter().position(|name| name == element.name).expect("a name of the list");
            rows[parent].push(number as u8);
        }
    }
    let chosen_rows = elements.iter().zip(rows).filter(|(element, _)| element.name == chosen);
    chosen_rows.map(|(_, row)| row).collect()
}

/// Refusals 7, 9 and 13, over all rows.
fn fit(rows: &[Vec<u8>], output: usize) -> Result<PlanRows, Refusal> {
    if rows.len() > ROWS_LIMIT {
        return Err(Refusal::TooMany);
    }
    if rows.iter().any(|row| row.len() > ROW_LIMIT) {
        return Err(Refusal::BadRow);
    }
    let mut bytes = vec![];
    for row in rows {
        write_field(&mut bytes, ROW, row);
    }
    if bytes.len() > output {
        return Err(Refusal::OutputTooShort);
    }
    Ok(PlanRows { bytes, rows: rows.len() })
}
