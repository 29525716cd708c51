//! Tables read and walked.

use super::containers::{Column, Containers};
use super::ends::Ends;
use super::fields::{field_at, read_front, STATE};
use super::refusals::Refusal;
use super::tree::check_names;
use super::{State, STATES};
use crate::book::ROW_LIMIT;
use crate::library::Walked;

const ADMITTED: u8 = 1;
const ON_THE_WAY: u8 = 2;
const STOPS: u8 = 3;

/// Where the states of a table stand in its bytes.
#[derive(Default)]
pub struct Places<C: Containers> {
    pub count: usize,
    /// The offset of each state's body and its end.
    places: C::Column<(u16, u16)>,
}

impl<C: Containers> Places<C> {
    fn append(&mut self, start: usize, end: usize) {
        self.places.append(self.count as State, (start as u16, end as u16));
        self.count += 1;
    }

    pub fn body<'a>(&self, table: &'a [u8], state: State) -> &'a [u8] {
        let (start, end) = self.places[state];
        &table[usize::from(start)..usize::from(end)]
    }
}

#[derive(Default)]
pub struct Table<C: Containers> {
    names: usize,
    states: Places<C>,
    /// Each state accepts or has an arc to a later one, so that all have a way to an end.
    rising: bool,
    ends: Ends<C>,
}

/// The names and targets of a state's arcs.
pub fn arcs(body: &[u8]) -> impl Iterator<Item = (u8, State)> + '_ {
    body[1..].chunks_exact(3).map(|arc| (arc[0], State::from_be_bytes([arc[1], arc[2]])))
}

impl<C: Containers> Table<C> {
    /// Reads the table and judges it wholly.
    pub fn read(&mut self, table: &[u8]) -> Result<(), Refusal> {
        let front = read_front(table)?;
        self.names = front.names;
        self.rising = true;
        self.states.count = 0;
        self.states.places.begin(STATES.min((table.len() - front.end) / 4));
        let mut at = front.end;
        // how many states have been met before each state's arcs, and whether any arc is out of turn
        let mut met = 1;
        let mut in_turn = true;
        while at < table.len() {
            let (mark, body) = field_at(table, at)?;
            if mark != STATE || !front.class_given {
                return Err(Refusal::Misplaced);
            }
            if self.states.count == STATES {
                return Err(Refusal::TooMany);
            }
            check_state(body, front.names)?;
            in_turn &= self.states.count < usize::from(met);
            let mut rises = body[0] == 1;
            for (_, target) in arcs(body) {
                rises |= usize::from(target) > self.states.count;
                in_turn &= target <= met;
                met += State::from(target == met);
            }
            self.rising &= rises;
            let start = at + 3;
            at = start + body.len();
            self.states.append(start, at);
        }
        if !in_turn || usize::from(met) != self.states.count {
            return Err(Refusal::BadNumbering);
        }
        Ok(())
    }

    /// Walks the row over the table that was read, by arcs to states with a way to an end.
    pub fn walk(&mut self, table: &[u8], row: &[u8]) -> Result<Walked, Refusal> {
        if row.len() > ROW_LIMIT {
            return Err(Refusal::BadRow);
        }
        check_names(row, self.names)?;
        if self.rising {
            self.ends.are_all(self.states.count);
        } else {
            self.ends.find(table, &self.states);
        }
        if !self.ends.has_way(0) {
            return Ok(Walked { refusal: 0, outcome: STOPS, next_count: 0, walked: 0, next_names: 0 });
        }
        let mut body = self.states.body(table, 0);
        let mut steps = 0;
        for &name in row {
            match arcs(body).find(|&(arc, _)| arc == name) {
                Some((_, target)) if self.ends.has_way(target) => body = self.states.body(table, target),
                _ => break,
            }
            steps += 1;
        }
        let outcome = match (steps == row.len(), body[0]) {
            (false, _) => STOPS,
            (true, 1) => ADMITTED,
            (true, _) => ON_THE_WAY,
        };
        let names = arcs(body).fold(0u64, |set, (name, target)| set | u64::from(self.ends.has_way(target)) << name);
        Ok(Walked { refusal: 0, outcome, next_count: names.count_ones() as u8, walked: steps as u32, next_names: names })
    }
}

fn check_state(body: &[u8], names: usize) -> Result<(), Refusal> {
    if body.len() % 3 != 1 || body[0] > 1 {
        return Err(Refusal::BadState);
    }
    let mut least = 0;
    for (name, _) in arcs(body) {
        if name < least || usize::from(name) >= names {
            return Err(Refusal::BadState);
        }
        least = name + 1;
    }
    Ok(())
}
