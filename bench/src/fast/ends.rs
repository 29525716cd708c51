//! Which states of a table have a way to an accepting one.

use super::containers::{Column, Containers};
use super::walk::{arcs, Places};
use super::State;
use std::iter::repeat_n;

/// The number of an arc among those looked at, from 1 on; 0 is none. A table has fewer than 65,535 / 3.
type ArcNumber = u16;

/// The states found, and what the search needs.
#[derive(Default)]
pub struct Ends<C: Containers> {
    found: C::Column<bool>,
    /// Lists of the arcs to each state, from states that were not found: the last of them, and of each arc its source and the one before
    /// it in the list.
    last: C::Column<ArcNumber>,
    before: Vec<(State, ArcNumber)>,
    /// States found whose arcs are to be followed back.
    pending: Vec<State>,
}

impl<C: Containers> Ends<C> {
    pub fn has_way(&self, state: State) -> bool {
        self.found[state]
    }

    /// All states of a table have a way.
    pub fn are_all(&mut self, count: usize) {
        self.found.set(repeat_n(true, count));
    }

    /// Finds the states of a table: by one sweep those from which ascending numbers lead to an end, or to a state already found; and the
    /// others by following back their arcs, each once.
    pub fn find(&mut self, table: &[u8], places: &Places<C>) {
        self.found.set(repeat_n(false, places.count));
        let mut found = 0;
        for state in (0..places.count as State).rev() {
            let body = places.body(table, state);
            if body[0] == 1 || arcs(body).any(|(_, target)| self.found[target]) {
                self.found[state] = true;
                found += 1;
            }
        }
        if found < places.count {
            self.follow_back(table, places);
        }
    }

    fn follow_back(&mut self, table: &[u8], places: &Places<C>) {
        self.last.set(repeat_n(0, places.count));
        self.pending.clear();
        self.before.clear();
        self.before.push((0, 0));
        for state in (0..places.count as State).filter(|&state| !self.found[state]) {
            for (_, target) in arcs(places.body(table, state)) {
                if self.found[target] {
                    self.pending.push(state);
                    break;
                }
                self.before.push((state, self.last[target]));
                self.last[target] = self.before.len() as ArcNumber - 1;
            }
        }
        self.pending.iter().for_each(|&state| self.found[state] = true);
        while let Some(state) = self.pending.pop() {
            let mut arc = self.last[state];
            while arc != 0 {
                let (source, next) = self.before[usize::from(arc)];
                if !self.found[source] {
                    self.found[source] = true;
                    self.pending.push(source);
                }
                arc = next;
            }
        }
    }
}
