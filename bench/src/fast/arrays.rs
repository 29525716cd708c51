//! Arrays of the limits' sizes, for memory that is kept between calls. Most of it is never cleared.

use super::containers::{self, Containers};
use super::suffixes::NAME_BITS;
use super::{State, STATES};
use std::ops::{Index, IndexMut};

#[derive(Default)]
pub struct Arrays;

impl Containers for Arrays {
    type Column<T: Copy + Default> = Column<T>;
    type Arcs = Arcs;
    type Firsts = Firsts;
}

/// A state number as an index of an array of STATES entries; the mask spares the check of the bound.
fn index(state: State) -> usize {
    usize::from(state) % STATES
}

pub struct Column<T>([T; STATES]);

impl<T: Copy + Default> Default for Column<T> {
    fn default() -> Column<T> {
        Column([T::default(); STATES])
    }
}

impl<T> Index<State> for Column<T> {
    type Output = T;

    fn index(&self, state: State) -> &T {
        &self.0[index(state)]
    }
}

impl<T> IndexMut<State> for Column<T> {
    fn index_mut(&mut self, state: State) -> &mut T {
        &mut self.0[index(state)]
    }
}

impl<T: Copy + Default> containers::Column<T> for Column<T> {
    fn set(&mut self, values: impl ExactSizeIterator<Item = T>) {
        for (entry, value) in self.0.iter_mut().zip(values) {
            *entry = value;
        }
    }

    fn begin(&mut self, _states: usize) {}

    fn append(&mut self, state: State, value: T) {
        self[state] = value;
    }

    fn values(&self, count: usize) -> &[T] {
        &self.0[..count]
    }
}

pub struct Arcs {
    keys: Column<u64>,
    /// The entry of a group and a key counts only where the group has the key.
    states: [[State; 64]; STATES],
}

impl Default for Arcs {
    fn default() -> Arcs {
        Arcs { keys: Column::default(), states: [[0; 64]; STATES] }
    }
}

impl containers::Arcs for Arcs {
    fn begin(&mut self, _groups: usize, _keys: usize) {}

    fn append(&mut self, group: State) {
        self.keys[group] = 0;
    }

    fn keys(&self, group: State) -> u64 {
        self.keys[group]
    }

    fn get(&self, group: State, key: usize) -> State {
        self.states[index(group)][key % 64]
    }

    fn put(&mut self, group: State, key: usize, state: State) {
        self.keys[group] |= 1 << (key % 64);
        self.states[index(group)][key % 64] = state;
    }

    fn get_or_put(&mut self, group: State, key: usize, state: State) -> State {
        if !self.has(group, key) {
            self.put(group, key, state);
        }
        self.get(group, key)
    }
}

const SLOTS: usize = 2 * STATES;

/// How many codes of up to two names there are.
const SHORT_CODES: usize = 1 << (2 * NAME_BITS);

pub struct Firsts {
    /// By the code itself. An entry counts only where it is an earlier state with that code.
    short: [State; SHORT_CODES],
    /// One more than a state's number, 0 for none.
    slots: [State; SLOTS],
}

impl Default for Firsts {
    fn default() -> Firsts {
        Firsts { short: [0; SHORT_CODES], slots: [0; SLOTS] }
    }
}

impl containers::Firsts for Firsts {
    fn begin(&mut self, _states: usize) {
        self.slots.fill(0);
    }

    fn first(&mut self, v: State, code: u64, code_of: impl Fn(State) -> u64) -> State {
        let mut slot = (code.wrapping_mul(0x9E37_79B9_7F4A_7C15) >> 54) as usize;
        loop {
            let found = self.slots[slot % SLOTS];
            if found == 0 {
                self.slots[slot % SLOTS] = v + 1;
                return v;
            }
            if code_of(found - 1) == code {
                return found - 1;
            }
            slot += 1;
        }
    }

    fn begin_short(&mut self, _codes: usize) {}

    fn first_of_short(&mut self, v: State, code: u64, code_of: impl Fn(State) -> u64) -> State {
        let entry = &mut self.short[code as usize % SHORT_CODES];
        if *entry >= v || code_of(*entry) != code {
            *entry = v;
        }
        *entry
    }
}
