//! Vectors and hash maps of the sizes that a book needs, for memory that is made anew in every call.

use super::containers::{self, Column as _, Containers};
use super::State;
use std::collections::HashMap;
use std::hash::{BuildHasherDefault, Hasher};
use std::ops::{Index, IndexMut};

#[derive(Default)]
pub struct Maps;

impl Containers for Maps {
    type Column<T: Copy + Default> = Column<T>;
    type Arcs = Arcs;
    type Firsts = Firsts;
}

#[derive(Default)]
pub struct Column<T>(Vec<T>);

impl<T> Index<State> for Column<T> {
    type Output = T;

    fn index(&self, state: State) -> &T {
        &self.0[usize::from(state)]
    }
}

impl<T> IndexMut<State> for Column<T> {
    fn index_mut(&mut self, state: State) -> &mut T {
        &mut self.0[usize::from(state)]
    }
}

impl<T: Copy + Default> containers::Column<T> for Column<T> {
    fn set(&mut self, values: impl ExactSizeIterator<Item = T>) {
        self.0.clear();
        self.0.extend(values);
    }

    fn begin(&mut self, states: usize) {
        self.0.clear();
        self.0.reserve(states);
    }

    fn append(&mut self, _state: State, value: T) {
        self.0.push(value);
    }

    fn values(&self, count: usize) -> &[T] {
        &self.0[..count]
    }
}

#[derive(Default)]
pub struct Arcs {
    keys: Column<u64>,
    /// For each group 1 << shift entries, as many as there are keys or a few more: a hash map of groups and keys takes longer.
    states: Vec<State>,
    shift: u32,
}

/// No state, where a group does not have the key.
const NONE: State = State::MAX;

impl Arcs {
    fn place(&self, group: State, key: usize) -> usize {
        usize::from(group) << self.shift | key
    }
}

impl containers::Arcs for Arcs {
    fn begin(&mut self, groups: usize, keys: usize) {
        self.shift = keys.next_power_of_two().trailing_zeros();
        self.keys.begin(groups);
        self.states.clear();
        self.states.resize(groups << self.shift, NONE);
    }

    fn append(&mut self, _group: State) {
        self.keys.0.push(0);
    }

    fn keys(&self, group: State) -> u64 {
        self.keys[group]
    }

    fn get(&self, group: State, key: usize) -> State {
        self.states[self.place(group, key)]
    }

    fn put(&mut self, group: State, key: usize, state: State) {
        self.keys[group] |= 1 << (key % 64);
        let place = self.place(group, key);
        self.states[place] = state;
    }

    fn get_or_put(&mut self, group: State, key: usize, state: State) -> State {
        let place = self.place(group, key);
        let entry = &mut self.states[place];
        if *entry == NONE {
            *entry = state;
            self.keys[group] |= 1 << (key % 64);
        }
        *entry
    }
}

/// Hashes one number by a multiplication and a shift. The shift brings high bits of the product down: the map takes low ones too.
#[derive(Default)]
pub struct Multiply(u64);

impl Hasher for Multiply {
    fn write(&mut self, bytes: &[u8]) {
        for &byte in bytes {
            self.write_u64(u64::from(byte));
        }
    }

    fn write_u64(&mut self, number: u64) {
        let product = (self.0 ^ number).wrapping_mul(0x9E37_79B9_7F4A_7C15);
        self.0 = product ^ product >> 32;
    }

    fn finish(&self) -> u64 {
        self.0
    }
}

#[derive(Default)]
pub struct Firsts {
    /// By the code itself, 0 for none.
    short: Vec<State>,
    long: HashMap<u64, State, BuildHasherDefault<Multiply>>,
}

impl containers::Firsts for Firsts {
    fn begin(&mut self, states: usize) {
        self.long.clear();
        self.long.reserve(states);
    }

    fn first(&mut self, v: State, code: u64, _code_of: impl Fn(State) -> u64) -> State {
        *self.long.entry(code).or_insert(v)
    }

    fn begin_short(&mut self, codes: usize) {
        self.short.clear();
        self.short.resize(codes, 0);
    }

    fn first_of_short(&mut self, v: State, code: u64, _code_of: impl Fn(State) -> u64) -> State {
        let entry = &mut self.short[code as usize];
        if *entry == 0 {
            *entry = v;
        }
        *entry
    }
}
