//! What the working memory is made of. The algorithms are written once, over these traits; `arrays` and `maps` are two sets of
//! containers for them.

use super::State;
use std::ops::{Index, IndexMut};

pub trait Containers: Default {
    type Column<T: Copy + Default>: Column<T>;
    type Arcs: Arcs;
    type Firsts: Firsts;
}

/// A value for each state.
pub trait Column<T>: Default + Index<State, Output = T> + IndexMut<State> {
    /// The values of the first states, in ascending order; there are no others.
    fn set(&mut self, values: impl ExactSizeIterator<Item = T>);

    /// There is no state; there will be up to `states`.
    fn begin(&mut self, states: usize);

    /// The value of one state more.
    fn append(&mut self, state: State, value: T);

    /// The values of the states below `count`.
    fn values(&self, count: usize) -> &[T];
}

/// Arcs of groups: for each group a set of keys, and for each key a state.
pub trait Arcs: Default {
    /// There is no group; there will be up to `groups`, and keys below `keys`, at most 64.
    fn begin(&mut self, groups: usize, keys: usize);

    /// One group more, without arcs.
    fn append(&mut self, group: State);

    /// The keys of a group, as a set of bits.
    fn keys(&self, group: State) -> u64;

    /// The state for a key that the group has.
    fn get(&self, group: State, key: usize) -> State;

    fn put(&mut self, group: State, key: usize, state: State);

    /// The state for the key, which is put there if the group has none.
    fn get_or_put(&mut self, group: State, key: usize, state: State) -> State;

    fn has(&self, group: State, key: usize) -> bool {
        self.keys(group) >> (key % 64) & 1 == 1
    }

    /// Gives the arcs of one group to another as well. Where both have a key, the two states are to be joined: `meet` is told.
    fn absorb(&mut self, to: State, from: State, mut meet: impl FnMut(State, State)) {
        let (old, more) = (self.keys(to), self.keys(from));
        for key in bits(old & more) {
            meet(self.get(to, key), self.get(from, key));
        }
        for key in bits(more & !old) {
            self.put(to, key, self.get(from, key));
        }
    }
}

/// The numbers of the bits that are set, in ascending order.
pub fn bits(mut set: u64) -> impl Iterator<Item = usize> {
    std::iter::from_fn(move || {
        let lowest = set.trailing_zeros() as usize;
        set &= set.wrapping_sub(1);
        (lowest < 64).then_some(lowest)
    })
}

/// The first state for each code.
pub trait Firsts: Default {
    /// No state has been asked for; up to `states` will be.
    fn begin(&mut self, states: usize);

    /// The first state asked for since `begin` with this code, `v` itself if it is that.
    fn first(&mut self, v: State, code: u64, code_of: impl Fn(State) -> u64) -> State;

    /// No state has been asked for; those that will be have codes of one or two names, below `codes`.
    fn begin_short(&mut self, codes: usize);

    /// The first state asked for since `begin_short` with this code. States are asked for in ascending order, from 1 on.
    fn first_of_short(&mut self, v: State, code: u64, code_of: impl Fn(State) -> u64) -> State;
}
