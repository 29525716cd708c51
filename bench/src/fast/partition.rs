//! The partition of the states: a forest whose roots, the lowest states of the groups, stand for them.

use super::containers::{Column, Containers};
use super::State;

#[derive(Default)]
pub struct Partition<C: Containers> {
    above: C::Column<State>,
    /// Some state may be below another that is no root.
    deep: bool,
}

impl<C: Containers> Partition<C> {
    /// Takes the partition of which each state's group is given, by its lowest state.
    pub fn take(&mut self, groups: impl ExactSizeIterator<Item = State>) {
        self.above.set(groups);
        self.deep = false;
    }

    pub fn group(&mut self, state: State) -> State {
        let mut at = state;
        loop {
            let above = self.above[at];
            if above == at {
                return at;
            }
            let next = self.above[above];
            self.above[at] = next;
            at = next;
        }
    }

    /// The group, found without shortening the way.
    pub fn find(&self, state: State) -> State {
        let mut at = state;
        while self.above[at] != at {
            at = self.above[at];
        }
        at
    }

    /// Puts every state right below its root, or makes it one; what is above a state is lower. Returns the states' groups.
    pub fn flatten(&mut self, count: usize) -> &C::Column<State> {
        if self.deep {
            for v in 0..count as State {
                self.above[v] = self.above[self.above[v]];
            }
            self.deep = false;
        }
        &self.above
    }

    /// Makes the groups of two states one. Where they were two: the one that stays, and the one that is gone.
    pub fn join(&mut self, v: State, w: State) -> Option<(State, State)> {
        let (x, y) = (self.group(v), self.group(w));
        if x == y {
            return None;
        }
        let (stays, gone) = (x.min(y), x.max(y));
        self.above[gone] = stays;
        self.deep = true;
        Some((stays, gone))
    }
}
