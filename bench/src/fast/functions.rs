//! Joining by seen sets and by last names: accepting states of equal f first, then forks both along the arcs and against them.

use super::containers::{Arcs, Column, Containers, Firsts};
use super::suffixes::{above, cut};
use super::{Fast, State};

impl<C: Containers> Fast<C> {
    /// Last j names: sources of one target have equal f where the name before the target's last j is the same.
    pub fn join_by_last(&mut self, j: u8, names: usize) {
        let count = self.tree.count;
        let [arrivals, _] = &mut self.arrivals;
        arrivals.begin(count, names);
        for v in 0..count as State {
            let node = self.tree.nodes[v];
            append_arrival(arrivals, v, node.parent, above(node.code, j));
        }
        self.values.set(self.tree.nodes.values(count).iter().map(|node| cut(node.code, j)));
        self.join_accepting();
        self.settle(1);
    }

    /// Seen sets: sources of one target have equal f where the arcs have one name and both or neither enlarge the set.
    pub fn join_by_seen_set(&mut self, names: usize) {
        let count = self.tree.count;
        let [enlarging, other] = &mut self.arrivals;
        enlarging.begin(count, names);
        other.begin(count, names);
        enlarging.append(0);
        other.append(0);
        self.values.begin(count);
        self.values.append(0, 0);
        for v in 1..count as State {
            let node = self.tree.nodes[v];
            let before = self.values[node.parent];
            let seen = before | 1 << (node.name % 64);
            self.values.append(v, seen);
            append_arrival(enlarging, v, node.parent, (seen != before).then_some(node.name));
            append_arrival(other, v, node.parent, (seen == before).then_some(node.name));
        }
        self.join_accepting();
        self.settle(2);
    }

    /// Has accepting states with equal values of f joined.
    fn join_accepting(&mut self) {
        self.partition.take(0..self.tree.count as State);
        self.firsts.begin(self.tree.ends.len());
        self.pending.reserve(self.tree.count);
        let values = &self.values;
        for &v in &self.tree.ends {
            let first = self.firsts.first(v, values[v], |w| values[w]);
            if first != v {
                self.pending.push((first, v));
            }
        }
    }
}

/// One state more, with its only arrival in the tree or none.
fn append_arrival(arrivals: &mut impl Arcs, state: State, source: State, key: Option<u8>) {
    arrivals.append(state);
    if let Some(key) = key {
        arrivals.put(state, usize::from(key), source);
    }
}
