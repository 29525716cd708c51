//! The rule of the context classes: two paths of k arcs with the same names open the joins of their states after arc i, for each
//! i from h to k.

use crate::joining::{Groups, OpenSteps};

/// One arc of the automaton of pairs: two arcs of the same name, taken together. A pair of groups is numbered
/// `first * states + second`.
struct PairArc {
    from: usize,
    to: usize,
}

pub fn open_steps(groups: &Groups, k: u8, h: u8, open: &mut OpenSteps) {
    let states = groups.group_of.len();
    let arcs = pair_arcs(groups);
    let arriving = longest_paths(states, k, arcs.iter().map(|arc| (arc.from, arc.to)));
    let leaving = longest_paths(states, k, arcs.iter().map(|arc| (arc.to, arc.from)));
    for first in (0..states).filter(|&state| groups.is_group(state)) {
        for second in (first + 1..states).filter(|&state| groups.is_group(state)) {
            let pair = first * states + second;
            // both stand after arc i of two such paths when i arcs with the same names arrive at them and k - i leave
            if (h..=k).any(|i| i <= arriving[pair] && k - i <= leaving[pair]) {
                open.open(first, second);
            }
        }
    }
}

/// Every two arcs of the same name, in both orders, an arc with itself included.
fn pair_arcs(groups: &Groups) -> Vec<PairArc> {
    let states = groups.group_of.len();
    let mut pairs = vec![];
    for same in groups.arcs.chunk_by(|a, b| a.name == b.name) {
        for first in same {
            for second in same {
                pairs.push(PairArc { from: first.from * states + second.from, to: first.to * states + second.to });
            }
        }
    }
    pairs
}

/// For each pair, how many arcs the longest path of pairs that ends at it has, `k` at most.
fn longest_paths(states: usize, k: u8, arcs: impl Iterator<Item = (usize, usize)> + Clone) -> Vec<u8> {
    let mut longest = vec![0u8; states * states];
    for length in 1..=k {
        for (from, to) in arcs.clone() {
            if longest[from] >= length - 1 {
                longest[to] = length;
            }
        }
    }
    longest
}
