//! The prefix tree of a book's rows: one state for each beginning of a row, the empty one (the root) included.

use crate::fields::STATES_LIMIT;
use crate::refusal::Refusal;
use std::collections::BTreeSet;

pub struct PrefixTree {
    /// The names from the root to each state. The root is state 0.
    pub words: Vec<Vec<u8>>,
    pub accepting: Vec<bool>,
    pub arcs: Vec<TreeArc>,
}

#[derive(Clone, Copy, Debug, PartialEq, Eq, PartialOrd, Ord)]
pub struct TreeArc {
    pub name: u8,
    pub from: usize,
    pub to: usize,
}

impl PrefixTree {
    /// Refusal 10 where it needs too many states.
    pub fn of_rows(rows: &[Vec<u8>]) -> Result<PrefixTree, Refusal> {
        let mut beginnings = BTreeSet::from([vec![]]);
        for row in rows {
            for length in 0..=row.len() {
                beginnings.insert(row[..length].to_vec());
            }
        }
        if beginnings.len() > STATES_LIMIT {
            return Err(Refusal::TreeTooLarge);
        }
        // in ascending order the empty beginning is first, so the root is 0
        let words: Vec<Vec<u8>> = beginnings.into_iter().collect();
        let state_of = |word: &[u8]| words.binary_search_by(|other| other.as_slice().cmp(word)).expect("a beginning");
        let mut accepting = vec![false; words.len()];
        for row in rows {
            accepting[state_of(row)] = true;
        }
        let mut arcs = vec![];
        for (to, word) in words.iter().enumerate() {
            if let Some((&name, parent)) = word.split_last() {
                arcs.push(TreeArc { name, from: state_of(parent), to });
            }
        }
        Ok(PrefixTree { words, accepting, arcs })
    }

    /// How many states it has.
    pub fn states(&self) -> usize {
        self.words.len()
    }
}
