//! The rule of the distinguishable classes: two groups with equal f are joined if both accept, or if one name leads from both
//! into the same group.

use crate::fields::Class;
use crate::joining::{Groups, OpenSteps};
use crate::prefix_tree::PrefixTree;
use std::collections::{BTreeMap, BTreeSet};

/// f of each tree state, as a number: equal numbers for equal values. The context classes have no f; their numbers say nothing.
pub fn values(tree: &PrefixTree, class: Class) -> Vec<usize> {
    let mut numbers = BTreeMap::new();
    let mut value = |word: &Vec<u8>| {
        let next = numbers.len();
        *numbers.entry(f(word, class)).or_insert(next)
    };
    tree.words.iter().map(&mut value).collect()
}

/// The set of names in the word, ascending; or its last j names, all of it where it is shorter.
fn f(word: &[u8], class: Class) -> Vec<u8> {
    match class {
        Class::Context { .. } => vec![],
        Class::SeenSet => BTreeSet::from_iter(word.iter().copied()).into_iter().collect(),
        Class::LastNames { j } => word[word.len().saturating_sub(usize::from(j))..].to_vec(),
    }
}

pub fn open_steps(groups: &Groups, values: &[usize], open: &mut OpenSteps) {
    let accepting = (0..values.len()).filter(|&state| groups.is_group(state) && groups.accepting[state]).collect();
    open_equal(accepting, values, open);
    let mut sources: BTreeMap<(u8, usize), Vec<usize>> = BTreeMap::new();
    for arc in &groups.arcs {
        sources.entry((arc.name, arc.to)).or_default().push(arc.from);
    }
    for groups in sources.into_values() {
        open_equal(groups, values, open);
    }
}

/// Opens the join of every two of these groups with equal f. A group's f is that of its least member: members agree in it.
fn open_equal(groups: Vec<usize>, values: &[usize], open: &mut OpenSteps) {
    for (place, &group) in groups.iter().enumerate() {
        for &another in &groups[place + 1..] {
            if values[group] == values[another] {
                open.open(group, another);
            }
        }
    }
}
