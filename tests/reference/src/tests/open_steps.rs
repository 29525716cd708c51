//! The open steps found by pairs of groups are those that the words of docs/SCOPE.md give, read one by one.

use crate::fields::Class;
use crate::functions::values;
use crate::joining::{open_steps, Groups, Step};
use crate::prefix_tree::PrefixTree;
use crate::random::Random;
use std::collections::BTreeSet;

/// Every path of `k` arcs: its names, and the groups it meets from its first to its last.
fn paths(groups: &Groups, k: usize) -> Vec<(Vec<u8>, Vec<usize>)> {
    let all = (0..groups.group_of.len()).filter(|&state| groups.is_group(state));
    let mut paths: Vec<(Vec<u8>, Vec<usize>)> = all.map(|group| (vec![], vec![group])).collect();
    for _ in 0..k {
        let mut longer = vec![];
        for (names, met) in &paths {
            for arc in groups.arcs.iter().filter(|arc| Some(&arc.from) == met.last()) {
                longer.push(([&names[..], &[arc.name]].concat(), [&met[..], &[arc.to]].concat()));
            }
        }
        paths = longer;
    }
    paths
}

fn is_open_by_contexts(groups: &Groups, k: usize, h: usize) -> BTreeSet<(usize, usize)> {
    let paths = paths(groups, k);
    let mut open = BTreeSet::new();
    for (names, met) in &paths {
        for (_, other) in paths.iter().filter(|(others, _)| others == names) {
            open.extend((h..=k).map(|i| (met[i], other[i])).filter(|(group, another)| group < another));
        }
    }
    open
}

/// Two different groups are joined by the distinguishable rule.
fn is_open_by_function(groups: &Groups, values: &[usize], group: usize, another: usize) -> bool {
    let leads = |from: usize| groups.arcs.iter().filter(move |arc| arc.from == from).map(|arc| (arc.name, arc.to));
    values[group] == values[another]
        && (groups.accepting[group] && groups.accepting[another]
            || leads(group).any(|arc| leads(another).any(|other| arc == other)))
}

fn is_fork(groups: &Groups, group: usize, another: usize) -> bool {
    groups.arcs.iter().any(|arc| {
        let same = |other: &&crate::prefix_tree::TreeArc| (other.name, other.from) == (arc.name, arc.from);
        arc.to == group && groups.arcs.iter().filter(same).any(|other| other.to == another)
    })
}

fn read_literally(groups: &Groups, class: Class, values: &[usize]) -> BTreeSet<(usize, usize)> {
    let all: Vec<usize> = (0..groups.group_of.len()).filter(|&state| groups.is_group(state)).collect();
    let pairs = || all.iter().flat_map(|&group| all.iter().map(move |&another| (group, another))).filter(|(a, b)| a < b);
    let mut open: BTreeSet<(usize, usize)> = pairs().filter(|&(group, another)| is_fork(groups, group, another)).collect();
    match class {
        Class::Context { k, h } => open.extend(is_open_by_contexts(groups, k.into(), h.into())),
        _ => open.extend(pairs().filter(|&(group, another)| is_open_by_function(groups, values, group, another))),
    }
    open
}

/// At every step of a full joining of some rows of two names.
fn check(class: Class, random: &mut Random) {
    let count = random.between(1, 4);
    let rows: Vec<Vec<u8>> = (0..count).map(|_| (0..random.between(0, 7)).map(|_| random.below(2) as u8).collect()).collect();
    let tree = PrefixTree::of_rows(&rows).unwrap();
    let values = values(&tree, class);
    let mut groups = Groups::alone(&tree);
    loop {
        let open: Vec<Step> = open_steps(&groups, class, &values);
        let found: BTreeSet<(usize, usize)> = open.iter().map(|step| (step.least, step.other)).collect();
        assert_eq!(found.len(), open.len());
        assert_eq!(found, read_literally(&groups, class, &values), "{class:?} {rows:?} {:?}", groups.group_of);
        match random.choose(&open) {
            Some(&step) => groups.join(step),
            None => break,
        }
    }
    // members of a group agree in f
    assert!((0..tree.states()).all(|state| values[state] == values[groups.group_of[state]]));
}

#[test]
fn open_steps_of_contexts() {
    let mut random = Random::new(1);
    for k in 1..=5 {
        for h in 1..=k {
            (0..40).for_each(|_| check(Class::Context { k, h }, &mut random));
        }
    }
}

#[test]
fn open_steps_of_functions() {
    let mut random = Random::new(2);
    (0..200).for_each(|_| check(Class::SeenSet, &mut random));
    for j in 0..=8 {
        (0..100).for_each(|_| check(Class::LastNames { j }, &mut random));
    }
}
