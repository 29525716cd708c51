//! Joinings: lists of steps, each of which makes two groups of tree states into one. Every open step may come next.

use crate::contexts;
use crate::fields::Class;
use crate::functions;
use crate::prefix_tree::{PrefixTree, TreeArc};
use crate::random::Random;

/// The groups that the steps so far have left, read as an automaton. A group goes by its least member.
pub struct Groups {
    /// The group of each tree state.
    pub group_of: Vec<usize>,
    /// Whether a group accepts, at its least member's place.
    pub accepting: Vec<bool>,
    /// The arcs from group to group, ascending by name, source and target, each once.
    pub arcs: Vec<TreeArc>,
}

impl Groups {
    /// Each tree state alone.
    pub fn alone(tree: &PrefixTree) -> Groups {
        let mut arcs = tree.arcs.clone();
        arcs.sort();
        Groups { group_of: (0..tree.states()).collect(), accepting: tree.accepting.clone(), arcs }
    }

    pub fn is_group(&self, state: usize) -> bool {
        self.group_of[state] == state
    }

    pub fn join(&mut self, step: Step) {
        let Step { least, other } = step;
        for group in &mut self.group_of {
            if *group == other {
                *group = least;
            }
        }
        self.accepting[least] |= self.accepting[other];
        for arc in &mut self.arcs {
            arc.from = self.group_of[arc.from];
            arc.to = self.group_of[arc.to];
        }
        self.arcs.sort();
        self.arcs.dedup();
    }
}

/// Two different groups to be made into one, `least` below `other`.
#[derive(Clone, Copy, Debug, PartialEq, Eq)]
pub struct Step {
    pub least: usize,
    pub other: usize,
}

/// The open steps found so far, each once however many rules open it.
pub struct OpenSteps {
    states: usize,
    found: Vec<bool>,
    steps: Vec<Step>,
}

impl OpenSteps {
    fn none(states: usize) -> OpenSteps {
        OpenSteps { states, found: vec![false; states * states], steps: vec![] }
    }

    /// The step that makes the two groups one is open. Where they are the same group there is no such step.
    pub fn open(&mut self, group: usize, another: usize) {
        let (least, other) = (group.min(another), group.max(another));
        let place = least * self.states + other;
        if least != other && !self.found[place] {
            self.found[place] = true;
            self.steps.push(Step { least, other });
        }
    }
}

/// The groups that a full joining leaves; `random` chooses each step among all that are open.
pub fn full_joining(tree: &PrefixTree, class: Class, random: &mut Random) -> Groups {
    let values = functions::values(tree, class);
    let mut groups = Groups::alone(tree);
    loop {
        let open = open_steps(&groups, class, &values);
        match random.choose(&open) {
            Some(&step) => groups.join(step),
            None => return groups,
        }
    }
}

/// Every open step. `values` holds f of each tree state, for the classes that have one.
pub fn open_steps(groups: &Groups, class: Class, values: &[usize]) -> Vec<Step> {
    let mut open = OpenSteps::none(groups.group_of.len());
    open_forks(groups, &mut open);
    match class {
        Class::Context { k, h } => contexts::open_steps(groups, k, h, &mut open),
        Class::SeenSet | Class::LastNames { .. } => functions::open_steps(groups, values, &mut open),
    }
    open.steps
}

/// One group with arcs of the same name to both.
fn open_forks(groups: &Groups, open: &mut OpenSteps) {
    for same in groups.arcs.chunk_by(|a, b| (a.name, a.from) == (b.name, b.from)) {
        for (place, arc) in same.iter().enumerate() {
            for another in &same[place + 1..] {
                open.open(arc.to, another.to);
            }
        }
    }
}
