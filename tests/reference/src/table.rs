//! Tables: states numbered first-met, and the bytes they are written to.

use crate::fields::{Class, CLASS, NAME, STATE};
use crate::joining::Groups;

#[derive(Clone, Debug, PartialEq, Eq)]
pub struct Table {
    pub names: Vec<Vec<u8>>,
    pub class: Class,
    pub states: Vec<State>,
}

#[derive(Clone, Debug, PartialEq, Eq)]
pub struct State {
    pub accepting: bool,
    /// In ascending name number.
    pub arcs: Vec<Arc>,
}

#[derive(Clone, Copy, Debug, PartialEq, Eq)]
pub struct Arc {
    pub name: usize,
    pub target: usize,
}

impl Table {
    pub fn bytes(&self) -> Vec<u8> {
        let mut bytes = vec![];
        for name in &self.names {
            write_field(&mut bytes, NAME, name);
        }
        write_field(&mut bytes, CLASS, &self.class.bytes());
        for state in &self.states {
            write_field(&mut bytes, STATE, &state.bytes());
        }
        bytes
    }

    /// States taken in ascending number, and their arcs in ascending name number, meet state 1 first, then 2, and so on, and
    /// every state is met.
    pub fn is_numbered_first_met(&self) -> bool {
        let mut met = 1;
        for (number, state) in self.states.iter().enumerate() {
            if number >= met {
                return false;
            }
            for arc in &state.arcs {
                if arc.target > met || arc.target >= self.states.len() {
                    return false;
                }
                met = met.max(arc.target + 1);
            }
        }
        met == self.states.len()
    }
}

impl State {
    fn bytes(&self) -> Vec<u8> {
        let mut bytes = vec![u8::from(self.accepting)];
        for arc in &self.arcs {
            bytes.push(arc.name as u8);
            bytes.extend((arc.target as u16).to_be_bytes());
        }
        bytes
    }
}

/// Appends one field.
pub fn write_field(output: &mut Vec<u8>, mark: u8, bytes: &[u8]) {
    output.push(mark);
    output.extend((bytes.len() as u16).to_be_bytes());
    output.extend(bytes);
}

/// The states of a full joining's groups, numbered first-met from the root's group.
pub fn number_groups(groups: &Groups) -> Vec<State> {
    let mut met = vec![groups.group_of[0]];
    let mut states = vec![];
    while states.len() < met.len() {
        let group = met[states.len()];
        let mut arcs = vec![];
        // the groups' arcs ascend by name, and a full joining leaves one of each name
        for arc in groups.arcs.iter().filter(|arc| arc.from == group) {
            let target = met.iter().position(|&other| other == arc.to).unwrap_or(met.len());
            if target == met.len() {
                met.push(arc.to);
            }
            arcs.push(Arc { name: usize::from(arc.name), target });
        }
        states.push(State { accepting: groups.accepting[group], arcs });
    }
    states
}
