//! The joined automaton, numbered first-met and written in one traversal.

use super::containers::{bits, Arcs, Column, Containers};
use super::fields::{CLASS, STATE};
use super::refusals::Refusal;
use super::{Fast, State};
use crate::book::Class;
use crate::library::Built;
use std::iter::repeat_n;

const NOT_MET: State = State::MAX;

/// Writes names, class and states to the front of `out`, or nothing where they do not fit.
pub fn write<C: Containers>(fast: &mut Fast<C>, names: &[u8], class: Class, out: &mut [u8]) -> Result<Built, Refusal> {
    let (states, length) = prepare(fast);
    let front = names.len() + 6;
    let total = front + length;
    let out = out.get_mut(..total).ok_or(Refusal::OutputTooShort)?;
    out[..names.len()].copy_from_slice(names);
    out[names.len()..front].copy_from_slice(&class_field(class));
    write_states(fast, states, out, front);
    Ok(Built {
        refusal: 0,
        length: total as u32,
        states: states as u32,
        joins: (fast.tree.count - states) as u32,
        distinct: fast.tree.ends.len() as u32,
    })
}

fn class_field(class: Class) -> [u8; 6] {
    let [kind, first, second] = class.settings();
    [CLASS, 0, 3, kind, first, second]
}

/// Marks accepting groups, and counts the groups and the bytes of their fields. No group has a number yet.
fn prepare<C: Containers>(fast: &mut Fast<C>) -> (usize, usize) {
    let count = fast.tree.count;
    let groups = fast.partition.flatten(count);
    fast.accepting.set(repeat_n(false, count));
    fast.numbers.set(repeat_n(NOT_MET, count));
    for &end in &fast.tree.ends {
        fast.accepting[groups[end]] = true;
    }
    let states = groups.values(count).iter().zip(0..).filter(|&(&group, v)| group == v).count();
    (states, 4 * states + 3 * fast.arcs)
}

fn write_states<C: Containers>(fast: &mut Fast<C>, states: usize, out: &mut [u8], start: usize) {
    fast.met.clear();
    fast.met.reserve(states);
    fast.met.push(0);
    fast.numbers[0] = 0;
    let (mut at, mut next) = (start, 0);
    while next < fast.met.len() {
        at = write_state(fast, fast.met[next], out, at);
        next += 1;
    }
}

/// Writes a group's field; a target met first has the next number. Returns the offset after it.
fn write_state<C: Containers>(fast: &mut Fast<C>, group: State, out: &mut [u8], at: usize) -> usize {
    let mut end = at + 4;
    for name in bits(fast.tree.children.keys(group)) {
        let target = fast.partition.find(fast.tree.children.get(group, name));
        if fast.numbers[target] == NOT_MET {
            fast.numbers[target] = fast.met.len() as State;
            fast.met.push(target);
        }
        let [high, low] = fast.numbers[target].to_be_bytes();
        out[end..end + 3].copy_from_slice(&[name as u8, high, low]);
        end += 3;
    }
    let [high, low] = ((end - at - 3) as u16).to_be_bytes();
    out[at..at + 4].copy_from_slice(&[STATE, high, low, u8::from(fast.accepting[group])]);
    end
}
