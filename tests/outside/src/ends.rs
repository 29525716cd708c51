//! Tables drawn at random in which states lead to no accepting one, or only by a long way.

use crate::drawing::{draw_class, draw_names};
use reference::fields::{Class, NAMES_LIMIT};
use reference::random::Random;
use reference::table::{Arc, State, Table};
use reference::INPUT_LIMIT;

/// A table of at most so many states, some of which lead only to one another and do not accept. Of the others few accept, or one, or none.
pub fn draw_with_dead_states(random: &mut Random, states: usize) -> Table {
    let count = if random.once_in(20) { NAMES_LIMIT } else { random.between(1, 8) };
    let names = draw_names(random, count);
    let class = draw_class(random).unwrap_or(Class::DEFAULT);
    let mut table = Table { names, class, states: vec![] };
    let share = [2, 4, 16][random.below(3)];
    // of each state met, whether it leads only to such
    let mut dead = vec![false];
    while table.states.len() < dead.len() {
        let from = table.states.len();
        let mut arcs = vec![];
        for name in 0..count {
            if random.once_in(2) {
                let target = if dead.len() < states && !random.once_in(4) { dead.len() } else { random.below(dead.len()) };
                if target == dead.len() {
                    dead.push(dead[from] || random.once_in(share));
                }
                arcs.push(Arc { name, target: if dead[from] && !dead[target] { from } else { target } });
            }
        }
        table.states.push(State { accepting: false, arcs });
    }
    let others: Vec<usize> = (0..dead.len()).filter(|&state| !dead[state]).collect();
    match random.below(4) {
        0 => {}
        1 => table.states[others[random.below(others.len())]].accepting = true,
        few => others.iter().for_each(|&state| table.states[state].accepting = random.once_in(4 * few)),
    }
    table
}

/// A table whose first states meet all others, and these have an order of their own: each leads to the one before it, the first of all
/// being the one end. No other arc shortens a way: it leads to the state itself or to a later one of the order. The order is drawn, or
/// goes from the middle of the numbers to both sides in turn. It may be cut, so that what is behind the cut leads to no end, and
/// the end may be none. `full` where the table is to have as many arcs as fit into 65,535 bytes.
pub fn draw_long_way(random: &mut Random, states: usize, names: usize, full: bool) -> Table {
    let name_bytes = (0..names).map(|name| format!("n{name:02}").into_bytes()).collect();
    let mut table = Table { names: name_bytes, class: Class::SeenSet, states: vec![] };
    let heads = (states - 1).div_ceil(names);
    let met_by = |head: usize| (0..names).map(move |name| Arc { name, target: 1 + head * names + name });
    table.states.extend(
        (0..heads).map(|head| State { accepting: false, arcs: met_by(head).filter(|arc| arc.target < states).collect() }),
    );
    table.states.resize(states, State { accepting: false, arcs: vec![] });
    let order = draw_order(random, heads, states);
    let cut = if random.once_in(2) { order.len() } else { random.below(order.len()) };
    table.states[order[0]].accepting = !random.once_in(8);
    let mut room = (INPUT_LIMIT - table.bytes().len()) / 3;
    for (place, &state) in order.iter().enumerate() {
        let most = names.min(room.div_ceil(order.len() - place)).min(room);
        let count = if full { most } else { random.between(1, most.min(8)) };
        let way = (place > 0 && place != cut).then(|| (random.below(count), order[place - 1]));
        let target = |at, random: &mut Random| match way {
            Some((way_at, before)) if way_at == at => before,
            _ => order[random.between(place, order.len() - 1)],
        };
        let taken = draw_ascending(random, names, count);
        table.states[state].arcs =
            taken.into_iter().enumerate().map(|(at, name)| Arc { name, target: target(at, random) }).collect();
        room -= count;
    }
    if full {
        // what is over, too little for an arc, goes to a name
        let over = (INPUT_LIMIT - table.bytes().len()).min(2);
        table.names[names - 1].extend(vec![b'x'; over]);
    }
    table
}

/// The numbers from `first` to the one before `end`: shuffled, or from the middle to both sides in turn.
fn draw_order(random: &mut Random, first: usize, end: usize) -> Vec<usize> {
    let mut order: Vec<usize> = (first..end).collect();
    if random.once_in(2) {
        random.shuffle(&mut order);
    } else {
        let middle = (first + end) / 2;
        order.sort_by_key(|&number| if number < middle { 2 * (middle - number) - 1 } else { 2 * (number - middle) });
    }
    order
}

/// So many of the numbers below `bound`, ascending.
fn draw_ascending(random: &mut Random, bound: usize, count: usize) -> Vec<usize> {
    let mut numbers: Vec<usize> = (0..bound).collect();
    random.shuffle(&mut numbers);
    numbers.truncate(count);
    numbers.sort_unstable();
    numbers
}
