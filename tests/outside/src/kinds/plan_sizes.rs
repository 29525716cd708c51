//! Rows read from plans: lengths of outputs, working areas, plans and lists, and the limits.

use crate::comparing::{Mismatch, Run};
use crate::damage::any_bytes;
use crate::drawing::{draw_name, draw_names, TOO_LONG};
use crate::planning::{draw_plan, draw_small_plan, draw_text_byte, element, empty, near_names, nested, Plan, Text};
use reference::fields::{CLASS, NAME, NAMES_LIMIT, NAME_LENGTH_LIMIT, ROW, ROWS_LIMIT, ROW_LIMIT};
use reference::plan_rows::LEVELS_LIMIT;
use reference::random::Random;
use reference::table::write_field;
use reference::{Lent, INPUT_LIMIT, WORK_BYTES};

/// Outputs of each length from 0 to one more than the rows.
pub fn outputs(run: &mut Run) -> Result<(), Mismatch> {
    let plan = draw_plan(&mut run.random, 60, Text::Any);
    let list = plan.list();
    let needed = run.compare_rows(plan.ask(&plan.bytes, &list))?.map_or(0, |read| read.bytes.len());
    for output in 0..=needed + 1 {
        run.compare_rows_lent(plan.ask(&plan.bytes, &list), Lent { work: WORK_BYTES, output })?;
    }
    Ok(())
}

/// Working areas too short, just long enough and longer, for a plan, a plan cut short, a bad list and any bytes.
pub fn working_areas(run: &mut Run) -> Result<(), Mismatch> {
    let plan = draw_small_plan(&mut run.random, Text::Any);
    let (list, other) = (plan.list(), any_bytes(&mut run.random));
    for work in [0, 1, 1000, WORK_BYTES - 1, WORK_BYTES, WORK_BYTES + 1, 100_000] {
        for output in [0, INPUT_LIMIT] {
            let lent = Lent { work, output };
            run.compare_rows_lent(plan.ask(&plan.bytes, &list), lent)?;
            run.compare_rows_lent(plan.ask(&plan.bytes[1..], &list), lent)?;
            run.compare_rows_lent(plan.ask(&plan.bytes, &list[1..]), lent)?;
            run.compare_rows_lent(plan.ask(&other, &other), lent)?;
        }
    }
    Ok(())
}

/// Plans of 65,535 bytes and a byte more: a small plan with a long text, white space at the end, many tags, elements nested without
/// end, any bytes; then lists of both lengths.
pub fn longest(run: &mut Run) -> Result<(), Mismatch> {
    let plan = draw_small_plan(&mut run.random, Text::Any);
    let list = plan.list();
    for length in [INPUT_LIMIT, INPUT_LIMIT + 1] {
        let inputs = [
            filled(&mut run.random, &plan, length),
            [&plan.bytes[..], &vec![b' '; length - plan.bytes.len()]].concat(),
            many_tags(&mut run.random, &plan, length),
            [b"<", &plan.names[0][..], b">"].concat().repeat(length)[..length].to_vec(),
            (0..length).map(|_| run.random.byte()).collect(),
        ];
        for input in inputs {
            run.compare_rows(plan.ask(&input, &list))?;
        }
        let mut long = list.clone();
        write_field(&mut long, NAME, &vec![b'~'; length - list.len() - 3]);
        run.compare_rows(plan.ask(&plan.bytes, &long))?;
        run.compare_rows(plan.ask(&plan.bytes, &vec![NAME; length]))?;
    }
    Ok(())
}

/// The plan inside another element, with a text before it that gives the length.
fn filled(random: &mut Random, plan: &Plan, length: usize) -> Vec<u8> {
    let inside = plan.bytes.trim_ascii();
    let text: Vec<u8> = (0..length - inside.len() - b"<a></a>".len()).map(|_| draw_text_byte(random, Text::Any)).collect();
    element(b"a", &[&text[..], inside].concat())
}

/// Chosen elements of up to 40 children each, as many as there is room for, then text that gives the length.
fn many_tags(random: &mut Random, plan: &Plan, length: usize) -> Vec<u8> {
    let room = length - b"<a></a>".len();
    let mut inside: Vec<u8> = vec![];
    loop {
        let count = random.between(0, ROW_LIMIT);
        let children: Vec<Vec<u8>> = (0..count).map(|_| empty(&plan.names[random.below(plan.names.len())])).collect();
        let day = element(&plan.names[plan.chosen], &children.concat());
        if inside.len() + day.len() > room {
            inside.resize(room, b' ');
            return element(b"a", &inside);
        }
        inside.extend(day);
    }
}

/// Names of 31, 32 and 33 bytes, in each kind of tag, as outermost, chosen, other and unknown name.
pub fn name_lengths(run: &mut Run) -> Result<(), Mismatch> {
    let names = draw_names(&mut run.random, 3);
    let long = draw_name(&mut run.random, NAME_LENGTH_LIMIT + 1);
    for length in NAME_LENGTH_LIMIT - 1..=NAME_LENGTH_LIMIT + 1 {
        let name = &long[..length];
        let listed = &long[..length.min(NAME_LENGTH_LIMIT)];
        for names in [names.clone(), with_name(&names, listed)] {
            for chosen in 0..names.len() {
                let plan = Plan { bytes: vec![], names: names.clone(), chosen };
                let parent = &names[chosen];
                for inner in [empty(name), element(name, b""), element(name, b"x"), [b"<", name, b" ></", name, b" >"].concat()] {
                    run.compare_rows(plan.ask(&inner, &plan.list()))?;
                    run.compare_rows(plan.ask(&element(parent, &inner), &plan.list()))?;
                }
                run.compare_rows(plan.ask(&[b"<", listed, b"></", name, b">"].concat(), &plan.list()))?;
            }
        }
    }
    Ok(())
}

fn with_name(names: &[Vec<u8>], name: &[u8]) -> Vec<Vec<u8>> {
    let mut names = [names, &[name.to_vec()]].concat();
    names.sort();
    names.dedup();
    names
}

/// Fourteen to eighteen elements inside one another, each chosen, known or unknown, the last empty or not.
pub fn depths(run: &mut Run) -> Result<(), Mismatch> {
    let plan = draw_small_plan(&mut run.random, Text::Any);
    let list = plan.list();
    for depth in LEVELS_LIMIT - 2..=LEVELS_LIMIT + 2 {
        for inside in [&b""[..], b"x", b"&"] {
            run.compare_rows(plan.ask(&nested(&plan.names[plan.chosen], depth, inside), &list))?;
            let mixed = draw_levels(&mut run.random, &plan, depth, inside);
            run.compare_rows(plan.ask(&mixed, &list))?;
        }
    }
    Ok(())
}

/// So many elements inside one another, of any names, some of them with an empty element behind them.
fn draw_levels(random: &mut Random, plan: &Plan, depth: usize, inside: &[u8]) -> Vec<u8> {
    let others = near_names(random, &plan.names);
    let mut bytes = inside.to_vec();
    for level in (0..depth).rev() {
        let names = if random.once_in(4) { &others } else { &plan.names };
        let name = &names[random.below(names.len())];
        bytes = if bytes.is_empty() && random.once_in(2) { empty(name) } else { element(name, &bytes) };
        if level > 0 && random.once_in(3) {
            bytes.extend(empty(&plan.names[0]));
        }
    }
    bytes
}

/// 255 to 257 rows, one of them of 39 to 41 entries or far too long; with a fault behind them, and with outputs too short.
pub fn row_limits(run: &mut Run) -> Result<(), Mismatch> {
    let names = draw_names(&mut run.random, 2);
    let chosen = run.random.below(2);
    let plan = Plan { bytes: vec![], names, chosen };
    let list = plan.list();
    for rows in ROWS_LIMIT - 1..=ROWS_LIMIT + 1 {
        for entries in (ROW_LIMIT - 1..=ROW_LIMIT + 1).chain(TOO_LONG) {
            let days = draw_days(&mut run.random, &plan, rows, entries);
            let whole = element(b"_none", &days);
            run.compare_rows(plan.ask(&whole, &list))?;
            let output = run.random.below(2000);
            run.compare_rows_lent(plan.ask(&whole, &list), Lent { work: WORK_BYTES, output })?;
            run.compare_rows(plan.ask(&[b"<_none>", &days[..], b"&"].concat(), &list))?;
        }
    }
    most_bytes(run)
}

/// As many rows as there may be, each as long as may be, in an output that just takes them and in one a byte shorter.
fn most_bytes(run: &mut Run) -> Result<(), Mismatch> {
    let names = vec![b"a".to_vec(), b"b".to_vec()];
    let chosen = run.random.below(2);
    let day = element(&names[chosen], &empty(&names[1 - chosen]).repeat(ROW_LIMIT));
    let plan = Plan { bytes: element(b"_none", &day.repeat(ROWS_LIMIT)), names, chosen };
    let most = ROWS_LIMIT * (3 + ROW_LIMIT);
    for output in [most - 1, most] {
        run.compare_rows_lent(plan.ask(&plan.bytes, &plan.list()), Lent { work: WORK_BYTES, output })?;
    }
    Ok(())
}

/// So many chosen elements, one with so many children of the other name, some inside one another.
fn draw_days(random: &mut Random, plan: &Plan, rows: usize, entries: usize) -> Vec<u8> {
    let (chosen, other) = (&plan.names[plan.chosen], &plan.names[1 - plan.chosen]);
    let long = random.below(rows);
    let mut bytes = vec![];
    let mut row = 0;
    while row < rows {
        let depth = if row == long || random.once_in(2) { 1 } else { random.between(1, 5).min(rows - row) };
        let is_long = (row..row + depth).contains(&long);
        let children = if is_long { empty(other).repeat(entries) } else { empty(other).repeat(random.below(3)) };
        bytes.extend(nested(chosen, depth, &children));
        row += depth;
    }
    bytes
}

/// Lists of up to 65 names, with 40 of them in a row; and behind 64 names a field that is refused, or passes but for its number.
pub fn name_counts(run: &mut Run) -> Result<(), Mismatch> {
    for count in [1, 2, NAMES_LIMIT - 1, NAMES_LIMIT, NAMES_LIMIT + 1] {
        let names = draw_names(&mut run.random, count);
        let mut children: Vec<Vec<u8>> = names.iter().map(|name| empty(name)).collect();
        run.random.shuffle(&mut children);
        children.truncate(ROW_LIMIT);
        for chosen in [0, count - 1, count, 255] {
            let day = element(&names[chosen.min(count - 1)], &children.concat());
            let plan = Plan { bytes: day, names: names.clone(), chosen };
            run.compare_rows(plan.ask(&plan.bytes, &plan.list()))?;
        }
    }
    after_64_names(run)
}

fn after_64_names(run: &mut Run) -> Result<(), Mismatch> {
    let names = draw_names(&mut run.random, NAMES_LIMIT);
    let plan = Plan { bytes: empty(&names[0]), names, chosen: 0 };
    for (mark, bytes) in [(NAME, &b"zzzzz"[..]), (NAME, b"A"), (NAME, b""), (NAME, b"1"), (CLASS, &[1, 0, 0]), (ROW, &[0])] {
        let mut list = plan.list();
        write_field(&mut list, mark, bytes);
        run.compare_rows(plan.ask(&plan.bytes, &list))?;
        list.pop();
        run.compare_rows(plan.ask(&plan.bytes, &list))?;
    }
    Ok(())
}
