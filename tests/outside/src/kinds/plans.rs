//! Rows read from plans: valid, damaged, cut, and with faults planted.

use crate::comparing::{Mismatch, Run};
use crate::damage::{damaged_at, damaged_everywhere, moved_fields};
use crate::planning::{draw_plan, draw_small_plan, empty, near_names, nested, places_inside, Plan, Text};
use reference::fields::read_book;
use reference::plan_rows::LEVELS_LIMIT;
use reference::random::Random;

/// Plans of few and of many elements, flat and deep. List and rows together are a book that reads back as these rows.
pub fn valid(run: &mut Run) -> Result<(), Mismatch> {
    let most = if run.random.once_in(20) { 2000 } else { 40 };
    let text = if run.random.once_in(4) { Text::Plain } else { Text::Any };
    let plan = draw_plan(&mut run.random, most, text);
    let list = plan.list();
    for chosen in 0..plan.names.len().min(8) {
        let plan = Plan { chosen, ..plan.clone() };
        let Some(read) = run.compare_rows(plan.ask(&plan.bytes, &list))? else {
            continue;
        };
        if read.rows > 0 {
            make_a_book(run, &list, &read.bytes, read.rows)?;
        }
    }
    Ok(())
}

/// The reader of books refuses no field of a list and rows, and finds so many rows.
fn make_a_book(run: &mut Run, list: &[u8], rows: &[u8], count: usize) -> Result<(), Mismatch> {
    let book = [list, rows].concat();
    if run.random.once_in(20) {
        run.compare_build(&book)?;
    }
    if read_book(&book).map(|book| book.rows.len()) != Ok(count) {
        return Err(Mismatch::new("plans_read_rows", "list and rows are no book of these rows".into(), &[("book", &book)]));
    }
    Ok(())
}

/// A small plan damaged at every byte, also by the bytes that tags are made of.
pub fn damaged(run: &mut Run) -> Result<(), Mismatch> {
    let plan = draw_small_plan(&mut run.random, Text::Any);
    let list = plan.list();
    for input in damaged_everywhere(&plan.bytes, &mut run.random) {
        run.compare_rows(plan.ask(&input, &list))?;
    }
    for place in 0..plan.bytes.len() {
        for byte in *b"<>/& a-" {
            run.compare_rows(plan.ask(&replaced(&plan.bytes, place, &[byte]), &list))?;
            run.compare_rows(plan.ask(&put_in(&plan.bytes, place, &[byte]), &list))?;
        }
    }
    Ok(())
}

/// Every byte value in the place of one byte of a small plan, and put in before it.
pub fn every_byte(run: &mut Run) -> Result<(), Mismatch> {
    let plan = draw_small_plan(&mut run.random, Text::Any);
    let list = plan.list();
    let place = run.random.below(plan.bytes.len());
    for byte in 0..=255 {
        run.compare_rows(plan.ask(&replaced(&plan.bytes, place, &[byte]), &list))?;
        run.compare_rows(plan.ask(&put_in(&plan.bytes, place, &[byte]), &list))?;
    }
    Ok(())
}

pub fn cut(run: &mut Run) -> Result<(), Mismatch> {
    let plan = draw_plan(&mut run.random, 12, Text::Any);
    let list = plan.list();
    for length in 0..plan.bytes.len() {
        run.compare_rows(plan.ask(&plan.bytes[..length], &list))?;
    }
    Ok(())
}

/// The beginning of a small plan, of any length, with every ending of up to three of some bytes.
pub fn endings(run: &mut Run) -> Result<(), Mismatch> {
    let plan = draw_small_plan(&mut run.random, Text::Any);
    let list = plan.list();
    let beginning = &plan.bytes[..run.random.between(0, plan.bytes.len())];
    let mut endings: Vec<Vec<u8>> = vec![vec![]];
    let mut place = 0;
    while place < endings.len() {
        let ending = endings[place].clone();
        run.compare_rows(plan.ask(&[beginning, &ending].concat(), &list))?;
        if ending.len() < 3 {
            endings.extend(b"</> a&\0".iter().map(|&byte| [&ending[..], &[byte]].concat()));
        }
        place += 1;
    }
    Ok(())
}

/// Faults of one kind or several put into a valid plan, at any places, so that each comes before and behind each other.
pub fn planted(run: &mut Run) -> Result<(), Mismatch> {
    let plan = draw_plan(&mut run.random, 15, Text::Any);
    let list = plan.list();
    for _ in 0..40 {
        let mut bytes = plan.bytes.clone();
        for _ in 0..run.random.between(1, 3) {
            let fault = draw_fault(&mut run.random, &plan);
            let place = run.random.choose(&places_inside(&bytes)).copied().unwrap_or(0);
            bytes = put_in(&bytes, place, &fault);
        }
        run.compare_rows(plan.ask(&bytes, &list))?;
    }
    Ok(())
}

/// Bytes that are a fault at most places: 14, 15 or 16.
fn draw_fault(random: &mut Random, plan: &Plan) -> Vec<u8> {
    const IMPOSSIBLE: &[&[u8]] =
        &[b"&", b"<", b"< a>", b"<a/ >", b"</ a>", b"<!-- -->", b"<?a?>", b"<a b=''/>", b"</_>", b"<1/>"];
    let others = near_names(random, &plan.names);
    let other = &others[random.below(others.len())];
    let chosen = &plan.names[plan.chosen];
    match random.below(5) {
        0 | 1 => IMPOSSIBLE[random.below(IMPOSSIBLE.len())].to_vec(),
        2 => empty(other),
        3 => nested(chosen, random.between(1, LEVELS_LIMIT), &empty(other)),
        _ => nested(other, random.between(1, LEVELS_LIMIT), &empty(chosen)),
    }
}

/// What XML has and plans do not, and what texts of plans may hold and XML's may not, at the front, inside and at the end of a plan.
pub fn foreign(run: &mut Run) -> Result<(), Mismatch> {
    const MARKUP: &[&[u8]] = &[
        b"<?xml version=\"1.0\"?>",
        b"<!DOCTYPE a>",
        b"<!-- -->",
        b"<![CDATA[x]]>",
        b"&amp;",
        b"&#32;",
        b"<a b=''/>",
        b"<a b/>",
    ];
    const BYTES: &[&[u8]] =
        &[b"\xEF\xBB\xBF", b"\xFE\xFF", b"]]>", b"\0", b"\x0B", b"\x0C", b"\x7F", b"\xC2\x85", b"\xFF", b">", b"/>"];
    let plan = draw_small_plan(&mut run.random, Text::Any);
    let list = plan.list();
    let inside = run.random.choose(&places_inside(&plan.bytes)).copied();
    for piece in MARKUP.iter().chain(BYTES) {
        for place in [Some(0), inside, Some(plan.bytes.len())].into_iter().flatten() {
            run.compare_rows(plan.ask(&put_in(&plan.bytes, place, piece), &list))?;
        }
    }
    Ok(())
}

/// Tags that are a fault at the byte after their names, with each byte there, and with the end there: 14 comes before 15 and 16,
/// and 15 before 16.
pub fn ties(run: &mut Run) -> Result<(), Mismatch> {
    let plan = draw_small_plan(&mut run.random, Text::Any);
    let list = plan.list();
    let others = near_names(&mut run.random, &plan.names);
    let depth = run.random.between(LEVELS_LIMIT - 2, LEVELS_LIMIT);
    let chosen = &plan.names[plan.chosen];
    for name in [&others[0], &others[others.len() - 1], &plan.names[0]] {
        let outer = [b"<", &others[0][..], b">"].concat().repeat(depth - 1);
        let parents = [outer, [b"<", &chosen[..], b">"].concat()].concat();
        let until_name = [&parents[..], b"<", name].concat();
        run.compare_rows(plan.ask(&until_name, &list))?;
        for byte in 0..=255 {
            run.compare_rows(plan.ask(&[&until_name[..], &[byte]].concat(), &list))?;
        }
    }
    Ok(())
}

/// Lists damaged, cut and with fields moved, every chosen number, with a plan and with what is none.
pub fn lists(run: &mut Run) -> Result<(), Mismatch> {
    let plan = draw_small_plan(&mut run.random, Text::Any);
    let list = plan.list();
    let mut inputs = moved_fields(&list, &mut run.random);
    for place in 0..list.len().min(60) {
        inputs.push(list[..place].to_vec());
        inputs.extend(damaged_at(&list, place, &mut run.random));
    }
    for input in inputs {
        let cut = &plan.bytes[..run.random.between(0, plan.bytes.len())];
        run.compare_rows(plan.ask(cut, &input))?;
        run.compare_rows(plan.ask(&plan.bytes, &input))?;
    }
    for chosen in 0..=255 {
        run.compare_rows(Plan { chosen, ..plan.clone() }.ask(&plan.bytes, &list))?;
    }
    Ok(())
}

fn replaced(bytes: &[u8], place: usize, with: &[u8]) -> Vec<u8> {
    [&bytes[..place], with, &bytes[place + 1..]].concat()
}

fn put_in(bytes: &[u8], place: usize, more: &[u8]) -> Vec<u8> {
    [&bytes[..place], more, &bytes[place..]].concat()
}
