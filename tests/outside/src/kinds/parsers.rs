//! Plans given to the library and to expat. Plans are of ASCII characters that XML 1.0 allows.

use crate::comparing::{Mismatch, Run};
use crate::expat::{tags, Tag};
use crate::planning::{draw_plan, draw_small_plan, Plan, Text};
use reference::fields::{is_in_name, NAME_LENGTH_LIMIT, ROW};
use reference::plan::read;
use reference::plan_rows::PlanRows;
use reference::table::write_field;

/// Plans of few and of many elements: expat accepts them, and its tags give the same rows.
pub fn accepted(run: &mut Run) -> Result<(), Mismatch> {
    let most = if run.random.once_in(20) { 2000 } else { 40 };
    let plan = draw_plan(&mut run.random, most, Text::Plain);
    let list = plan.list();
    match run.compare_rows(plan.ask(&plan.bytes, &list))? {
        Some(read) => same_rows(&plan, &plan.bytes, &read),
        None => Ok(()),
    }
}

/// Small plans with a byte altered, put in or taken out at every place: expat accepts those that the library accepts, with the same
/// rows; and where nothing in them may begin what only expat knows, it accepts no others but those refused with 15 or 16 alone.
pub fn judged(run: &mut Run) -> Result<(), Mismatch> {
    const BYTES: &[u8] = b"<>/ \n\taZ09.-_:x";
    let plan = draw_small_plan(&mut run.random, Text::Plain);
    let list = plan.list();
    for place in 0..plan.bytes.len() {
        let (before, after) = plan.bytes.split_at(place);
        let byte = [BYTES[run.random.below(BYTES.len())]];
        for bytes in [[before, &byte, &after[1..]].concat(), [before, &byte, after].concat(), [before, &after[1..]].concat()] {
            if let Some(read) = run.compare_rows(plan.ask(&bytes, &list))? {
                same_rows(&plan, &bytes, &read)?;
            }
            if !is_beyond(&bytes) {
                judged_alike(&plan, &bytes)?;
            }
        }
    }
    Ok(())
}

/// The bytes hold what may be a reference, a comment, a declaration, an attribute or too long a name.
fn is_beyond(bytes: &[u8]) -> bool {
    let holds = |some: &[u8]| bytes.iter().any(|byte| some.contains(byte));
    holds(b"&")
        || bytes.windows(2).any(|pair| pair == b"<!" || pair == b"<?")
        || (holds(b"=") && holds(b"'\""))
        || bytes.split(|&byte| !is_in_name(byte)).any(|name| name.len() > NAME_LENGTH_LIMIT)
}

/// Expat accepts exactly what is a plan, whatever its depth and its names.
fn judged_alike(plan: &Plan, bytes: &[u8]) -> Result<(), Mismatch> {
    let is_plan = read(bytes).impossible.is_none();
    if tags(bytes).is_some() != is_plan {
        let what = format!("to be a plan is {is_plan} of these bytes, and expat finds otherwise");
        return Err(Mismatch::new("plans_read_rows", what, &[("input", bytes), ("names", &plan.list())]));
    }
    Ok(())
}

/// Expat accepts these bytes, and its tags give these rows.
fn same_rows(plan: &Plan, bytes: &[u8], read: &PlanRows) -> Result<(), Mismatch> {
    let wrong = match tags(bytes) {
        None => "expat does not accept a plan",
        Some(tags) if rows_of(plan, &tags) != read.bytes => "expat's tags give other rows",
        Some(_) => return Ok(()),
    };
    Err(Mismatch::new("plans_read_rows", wrong.into(), &[("input", bytes), ("names", &plan.list())]))
}

/// The row fields that the tags give: of each element of the chosen name, the numbers of its children.
fn rows_of(plan: &Plan, tags: &[Tag]) -> Vec<u8> {
    let chosen = &plan.names[plan.chosen];
    let mut rows: Vec<Vec<u8>> = vec![];
    // for each open element its row's number, none where its name is another
    let mut open: Vec<Option<usize>> = vec![];
    for tag in tags {
        let Tag::Start(name) = tag else {
            open.pop();
            continue;
        };
        if let Some(&Some(row)) = open.last() {
            rows[row].push(plan.names.iter().position(|other| other == name).expect("a name of the list") as u8);
        }
        open.push((name == chosen).then_some(rows.len()));
        rows.extend((name == chosen).then(Vec::new));
    }
    let mut bytes = vec![];
    rows.iter().for_each(|row| write_field(&mut bytes, ROW, row));
    bytes
}
