//! The first impossible byte by its definition: every plan over a few bytes is written down, up to a length, and the first place
//! is found where none of them has the bytes up to and including it.

use crate::plan::{is_white, read};
use std::collections::BTreeSet;

/// No plan that begins with six bytes needs more to be whole: the longest is `<a><a>` with its two end tags.
const LONGEST: usize = 14;
const BEGINNING: usize = 6;
const BYTES: &[u8] = b"</> a&";
/// Of these bytes texts may hold these.
const TEXT: &[u8] = b"/> a";

type Texts = BTreeSet<Vec<u8>>;

/// Every sequence of the pieces, up to so many bytes.
fn sequences(pieces: &Texts, most: usize) -> Texts {
    let mut all = Texts::from([vec![]]);
    let mut last = all.clone();
    while !last.is_empty() {
        let longer = last.iter().flat_map(|front| pieces.iter().map(move |piece| [&front[..], piece].concat()));
        last = longer.filter(|text| text.len() <= most).collect();
        all.extend(last.iter().cloned());
    }
    all
}

/// Every element of up to so many bytes: `<a/>` and `<a></a>` with other names, white space and content.
fn elements(most: usize) -> Texts {
    if most < b"<a/>".len() {
        return Texts::new();
    }
    let mut pieces: Texts = TEXT.iter().map(|&byte| vec![byte]).collect();
    pieces.extend(elements(most.saturating_sub(b"<a></a>".len())));
    let contents = sequences(&pieces, most.saturating_sub(b"<a></a>".len()));
    let mut all = Texts::new();
    for name in (1..most).map(|length| vec![b'a'; length]) {
        for white in (0..most).map(|length| vec![b' '; length]) {
            let tag = [b"<", &name[..], &white, b"/>"].concat();
            all.extend((tag.len() <= most).then_some(tag));
            let start = [b"<", &name[..], &white, b">"].concat();
            all.extend(full(&start, &name, &contents, most));
        }
    }
    all
}

/// Every element of up to so many bytes with this start tag.
fn full(start: &[u8], name: &[u8], contents: &Texts, most: usize) -> Texts {
    let mut all = Texts::new();
    let shortest = start.len() + 3 + name.len();
    for more in 0..=most.saturating_sub(shortest) {
        let end = [b"</", name, &vec![b' '; more], b">"].concat();
        let whole = contents.iter().map(|content| [start, content, &end].concat());
        all.extend(whole.filter(|text| text.len() <= most));
    }
    all
}

fn plans() -> Texts {
    let mut all = Texts::new();
    for element in elements(LONGEST) {
        for before in 0..=LONGEST - element.len() {
            for after in 0..=LONGEST - element.len() - before {
                all.insert([&vec![b' '; before], &element[..], &vec![b' '; after]].concat());
            }
        }
    }
    all
}

/// Every text of up to six of the bytes.
fn texts() -> Texts {
    sequences(&BYTES.iter().map(|&byte| vec![byte]).collect(), BEGINNING)
}

#[test]
fn the_first_impossible_place_is_that_of_the_definition() {
    let plans = plans();
    let beginnings: Texts = plans.iter().flat_map(|plan| (0..=plan.len()).map(|length| plan[..length].to_vec())).collect();
    for text in texts() {
        let byte = (0..text.len()).find(|&place| !beginnings.contains(&text[..=place]));
        let end = (!plans.contains(&text)).then_some(text.len());
        assert_eq!(read(&text).impossible, byte.or(end), "{}", String::from_utf8_lossy(&text));
    }
}

#[test]
fn every_plan_that_is_written_down_is_read() {
    for plan in plans() {
        assert_eq!(read(&plan).impossible, None, "{}", String::from_utf8_lossy(&plan));
    }
}

#[test]
fn white_space_is_four_bytes() {
    let white: Vec<u8> = (0..=255).filter(|&byte| is_white(byte)).collect();
    assert_eq!(white, [0x09, 0x0A, 0x0D, 0x20]);
}
