//! The plans that are timed, each of as many bytes as a plan may have.

use crate::book::{put_names, BOOK_ROWS, NAME_LIMIT, ROW_LIMIT};
use crate::library::INPUT_LIMIT;
use crate::random::Random;
use std::collections::BTreeSet;

/// A plan with the list of names that it is read with.
pub struct Plan {
    pub bytes: Vec<u8>,
    pub names: Vec<Vec<u8>>,
    /// The number of the name whose elements give rows.
    pub chosen: u8,
}

impl Plan {
    pub fn list(&self) -> Vec<u8> {
        let mut list = Vec::new();
        put_names(&mut list, &self.names);
        list
    }
}

/// The child names of a clinic's days and the name of the days, in ascending order: the list that `plans rows` makes.
const DAY_NAMES: [&str; 8] = ["breakfast", "day", "dinner", "fluids", "lunch", "medication", "snack", "supplement"];

/// What a clinic's day holds, in order: the name, in how many of four days it stands, and its texts, none where it holds courses.
const DAY: [(&str, usize, &[&str]); 8] = [
    ("medication", 1, &["before breakfast, with water", "after breakfast", "one tablet, not with milk"]),
    (
        "breakfast",
        4,
        &["porridge, stewed apple, tea", "toast, jam, tea", "rolls, honey, cocoa", "toast, egg, tea", "porridge, tea"],
    ),
    ("fluids", 2, &["200 ml", "water only", "200 ml, more if it is hot (> 28 degrees)"]),
    ("snack", 2, &["banana", "yoghurt", "grapes", "pear", ""]),
    ("lunch", 4, &[]),
    ("snack", 1, &["cake with the visitors", "rice cakes", ""]),
    ("dinner", 4, &["bread, soft cheese, tomato", "bread, ham, cucumber", "noodle soup, bread", "pancakes", "bread, cheese"]),
    ("supplement", 1, &["vitamin D, 1 drop", "one drink of 125 ml, 300 kcal", ""]),
];

/// The courses of a lunch, of which it has up to three.
const COURSES: [&str; 8] = [
    "vegetable soup",
    "fish, mashed potato, peas",
    "clear broth",
    "rice pudding",
    "omelette, spinach, potatoes",
    "roast, dumplings, red cabbage",
    "rice, chicken",
    "fruit salad",
];

/// An element with a text, by itself on a line; an empty-element tag where the text is empty.
fn line(indent: &str, name: &str, text: &str) -> String {
    match text {
        "" => format!("{indent}<{name}/>\n"),
        _ => format!("{indent}<{name}>{text}</{name}>\n"),
    }
}

fn clinic_day(random: &mut Random) -> String {
    let mut day = "  <day>\n".to_string();
    for (name, in_four, texts) in DAY {
        if random.below(4) >= in_four {
            continue;
        }
        if texts.is_empty() {
            day += &format!("    <{name}>\n");
            for _ in 0..1 + random.below(3) {
                day += &line("      ", "course", COURSES[random.below(COURSES.len())]);
            }
            day += &format!("    </{name}>\n");
        } else {
            day += &line("    ", name, texts[random.below(texts.len())]);
        }
    }
    day + "  </day>\n"
}

/// The plan between whose begin and end stand as many of these parts as there is room for, then white space.
fn filled(begin: &str, end: &str, parts: impl Iterator<Item = String>) -> Vec<u8> {
    let mut plan = begin.to_string();
    for part in parts {
        if plan.len() + part.len() + end.len() > INPUT_LIMIT {
            break;
        }
        plan += &part;
    }
    plan += end;
    let mut bytes = plan.into_bytes();
    bytes.resize(INPUT_LIMIT, b'\n');
    bytes
}

/// Days of a ward, written as under examples/plans.
pub fn clinic() -> Plan {
    let mut random = Random::new(1);
    let days = std::iter::repeat_with(|| clinic_day(&mut random));
    let bytes = filled("<plan>Ward 3, until the end of June\n", "</plan>\n", days);
    Plan { bytes, names: DAY_NAMES.map(|name| name.as_bytes().to_vec()).to_vec(), chosen: 1 }
}

/// The 64 names of a plan of tags, drawn at random.
#[derive(Clone, Copy)]
pub enum Names {
    /// Of so many letters.
    Letters(usize),
    /// Of six letters, and none that the library's hash of a name tells from another, so that each is searched for.
    OneHash,
}

/// The hash of a name in crates/name_search.
fn hash(name: &str) -> usize {
    name.bytes().fold(0, |sum, byte| (31 * sum + usize::from(byte)) % 256)
}

impl Names {
    /// The names in ascending order.
    fn drawn(self) -> Vec<String> {
        let mut random = Random::new(4);
        let mut names = BTreeSet::new();
        while names.len() < NAME_LIMIT {
            let mut word = |letters| (0..letters).map(|_| char::from(b'a' + random.below(26) as u8)).collect::<String>();
            match self {
                Names::Letters(letters) => names.extend([word(letters)]),
                Names::OneHash => names.extend([word(6)].into_iter().filter(|name| hash(name) == 0)),
            }
        }
        names.into_iter().collect()
    }
}

/// Empty elements, each with any of these names but the first, which is the chosen one.
fn empty_children(random: &mut Random, names: &[String], count: usize) -> String {
    (0..count).map(|_| format!("<{}/>", names[1 + random.below(names.len() - 1)])).collect()
}

fn chosen_first(bytes: Vec<u8>, names: Vec<String>) -> Plan {
    Plan { bytes, names: names.into_iter().map(String::into_bytes).collect(), chosen: 0 }
}

/// As many chosen elements as a plan may have or has room for, each with as many empty children as a row may have, of all names.
pub fn tag_dense(names: Names) -> Plan {
    let names = names.drawn();
    let (chosen, outermost) = (&names[0], &names[1]);
    let mut random = Random::new(2);
    let elements = std::iter::repeat_with(|| format!("<{chosen}>{}</{chosen}>", empty_children(&mut random, &names, ROW_LIMIT)));
    let bytes = filled(&format!("<{outermost}>"), &format!("</{outermost}>"), elements.take(BOOK_ROWS));
    chosen_first(bytes, names)
}

/// How many chosen elements stand inside one another in the nested plan: with the two levels in them there are sixteen.
const NESTED: usize = 14;

/// Chosen elements inside one another, around as many elements as a row may have, which are full of empty children of all names.
pub fn nested(names: Names) -> Plan {
    let names = names.drawn();
    let (chosen, holder) = (&names[0], &names[1]);
    let mut random = Random::new(3);
    let children = INPUT_LIMIT / ROW_LIMIT / format!("<{chosen}/>").len() - 2;
    let holders = std::iter::repeat_with(|| format!("<{holder}>{}</{holder}>", empty_children(&mut random, &names, children)));
    let bytes = filled(&format!("<{chosen}>").repeat(NESTED), &format!("</{chosen}>").repeat(NESTED), holders.take(ROW_LIMIT));
    chosen_first(bytes, names)
}
