use super::{many_names, ENOUGH};
use crate::fields::{CLASS, NAME, ROW};
use crate::plan::read;
use crate::plan_rows::{read_rows, Asked, PlanRows, Refused};
use crate::refusal::Refusal::{self, *};
use crate::table::write_field;
use crate::{Lent, INPUT_LIMIT, WORK_BYTES};

fn list(names: &[&str]) -> Vec<u8> {
    let mut bytes = vec![];
    for name in names {
        write_field(&mut bytes, NAME, name.as_bytes());
    }
    bytes
}

/// With the names day (0), lunch (1) and snack (2), of which day is chosen.
fn days(plan: &str) -> Result<PlanRows, Refused> {
    read_rows(Asked { plan: plan.as_bytes(), names: &list(&["day", "lunch", "snack"]), chosen: 0 }, ENOUGH)
}

fn rows(plan: &str) -> Vec<Vec<u8>> {
    let read = days(plan).unwrap();
    let mut bytes = &read.bytes[..];
    let mut rows = vec![];
    while !bytes.is_empty() {
        let (field, rest) = crate::fields::split_field(bytes).unwrap();
        assert_eq!(field.mark, ROW);
        rows.push(field.bytes.to_vec());
        bytes = rest;
    }
    assert_eq!(rows.len(), read.rows);
    rows
}

/// The refusal of a plan, and its place.
fn fault(plan: &str) -> (Refusal, usize) {
    let refused = days(plan).unwrap_err();
    (refused.refusal, refused.at)
}

/// The first place where the bytes are no plan's.
fn impossible(plan: &[u8]) -> Option<usize> {
    read(plan).impossible
}

/// Elements of this name inside one another, and this inside the last.
fn nested(name: &str, depth: usize, inside: &str) -> String {
    format!("{}{inside}{}", format!("<{name}>").repeat(depth), format!("</{name}>").repeat(depth))
}

#[test]
fn one_row_for_each_day() {
    assert_eq!(rows("<plan><day><lunch/><snack>tea</snack></day><day/></plan>"), [vec![1, 2], vec![]]);
    assert_eq!(days("<plan><day><lunch/><snack/></day></plan>").unwrap().bytes, [ROW, 0, 2, 1, 2]);
    assert_eq!(rows("<plan><lunch/></plan>"), Vec::<Vec<u8>>::new());
    assert_eq!(days("<plan/>").unwrap(), PlanRows { bytes: vec![], rows: 0 });
}

#[test]
fn only_children_stand_in_a_row() {
    assert_eq!(rows("<plan><day><lunch><snack/><soup/></lunch></day></plan>"), [vec![1]]);
}

#[test]
fn an_outermost_day_gives_a_row_and_outer_days_come_first() {
    assert_eq!(rows("<day><lunch/></day>"), [vec![1]]);
    assert_eq!(rows("<day/>"), [vec![]]);
    assert_eq!(rows("<day><lunch/><day><snack/></day><snack/></day>"), [vec![1, 0, 2], vec![2]]);
    assert_eq!(rows("<plan><day><lunch><day/></lunch></day><day><snack/></day></plan>"), [vec![1], vec![], vec![2]]);
}

#[test]
fn a_child_that_is_not_in_the_list() {
    assert_eq!(fault("<day><soup/></day>"), (UnknownChild, 10));
    assert_eq!(fault("<plan><day><lunch><day><soup></soup></day></lunch></day></plan>"), (UnknownChild, 28));
    assert_eq!(fault("<day><lunches/></day>"), (UnknownChild, 13));
    assert_eq!(fault("<day><lunc/></day>"), (UnknownChild, 10));
    assert_eq!(rows("<plan><soup/><day><lunch><soup/></lunch></day></plan>"), [vec![1]]);
}

#[test]
fn sixteen_levels_pass_and_the_seventeenth_is_15() {
    assert_eq!(rows(&nested("a", 16, "text")), Vec::<Vec<u8>>::new());
    assert_eq!(rows(&nested("a", 15, "<day/>")), [vec![]]);
    assert_eq!(fault(&nested("a", 17, "")), (TooDeep, 16 * 3 + 2));
    assert_eq!(fault(&nested("a", 16, "<bc/>")), (TooDeep, 16 * 3 + 3));
    assert_eq!(fault(&nested("a", 16, "<bc />")), (TooDeep, 16 * 3 + 3));
}

#[test]
fn the_first_fault_in_the_plan() {
    assert_eq!(fault("<day><soup/>&</day>"), (UnknownChild, 10));
    assert_eq!(fault("<day>&<soup/></day>"), (BadPlan, 5));
    assert_eq!(fault(&format!("{}&", "<a>".repeat(17))), (TooDeep, 50));
    assert_eq!(fault(&format!("{}&{}", "<a>".repeat(16), "<a>".repeat(2))), (BadPlan, 48));
    let deep = nested("a", 15, "<day><lunch/></day>");
    assert_eq!(fault(&format!("<a>{deep}</a>")), (TooDeep, 16 * 3 + 4));
    assert_eq!(fault("<plan><day><soup/></day>"), (UnknownChild, 16));
}

#[test]
fn the_lower_number_on_a_tie() {
    // 14 and 16: the name ends at a byte that no plan has there
    assert_eq!(fault("<day><soup"), (BadPlan, 10));
    assert_eq!(fault("<day><soup!"), (BadPlan, 10));
    assert_eq!(fault("<day><soup<"), (BadPlan, 10));
    // the byte after the name is possible, the next is not
    assert_eq!(fault("<day><soup /x"), (UnknownChild, 10));
    assert_eq!(fault("<day><soup/"), (UnknownChild, 10));
    // 14 and 15
    assert_eq!(fault(&format!("{}<b", "<a>".repeat(16))), (BadPlan, 50));
    assert_eq!(fault(&format!("{}<b=", "<a>".repeat(16))), (BadPlan, 50));
    // 15 and 16
    assert_eq!(fault(&nested("a", 15, "<day><soup/></day>")), (TooDeep, 15 * 3 + 5 + 5));
}

#[test]
fn names_of_32_bytes_pass_and_the_33rd_byte_is_14() {
    let name = "n".repeat(32);
    assert_eq!(impossible(format!("<{name}></{name}>").as_bytes()), None);
    assert_eq!(impossible(format!("<{name}n/>").as_bytes()), Some(33));
    assert_eq!(fault(&format!("<day><{name}n/>")), (BadPlan, 5 + 33));
    assert_eq!(fault(&format!("<day><{name}/>")), (UnknownChild, 5 + 33));
}

#[test]
fn names_have_document_01s_bytes() {
    for right in [&b"<_/>"[..], b"<:/>", b"<Z9.-_:/>"] {
        assert_eq!(impossible(right), None);
    }
    for wrong in [&b"<1/>"[..], b"<./>", b"<-/>", b"<\xC3\xA9/>", b"</>", b"<>", b"< a>", b"<!-- -->", b"<?xml?>"] {
        assert_eq!(impossible(wrong), Some(1));
    }
    assert_eq!(impossible(b"<a\xC3\xA9/>"), Some(2));
}

#[test]
fn texts_hold_any_bytes_but_two() {
    for byte in (0..=255).filter(|byte| !b"<&".contains(byte)) {
        assert_eq!(impossible(&[b"<a>", &[byte][..], b"]]></a>"].concat()), None);
    }
    assert_eq!(impossible(b"<a>x&amp;</a>"), Some(4));
    assert_eq!(impossible(b"<a>x<</a>"), Some(5));
}

#[test]
fn white_space_right_after_a_tags_name() {
    for right in [&b"<a />"[..], b"<a></a >", b"<a\t\r\n ></a \n>", b"\n<a>\n</a>\r\t "] {
        assert_eq!(impossible(right), None);
    }
    assert_eq!(impossible(b"< a>"), Some(1));
    assert_eq!(impossible(b"<a/ >"), Some(3));
    assert_eq!(impossible(b"<a></ a>"), Some(5));
    assert_eq!(impossible(b"<a b=''/>"), Some(3));
    assert_eq!(impossible(b"<a\x0B>"), Some(2));
}

#[test]
fn end_tags_byte_by_byte() {
    assert_eq!(impossible(b"<ab></a>"), Some(7));
    assert_eq!(impossible(b"<ab></a >"), Some(7));
    assert_eq!(impossible(b"<a></ab>"), Some(6));
    assert_eq!(impossible(b"<a></b>"), Some(5));
    assert_eq!(impossible(b"<a><b></a></b>"), Some(8));
    assert_eq!(impossible(b"</a>"), Some(1));
    assert_eq!(impossible(b"<a></a></a>"), Some(7));
}

#[test]
fn one_outermost_element_with_white_space_around() {
    assert_eq!(impossible(b""), Some(0));
    assert_eq!(impossible(b" \n"), Some(2));
    assert_eq!(impossible(b"<a/><a/>"), Some(4));
    assert_eq!(impossible(b"<a/>x"), Some(4));
    assert_eq!(impossible(b"x<a/>"), Some(0));
    assert_eq!(impossible(b"\xEF\xBB\xBF<a/>"), Some(0));
    assert_eq!(impossible(b"<a>"), Some(3));
    assert_eq!(impossible(b"<a></a"), Some(6));
    assert_eq!(impossible(b"<a/"), Some(3));
}

#[test]
fn elements_nested_as_deep_as_a_plan_can_be_long() {
    let read_deep = || {
        let deep = "<a>".repeat(INPUT_LIMIT / 3);
        assert_eq!(fault(&deep), (TooDeep, 50));
    };
    std::thread::Builder::new().stack_size(1 << 26).spawn(read_deep).unwrap().join().unwrap();
}

#[test]
fn sizes_come_first() {
    let long = vec![b' '; INPUT_LIMIT + 1];
    let refusal = |plan: &[u8], names: &[u8], work| {
        read_rows(Asked { plan, names, chosen: 9 }, Lent { work, ..ENOUGH }).map_err(|refused| (refused.refusal, refused.at))
    };
    assert_eq!(refusal(&long, &[], WORK_BYTES), Err((BadSizes, 0)));
    assert_eq!(refusal(&[], &long, WORK_BYTES), Err((BadSizes, 0)));
    assert_eq!(refusal(&[], &[], WORK_BYTES - 1), Err((BadSizes, 0)));
    assert_eq!(refusal(&[], &long[1..], WORK_BYTES), Err((Misplaced, 0)));
    assert_eq!(refusal(&long[1..], &list(&["a"]), WORK_BYTES), Err((BadRow, 0)));
    let spaces = Asked { plan: &long[1..], names: &list(&["a"]), chosen: 0 };
    assert_eq!(read_rows(spaces, ENOUGH), Err(Refused { refusal: BadPlan, at: INPUT_LIMIT }));
}

#[test]
fn then_the_list_and_the_chosen_number() {
    let refusal = |names: &[u8], chosen| read_rows(Asked { plan: b"&", names, chosen }, ENOUGH).unwrap_err().refusal;
    let many = many_names(65);
    let many: Vec<&str> = many.iter().map(String::as_str).collect();
    let with = |mark, bytes: &[u8]| {
        let mut names = list(&["a"]);
        write_field(&mut names, mark, bytes);
        names
    };
    assert_eq!(refusal(&[], 0), Unfinished);
    assert_eq!(refusal(&[NAME, 0, 2, b'a'], 0), CutOff);
    assert_eq!(refusal(&with(CLASS, &[1, 0, 0]), 9), Misplaced);
    assert_eq!(refusal(&with(ROW, &[0]), 9), Misplaced);
    assert_eq!(refusal(&with(NAME, b"1"), 9), BadName);
    assert_eq!(refusal(&with(NAME, b"a"), 9), NameOrder);
    assert_eq!(refusal(&list(&many), 0), TooMany);
    assert_eq!(refusal(&list(&many[..64]), 64), BadRow);
    assert_eq!(refusal(&list(&many[..64]), 63), BadPlan);
    assert_eq!(refusal(&list(&["a"]), 255), BadRow);
}

#[test]
fn last_come_7_then_9_then_13_over_the_whole_plan() {
    let plan = |inside: &str| format!("<plan>{inside}</plan>");
    let long = format!("<day>{}</day>", "<lunch/>".repeat(41));
    assert_eq!(days(&plan(&"<day/>".repeat(256))).unwrap().rows, 256);
    assert_eq!(fault(&plan(&"<day/>".repeat(257))), (TooMany, 0));
    assert_eq!(rows(&plan(&long.replacen("<lunch/>", "", 1)))[0].len(), 40);
    assert_eq!(fault(&plan(&long)), (BadRow, 0));
    assert_eq!(fault(&plan(&format!("{long}{}", "<day/>".repeat(256)))), (TooMany, 0));
    assert_eq!(fault(&format!("<plan>{long}&")), (BadPlan, 6 + long.len()));
    let lent = |plan: &str, output| {
        let asked = Asked { plan: plan.as_bytes(), names: &list(&["day", "lunch"]), chosen: 0 };
        read_rows(asked, Lent { output, ..ENOUGH }).map(|read| read.bytes.len()).map_err(|refused| refused.refusal)
    };
    assert_eq!(lent(&plan(&long), 0), Err(BadRow));
    assert_eq!(lent("<day><lunch/></day>", 4), Ok(4));
    assert_eq!(lent("<day><lunch/></day>", 3), Err(OutputTooShort));
    assert_eq!(lent("<lunch/>", 0), Ok(0));
}
