//! Inputs made from others: bytes altered, put in and taken out; fields moved.

use reference::fields::split_field;
use reference::random::Random;
use reference::table::write_field;

/// The input with one byte altered, put in or taken out, at every position.
pub fn damaged_everywhere(input: &[u8], random: &mut Random) -> Vec<Vec<u8>> {
    let mut all = vec![];
    for place in 0..input.len() {
        all.extend(damaged_at(input, place, random));
    }
    all
}

/// The input with its byte at one position altered to several values, put in again, and taken out.
pub fn damaged_at(input: &[u8], place: usize, random: &mut Random) -> Vec<Vec<u8>> {
    let byte = input[place];
    let mut values = vec![0, 1, 0xFF, byte.wrapping_add(1), byte.wrapping_sub(1), byte ^ 0x20, random.byte()];
    values.sort();
    values.dedup();
    values.retain(|&value| value != byte);
    let mut all: Vec<Vec<u8>> = values.iter().map(|&value| [&input[..place], &[value], &input[place + 1..]].concat()).collect();
    all.push([&input[..place], &input[place + 1..]].concat());
    all.push([&input[..=place], &input[place..]].concat());
    all
}

/// The fields of an input that consists of whole fields.
fn fields(mut input: &[u8]) -> Vec<(u8, Vec<u8>)> {
    let mut all = vec![];
    while !input.is_empty() {
        let (field, rest) = split_field(input).expect("whole fields");
        all.push((field.mark, field.bytes.to_vec()));
        input = rest;
    }
    all
}

fn written(fields: &[(u8, Vec<u8>)]) -> Vec<u8> {
    let mut bytes = vec![];
    for (mark, content) in fields {
        write_field(&mut bytes, *mark, content);
    }
    bytes
}

/// The input with each field swapped with the next, swapped with any, repeated, repeated elsewhere and left out; and with all
/// fields shuffled.
pub fn moved_fields(input: &[u8], random: &mut Random) -> Vec<Vec<u8>> {
    let original = fields(input);
    let mut all = vec![];
    let mut keep = |moved: &[(u8, Vec<u8>)]| all.push(written(moved));
    for place in 0..original.len() {
        for other in [(place + 1) % original.len(), random.below(original.len())] {
            let mut swapped = original.clone();
            swapped.swap(place, other);
            keep(&swapped);
        }
        for other in [place, random.below(original.len() + 1)] {
            let mut repeated = original.clone();
            repeated.insert(other, original[place].clone());
            keep(&repeated);
        }
        let mut left_out = original.clone();
        left_out.remove(place);
        keep(&left_out);
    }
    let mut shuffled = original.clone();
    random.shuffle(&mut shuffled);
    keep(&shuffled);
    all
}

/// Any bytes, with some fields among them that start as fields do.
pub fn any_bytes(random: &mut Random) -> Vec<u8> {
    let mut bytes = vec![];
    for _ in 0..random.between(0, 6) {
        let length = random.between(0, 5);
        let content: Vec<u8> = (0..length).map(|_| random.byte() & if random.once_in(2) { 0xFF } else { 0x03 }).collect();
        if random.once_in(4) {
            bytes.extend(content);
        } else {
            write_field(&mut bytes, random.below(6) as u8, &content);
        }
    }
    bytes
}
