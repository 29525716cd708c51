//! The last nine names of a state as one number, seven bits a name.

pub const NAME_BITS: u32 = 7;

/// The code with one name more; the tenth last is lost.
pub fn lengthen(code: u64, name: u8) -> u64 {
    cut(code << NAME_BITS | u64::from(name + 1), 9)
}

/// The code of the last `length` names.
pub fn cut(code: u64, length: u8) -> u64 {
    code & ((1 << (NAME_BITS * u32::from(length))) - 1)
}

/// The codes of `length` of so many names are below this.
pub fn code_limit(names: usize, length: u8) -> usize {
    (names + 1) << (NAME_BITS * u32::from(length - 1))
}

/// The name before the last `length`, if there is one.
pub fn above(code: u64, length: u8) -> Option<u8> {
    (cut(code >> (NAME_BITS * u32::from(length)), 1) as u8).checked_sub(1)
}
