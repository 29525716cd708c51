//! The refusals, with the numbers of docs/SCOPE.md.

#[derive(Clone, Copy, Debug, PartialEq, Eq)]
pub enum Refusal {
    BadSizes = 1,
    CutOff = 2,
    Misplaced = 3,
    Unfinished = 4,
    BadName = 5,
    NameOrder = 6,
    TooMany = 7,
    BadClass = 8,
    BadRow = 9,
    TreeTooLarge = 10,
    BadState = 11,
    BadNumbering = 12,
    OutputTooShort = 13,
    BadPlan = 14,
    TooDeep = 15,
    UnknownChild = 16,
}

impl Refusal {
    pub fn number(self) -> u8 {
        self as u8
    }
}
