//! When a call says no.

/// The grounds of refusal, with the documents' numbers.
#[derive(Clone, Copy, Debug, PartialEq, Eq)]
pub enum Refusal {
    Layout = 1,
    Length = 2,
    Number = 3,
    Order = 4,
    Count = 5,
    Host = 6,
    FirstGroup = 7,
    Survivors = 8,
    Malformed = 9,
    Demonstration = 10,
    Other = 11,
    /// Tried right after `Count`.
    LostCount = 12,
    NotRepaired = 13,
    Shares = 14,
    Card = 15,
}

impl Refusal {
    pub fn number(self) -> u32 {
        self as u32
    }
}

/// The first ground of the list that applies refuses the call.
pub fn refuse(grounds: &[(Refusal, bool)]) -> Result<(), Refusal> {
    match grounds.iter().find(|(_, applies)| *applies) {
        Some((ground, _)) => Err(*ground),
        None => Ok(()),
    }
}

/// Whether a list is strictly rising.
pub fn rising<T: PartialOrd>(list: &[T]) -> bool {
    list.windows(2).all(|pair| pair[0] < pair[1])
}
