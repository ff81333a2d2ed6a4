//! The grounds on which the library says no.

use core::{error, fmt};

/// Why a call was refused: the first ground that applies to it, in the order of their numbers but
/// for [`Refusal::LostCount`], which is tried right after [`Refusal::Count`].
///
/// A refused call has changed no byte of any buffer it was lent.
///
/// ```
/// use gesarumbo::Refusal;
///
/// let refusal = Refusal::from_number(10).expect("there is a ground 10");
/// assert_eq!(refusal, Refusal::Demonstration);
/// assert_eq!(refusal.number(), 10);
/// assert_eq!(refusal.to_string(), "the image is marked demonstration");
/// assert_eq!(Refusal::from_number(0), None);
/// ```
#[repr(u32)]
#[derive(Clone, Copy, Debug, PartialEq, Eq, PartialOrd, Ord, Hash)]
pub enum Refusal {
    /// The layout is not admissible, or its number E is not the one that the call is for.
    Layout = 1,
    /// A lent buffer is not exactly the length its rule gives: symbols, shares, spare, states, an
    /// image being written, or the images and the list of missing trays that a gathering is lent.
    Length = 2,
    /// A tray, rack, state or volume number is outside its values, a run of layers, a number of
    /// groups done or a card's group is, or a scrub record breaks a rule that
    /// [`scrub`](crate::scrub()) names; or a symbol or multiplier of [`field257`](crate::field257)
    /// is above 256, or a value of [`sixteen`](crate::sixteen) above 15.
    Number = 3,
    /// A list is not strictly rising.
    Order = 4,
    /// More trays are erased than there are checks, or there are not exactly d helpers.
    Count = 5,
    /// The host rack is a helper.
    Host = 6,
    /// The first group is above L/s.
    FirstGroup = 7,
    /// No codeword has these survivors.
    Survivors = 8,
    /// The image is malformed: under 24 bytes, a header rule broken, its own layout not admissible,
    /// its tray outside that layout, or its length not 24 + L.
    Malformed = 9,
    /// The image is marked demonstration.
    Demonstration = 10,
    /// The image is of another layout or volume or, where a rack is gathered, of another place.
    Other = 11,
    /// The lost trays are not 1 to u − v, with v = k mod u.
    LostCount = 12,
    /// A layer asked for of the lost tray is not in a group that is done.
    NotRepaired = 13,
    /// The shares do not meet the checks, and no change of one helper's share makes them.
    Shares = 14,
    /// The card is not right: its multipliers do not give the host rack's sums of every codeword.
    Card = 15,
}

/// Every ground with its words, in the order of their numbers.
const GROUNDS: [(Refusal, &str); 15] = [
    (
        Refusal::Layout,
        "the layout is not admissible, or not one that the call is for",
    ),
    (
        Refusal::Length,
        "a buffer is not exactly the length its rule gives",
    ),
    (
        Refusal::Number,
        "a tray, rack, state, volume, layer or group number or a symbol is outside its values, \
         or a scrub record breaks its rules",
    ),
    (Refusal::Order, "a list is not strictly rising"),
    (
        Refusal::Count,
        "too many trays are erased, or the helpers are not as many as the layout says",
    ),
    (Refusal::Host, "the host rack is a helper"),
    (
        Refusal::FirstGroup,
        "the first group is above the number of groups",
    ),
    (Refusal::Survivors, "no codeword has these survivors"),
    (Refusal::Malformed, "the image is malformed"),
    (Refusal::Demonstration, "the image is marked demonstration"),
    (Refusal::Other, "the image is of another layout or volume"),
    (
        Refusal::LostCount,
        "there is no lost tray, or there are more of one rack than shares can repair",
    ),
    (
        Refusal::NotRepaired,
        "a layer asked for is not yet repaired in the spare",
    ),
    (
        Refusal::Shares,
        "more than one helper's share is wrong: no change of one makes them agree",
    ),
    (
        Refusal::Card,
        "the card does not give the host rack's sums of every codeword",
    ),
];

impl Refusal {
    /// The number of this ground.
    pub const fn number(self) -> u32 {
        self as u32
    }

    /// The ground of this number, if there is one.
    pub fn from_number(number: u32) -> Option<Refusal> {
        let mut grounds = GROUNDS.iter().map(|&(ground, _)| ground);
        grounds.find(|ground| ground.number() == number)
    }

    /// The words of this ground.
    fn words(self) -> &'static str {
        let mut grounds = GROUNDS.iter();
        let found = grounds.find(|&&(ground, _)| ground == self);
        found.expect("every ground has its words").1
    }

    /// What the library's number means: `done` for 0, else the refusal.
    ///
    /// The library is proved to give no other number than 0 and those of the grounds.
    pub(crate) fn unless_done<T>(number: u32, done: T) -> Result<T, Refusal> {
        match number {
            0 => Ok(done),
            _ => {
                Err(Refusal::from_number(number).expect("the library refuses on a numbered ground"))
            }
        }
    }
}

impl fmt::Display for Refusal {
    fn fmt(&self, f: &mut fmt::Formatter<'_>) -> fmt::Result {
        f.write_str(self.words())
    }
}

impl error::Error for Refusal {}

#[cfg(test)]
mod tests {
    extern crate std;

    use super::*;
    use std::string::ToString;

    #[test]
    fn every_ground_is_found_by_its_number() {
        for (ground, words) in GROUNDS {
            assert_eq!(Refusal::from_number(ground.number()), Some(ground));
            assert_eq!(ground.to_string(), words);
        }
        assert!(GROUNDS.windows(2).all(|pair| pair[0].0 < pair[1].0));
    }

    #[test]
    fn no_other_number_is_a_ground() {
        for number in [0, 16, 255, 256 + 1, u32::MAX] {
            assert_eq!(Refusal::from_number(number), None);
        }
    }
}
