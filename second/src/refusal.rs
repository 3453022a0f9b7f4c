//! Why a call refuses.

use std::fmt;

#[derive(Clone, Copy, Debug, PartialEq, Eq)]
pub struct Refusal {
    pub number: u8,
    pub place: u64,
    /// A second place. Of a fault within a group the first is the byte, and
    /// this is the group; every other refusal has 0.
    pub beside: u64,
}

impl Refusal {
    /// A refusal that has one place.
    pub const fn at(number: u8, place: u64) -> Self {
        let beside = 0;
        Refusal {
            number,
            place,
            beside,
        }
    }

    /// The fault of a group, at this byte, counted from the group's first.
    pub const fn in_group(number: u8, byte: u64, group: u64) -> Self {
        Refusal {
            number,
            place: byte,
            beside: group,
        }
    }

    /// What the printing program says. It does not show the second place.
    pub fn printed(&self) -> String {
        format!("refused {} at {}", self.number, self.place)
    }
}

impl fmt::Display for Refusal {
    fn fmt(&self, f: &mut fmt::Formatter) -> fmt::Result {
        write!(f, "{} beside {}", self.printed(), self.beside)
    }
}
