//! The refusals: every one is a number of the paper's table and a place,
//! and the numbers carry the names that the table gives them.

/// The names of the refusal numbers.
#[derive(Clone, Copy, Debug, PartialEq, Eq)]
#[repr(u32)]
pub enum Number {
    TooLong = 1,
    NotAFigure = 2,
    Trailing = 3,
    Short = 4,
    Overrun = 5,
    Stray = 6,
    Misplaced = 7,
    Twice = 8,
    Name = 9,
    Length = 10,
    Number = 11,
    Index = 12,
    Count = 13,
    Missing = 14,
    NoRoom = 15,
    NoSuchMesh = 16,
    Empty = 17,
    Slip = 18,
    Differs = 19,
    Header = 20,
    Owner = 21,
    Size = 22,
    Father = 23,
    Text = 24,
    Form = 25,
    Order = 26,
    Combination = 27,
    Material = 28,
    SameName = 29,
    NoMaterial = 30,
    Unchecked = 31,
    BadFigure = 32,
    Unexpected = 33,
    Absent = 34,
    Incomplete = 35,
    NoFigure = 36,
    Changed = 37,
}

/// One number and one place of the paper's table.
#[derive(Clone, Copy, Debug, PartialEq, Eq)]
pub struct Refusal {
    pub number: u32,
    pub place: usize,
}

impl Number {
    /// The refusal of this number at a place.
    pub const fn at(self, place: usize) -> Refusal {
        Refusal {
            number: self as u32,
            place,
        }
    }

    /// `Ok` where a rule holds, else the refusal of this number at a place.
    #[inline(always)]
    pub(crate) fn unless(self, holds: bool, place: usize) -> Result<(), Refusal> {
        if holds {
            Ok(())
        } else {
            Err(self.at(place))
        }
    }
}
