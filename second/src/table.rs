//! The table of chunks, laid out as the paper lays it out: where each
//! identifier may stand, what its own data is, and whether children follow.

use place::*;
use Own::*;

/// The chunks that others may stand under, one bit each.
pub mod place {
    /// No chunk's.
    pub const FILE: u16 = 0;
    pub const HB000: u16 = 1;
    pub const H4D4D: u16 = 1 << 1;
    pub const H3D3D: u16 = 1 << 2;
    pub const H2100: u16 = 1 << 3;
    pub const HAFFF: u16 = 1 << 4;
    pub const HA010: u16 = 1 << 5;
    pub const HA020: u16 = 1 << 6;
    pub const HA030: u16 = 1 << 7;
    pub const HA040: u16 = 1 << 8;
    pub const H4000: u16 = 1 << 9;
    pub const H4100: u16 = 1 << 10;
    pub const H4120: u16 = 1 << 11;
    pub const H4600: u16 = 1 << 12;
    pub const H4610: u16 = 1 << 13;
    pub const H4700: u16 = 1 << 14;
    pub const HB002: u16 = 1 << 15;

    /// Where a colour may stand.
    pub const COLOURED: u16 = H2100 | HA010 | HA020 | HA030 | H4600;
}

/// What a chunk's own data is.
#[derive(Clone, Copy, Debug, PartialEq, Eq)]
pub enum Own {
    /// So many bytes.
    Bytes(u8),
    /// Bytes up to and including the first zero.
    Name,
    /// Word n, then n times three floats.
    Vertices,
    /// Word f, then f times three corners and a flag word.
    Faces,
    /// Name, word k, k face numbers.
    Group,
    /// Four bytes for each face.
    Smoothing,
    /// Word m, then m times two floats.
    Mapping,
    /// Name, two words, the father.
    Part,
}

/// One row of the table.
#[derive(Clone, Copy, Debug, PartialEq, Eq)]
pub struct Row {
    /// The places it may stand in, their bits together.
    pub under: u16,
    pub own: Own,
    /// The place it is for its children; 0 where the row has no "+".
    pub holds: u16,
    /// Its bit among the "at most one" of its parent; 0 for any number.
    pub once: u8,
    /// The bits of the children it must have.
    pub needs: u8,
}

impl Row {
    /// A row that ends in "+".
    const fn plus(mut self, place: u16) -> Row {
        self.holds = place;
        self
    }

    /// At most one in its parent among those of the same bit.
    const fn once(mut self, bit: u8) -> Row {
        self.once = bit;
        self
    }

    /// At least one child of this bit.
    const fn needs(mut self, bit: u8) -> Row {
        self.needs = bit;
        self
    }
}

/// A row without "+", of any number.
const fn under(place: u16, own: Own) -> Row {
    Row {
        under: place,
        own,
        holds: 0,
        once: 0,
        needs: 0,
    }
}

/// The rows, each with the identifiers that have it; the keyframer's last.
#[rustfmt::skip]
const ROWS: [(&[u16], Row); 38] = [
    (&[0x4D4D],                                 under(FILE, Bytes(0)).plus(H4D4D).needs(2)),
    (&[0x0002],                                 under(H4D4D, Bytes(4)).once(1)),
    (&[0x3D3D],                                 under(H4D4D, Bytes(0)).plus(H3D3D).once(2)),
    (&[0x3D3E, 0x1400, 0x1450, 0x1460],         under(H3D3D, Bytes(4))),
    (&[0x1420],                                 under(H3D3D, Bytes(2))),
    (&[0x1470],                                 under(H3D3D, Bytes(0))),
    (&[0x2100],                                 under(H3D3D, Bytes(0)).plus(H2100)),
    (&[0xAFFF],                                 under(H3D3D, Bytes(0)).plus(HAFFF).needs(1)),
    (&[0xA000],                                 under(HAFFF, Name).once(1)),
    (&[0xA010],                                 under(HAFFF, Bytes(0)).plus(HA010)),
    (&[0xA020],                                 under(HAFFF, Bytes(0)).plus(HA020)),
    (&[0xA030],                                 under(HAFFF, Bytes(0)).plus(HA030)),
    (&[0xA040],                                 under(HAFFF, Bytes(0)).plus(HA040)),
    (&[0x0010, 0x0013],                         under(COLOURED, Bytes(12))),
    (&[0x0011, 0x0012],                         under(COLOURED, Bytes(3))),
    (&[0x0030],                                 under(HA040, Bytes(2))),
    (&[0x0031],                                 under(HA040, Bytes(4))),
    (&[0x4000],                                 under(H3D3D, Name).plus(H4000)),
    (&[0x4010, 0x4012, 0x4013, 0x4015, 0x4017], under(H4000, Bytes(0))),
    (&[0x4100],                                 under(H4000, Bytes(0)).plus(H4100).once(1)),
    (&[0x4110],                                 under(H4100, Vertices).once(1)),
    (&[0x4120],                                 under(H4100, Faces).plus(H4120).once(2)),
    (&[0x4130],                                 under(H4120, Group)),
    (&[0x4150],                                 under(H4120, Smoothing).once(1)),
    (&[0x4140],                                 under(H4100, Mapping).once(4)),
    (&[0x4160],                                 under(H4100, Bytes(48)).once(8)),
    (&[0x4165],                                 under(H4100, Bytes(1)).once(16)),
    (&[0x4600],                                 under(H4000, Bytes(12)).plus(H4600).once(1)),
    (&[0x4610],                                 under(H4600, Bytes(20)).plus(H4610).once(1)),
    (&[0x4620],                                 under(H4600, Bytes(0))),
    (&[0x4651],                                 under(H4610, Bytes(0))),
    (&[0x4653],                                 under(H4610, Name)),
    (&[0x4656],                                 under(H4610, Bytes(4))),
    (&[0x4700],                                 under(H4000, Bytes(32)).plus(H4700).once(1)),
    (&[0xB000],                                 under(H4D4D, Bytes(0)).plus(HB000).once(4)),
    (&[0xB008],                                 under(HB000, Bytes(8)).once(1)),
    (&[0xB002],                                 under(HB000, Bytes(0)).plus(HB002).needs(1)),
    (&[0xB010],                                 under(HB002, Part).once(1)),
];

/// The rows by their numbers, close together.
static TABLE: [Row; ROWS.len()] = {
    let mut table = [ROWS[0].1; ROWS.len()];
    let mut number = 0;
    while number < ROWS.len() {
        table[number] = ROWS[number].1;
        number += 1;
    }
    table
};

/// The number of each identifier's row, counted from 1, so that one look tells
/// it; 0 for the unlisted.
static NUMBERS: [u8; 65_536] = {
    let mut numbers = [0; 65_536];
    let mut number = 0;
    while number < ROWS.len() {
        let identifiers = ROWS[number].0;
        let mut which = 0;
        while which < identifiers.len() {
            numbers[identifiers[which] as usize] = number as u8 + 1;
            which += 1;
        }
        number += 1;
    }
    numbers
};

/// The row of an identifier, if it is listed.
#[inline(always)]
pub const fn row(identifier: u16) -> Option<&'static Row> {
    match NUMBERS[identifier as usize] {
        0 => None,
        number => Some(&TABLE[number as usize - 1]),
    }
}
