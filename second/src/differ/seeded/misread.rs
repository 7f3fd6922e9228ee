//! Rows of the table read wrongly, one field at a time: each of these is an
//! error of its own, and a named case has to see it.

use super::Error;
use crate::differ::grow::LISTED;
use crate::differ::rows::HOLDERS;
use crate::{place, row as row_of, Own, Row};

/// What is read wrongly of a row.
#[derive(Clone, Copy, Debug, PartialEq, Eq)]
pub enum Misread {
    /// Whether it may stand in this place.
    Place(u16),
    /// Its fixed size, a byte more or less.
    Longer,
    Shorter,
    /// Whether it ends in "+".
    Plus,
    /// Whether there is at most one.
    Once,
    /// Whether there is at least one child.
    Needs,
    /// That it is there at all.
    Unlisted,
}

/// A place that no row stands in, and a bit that no other row has.
const NOWHERE: u16 = place::H4700;
const OWN_BIT: u8 = 1 << 7;

impl Misread {
    /// The row as it is read by mistake.
    pub fn of(self, mut row: Row) -> Option<Row> {
        match (self, row.own) {
            (Misread::Place(place), _) => row.under ^= place,
            (Misread::Longer, Own::Bytes(count)) => row.own = Own::Bytes(count + 1),
            (Misread::Shorter, Own::Bytes(count)) => row.own = Own::Bytes(count.saturating_sub(1)),
            (Misread::Plus, _) => row.holds = if row.holds == 0 { NOWHERE } else { 0 },
            (Misread::Once, _) => row.once = if row.once == 0 { OWN_BIT } else { 0 },
            (Misread::Needs, _) => row.needs = 0,
            (Misread::Unlisted, _) => return None,
            _ => (),
        }
        Some(row)
    }
}

/// All rows read wrongly in all ways; nothing is asked of the figure's own row
/// but its size, its "+" and its need, as it has no parent.
pub fn errors() -> Vec<Error> {
    let mut errors = Vec::with_capacity(1_024);
    for identifier in LISTED.iter().copied() {
        let Some(row) = row_of(identifier) else {
            continue;
        };
        let mut ways = vec![
            Misread::Longer,
            Misread::Shorter,
            Misread::Plus,
            Misread::Needs,
            Misread::Unlisted,
        ];
        let places = HOLDERS.iter().filter_map(|holder| row_of(*holder));
        ways.extend(places.map(|row| Misread::Place(row.holds)));
        ways.extend((identifier != 0x4D4D).then_some(Misread::Once));
        ways.retain(|way| way.of(*row) != Some(*row));
        errors.extend(ways.into_iter().map(|way| Error::Row(identifier, way)));
    }
    errors
}
