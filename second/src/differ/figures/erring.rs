//! This library's writer of such figures with one error, to see that the cases
//! that show it are met; without one it is this library.

use crate::boundary::{refusal, refused, Figures, Rows, Second};

listed! {
    /// The errors that can be made.
    Error, ERRORS:
    RowsNotJudged RowsPlace ZeroPlaceInAll SameNameEarlier GroupNumberOff NumberPlaceInAll
    CornerAtCount SmoothingLost FlagWords ColoursExchanged MaterialsLast LimitOff RoomOff
    ClearsRest WritesBeforeRefusing
    TextNotJudged TextPlaceInAll TextAfterSameName
}

/// This library, with an error or without.
#[derive(Clone, Copy, Debug, Default)]
pub struct Erring {
    pub error: Option<Error>,
}

impl Figures for Erring {
    fn write_figure(&self, rows: &Rows, out: &mut [u8]) -> u64 {
        let answer = self.prepared(rows, out);
        let size = answer as usize;
        match (self.error, refusal(answer)) {
            (Some(error), Some((number, place))) => {
                misjudged(error, number, place as usize, rows, out)
            }
            (Some(Error::LimitOff), None) if size == crate::LIMIT => refused(1, 0),
            (Some(Error::RoomOff), None) if size == out.len() => refused(15, size),
            (Some(Error::ClearsRest), None) => {
                out[size..].fill(0);
                answer
            }
            _ => answer,
        }
    }
}

impl Erring {
    /// The answer for rows that the error has changed beforehand.
    fn prepared(&self, rows: &Rows, out: &mut [u8]) -> u64 {
        let mut other = rows.clone();
        match self.error {
            Some(Error::SmoothingLost) if rows.smoothing.len() > 3 && rows.figure().is_ok() => {
                other.smoothing.clear();
                other
                    .objects
                    .iter_mut()
                    .skip(3)
                    .step_by(5)
                    .for_each(|words| *words = 0);
            }
            Some(Error::ColoursExchanged) => other.colours.reverse(),
            Some(Error::MaterialsLast) if rows.groups.is_empty() && rows.figure().is_ok() => {
                other.materials.clear();
                other.colours.clear();
                let named: u32 = rows.objects.iter().step_by(5).sum();
                other.names.truncate(named as usize);
            }
            Some(Error::FlagWords) => {
                let answer = Second.write_figure(rows, out);
                let faces = !rows.corners.is_empty() && refusal(answer).is_none();
                let last = out.iter_mut().take(answer as usize).last();
                last.into_iter()
                    .filter(|_| faces)
                    .for_each(|byte| *byte ^= 1);
                return answer;
            }
            _ => (),
        }
        Second.write_figure(&other, out)
    }
}

/// Whether two objects have one name.
fn same_names(rows: &Rows) -> bool {
    let figure = rows.figure();
    let objects = figure.iter().flat_map(|figure| &figure.objects);
    let names: Vec<&[u8]> = objects.map(|object| object.name).collect();
    let again = |(at, name): (usize, &&[u8])| names[..at].contains(name);
    names.iter().enumerate().any(again)
}

/// A refusal, given wrongly.
fn misjudged(error: Error, number: u32, place: usize, rows: &Rows, out: &mut [u8]) -> u64 {
    let misfit = rows.figure().is_err();
    let several = rows.objects.len() > 5 && !misfit;
    let first = |field: usize| rows.objects.get(field).map_or(0, |first| *first as usize);
    match (error, number) {
        (Error::RowsNotJudged, 13) if misfit => refused(12, place),
        (Error::RowsPlace, 13) if misfit => refused(13, place + 1),
        (Error::ZeroPlaceInAll, 9) if several => refused(9, place + first(0)),
        (Error::TextNotJudged, 24) => refused(13, place),
        (Error::TextPlaceInAll, 24) if several => refused(24, place + first(0)),
        (Error::TextAfterSameName, 24) if same_names(rows) => refused(29, 1),
        (Error::SameNameEarlier, 29) => refused(29, place - 1),
        (Error::GroupNumberOff, 30) if place > 0 => refused(30, 0),
        (Error::NumberPlaceInAll, 11) if several => refused(11, place + first(1)),
        (Error::CornerAtCount, 12) => refused(12, place + 1),
        (Error::WritesBeforeRefusing, 15) => {
            out.iter_mut().take(1).for_each(|byte| *byte ^= 1);
            refused(number, place)
        }
        _ => refused(number, place),
    }
}
