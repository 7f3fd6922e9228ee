//! This library over Cinema 4D figures with one error, to see that the cases
//! that show it are met; without one it is this library.

use crate::boundary::{answer, c4d_list_of, C4ds};
use crate::{read_c4d, C4d, Number, Refusal};

listed! {
    /// The errors that can be made.
    Error, ERRORS:
    OffsetOfData PolygonIsMesh SphereIsMesh NoneIsEight LastTextureLost TexturesOfFirst
    MinusOneIsZero MaterialsExchanged StrayIsOrder OverrunAtChunk MissingEndAtEnd RepeatIsOrder
    TextureSizeFree MaterialAtObject LimitOff OrderAtFirst
}

/// This library, with an error or without.
#[derive(Clone, Copy, Debug, Default)]
pub struct Erring {
    pub error: Option<Error>,
}

impl C4ds for Erring {
    fn c4d_check(&self, file: &[u8]) -> u64 {
        answer(self.read(file).map(|c4d| c4d.objects.len()))
    }

    fn c4d_list(&self, file: &[u8], objects: &mut [u8], materials: &mut [u8]) -> u64 {
        c4d_list_of(self.read(file), objects, materials)
    }
}

impl Erring {
    /// What is read, with the error in it.
    fn read(&self, file: &[u8]) -> Result<C4d, Refusal> {
        match (read_c4d(file), self.error) {
            (Ok(_), Some(Error::LimitOff)) if file.len() == crate::LIMIT => {
                Err(Number::TooLong.at(0))
            }
            (Ok(c4d), Some(error)) => Ok(misread(error, c4d)),
            (Err(refusal), Some(error)) => Err(misjudged(error, file, refusal)),
            (read, None) => read,
        }
    }
}

/// An accepted file, read wrongly.
fn misread(error: Error, mut c4d: C4d) -> C4d {
    for [at, combination, textures] in &mut c4d.objects {
        match (error, *combination) {
            (Error::OffsetOfData, _) => *at += 4,
            (Error::PolygonIsMesh, 2) | (Error::SphereIsMesh, 7) => *combination = 1,
            (Error::NoneIsEight, 9) => *combination = 8,
            (Error::TexturesOfFirst, _) => *textures = (*textures).min(1),
            _ => (),
        }
    }
    match error {
        Error::LastTextureLost => drop(c4d.materials.pop()),
        Error::MinusOneIsZero => {
            let none = c4d
                .materials
                .iter_mut()
                .filter(|material| **material == u32::MAX);
            none.for_each(|material| *material = 0);
        }
        Error::MaterialsExchanged => c4d.materials.reverse(),
        _ => (),
    }
    c4d
}

/// A refusal, given wrongly.
fn misjudged(error: Error, file: &[u8], refusal: Refusal) -> Refusal {
    let Refusal { number, place } = refusal;
    let letters = file.get(place..place + 4).unwrap_or_default();
    let container = matches!(letters, b"MAT4" | b"OBJ5");
    match (error, number) {
        (Error::StrayIsOrder, 5) if file.len() - place < 4 => Number::Order.at(place),
        (Error::OverrunAtChunk, 5) => Number::Overrun.at(12),
        (Error::MissingEndAtEnd, 26) if container => Number::Order.at(file.len()),
        (Error::RepeatIsOrder, 27) => Number::Order.at(place),
        (Error::TextureSizeFree, 10) => Number::Material.at(place),
        (Error::MaterialAtObject, 28) => Number::Material.at(place - 4),
        (Error::OrderAtFirst, 26) => Number::Order.at(12),
        _ => refusal,
    }
}
