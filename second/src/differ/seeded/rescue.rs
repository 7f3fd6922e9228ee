//! The plain rescue: each child of the 3D3D in a figure of its own, and the file
//! without them, both read; with the errors that can be made in it.

use super::reader::{read, version};
use super::{Error, Seeded};
use crate::{Number, Refusal};

/// A chunk of a body.
fn chunk(identifier: u16, body: &[u8]) -> Vec<u8> {
    let length = (6 + body.len() as u32).to_le_bytes();
    [&identifier.to_le_bytes()[..], &length, body].concat()
}

/// The length at the beginning of a chunk, if it is one that ends in time.
fn length(bytes: &[u8]) -> Result<usize, Refusal> {
    let [_, _, a, b, c, d, ..] = *bytes else {
        return Err(Number::Stray.at(0));
    };
    match u32::from_le_bytes([a, b, c, d]) as usize {
        0..6 => Err(Number::Short.at(0)),
        length if length > bytes.len() => Err(Number::Overrun.at(0)),
        length => Ok(length),
    }
}

/// Where the first 3D3D of a file begins and ends.
fn edit(file: &[u8]) -> Option<(usize, usize)> {
    let mut at = 6;
    while let Ok(length) = length(file.get(at..)?) {
        if file[at..].starts_with(b"==") {
            return Some((at, at + length));
        }
        at += length;
    }
    None
}

impl Seeded {
    /// The cuts, the mended figure, or the first fault outside.
    pub fn rescued(self, file: &[u8]) -> Result<(Vec<[u32; 3]>, Vec<u8>), Refusal> {
        let Some((start, end)) = edit(file) else {
            read(self, file)?;
            return Ok((vec![], file.to_vec()));
        };
        self.outside(file, start, end)?;
        let mut cuts = Vec::new();
        let mut kept = Vec::with_capacity(file.len());
        let mut at = start + 6;
        while at < end {
            let (number, place, bytes) = self.judged(file, at, end);
            let once = self.makes(Error::CutFirstOnly) && !cuts.is_empty();
            match number {
                0 => kept.extend_from_slice(&file[at..at + bytes]),
                _ if once => kept.extend_from_slice(&file[at..at + bytes]),
                _ => cuts.push([at + place, number as usize, bytes].map(|k| k as u32)),
            }
            at += bytes;
        }
        if self.makes(Error::CutBytesOfBody) {
            cuts.iter_mut()
                .for_each(|cut| cut[2] = cut[2].saturating_sub(6));
        }
        let kept = [&file[6..start], &chunk(0x3D3D, &kept), &file[end..]].concat();
        let mut figure = chunk(0x4D4D, &kept);
        match self.seeded_length() {
            Some(0) => figure[2..6].copy_from_slice(&file[2..6]),
            Some(_) => figure[start + 2..start + 6].copy_from_slice(&file[start + 2..start + 6]),
            None => (),
        }
        Ok((cuts, figure))
    }

    /// Which of the two lengths is not lowered, by mistake.
    fn seeded_length(self) -> Option<usize> {
        match self.error {
            Some(Error::CutFigureLengthKept) => Some(0),
            Some(Error::CutEditLengthKept) => Some(1),
            _ => None,
        }
    }

    /// The first fault outside the children of the 3D3D.
    fn outside(self, file: &[u8], start: usize, end: usize) -> Result<(), Refusal> {
        let behind = match self.makes(Error::CutBehindUnjudged) {
            true => &[],
            false => &file[end..],
        };
        let bare = [&file[6..start], &chunk(0x3D3D, &[]), behind].concat();
        let mut bare = chunk(0x4D4D, &bare);
        let honest =
            file.len() == u32::from_le_bytes([file[2], file[3], file[4], file[5]]) as usize;
        if !honest || !file.starts_with(b"MM") || file.len() > crate::LIMIT {
            bare = file.to_vec();
        }
        let inside = file.len() - bare.len();
        let outside = read(self, &bare).map(|_| ());
        if outside.is_err() && self.makes(Error::CutInsideFirst) {
            return read(self, file).map(|_| ());
        }
        outside.map_err(|refusal| Refusal {
            place: match refusal.place > start && !self.makes(Error::CutOutsidePlace) {
                true => refusal.place + inside,
                false => refusal.place,
            },
            ..refusal
        })
    }

    /// What becomes of the child at an offset: the number, how far behind the
    /// offset the cut is said to be, and its bytes.
    fn judged(self, file: &[u8], at: usize, end: usize) -> (u32, usize, usize) {
        let whole = match length(&file[at..end]) {
            Ok(whole) => whole,
            Err(refusal) if self.makes(Error::CutOfHeaderOnly) => {
                return (refusal.number, 0, 6.min(end - at))
            }
            Err(refusal) => return (refusal.number, 0, end - at),
        };
        let version = match self.makes(Error::CutWithoutVersion) {
            true => None,
            false => version(self, file),
        };
        let version = version.map(|version| chunk(0x0002, &version.to_le_bytes()));
        let version = version.unwrap_or_default();
        let only = chunk(0x3D3D, &file[at..at + whole]);
        let before = 12 + version.len();
        match read(self, &chunk(0x4D4D, &[version, only].concat())) {
            Ok(read) if self.makes(Error::CutUnlisted) && read.passed > 0 => (7, 0, whole),
            Ok(_) => (0, 0, whole),
            Err(Refusal { number, place }) => match self.error {
                Some(Error::CutAtInner) => (number, place - before, whole),
                Some(Error::CutOfDeepHeader) if number < 7 => (number, 0, end - at),
                Some(Error::CutNumber) => (7, 0, whole),
                _ => (number, 0, whole),
            },
        }
    }
}
