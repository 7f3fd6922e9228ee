//! A known chunk's own data: how long the row wants it, whether the body
//! agrees (9, 24, 10), and what its numbers must be (11; 12 for a 4130).

use crate::bytes::{all_finite, corners_below, first_word, name_length, words_below};
use crate::label::fits_label;
use crate::table::{Own, Row};
use crate::{Number, Refusal, HEADER};

/// One of a mesh's counted lists: its chunk, and how many entries it has.
#[derive(Clone, Copy, Debug, Default)]
pub struct Entries {
    pub chunk: usize,
    pub count: usize,
}

impl Entries {
    /// Where the entries begin: behind the header and the count word.
    pub fn start(&self) -> usize {
        self.chunk + HEADER + 2
    }
}

/// What is known of the mesh whose children are being walked.
#[derive(Clone, Copy, Debug, Default)]
pub struct Mesh {
    pub vertices: Entries,
    pub faces: Entries,
    pub mapping: Option<Entries>,
}

impl Mesh {
    /// Judges the own data at the beginning of the body of the chunk at `at`,
    /// and answers its length.
    #[inline(always)]
    pub fn own(&mut self, row: &Row, body: &[u8], at: usize) -> Result<usize, Refusal> {
        match row.own {
            Own::Bytes(bytes) => fitting(row, usize::from(bytes), body, at),
            Own::Name => fitting(row, named(body, at)?, body, at),
            Own::Smoothing => fitting(row, 4 * self.faces.count, body, at),
            Own::Part => fitting(row, named(body, at)? + 6, body, at),
            Own::Vertices | Own::Faces | Own::Mapping | Own::Group => self.counted(row, body, at),
        }
    }

    /// Judges own data with a count word and so many entries.
    #[inline(never)]
    fn counted(&mut self, row: &Row, body: &[u8], at: usize) -> Result<usize, Refusal> {
        let (before, entry) = match row.own {
            Own::Vertices => (0, 12),
            Own::Group => (named(body, at)?, 2),
            _ => (0, 8),
        };
        let count = first_word(&body[before..]).ok_or(Number::Length.at(at))?;
        let length = fitting(row, before + 2 + entry * count, body, at)?;
        let list = Entries { chunk: at, count };
        self.entries(row.own, list, &body[before + 2..length])?;
        Ok(length)
    }

    /// Notes a counted list of the right length and judges its numbers.
    #[inline]
    fn entries(&mut self, own: Own, list: Entries, data: &[u8]) -> Result<(), Refusal> {
        match own {
            Own::Vertices => {
                self.vertices = list;
                Number::Number.unless(all_finite(data), list.chunk)
            }
            Own::Mapping => {
                self.mapping = Some(list);
                Number::Number.unless(all_finite(data), list.chunk)
            }
            Own::Group => {
                let below = words_below(data, self.faces.count);
                Number::Index.unless(below, list.chunk)
            }
            _ => {
                self.faces = list;
                Ok(())
            }
        }
    }

    /// What is judged at the mesh's end: its corners, then its mapping count,
    /// which is that of the vertices, or may be less if it need not be whole.
    pub fn close(&self, file: &[u8], mapped_whole: bool) -> Result<(), Refusal> {
        let start = self.faces.start();
        let faces = match self.faces.count {
            0 => &[],
            count => &file[start..start + 8 * count],
        };
        let below = corners_below(faces, self.vertices.count);
        Number::Index.unless(below, self.faces.chunk)?;
        let Some(mapping) = self.mapping else {
            return Ok(());
        };
        let (m, n) = (mapping.count, self.vertices.count);
        Number::Count.unless(m == n || (m < n && !mapped_whole), mapping.chunk)
    }
}

/// The length of the name a body begins with, or 9 or 24.
#[inline(never)]
fn named(body: &[u8], at: usize) -> Result<usize, Refusal> {
    let length = name_length(body).ok_or(Number::Name.at(at))?;
    Number::Text.unless(fits_label(&body[..length - 1]), at)?;
    Ok(length)
}

/// The length that own data must have, if the body agrees with the row, or 10.
#[inline(always)]
fn fitting(row: &Row, length: usize, body: &[u8], at: usize) -> Result<usize, Refusal> {
    let fits = length == body.len() || (row.holds != 0 && length < body.len());
    Number::Length.unless(fits, at)?;
    Ok(length)
}
