//! The writer of a bare figure of one mesh: six chunks, flag words 0, from
//! a name, a row of floats and a row of corners.

use crate::bytes::finite;
use crate::label::label_fault;
use crate::{Number, Refusal, HEADER, LIMIT};

/// The most numbers in a row: a count word holds 65,535 vertices or faces.
const MOST: usize = 3 * 65_535;

/// Writes a figure into lent bytes and answers its size. A refusal leaves
/// them untouched, and those after the size stay.
pub fn write(
    name: &[u8],
    vertices: &[f32],
    corners: &[u16],
    out: &mut [u8],
) -> Result<usize, Refusal> {
    judge(name, vertices, corners)?;
    let (n, f) = (vertices.len() / 3, corners.len() / 3);
    let size = 41 + name.len() + 12 * n + 8 * f;
    Number::TooLong.unless(size <= LIMIT, 0)?;
    Number::NoRoom.unless(size <= out.len(), size)?;
    let mut pen = Pen { rest: out };
    pen.header(0x4D4D, size);
    pen.header(0x3D3D, size - 6);
    pen.header(0x4000, size - 12);
    pen.put(name);
    pen.put(&[0]);
    pen.header(0x4100, 22 + 12 * n + 8 * f);
    pen.header(0x4110, 8 + 12 * n);
    pen.vertices(n, vertices);
    pen.header(0x4120, 8 + 8 * f);
    pen.faces(f, corners);
    Ok(size)
}

/// The refusals that the name and the rows give: 9, 24, 13, 11, 12 in this order.
fn judge(name: &[u8], vertices: &[f32], corners: &[u16]) -> Result<(), Refusal> {
    zero_in(name)?;
    text_in(name)?;
    length_of_row(vertices.len())?;
    length_of_row(corners.len())?;
    finite_row(vertices)?;
    corners_row(corners, vertices.len() / 3)
}

/// 9 for a zero in a name.
pub fn zero_in(name: &[u8]) -> Result<(), Refusal> {
    refused(Number::Name, name, |byte| *byte == 0)
}

/// 24 for a name that no label takes.
pub fn text_in(name: &[u8]) -> Result<(), Refusal> {
    label_fault(name).map_or(Ok(()), |position| Err(Number::Text.at(position)))
}

/// 13 for the length of a row of vertices or corners.
pub fn length_of_row(length: usize) -> Result<(), Refusal> {
    Number::Count.unless(length.is_multiple_of(3) && length <= MOST, length)
}

/// 11 for a float that is none; looked for only where there is one, to run wide.
pub fn finite_row(floats: &[f32]) -> Result<(), Refusal> {
    let good = |float: &f32| finite(float.to_bits());
    match floats
        .iter()
        .fold(true, |so_far, float| so_far & good(float))
    {
        true => Ok(()),
        false => refused(Number::Number, floats, |float| !good(float)),
    }
}

/// 12 for a number that is not below a count; looked for in the same way.
pub fn corners_row(corners: &[u16], count: usize) -> Result<(), Refusal> {
    let highest = corners.iter().copied().fold(0, u16::max);
    match corners.is_empty() || usize::from(highest) < count {
        true => Ok(()),
        false => refused(Number::Index, corners, |corner| {
            usize::from(*corner) >= count
        }),
    }
}

/// The refusal at the first of a row that is at fault.
fn refused<T>(number: Number, row: &[T], fault: impl Fn(&T) -> bool) -> Result<(), Refusal> {
    row.iter()
        .position(fault)
        .map_or(Ok(()), |position| Err(number.at(position)))
}

/// Puts bytes one behind the other into a slice that has room for them.
struct Pen<'a> {
    rest: &'a mut [u8],
}

impl<'a> Pen<'a> {
    /// The next bytes, now behind the pen.
    fn take(&mut self, count: usize) -> &'a mut [u8] {
        let (taken, rest) = std::mem::take(&mut self.rest).split_at_mut(count);
        self.rest = rest;
        taken
    }

    fn put(&mut self, bytes: &[u8]) {
        self.take(bytes.len()).copy_from_slice(bytes);
    }

    fn word(&mut self, word: usize) {
        self.put(&(word as u16).to_le_bytes());
    }

    fn header(&mut self, identifier: u16, length: usize) {
        let header = self.take(HEADER);
        header[..2].copy_from_slice(&identifier.to_le_bytes());
        header[2..].copy_from_slice(&(length as u32).to_le_bytes());
    }

    fn vertices(&mut self, n: usize, vertices: &[f32]) {
        self.word(n);
        let slots = self.take(12 * n).as_chunks_mut::<4>().0;
        for (slot, float) in slots.iter_mut().zip(vertices) {
            *slot = float.to_le_bytes();
        }
    }

    fn faces(&mut self, f: usize, corners: &[u16]) {
        self.word(f);
        let slots = self.take(8 * f).as_chunks_mut::<8>().0;
        for (slot, [a, b, c]) in slots.iter_mut().zip(corners.as_chunks::<3>().0) {
            let face = u64::from(*a) | u64::from(*b) << 16 | u64::from(*c) << 32;
            *slot = face.to_le_bytes();
        }
    }
}
