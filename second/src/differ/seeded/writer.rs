//! The plain writer, and the errors that can be made in it: in the order of
//! its refusals, in their places, and in the bytes.

use super::{Error, Seeded};
use crate::differ::build::{figure, meshed};
use crate::differ::node::Node;
use crate::{Number, Refusal, LIMIT};

/// Writes a figure into lent bytes.
pub fn write(
    seeded: Seeded,
    name: &[u8],
    vertices: &[f32],
    corners: &[u16],
    out: &mut [u8],
) -> Result<usize, Refusal> {
    let size = 41 + name.len() + 4 * vertices.len() + corners.len() / 3 * 8;
    let judged = judge(seeded, name, vertices, corners);
    let index = judged.is_err_and(|refusal| refusal.number == Number::Index as u32);
    if index && size > LIMIT && seeded.makes(Error::WriterLimitBeforeIndex) {
        return Err(Number::TooLong.at(0));
    }
    judged?;
    let no_room = Err(Number::NoRoom.at(size));
    let needed = size + usize::from(seeded.makes(Error::WriterRoomOff));
    if needed > out.len() && seeded.makes(Error::WriterRoomBeforeLimit) {
        return no_room;
    }
    let limit = match seeded.error {
        Some(Error::WriterLimitOff) => LIMIT - 1,
        Some(Error::WriterLimitNotJudged) => usize::MAX,
        _ => LIMIT,
    };
    if size > limit {
        return Err(Number::TooLong.at(0));
    }
    if needed > out.len() {
        return no_room;
    }
    if seeded.makes(Error::WriterClearsRest) {
        out.fill(0);
    }
    out[..size].copy_from_slice(&tree(seeded, name, vertices, corners).bytes());
    Ok(size)
}

/// The refusals of the writer, but for the size.
fn judge(seeded: Seeded, name: &[u8], vertices: &[f32], corners: &[u16]) -> Result<(), Refusal> {
    let (zero, text) = (zero(seeded, name), text(seeded, name));
    if seeded.makes(Error::WriterTextBeforeName) {
        text.and(zero)?;
    }
    let count = count(seeded, [vertices.len(), corners.len()]);
    if seeded.makes(Error::WriterCountBeforeName) {
        count.and(zero)?;
    }
    let good = |float: &f32| match seeded.error {
        Some(Error::WriterInfinityAllowed) => !float.is_nan(),
        Some(Error::WriterMinusInfinityAllowed) => *float < f32::INFINITY,
        _ => float.is_finite(),
    };
    let float = vertices.iter().position(|float| !good(float));
    if let (Some(float), Ok(())) = (float, zero.and(text)) {
        if seeded.makes(Error::WriterNumberBeforeCount) {
            return Err(Number::Number.at(float));
        }
    }
    match seeded.makes(Error::WriterTextAfterCount) {
        true => zero.and(count).and(text)?,
        false => zero.and(text).and(count)?,
    }
    let n = vertices.len() / 3 + usize::from(seeded.makes(Error::WriterIndexAtCount));
    let corner = corners.iter().position(|corner| usize::from(*corner) >= n);
    first_bad(seeded, float, corner)
}

/// 11 for the first bad float, else 12 for the first bad corner.
fn first_bad(seeded: Seeded, float: Option<usize>, corner: Option<usize>) -> Result<(), Refusal> {
    match (float, corner) {
        (Some(_), Some(corner)) if seeded.makes(Error::WriterIndexBeforeNumber) => {
            Err(Number::Index.at(corner))
        }
        (Some(float), _) if seeded.makes(Error::WriterNumberPlace) => {
            Err(Number::Number.at(float / 3))
        }
        (Some(float), _) => Err(Number::Number.at(float)),
        (None, Some(corner)) if seeded.makes(Error::WriterIndexPlace) => {
            Err(Number::Index.at(corner / 3))
        }
        (None, Some(corner)) => Err(Number::Index.at(corner)),
        (None, None) => Ok(()),
    }
}

/// 9 for a zero in the name.
fn zero(seeded: Seeded, name: &[u8]) -> Result<(), Refusal> {
    let off = usize::from(seeded.makes(Error::WriterZeroPlace));
    match name.iter().position(|byte| *byte == 0) {
        Some(zero) => Err(Number::Name.at(zero + off)),
        None => Ok(()),
    }
}

/// 24 for a name that no label takes.
fn text(seeded: Seeded, name: &[u8]) -> Result<(), Refusal> {
    let most = 63 + usize::from(seeded.makes(Error::WriterTextOf64));
    let long = (name.len() > most).then_some(most);
    let bad = name.iter().position(|byte| !(32..127).contains(byte));
    let first = match seeded.error {
        Some(Error::WriterTextNotJudged) => None,
        Some(Error::WriterTextAtFirstBad) => bad.or(long),
        Some(Error::WriterTextAt63) => long.or(bad),
        _ => bad.into_iter().chain(long).min(),
    };
    match first {
        Some(first) => Err(Number::Text.at(first)),
        None => Ok(()),
    }
}

/// 13 for the length of a row.
fn count(seeded: Seeded, mut lengths: [usize; 2]) -> Result<(), Refusal> {
    if seeded.makes(Error::WriterCornersFirst) {
        lengths.reverse();
    }
    let most = 196_605 - usize::from(seeded.makes(Error::WriterMost));
    let bad = |length: &usize| !length.is_multiple_of(3) || *length > most;
    match lengths.into_iter().find(bad) {
        Some(length) if seeded.makes(Error::WriterCountPlace) => Err(Number::Count.at(length / 3)),
        Some(length) => Err(Number::Count.at(length)),
        None => Ok(()),
    }
}

/// The figure as a tree.
fn tree(seeded: Seeded, name: &[u8], vertices: &[f32], corners: &[u16]) -> Node {
    let lost = seeded.makes(Error::WriterMinusZeroLost);
    let flags = u8::from(seeded.makes(Error::WriterFlags));
    let mut points = ((vertices.len() / 3) as u16).to_le_bytes().to_vec();
    for float in vertices {
        let float = if lost { float + 0.0 } else { *float };
        points.extend(float.to_le_bytes());
    }
    let mut faces = ((corners.len() / 3) as u16).to_le_bytes().to_vec();
    for face in corners.chunks_exact(3) {
        faces.extend(face.iter().flat_map(|corner| corner.to_le_bytes()));
        faces.extend([flags, 0]);
    }
    let parts = vec![Node::leaf(0x4110, points), Node::leaf(0x4120, faces)];
    figure(vec![meshed(name, parts)])
}
