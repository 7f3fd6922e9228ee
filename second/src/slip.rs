//! The slip on a stick, in the house manner, big-endian: its reader and its
//! writer.

use crate::label::fits_label;
use crate::{Number, Refusal};
use std::collections::HashSet;

/// One file on the stick. The name is a span of the slip that was read, or of
/// the names that are written.
#[derive(Clone, Copy, Debug, Default, PartialEq, Eq)]
pub struct Entry {
    pub name_offset: u32,
    pub name_length: u32,
    pub length: u32,
    /// The first sum, and 256 times the second.
    pub sums: u32,
}

/// The most entries of a slip.
pub const MOST: usize = 1_000;

/// The bytes before the entries: version, length of the rest, count.
const HEAD: usize = 7;

/// The bytes of an entry but for its name.
const AROUND: usize = 7;

/// The entries of a slip.
pub fn read_slip(slip: &[u8]) -> Result<Vec<Entry>, Refusal> {
    let count = head(slip).ok_or(Number::Slip.at(0))?;
    let mut entries = Vec::with_capacity(count);
    let mut names = HashSet::with_capacity(count);
    let mut at = HEAD;
    for _ in 0..count {
        let entry = entry(&slip[at..], at).filter(|entry| names.insert(entry.name(slip)));
        let entry = entry.ok_or(Number::Slip.at(at))?;
        at += AROUND + entry.name_length as usize;
        entries.push(entry);
    }
    Number::Slip.unless(at == slip.len(), at)?;
    match entries.iter().find(|entry| !fits_label(entry.name(slip))) {
        Some(entry) => Err(Number::Text.at(entry.name_offset as usize - 1)),
        None => Ok(entries),
    }
}

/// The count of entries, if the first bytes are those of a slip.
fn head(slip: &[u8]) -> Option<usize> {
    let [version, a, b, c, d, e, f] = *slip.first_chunk::<HEAD>()?;
    let rest = u32::from_be_bytes([a, b, c, d]) as usize;
    let count = usize::from(u16::from_be_bytes([e, f]));
    (version == 1 && rest == slip.len() - 5 && count <= MOST).then_some(count)
}

/// The entry that some bytes at an offset begin with, but for its name's being
/// another's.
fn entry(bytes: &[u8], at: usize) -> Option<Entry> {
    let (length, rest) = bytes.split_first()?;
    let numbers = rest.get(usize::from(*length)..)?.first_chunk::<6>()?;
    let [a, b, c, d, first, second] = *numbers;
    let entry = Entry {
        name_offset: at as u32 + 1,
        name_length: u32::from(*length),
        length: u32::from_be_bytes([a, b, c, d]),
        sums: u32::from(first) + 256 * u32::from(second),
    };
    (*length > 0 && entry.sums_of_remainders()).then_some(entry)
}

impl Entry {
    /// The name, out of the bytes that it is a span of.
    fn name<'a>(&self, names: &'a [u8]) -> &'a [u8] {
        &names[self.name_offset as usize..][..self.name_length as usize]
    }

    /// Whether neither sum is 255, and nothing stands above them.
    fn sums_of_remainders(&self) -> bool {
        let [first, second, above @ ..] = self.sums.to_le_bytes();
        first != 255 && second != 255 && above == [0, 0]
    }

    /// Whether the name is 1 to 255 bytes, all of them there.
    fn named(&self, names: &[u8]) -> bool {
        let end = u64::from(self.name_offset) + u64::from(self.name_length);
        (1..=255).contains(&self.name_length) && end <= names.len() as u64
    }
}

/// The bytes of a slip of these entries.
pub fn write_slip(names: &[u8], entries: &[Entry]) -> Result<Vec<u8>, Refusal> {
    let mut earlier = HashSet::with_capacity(entries.len());
    for (number, entry) in entries.iter().enumerate() {
        let good = number < MOST && entry.named(names) && entry.sums_of_remainders();
        let new = good && earlier.insert(entry.name(names));
        Number::Slip.unless(new, number)?;
    }
    if let Some(number) = entries
        .iter()
        .position(|entry| !fits_label(entry.name(names)))
    {
        return Err(Number::Text.at(number));
    }
    let mut body = (entries.len() as u16).to_be_bytes().to_vec();
    for entry in entries {
        let [first, second, ..] = entry.sums.to_le_bytes();
        body.push(entry.name_length as u8);
        body.extend_from_slice(entry.name(names));
        body.extend(entry.length.to_be_bytes());
        body.extend([first, second]);
    }
    let length = (body.len() as u32).to_be_bytes();
    Ok([&[1], &length[..], &body].concat())
}
