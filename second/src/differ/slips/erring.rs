//! This library's slips with one error, to see that the comparison
//! finds it; without one it is this library.

use crate::boundary::{refusal, refused, Second, Slips, ENTRY_BYTES};

listed! {
    /// The errors that can be made.
    Error, ERRORS:
    SumOf255Read RepeatsRead EmptyNameRead CountMissingAtHead LeftOverAtHead CountUnlimited
    NameOffsetOfEntry RoomOfPart RoomFirst PartOfEntryLost RepeatsWritten ThousandthRefused
    BadEntryAfterMany WritesBeforeRefusing
    TextNotJudged LongNotJudged TextBeforeSlip TextAtName TextWritten TextWrittenPlace
}

/// This library, with an error or without.
#[derive(Clone, Copy, Debug, Default)]
pub struct Erring {
    pub error: Option<Error>,
}

impl Slips for Erring {
    fn slip_read(&self, slip: &[u8], entries: &mut [u8]) -> u64 {
        match (self.error, refusal(Second.slip_read(slip, entries))) {
            (Some(Error::RoomFirst), Some((18, _))) if entries.len() < ENTRY_BYTES => {
                refused(15, 1)
            }
            (Some(Error::RoomOfPart), Some((15, needed))) => {
                match entries.len().div_ceil(ENTRY_BYTES) < needed as usize {
                    true => refused(15, needed as usize),
                    false => u64::from(needed),
                }
            }
            (Some(Error::TextBeforeSlip), Some((18, place))) => {
                let text = unfit(slip, place as usize);
                text.map_or(refused(18, place as usize), |at| refused(24, at))
            }
            (Some(error), Some((24, place))) => mistext(error, slip, place as usize),
            (_, Some((18, place))) => self.misread(slip, place as usize, entries),
            (_, None) if self.error == Some(Error::NameOffsetOfEntry) => {
                let answer = Second.slip_read(slip, entries);
                entries.iter_mut().take(1).for_each(|offset| *offset -= 1);
                answer
            }
            _ => Second.slip_read(slip, entries),
        }
    }

    fn slip_write(&self, names: &[u8], entries: &[u8], out: &mut [u8]) -> u64 {
        let answer = Second.slip_write(names, entries, out);
        let whole = &entries[..entries.len() / ENTRY_BYTES * ENTRY_BYTES];
        let count = whole.len() / ENTRY_BYTES;
        match (self.error, refusal(answer)) {
            (Some(Error::PartOfEntryLost), Some(_)) => Second.slip_write(names, whole, out),
            (Some(Error::TextWritten), Some((24, _))) => refused(15, 7),
            (Some(Error::TextWrittenPlace), Some((24, number))) => refused(24, number as usize + 1),
            (Some(Error::ThousandthRefused), _) if count == 1_000 => refused(18, 999),
            (Some(Error::BadEntryAfterMany), Some((18, _))) if count > 1_000 => refused(18, 1_000),
            (Some(Error::RepeatsWritten), Some((18, number))) => {
                let mut less = entries.to_vec();
                less.drain(ENTRY_BYTES * number as usize..);
                Second.slip_write(names, &less, out)
            }
            (Some(Error::WritesBeforeRefusing), Some((15, _))) => {
                out.iter_mut().take(1).for_each(|byte| *byte ^= 1);
                answer
            }
            _ => answer,
        }
    }
}

/// A slip whose name at a place no label takes, judged wrongly.
fn mistext(error: Error, slip: &[u8], place: usize) -> u64 {
    let count = u64::from(u16::from_be_bytes([slip[5], slip[6]]));
    let name = &slip[place + 1..][..usize::from(slip[place])];
    match error {
        Error::TextNotJudged => count,
        Error::LongNotJudged if name.iter().all(|byte| (32..127).contains(byte)) => count,
        Error::TextAtName => refused(24, place + 1),
        _ => refused(24, place),
    }
}

/// The first entry before a place that has a name which no label takes.
fn unfit(slip: &[u8], place: usize) -> Option<usize> {
    let mut at = 7;
    while at < place {
        let name = &slip[at + 1..][..usize::from(slip[at])];
        if name.len() > 63 || name.iter().any(|byte| !(32..127).contains(byte)) {
            return Some(at);
        }
        at += 7 + name.len();
    }
    None
}

impl Erring {
    /// A slip that is refused with 18, read as if its fault were none.
    fn misread(&self, slip: &[u8], place: usize, entries: &mut [u8]) -> u64 {
        let mut mended = slip.to_vec();
        let name = slip.get(place).map_or(0, |length| usize::from(*length));
        let sums = place + 5 + name;
        match self.error {
            Some(Error::CountMissingAtHead) if place == slip.len() => return refused(18, 0),
            Some(Error::LeftOverAtHead) if place > 0 && place < slip.len() => {
                return refused(18, 0)
            }
            Some(Error::SumOf255Read) if place > 0 => {
                let bytes = mended.iter_mut().skip(sums).take(2);
                bytes.for_each(|byte| *byte = (*byte).min(254));
            }
            Some(Error::RepeatsRead) if place > 0 && name > 0 => {
                mended
                    .iter_mut()
                    .skip(place + 1)
                    .take(1)
                    .for_each(|byte| *byte ^= 0x80);
            }
            Some(Error::EmptyNameRead) if place > 0 && name == 0 && sums + 2 <= slip.len() => {
                return refused(18, slip.len());
            }
            Some(Error::CountUnlimited) if slip.len() > 7 && slip[0] == 1 => mended[5] &= 3,
            _ => (),
        }
        Second.slip_read(&mended, entries)
    }
}
