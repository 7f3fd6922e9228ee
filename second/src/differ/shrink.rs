//! The smallest file that still shows a difference: bytes are taken out with
//! all lengths around them lowered, taken out bare, or made zero.

use crate::row;
use std::time::{Duration, Instant};

/// A chunk that seems to be there: its header, and the end of its body.
type Span = (usize, usize);

/// Makes a file smaller as long as it fails and time is left.
pub fn shrink(mut file: Vec<u8>, fails: &mut dyn FnMut(&[u8]) -> bool) -> Vec<u8> {
    let until = Instant::now() + Duration::from_secs(10);
    loop {
        let before = (file.len(), zeros(&file));
        drop_chunks(&mut file, fails, until);
        let mut size = file.len() / 2;
        while size > 0 && Instant::now() < until {
            shorten(&mut file, size, fails, until);
            size /= 2;
        }
        clear(&mut file, fails, until);
        if before == (file.len(), zeros(&file)) || Instant::now() >= until {
            return file;
        }
    }
}

fn zeros(file: &[u8]) -> usize {
    file.iter().filter(|byte| **byte == 0).count()
}

/// Takes out whole chunks wherever the file still fails.
fn drop_chunks(file: &mut Vec<u8>, fails: &mut dyn FnMut(&[u8]) -> bool, until: Instant) {
    let mut which = 1;
    while let Some(&(header, end)) = spans(file).get(which) {
        let less = lowered(file, header, end - header);
        match Instant::now() < until && fails(&less) {
            true => *file = less,
            false => which += 1,
        }
        if Instant::now() >= until {
            return;
        }
    }
}

/// Takes out runs of bytes of one size wherever the file still fails.
fn shorten(file: &mut Vec<u8>, size: usize, fails: &mut dyn FnMut(&[u8]) -> bool, until: Instant) {
    let mut at = 0;
    while at + size <= file.len() && Instant::now() < until {
        let less = [lowered(file, at, size), bare(file, at, size)];
        match less.into_iter().find(|less| fails(less)) {
            Some(less) => *file = less,
            None => at += size.div_ceil(4),
        }
    }
}

/// The file without a run of bytes.
fn bare(file: &[u8], at: usize, size: usize) -> Vec<u8> {
    [&file[..at], &file[at + size..]].concat()
}

/// The file without a run of bytes, and the lengths around it lowered.
fn lowered(file: &[u8], at: usize, size: usize) -> Vec<u8> {
    let mut less = file.to_vec();
    raise(&mut less, at, at + size, (size as u32).wrapping_neg());
    bare(&less, at, size)
}

/// Raises the lengths of the chunks around a run of bytes.
pub fn raise(file: &mut [u8], from: usize, to: usize, by: u32) {
    for (header, end) in spans(file) {
        if header + 6 <= from && to <= end {
            let slot = &mut file[header + 2..header + 6];
            let length = u32::from_le_bytes([slot[0], slot[1], slot[2], slot[3]]);
            slot.copy_from_slice(&length.wrapping_add(by).to_le_bytes());
        }
    }
}

/// Makes bytes zero wherever the file still fails.
fn clear(file: &mut [u8], fails: &mut dyn FnMut(&[u8]) -> bool, until: Instant) {
    for at in 0..file.len() {
        let old = std::mem::take(&mut file[at]);
        if old != 0 && (Instant::now() >= until || !fails(file)) {
            file[at] = old;
        }
    }
}

/// The chunks that seem to be in a file, whether or not it is a figure.
pub fn spans(file: &[u8]) -> Vec<Span> {
    let mut found = Vec::new();
    gather(file, 0, file.len(), &mut found);
    found
}

fn gather(file: &[u8], mut at: usize, end: usize, found: &mut Vec<Span>) {
    while at + 6 <= end {
        let identifier = u16::from_le_bytes([file[at], file[at + 1]]);
        let bytes = [file[at + 2], file[at + 3], file[at + 4], file[at + 5]];
        let length = (u32::from_le_bytes(bytes) as usize).clamp(6, end - at);
        found.push((at, at + length));
        if row(identifier).is_some_and(|row| row.holds != 0) {
            let own = behind_own(file, identifier, at, length);
            gather(file, at + 6 + own, at + length, found);
        }
        at += length;
    }
}

/// The bytes of own data that seem to stand before children.
fn behind_own(file: &[u8], identifier: u16, at: usize, length: usize) -> usize {
    let body = &file[at + 6..at + length];
    match identifier {
        0x4000 => body
            .iter()
            .position(|byte| *byte == 0)
            .map_or(0, |zero| zero + 1),
        0x4120 if body.len() >= 2 => 2 + 8 * usize::from(u16::from_le_bytes([body[0], body[1]])),
        0x4600 => 12,
        0x4610 => 20,
        _ => 0,
    }
    .min(body.len())
}
