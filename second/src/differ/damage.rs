//! Damage to the bytes of a figure, as a stick might do it: bits turned,
//! lengths and counts changed, bytes lost or put in.

use super::grow::{unlisted, LISTED};
use super::random::Random;
use super::shrink::{raise, spans};

/// Damages the bytes of a file.
pub fn damage(file: &mut Vec<u8>, random: &mut Random) {
    let times = random.pick(&[1, 1, 1, 2, 3]);
    for _ in 0..times {
        let spans = spans(file);
        if !spans.is_empty() {
            once(file, random.pick(&spans).0, random);
        }
    }
}

/// Does one damage, anywhere or at a header.
fn once(file: &mut Vec<u8>, header: usize, random: &mut Random) {
    let any = random.below(file.len());
    match random.below(14) {
        0..3 => file[any] ^= 1 << random.below(8),
        3 | 4 => turn(file, header + random.below(6), random),
        5 => turn(file, header + 6 + random.below(2), random),
        6 => length(file, header, random),
        7 => word(file, header, identifier(random)),
        8 => word(file, header + 6, random.pick(&[0, 1, 2, 3, 0xFFFF, 0x4110])),
        9 => {
            file.truncate(any);
            outermost(file);
        }
        10 | 11 => more(file, any, random),
        _ => less(file, any, random),
    }
}

/// Puts in bytes, mostly with the lengths around them raised.
fn more(file: &mut Vec<u8>, at: usize, random: &mut Random) {
    let count = random.from_to(1, 8);
    let bytes = random.bytes(count);
    if random.chance(75) {
        raise(file, at, at, count as u32);
    }
    file.splice(at..at, bytes);
}

/// Takes out bytes, mostly with the lengths around them lowered.
fn less(file: &mut Vec<u8>, at: usize, random: &mut Random) {
    let count = random.from_to(1, 12).min(file.len() - at);
    if random.chance(75) {
        raise(file, at, at + count, (count as u32).wrapping_neg());
    }
    file.drain(at..at + count);
}

/// Turns a bit of a byte, if it is there.
fn turn(file: &mut [u8], at: usize, random: &mut Random) {
    if let Some(byte) = file.get_mut(at) {
        *byte ^= 1 << random.below(8);
    }
}

/// Sets a word, if it is there.
fn word(file: &mut [u8], at: usize, word: u16) {
    if let Some(slot) = file.get_mut(at..at + 2) {
        slot.copy_from_slice(&word.to_le_bytes());
    }
}

fn identifier(random: &mut Random) -> u16 {
    match random.chance(60) {
        true => random.pick(LISTED),
        false => unlisted(random),
    }
}

/// Changes a length a little, or to something of note.
fn length(file: &mut [u8], header: usize, random: &mut Random) {
    let Some(slot) = file.get_mut(header + 2..header + 6) else {
        return;
    };
    let old = u32::from_le_bytes([slot[0], slot[1], slot[2], slot[3]]);
    let near = old.wrapping_add(random.below(17) as u32).wrapping_sub(8);
    let new = random.pick(&[near, near, near, 0, 5, 6, u32::MAX, 1 << 31]);
    slot.copy_from_slice(&new.to_le_bytes());
}

/// Makes the first length that of the file.
fn outermost(file: &mut [u8]) {
    let length = file.len() as u32;
    if let Some(slot) = file.get_mut(2..6) {
        slot.copy_from_slice(&length.to_le_bytes());
    }
}

/// Turns some bits of any file.
pub fn bits(file: &mut [u8], random: &mut Random) {
    for _ in 0..random.pick(&[1, 1, 2, 8]) {
        let at = random.below(file.len());
        file[at] ^= 1 << random.below(8);
    }
}

/// Puts bytes into any file, takes some out, or cuts it off.
pub fn bytes(file: &mut Vec<u8>, random: &mut Random) {
    let at = random.below(file.len());
    let count = random.pick(&[1, 2, 4, 8, 20]);
    match random.below(3) {
        0 => drop(file.splice(at..at, random.bytes(count))),
        1 => drop(file.drain(at..file.len().min(at + count))),
        _ => file.truncate(at),
    }
}
