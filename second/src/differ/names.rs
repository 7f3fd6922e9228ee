//! Names as they grow, such as a label takes; and names that no label takes.

use super::random::Random;

/// The most bytes of a name.
pub const MOST: usize = 63;

/// A name of so many bytes, or of as many as it may have.
pub fn name(length: usize, random: &mut Random) -> Vec<u8> {
    let bytes = random.bytes(length.min(MOST)).into_iter();
    bytes.map(|byte| 32 + byte % 95).collect()
}

/// Makes a name one that no label takes: too long, or with a byte that cannot
/// be printed, before the 64th or behind.
pub fn spoil(name: &mut Vec<u8>, random: &mut Random) {
    let long = name.is_empty() || random.chance(45);
    if long {
        name.resize(random.pick(&[64, 65, 66, 70, 255]), b'n');
    }
    if !long || random.chance(50) {
        let (any, last) = (random.below(name.len()), name.len() - 1);
        let at = random.pick(&[any, last.min(62), last.min(63), last]);
        name[at] = random.pick(&[31, 31, 127, 128, 255, 10]);
    }
}
