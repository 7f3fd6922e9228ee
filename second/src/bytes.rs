//! Little-endian numbers out of a file's bytes, and the two sweeps over
//! whole rows of them: is every float finite, what is the highest corner.

use crate::HEADER;

/// The bits of a float's exponent: all ones in the infinite and not-a-number.
const EXPONENT: u32 = 0x7F80_0000;

/// The word at an offset that the file is known to reach beyond.
#[inline(always)]
pub fn word(bytes: &[u8], at: usize) -> u16 {
    u16::from_le_bytes([bytes[at], bytes[at + 1]])
}

/// The word that a body begins with, if it has two bytes.
#[inline(always)]
pub fn first_word(body: &[u8]) -> Option<usize> {
    let bytes = body.first_chunk::<2>()?;
    Some(usize::from(u16::from_le_bytes(*bytes)))
}

/// Identifier and length, if the bytes are enough for a header.
#[inline(always)]
pub fn header(bytes: &[u8]) -> Option<(u16, usize)> {
    let [a, b, c, d, e, f] = *bytes.first_chunk::<HEADER>()?;
    let length = u32::from_le_bytes([c, d, e, f]);
    Some((u16::from_le_bytes([a, b]), length as usize))
}

/// The bytes of the name that a body begins with, its zero among them.
#[inline(always)]
pub fn name_length(body: &[u8]) -> Option<usize> {
    let (words, rest) = body.as_chunks::<8>();
    // Most names end within a few words; long ones are searched in wide steps.
    let (first, more) = words.split_at(words.len().min(8));
    let zero = zero_in_words(first).or_else(|| {
        let wide = more.as_chunks::<8>().0.iter();
        let before = first.len() + 8 * wide.take_while(|block| !any_zero(block)).count();
        let zero = zero_in_words(&words[before..]);
        zero.map(|zero| 8 * before + zero)
    });
    let zero = zero.or_else(|| {
        let zero = rest.iter().position(|byte| *byte == 0);
        zero.map(|zero| body.len() - rest.len() + zero)
    });
    zero.map(|zero| zero + 1)
}

/// The first zero byte in a row of words of eight bytes.
#[inline(always)]
fn zero_in_words(words: &[[u8; 8]]) -> Option<usize> {
    const LOW: u64 = u64::from_le_bytes([0x01; 8]);
    const HIGH: u64 = u64::from_le_bytes([0x80; 8]);
    for (number, word) in words.iter().enumerate() {
        let word = u64::from_le_bytes(*word);
        // The lowest of the marked bytes is a zero.
        let marks = word.wrapping_sub(LOW) & !word & HIGH;
        if marks != 0 {
            return Some(8 * number + marks.trailing_zeros() as usize / 8);
        }
    }
    None
}

/// Whether a block of 64 bytes has a zero; looks at all of them, to run wide.
#[inline(always)]
fn any_zero(block: &[[u8; 8]; 8]) -> bool {
    block
        .as_flattened()
        .iter()
        .fold(false, |so_far, byte| so_far | (*byte == 0))
}

/// The bits of each float in a row of them.
pub fn bits(floats: &[u8]) -> impl Iterator<Item = u32> + '_ {
    floats
        .as_chunks::<4>()
        .0
        .iter()
        .map(|bytes| u32::from_le_bytes(*bytes))
}

/// Whether bits are those of a finite float.
#[inline(always)]
pub fn finite(bits: u32) -> bool {
    bits & EXPONENT != EXPONENT
}

/// Rows of fewer bytes are not worth the beginning of a wide sweep.
const SHORT: usize = 64;

/// Whether all floats of a row are finite; a long row is looked at to the end,
/// to run wide.
pub fn all_finite(floats: &[u8]) -> bool {
    if floats.len() < SHORT {
        return bits(floats).all(finite);
    }
    // Of a float that is not, one more in the exponent turns the highest bit.
    let judged = |bits: u32| (bits & !(1 << 31)).wrapping_add(1 << 23);
    bits(floats).fold(0, |so_far, bits| so_far | judged(bits)) >> 31 == 0
}

/// Whether the three corners of each 8-byte face are below a count.
pub fn corners_below(faces: &[u8], count: usize) -> bool {
    let Some(most) = count.checked_sub(1) else {
        return faces.is_empty();
    };
    let all = faces.as_chunks::<8>().0;
    if faces.len() < SHORT {
        let below =
            |face: &[u8; 8]| (0..3).all(|corner| usize::from(word(face, 2 * corner)) <= most);
        return all.iter().all(below);
    }
    // Two faces at once; the last may be judged twice.
    let last = [all[all.len() - 2], all[all.len() - 1]];
    let mut over = [0; 8];
    for pair in all.as_chunks::<2>().0.iter().chain([&last]) {
        for (corner, so_far) in over.iter_mut().enumerate() {
            *so_far |= word(pair.as_flattened(), 2 * corner).saturating_sub(most as u16);
        }
    }
    let [a, b, c, _flags, d, e, f, _] = over;
    a | b | c | d | e | f == 0
}

/// Whether all words of a row are below a count.
pub fn words_below(words: &[u8], count: usize) -> bool {
    let all = words.as_chunks::<2>().0.iter();
    let highest = all
        .map(|bytes| u16::from_le_bytes(*bytes))
        .fold(0, u16::max);
    words.is_empty() || usize::from(highest) < count
}

#[test]
fn a_zero_is_found_wherever_it_is() {
    for length in 0..300 {
        // Bytes that a search by words might take for a zero, next to a real one.
        for other in [1, 0x80, 0x81, 0xFF] {
            let mut body = vec![other; length];
            assert_eq!(name_length(&body), None, "{length} bytes of {other}");
            for zero in (0..length).rev() {
                body[zero] = 0;
                assert_eq!(name_length(&body), Some(zero + 1), "{zero} of {length}");
            }
        }
    }
}
