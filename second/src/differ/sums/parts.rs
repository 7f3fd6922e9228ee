//! Sums on both sides: a file against its entry and against others, every cut
//! of small files, some cuts of large ones, and states of any kind.

use crate::boundary::{refused, Summing};
use crate::differ::compare::Pair;
use crate::differ::lent::{hex, spoken, Difference};
use crate::differ::random::Random;

/// Makes a call that lends nothing on both sides; the answer, if it is one.
fn agree<L: Summing, R: Summing>(
    pair: &Pair<L, R>,
    words: impl FnOnce() -> String,
    call: impl Fn(&dyn Summing) -> u64,
) -> Result<u64, Difference> {
    let [left, right] = [call(&pair.left), call(&pair.right)];
    match left == right {
        true => Ok(left),
        false => Err(Difference {
            call: words(),
            left: format!("{left:X}"),
            right: format!("{right:X}"),
        }),
    }
}

/// Whether an answer is the one it must be.
fn must(words: &str, answer: u64, expected: u64) -> Result<(), Difference> {
    match answer == expected {
        true => Ok(()),
        false => Err(Difference {
            call: words.to_string(),
            left: format!("should be {}", spoken(expected)),
            right: format!("both sides {}", spoken(answer)),
        }),
    }
}

/// The beginning of a file, as hex digits.
fn shown(file: &[u8]) -> String {
    format!("{} bytes {}", file.len(), hex(&file[..file.len().min(400)]))
}

/// Bytes of any kind, or nearly all of them those that sums see least.
fn file(random: &mut Random) -> Vec<u8> {
    let length = match random.below(60) {
        0 => random.pick(&[1_048_575, 1_048_576, 1_048_577, 1_100_000]),
        1..4 => random.below(70_000),
        4..10 => 0,
        _ => random.below(600),
    };
    match random.below(4) {
        0 => vec![random.pick(&[0, 1, 254, 255]); length],
        1 => {
            let bytes = random.bytes(length).into_iter();
            bytes.map(|byte| if byte < 128 { 0 } else { 255 }).collect()
        }
        _ => random.bytes(length),
    }
}

/// A file against its own entry, with one bit turned, and against others.
pub fn entry<L: Summing, R: Summing>(
    _: u64,
    random: &mut Random,
    pair: &mut Pair<L, R>,
) -> Result<u64, Difference> {
    let mut file = file(random);
    let answer = agree(
        pair,
        || format!("sums of {}", shown(&file)),
        |side| side.sums(&file),
    )?;
    let (length, own) = (file.len() as u32, pair.left.sum_add(0, &file) as u16);
    let own = u32::from(own);
    let matches = |file: &[u8], length, sums| {
        let words = || format!("{length} {sums:X} against {}", shown(file));
        agree(pair, words, |side| side.matches(file, length, sums))
    };
    must("a file against its entry", matches(&file, length, own)?, 0)?;
    let any = random.next() as u32;
    let odd = random.pick(&[own ^ 0x1_0000, own | 0xFF, own | 0xFF00, own ^ 1, any]);
    matches(&file, length, odd)?;
    matches(
        &file,
        length.wrapping_add(random.pick(&[1, u32::MAX, 256])),
        odd,
    )?;
    if !file.is_empty() {
        let at = random.below(file.len());
        file[at] ^= 1 << random.below(8);
        must(
            "one bit turned",
            matches(&file, length, own)?,
            refused(19, 1),
        )?;
    }
    Ok(answer)
}

/// A file cut into parts: each cut of a small one in two, and in many.
pub fn cuts<L: Summing, R: Summing>(
    _: u64,
    random: &mut Random,
    pair: &mut Pair<L, R>,
) -> Result<u64, Difference> {
    let file = file(random);
    let add = |before: u64, part: &[u8]| {
        let words = || format!("{before:X} and then {}", shown(part));
        agree(pair, words, |side| side.sum_add(before, part))
    };
    let join = |first, second| {
        let words = || format!("{first:X} joined with {second:X}");
        agree(pair, words, |side| side.sum_join(first, second))
    };
    let whole = add(0, &file)?;
    for cut in cuts_of(&file, random) {
        let (first, second) = (add(0, &file[..cut])?, add(0, &file[cut..])?);
        must("a part added", add(first, &file[cut..])?, whole)?;
        must("two parts joined", join(first, second)?, whole)?;
    }
    // From the front and from the back.
    let parts = many_parts(&file, random);
    let added = parts.iter().try_fold(0, |so_far, part| add(so_far, part))?;
    must("many parts added", added, whole)?;
    let joined = parts
        .iter()
        .rev()
        .try_fold(0, |so_far, part| join(add(0, part)?, so_far))?;
    must("many parts joined from the back", joined, whole)?;
    let (length, sums) = (file.len() as u32, u32::from(whole as u16));
    let words = || format!("{whole:X} against {length} {sums:X}");
    agree(pair, words, |side| side.sum_matches(whole, length, sums))
}

/// Every place to cut a small file at; a few of another.
fn cuts_of(file: &[u8], random: &mut Random) -> Vec<usize> {
    match file.len() < 80 {
        true => (0..=file.len()).collect(),
        false => (0..4).map(|_| random.below(file.len())).collect(),
    }
}

/// A file in many parts, some of them empty.
fn many_parts<'a>(file: &'a [u8], random: &mut Random) -> Vec<&'a [u8]> {
    let count = random.below(9);
    let mut ends: Vec<usize> = (0..count).map(|_| random.below(file.len() + 1)).collect();
    ends.extend([0, file.len(), file.len()]);
    ends.sort_unstable();
    let parts = ends.windows(2).map(|ends| &file[ends[0]..ends[1]]);
    parts.collect()
}

/// States that no file has: sum bytes of 255, lengths up to the most.
pub fn states<L: Summing, R: Summing>(
    _: u64,
    random: &mut Random,
    pair: &mut Pair<L, R>,
) -> Result<u64, Difference> {
    let [first, second] = [0, 1].map(|_| state(random));
    let words = || format!("{first:X} joined with {second:X}");
    agree(pair, words, |side| side.sum_join(first, second))?;
    let length = random.pick(&[0, 0, 1, 2, 255, 300]);
    let part = random.bytes(length);
    let words = || format!("{first:X} and then {}", shown(&part));
    agree(pair, words, |side| side.sum_add(first, &part))?;
    let length = (first >> 16) as u32 ^ u32::from(random.chance(20));
    let sums = match random.below(3) {
        0 => u32::from(first as u16),
        1 => first as u32,
        _ => u32::from(random.pick(&[first as u8, 0, 255])),
    };
    let words = || format!("{first:X} against {length} {sums:X}");
    agree(pair, words, |side| side.sum_matches(first, length, sums))
}

/// Any sums, often with 255, and any length, often near the most.
fn state(random: &mut Random) -> u64 {
    let bytes = [0, 1].map(|_| match random.below(3) {
        0 => 255,
        1 => 0,
        _ => random.next() & 0xFF,
    });
    let length = match random.below(4) {
        0 => (1 << 48) - 1 - random.below(300) as u64,
        1 => random.below(600) as u64,
        2 => (1 << 32) + random.below(600) as u64 - 300,
        _ => random.next() >> 16,
    };
    bytes[0] + 256 * bytes[1] + 65_536 * length
}
