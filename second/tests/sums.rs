//! Fletcher's sums from their definition, the check of a file against an entry,
//! and files in parts; each asked of both sides.

use second::boundary::{refused, Right, Second, Summing};
use second::LIMIT;

/// The most that a state says of a length.
const MOST: u64 = (1 << 48) - 1;

/// What both sides answer, which is the same.
fn both(call: impl Fn(&dyn Summing) -> u64) -> u64 {
    let answer = call(&Second);
    assert_eq!(call(&Right::default()), answer, "right, left");
    answer
}

fn sums(file: &[u8]) -> u64 {
    both(|side| side.sums(file))
}

/// The definition, word by word: the sum of all bytes, and the sum of the
/// running first sums.
fn defined(file: &[u8]) -> u64 {
    let running = |end: usize| file[..end].iter().map(|byte| u64::from(*byte)).sum::<u64>();
    let second: u64 = (1..=file.len()).map(running).sum();
    running(file.len()) % 255 + 256 * (second % 255)
}

/// Bytes of all kinds.
fn some(count: usize) -> Vec<u8> {
    (0..count)
        .map(|k| (k * k * 31 + 7 * k + 200) as u8)
        .collect()
}

#[test]
fn sums_are_fletchers() {
    assert_eq!(sums(b""), 0);
    // Known answers for the 8-bit sum: C8F0, 2057 and 0627.
    assert_eq!(sums(b"abcde"), 0xC8F0);
    assert_eq!(sums(b"abcdef"), 0x2057);
    assert_eq!(sums(b"abcdefgh"), 0x0627);
    for count in [1, 2, 3, 254, 255, 256, 600] {
        assert_eq!(sums(&some(count)), defined(&some(count)));
        assert_eq!(sums(&vec![255; count]), 0);
        assert_eq!(sums(&vec![254; count]), defined(&vec![254; count]));
    }
}

#[test]
fn long_files_have_sums_up_to_the_limit() {
    let long = vec![254; LIMIT + 1];
    // The first sum of n bytes of 254 is -n, the second -n(n+1)/2.
    let n = LIMIT as u64;
    let [first, second] = [n, n * (n + 1) / 2].map(|sum| (255 - sum % 255) % 255);
    assert_eq!(sums(&long[1..]), first + 256 * second);
    assert_eq!(sums(&long), refused(1, 0));
}

#[test]
fn a_file_against_an_entry() {
    let file = b"abcde";
    let matches = |length, sums| both(|side| side.matches(file, length, sums));
    assert_eq!(matches(5, 0xC8F0), 0);
    assert_eq!(matches(4, 0xC8F0), refused(19, 0));
    assert_eq!(matches(6, 0), refused(19, 0));
    assert_eq!(matches(5, 0xC8F1), refused(19, 1));
    assert_eq!(matches(5, 0xC7F0), refused(19, 1));
    assert_eq!(matches(5, 0x1_C8F0), refused(19, 1));
    assert_eq!(matches(5, u32::MAX), refused(19, 1));
    // A remainder is never written as 255.
    assert_eq!(both(|side| side.matches(&[0, 255], 2, 0)), 0);
    assert_eq!(
        both(|side| side.matches(&[0, 255], 2, 0xFF)),
        refused(19, 1)
    );
    assert_eq!(
        both(|side| side.matches(&[0, 255], 2, 0xFF00)),
        refused(19, 1)
    );
    // A file may be longer than a figure, and an entry too.
    let long = vec![1; LIMIT + 255];
    let [n, length] = [long.len() as u64, long.len() as u64].map(|n| n % 255);
    let known = n + 256 * ((length * (length + 1) / 2) % 255);
    assert_eq!(
        both(|side| side.matches(&long, long.len() as u32, known as u32)),
        0
    );
}

#[test]
fn one_turned_bit_never_passes() {
    let file = some(40);
    let entry = sums(&file) as u32;
    for bit in 0..8 * file.len() {
        let mut turned = file.clone();
        turned[bit / 8] ^= 1 << (bit % 8);
        let answer = both(|side| side.matches(&turned, 40, entry));
        assert_eq!(answer, refused(19, 1), "bit {bit}");
    }
    // Eight bits at once may: a byte 0 that became 255 has the same remainder.
    let (zero, full) = ([7, 0, 9], [7, 255, 9]);
    let entry = sums(&zero) as u32;
    assert_eq!(both(|side| side.matches(&full, 3, entry)), 0);
}

#[test]
fn parts_joined_are_the_file() {
    let file = some(300);
    let whole = 65_536 * 300 + defined(&file);
    for cut in 0..=file.len() {
        let (a, b) = file.split_at(cut);
        let [first, second] = [a, b].map(|part| both(|side| side.sum_add(0, part)));
        assert_eq!(both(|side| side.sum_add(first, b)), whole);
        assert_eq!(both(|side| side.sum_join(first, second)), whole);
        assert_eq!(both(|side| side.sum_join(0, first)), first);
        assert_eq!(both(|side| side.sum_join(first, 0)), first);
        assert_eq!(both(|side| side.sum_add(first, &[])), first);
    }
    let [length, sums] = [300, defined(&file) as u32];
    assert_eq!(both(|side| side.sum_matches(whole, length, sums)), 0);
    assert_eq!(
        both(|side| side.sum_matches(whole, 299, sums)),
        refused(19, 0)
    );
    assert_eq!(
        both(|side| side.sum_matches(whole, length, sums ^ 1)),
        refused(19, 1)
    );
}

#[test]
fn joining_is_associative() {
    let parts = [
        0,
        0x0102,
        0xFEFE,
        65_536 * 9 + 0x10,
        65_536 * 254 + 0xFE01,
        65_536 * 0x7FFF_FFFF,
    ];
    let join = |a, b| both(|side| side.sum_join(a, b));
    for a in parts {
        for b in parts {
            for c in parts {
                assert_eq!(join(a, join(b, c)), join(join(a, b), c));
            }
        }
    }
}

#[test]
fn a_sum_byte_of_255_stands_for_0() {
    let state = 65_536 * 3 + 0xFFFF;
    assert_eq!(both(|side| side.sum_add(state, &[])), 65_536 * 3);
    assert_eq!(both(|side| side.sum_join(state, 0)), 65_536 * 3);
    assert_eq!(both(|side| side.sum_join(0, state)), 65_536 * 3);
    assert_eq!(both(|side| side.sum_add(state, &[5])), 65_536 * 4 + 0x0505);
    assert_eq!(both(|side| side.sum_matches(state, 3, 0)), 0);
    assert_eq!(
        both(|side| side.sum_matches(state, 3, 0xFFFF)),
        refused(19, 1)
    );
}

#[test]
fn lengths_stop_at_the_most() {
    let state = 65_536 * (MOST - 1) + 0x0201;
    let most = 65_536 * MOST;
    assert_eq!(both(|side| side.sum_add(state, &[4])), most + 0x0705);
    assert_eq!(both(|side| side.sum_add(state, &[4, 0])), most + 0x0C05);
    assert_eq!(both(|side| side.sum_join(state, 65_536)), most + 0x0301);
    assert_eq!(both(|side| side.sum_join(state, 65_536 * 2)), most + 0x0401);
    // 2^48 - 1 is a multiple of 255.
    assert_eq!(both(|side| side.sum_join(state, most)), most + 0x0201);
    // A length that 32 bits cannot say is no entry's.
    let wide = 65_536 * ((1 << 32) + 3);
    assert_eq!(both(|side| side.sum_matches(wide, 3, 0)), refused(19, 0));
    assert_eq!(
        both(|side| side.sum_matches(most, u32::MAX, 0)),
        refused(19, 0)
    );
}
