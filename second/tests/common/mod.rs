//! Bytes for the tests: chunks built from an identifier and a body, the
//! paper's triangle, and how answers are written down.
#![allow(dead_code)]

use second::{check, Counts, Refusal};

/// A whole chunk: header, then the parts of its body.
pub fn chunk(identifier: u16, parts: &[&[u8]]) -> Vec<u8> {
    let body = parts.concat();
    let mut bytes = identifier.to_le_bytes().to_vec();
    bytes.extend((6 + body.len() as u32).to_le_bytes());
    bytes.extend(body);
    bytes
}

/// A figure whose 3D3D has these children.
pub fn figure(parts: &[&[u8]]) -> Vec<u8> {
    chunk(0x4D4D, &[&chunk(0x3D3D, parts)])
}

/// A figure of one object without a name, whose 4100 has these children.
/// The first child stands at 25.
pub fn mesh(parts: &[&[u8]]) -> Vec<u8> {
    figure(&[&object(parts)])
}

/// An object without a name that holds a mesh of these children.
pub fn object(parts: &[&[u8]]) -> Vec<u8> {
    chunk(0x4000, &[&[0], &chunk(0x4100, parts)])
}

/// Words, one behind the other.
pub fn words(words: &[u16]) -> Vec<u8> {
    words.iter().flat_map(|word| word.to_le_bytes()).collect()
}

/// A 4110 of these floats.
pub fn vertices(floats: &[f32]) -> Vec<u8> {
    let bytes: Vec<u8> = floats
        .iter()
        .flat_map(|float| float.to_le_bytes())
        .collect();
    chunk(0x4110, &[&words(&[(floats.len() / 3) as u16]), &bytes])
}

/// A 4140 of so many pairs of zeros.
pub fn mapping(count: u16) -> Vec<u8> {
    chunk(
        0x4140,
        &[&words(&[count]), &vec![0; 8 * usize::from(count)]],
    )
}

/// A 4120 of these corners, then children.
pub fn faces(corners: &[[u16; 3]], parts: &[&[u8]]) -> Vec<u8> {
    let mut body = words(&[corners.len() as u16]);
    for [a, b, c] in corners {
        body.extend(words(&[*a, *b, *c, 0]));
    }
    chunk(0x4120, &[&body, &parts.concat()])
}

/// The paper's triangle, 86 bytes.
pub fn triangle() -> Vec<u8> {
    let floats = [0.0, 0.0, 0.0, 1.0, 0.0, 0.0, 0.0, 1.0, 0.0];
    let parts = [vertices(&floats), faces(&[[0, 1, 2]], &[])].concat();
    figure(&[&chunk(0x4000, &[b"A\0", &chunk(0x4100, &[&parts])])])
}

/// A refusal as a pair of number and place.
pub fn pair(refusal: Refusal) -> (u32, usize) {
    (refusal.number, refusal.place)
}

/// What a file is refused with; fails if it is accepted.
pub fn refusal(file: &[u8]) -> (u32, usize) {
    pair(check(file).expect_err("should be refused"))
}

/// The counts of a file; fails if it is refused.
pub fn counts(file: &[u8]) -> (usize, usize, usize) {
    let Counts {
        headers,
        own,
        skipped,
        ..
    } = check(file).expect("should be accepted");
    (headers, own, skipped)
}

/// The bytes of a text of hex digits, blanks apart.
pub fn hex(text: &str) -> Vec<u8> {
    let digits: Vec<u8> = text
        .bytes()
        .filter(|byte| !byte.is_ascii_whitespace())
        .collect();
    let pairs = digits
        .chunks(2)
        .map(|pair| std::str::from_utf8(pair).unwrap());
    pairs
        .map(|pair| u8::from_str_radix(pair, 16).unwrap())
        .collect()
}

/// Up to 512 names of 63 bytes, all different, for whoever looks names up by
/// a number that is mixed from their bytes as the library does: all have one.
pub fn alike(count: usize) -> Vec<String> {
    const PARTS: [&str; 2] = ["c2Znrcp", "e0ZfbOh"];
    let mix = |sum: u32, byte: u8| sum.wrapping_mul(16_777_619).wrapping_add(byte.into());
    let [one, other] = PARTS.map(|part| part.bytes().fold(0, mix));
    assert_eq!(one, other);
    (0..count)
        .map(|name| (0..9).map(|bit| PARTS[name >> bit & 1]).collect())
        .collect()
}
