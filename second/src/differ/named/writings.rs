//! Named writings: each refusal of the writer against the next, rooms a byte
//! short, and rows and sizes at their limits.

use super::Case;
use crate::boundary::refused;
use crate::differ::families::Subject;
use crate::differ::writing::Writing;
use crate::LIMIT;

/// A writing, and the refusal it gets; without one its size is the answer.
fn case(name: &str, writing: Writing, refusal: Option<(u32, usize)>) -> Case {
    let size = writing.size() as u64;
    Case {
        name: name.to_string(),
        subject: Subject::Writing(writing),
        expected: refusal.map_or(size, |(number, place)| refused(number, place)),
        facts: None,
        rescue: None,
    }
}

/// A writing with just the room it needs.
fn writing(name: &[u8], vertices: &[f32], corners: &[u16]) -> Writing {
    let mut writing = Writing {
        name: name.to_vec(),
        vertices: vertices.to_vec(),
        corners: corners.to_vec(),
        room: 0,
    };
    writing.room = writing.size();
    writing
}

pub fn cases() -> Vec<Case> {
    [rooms(), faults(), texts(), long_rows(), sizes()].concat()
}

fn rooms() -> Vec<Case> {
    let floats = [-0.0, 0.0, -1.5, f32::MAX, 1e-45, 7.0];
    let written = writing(b"plane", &floats, &[0, 1, 1, 1, 0, 0]);
    let size = written.size();
    let roomy = |room: usize| {
        let less = Writing {
            room,
            ..written.clone()
        };
        let refusal = (room < size).then_some((15, size));
        case(
            &format!("a writing of {size} bytes in {room}"),
            less,
            refusal,
        )
    };
    let mut cases = [0, size - 1, size, size + 1].map(roomy).to_vec();
    cases.push(case("nothing written", writing(b"", &[], &[]), None));
    cases.push(case("vertices alone", writing(b"v", &floats, &[]), None));
    cases
}

/// Each fault with those that come after it.
#[rustfmt::skip]
fn faults() -> Vec<Case> {
    let (nan, low) = (f32::NAN, f32::NEG_INFINITY);
    let bare = |writing| Writing { room: 0, ..writing };
    let all = [
        ("9 against 13", writing(b"ab\0c\0", &[nan], &[9]), 9, 2),
        ("13 of floats against 13 of corners", writing(b"", &[nan; 4], &[9; 5]), 13, 4),
        ("13 of corners against 11", writing(b"", &[nan; 3], &[9; 5]), 13, 5),
        ("11 against 12", writing(b"", &[0.0, 0.0, nan, low, 0.0, 0.0], &[9; 3]), 11, 2),
        ("minus infinity", writing(b"", &[0.0, 0.0, 0.0, low, 0.0, nan], &[0; 3]), 11, 3),
        ("infinity", writing(b"", &[0.0, 0.0, f32::INFINITY], &[]), 11, 2),
        ("a corner that is the count", writing(b"", &[0.0; 6], &[0, 1, 1, 0, 2, 7]), 12, 4),
        ("a corner of no vertices", writing(b"", &[], &[0; 3]), 12, 0),
        ("15 against 12", bare(writing(b"", &[0.0; 3], &[0, 0, 1])), 12, 2),
        ("15 against 9", bare(writing(b"\0", &[], &[])), 9, 0),
    ];
    all.into_iter()
        .map(|(name, writing, number, place)| case(name, writing, Some((number, place))))
        .collect()
}

/// 24 at the first bad byte or at 63, after 9 and before 13.
fn texts() -> Vec<Case> {
    let names = [31, 127, 128, 255].map(|byte| (named(5, 3, byte), 3));
    let long = [
        (64, 63, b'~'),
        (65, 64, 31),
        (64, 63, 31),
        (90, 62, 31),
        (90, 0, 255),
    ];
    let long = long.map(|(count, at, byte)| (named(count, at, byte), at.min(63)));
    let mut cases = Vec::with_capacity(32);
    for (name, place) in names.into_iter().chain(long) {
        let said = format!("a writing of the name {name:?}");
        let refusal = Some((24, place));
        cases.push(case(&said, writing(&name, &[0.5; 3], &[0; 3]), refusal));
        let said = format!("{said}, 13 against 24");
        let late = writing(&name, &[f32::NAN; 4], &[]);
        cases.push(case(&said, late, refusal));
        let zero = [&name[..], b"..\0"].concat();
        let (said, place) = (format!("{said} and 9"), zero.len() - 1);
        cases.push(case(&said, writing(&zero, &[], &[]), Some((9, place))));
    }
    for name in [named(63, 62, b'~'), named(63, 0, b' ')] {
        let longest = writing(&name, &[], &[]);
        cases.push(case("a writing of the longest name", longest, None));
    }
    cases
}

/// A name of so many letters, of which one is another byte.
fn named(count: usize, at: usize, byte: u8) -> Vec<u8> {
    let mut name = vec![b'n'; count];
    name[at] = byte;
    name
}

/// Rows as long as they may be, and three more.
fn long_rows() -> Vec<Case> {
    const MOST: usize = 196_605;
    let floats = |count| writing(b"", &vec![1.0; count], &[]);
    let corners = |count| writing(b"", &[0.0; 3], &vec![0; count]);
    vec![
        case("the most floats", floats(MOST), None),
        case("three floats more", floats(MOST + 3), Some((13, MOST + 3))),
        case("the most corners", corners(MOST), None),
        case(
            "three corners more",
            corners(MOST + 3),
            Some((13, MOST + 3)),
        ),
    ]
}

/// A size at the limit, and a byte more.
fn sizes() -> Vec<Case> {
    let sized = |size: usize, corner: u16| {
        let (floats, corners) = ([0.0; 196_605], [corner; 3 * 32_764]);
        let bare = writing(b"", &floats, &corners);
        writing(&vec![b'n'; size - bare.size()], &floats, &corners)
    };
    let mut roomless = sized(LIMIT + 1, 0);
    roomless.room = 0;
    vec![
        case("a writing at the limit", sized(LIMIT, 0), None),
        case("a writing a byte longer", sized(LIMIT + 1, 0), Some((1, 0))),
        case("15 against 1", roomless, Some((1, 0))),
        case("1 against 12", sized(LIMIT + 1, 65_535), Some((12, 0))),
    ]
}
