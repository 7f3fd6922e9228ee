//! Mapping lists: which count a figure's version asks for, and the table of
//! pairs with what is missing in it; asked of both sides.

mod common;
use common::{chunk, figure, object, vertices, words};
use second::boundary::{refused, Boundary, Right, Second};

/// What both sides answer, which is the same, and what the lent bytes become.
fn both(room: usize, call: impl Fn(&dyn Boundary, &mut [u8]) -> u64) -> (u64, Vec<u8>) {
    let [left, right] = [&Second as &dyn Boundary, &Right::default()].map(|side| {
        let mut lent = vec![0xA5; room];
        (call(side, &mut lent), lent)
    });
    assert_eq!(right, left, "right, left");
    left
}

/// The check's answer.
fn check(file: &[u8]) -> u64 {
    both(0, |side, _| side.check(file)).0
}

/// A 4140 of so many pairs, 1 and 2, 3 and 4, and so on.
fn pairs(m: u16) -> Vec<u8> {
    let floats = (1..=2 * m).flat_map(|float| f32::from(float).to_le_bytes());
    chunk(0x4140, &[&words(&[m]), &floats.collect::<Vec<u8>>()])
}

/// A mesh of two vertices and so many pairs; the 4140 stands at 25 in its 3D3D.
fn mesh(m: u16) -> Vec<u8> {
    object(&[&pairs(m), &vertices(&[0.5; 6])])
}

/// A figure of a version and a 3D3D behind it.
fn versioned(version: u32, objects: &[&[u8]]) -> Vec<u8> {
    let version = chunk(0x0002, &[&version.to_le_bytes()]);
    chunk(0x4D4D, &[&version, &chunk(0x3D3D, objects)])
}

#[test]
fn the_version_decides() {
    for m in 0..2 {
        assert_eq!(check(&figure(&[&mesh(m)])), 6);
        for version in 0..3 {
            assert_eq!(check(&versioned(version, &[&mesh(m)])), 7);
        }
        for version in [3, 4, 0x0100, 1 << 31, u32::MAX] {
            assert_eq!(check(&versioned(version, &[&mesh(m)])), refused(13, 35));
        }
    }
    for version in 0..5 {
        assert_eq!(check(&versioned(version, &[&mesh(2)])), 7);
        assert_eq!(check(&versioned(version, &[&mesh(3)])), refused(13, 35));
        let bare = object(&[&pairs(1)]);
        assert_eq!(check(&versioned(version, &[&bare])), refused(13, 35));
    }
}

#[test]
fn the_first_version_of_length_10() {
    let edit = chunk(0x3D3D, &[&mesh(1)]);
    let version =
        |number: u8, bytes: usize| chunk(0x0002, &[&[&[number], &[0; 9][..]].concat()[..bytes]]);
    let file = |behind: &[&[u8]]| check(&chunk(0x4D4D, &[&edit, &behind.concat()]));
    let end = 6 + edit.len();
    assert_eq!(file(&[&version(3, 4)]), refused(13, 25));
    assert_eq!(file(&[&version(2, 4)]), 7);
    assert_eq!(
        file(&[&version(2, 4), &version(3, 4)]),
        refused(8, end + 10)
    );
    assert_eq!(file(&[&version(3, 4), &version(2, 4)]), refused(13, 25));
    assert_eq!(file(&[&version(3, 5)]), refused(10, end));
    assert_eq!(file(&[&version(2, 5), &version(3, 4)]), refused(13, 25));
    // A bad header ends the search, but not what was found before it.
    assert_eq!(
        file(&[&[2, 0, 5, 0, 0, 0], &version(3, 4)]),
        refused(4, end)
    );
    assert_eq!(
        file(&[&version(3, 4), &[2, 0, 5, 0, 0, 0]]),
        refused(13, 25)
    );
    assert_eq!(file(&[&version(3, 4), &[2]]), refused(13, 25));
    // One that runs over the end of the file tells nothing.
    assert_eq!(file(&[&version(3, 4)[..9]]), refused(5, end));
    // One inside a private chunk is never looked at.
    assert_eq!(file(&[&chunk(0x8123, &[&version(3, 4)])]), 6);
}

#[test]
fn pairs_are_two_numbers_a_vertex() {
    let file = versioned(
        3,
        &[&mesh(2), &object(&[&vertices(&[1.0; 3])]), &object(&[])],
    );
    let (answer, out) = both(20, |side, out| side.mapping(&file, 0, out));
    let floats = [1.0_f32, 2.0, 3.0, 4.0].map(f32::to_le_bytes).concat();
    assert_eq!((answer, out), (4, [&floats[..], &[0xA5; 4]].concat()));
    for room in [0, 15] {
        let (answer, out) = both(room, |side, out| side.mapping(&file, 0, out));
        assert_eq!((answer, out), (refused(15, 4), vec![0xA5; room]));
    }
    for mesh in [1, 2] {
        let (answer, out) = both(9, |side, out| side.mapping(&file, mesh, out));
        assert_eq!((answer, out), (0, vec![0xA5; 9]));
    }
    for mesh in [3, u32::MAX] {
        let (answer, _) = both(0, |side, out| side.mapping(&file, mesh, out));
        assert_eq!(answer, refused(16, 3));
    }
    let (answer, _) = both(0, |side, out| side.mapping(&file[1..], 9, out));
    assert_eq!(answer, refused(2, 0));
}

#[test]
fn missing_pairs_are_zero() {
    let file = figure(&[&mesh(1), &mesh(0), &object(&[&pairs(0)])]);
    let (answer, out) = both(18, |side, out| side.mapping(&file, 0, out));
    let floats = [1.0_f32, 2.0, 0.0, 0.0].map(f32::to_le_bytes).concat();
    assert_eq!((answer, out), (4, [&floats[..], &[0xA5; 2]].concat()));
    let (answer, out) = both(16, |side, out| side.mapping(&file, 1, out));
    assert_eq!((answer, out), (4, vec![0; 16]));
    let (answer, _) = both(15, |side, out| side.mapping(&file, 1, out));
    assert_eq!(answer, refused(15, 4));
    let (answer, out) = both(16, |side, out| side.mapping(&file, 2, out));
    assert_eq!((answer, out), (0, vec![0xA5; 16]));
}
