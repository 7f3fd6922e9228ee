//! Named figures about mapping lists: each version in each place, with each
//! count of pairs.

use super::tree::{accepted, refused_at};
use super::Case;
use crate::differ::build::{figure, meshed, pairs, points};
use crate::differ::node::Node;

/// A figure whose mesh has two vertices and so many pairs, or no 4110.
fn mapped(m: usize, with_vertices: bool) -> Node {
    let floats = [1.5, -0.0, 2.5, 7.0, 0.5, -3.0];
    let mut parts = vec![pairs(&floats[..2 * m])];
    if with_vertices {
        parts.push(points(&[1.0; 6]));
    }
    figure(vec![
        meshed("m", parts),
        meshed("none", vec![points(&[2.0; 3])]),
    ])
}

/// A version's chunk with so many bytes of own data.
fn version(number: u32, bytes: usize) -> Node {
    let mut own = number.to_le_bytes().to_vec();
    own.resize(bytes, 0);
    Node::leaf(0x0002, own)
}

/// Whether so many pairs are right for two vertices, or for none.
fn right(m: usize, n: usize, old: bool) -> bool {
    m == n || (old && m < n)
}

pub fn cases() -> Vec<Case> {
    [versions(), hidden(), behind_faults()].concat()
}

/// Versions at and around the one that divides old from new, in all bytes.
const NUMBERS: [u32; 10] = [
    0,
    1,
    2,
    3,
    4,
    0x0100,
    0x0002_0000,
    0x0003_0001,
    1 << 31,
    u32::MAX,
];

/// Every version, absent, before the 3D3D and behind it.
fn versions() -> Vec<Case> {
    let mut cases = Vec::with_capacity(256);
    for number in [None].into_iter().chain(NUMBERS.map(Some)) {
        for spot in [0, 1] {
            cases.extend((0..4).flat_map(|m| one(number, spot, m, true)));
            cases.extend((0..2).flat_map(|m| one(number, spot, m, false)));
        }
    }
    cases
}

/// One version in one place, and so many pairs.
fn one(number: Option<u32>, spot: usize, m: usize, with_vertices: bool) -> [Case; 2] {
    let mut root = mapped(m, with_vertices);
    let chunk = number.map(|number| version(number, 4));
    root.children.splice(spot..spot, chunk);
    let edit = if number.is_some() { 1 - spot } else { 0 };
    let name = format!("version {number:?} at {spot}, {m} pairs, vertices: {with_vertices}");
    let n = if with_vertices { 2 } else { 0 };
    match right(m, n, number.is_none_or(|number| number < 3)) {
        true => accepted(&name, &root),
        false => refused_at(&name, &root, 13, &[edit, 0, 0, 0], 0),
    }
}

/// Versions that are none: inside other chunks.
fn hidden() -> Vec<Case> {
    let bytes = version(3, 4).bytes();
    let mut root = mapped(1, true);
    root.children.insert(0, Node::leaf(0x8123, bytes.clone()));
    root.children.push(Node::leaf(0xB0FF, bytes));
    accepted("a version in unlisted chunks", &root).to_vec()
}

/// A version of a right length.
fn told(number: u32) -> Node {
    version(number, 4)
}

/// A version 3 whose length is said to be another.
fn bad(length: u32) -> Node {
    let mut node = told(3);
    node.stated = Some(length);
    node
}

/// The mesh of one pair stands before faults that the walk meets later: of a
/// new figure 13 is met first, of an old one the fault.
fn behind_faults() -> Vec<Case> {
    let mut cases = Vec::with_capacity(64);
    for (name, behind) in new_behind() {
        let root = followed(behind);
        cases.extend(refused_at(name, &root, 13, &[0, 0, 0, 0], 0));
    }
    for (name, behind, number, which) in old_behind() {
        let root = followed(behind);
        cases.extend(refused_at(name, &root, number, &[which], 0));
    }
    // One inside the 3D3D is misplaced, and no version.
    let mut root = mapped(1, true);
    root.children[0].children.push(told(3));
    cases.extend(refused_at("3 in the 3D3D", &root, 7, &[0, 2], 0));
    // A version of 3 behind which five bytes are left still is one.
    let mut root = followed(vec![told(3)]);
    root.tail = vec![2, 0, 10, 0, 0];
    let name = "3 before stray bytes";
    cases.extend(refused_at(name, &root, 13, &[0, 0, 0, 0], 0));
    cases
}

/// The figure of one pair with these children behind its 3D3D.
fn followed(behind: Vec<Node>) -> Node {
    let mut root = mapped(1, true);
    root.children.extend(behind);
    root
}

/// Children behind the 3D3D that make a figure new.
fn new_behind() -> Vec<(&'static str, Vec<Node>)> {
    let inside = Node::leaf(2, told(2).bytes());
    vec![
        ("first 3, then 2", vec![told(3), told(2)]),
        ("3 behind a short one", vec![version(2, 3), told(3)]),
        ("3 before a length of 5", vec![told(3), bad(5)]),
        ("3 before an overrun", vec![told(3), bad(999)]),
        ("2 in the one of another length", vec![told(3), inside]),
    ]
}

/// Children that leave it old, the later fault, and at which child it is.
fn old_behind() -> Vec<(&'static str, Vec<Node>, u32, usize)> {
    vec![
        ("first 2, then 3", vec![told(2), told(3)], 8, 2),
        ("2 behind a long one", vec![version(3, 5), told(2)], 10, 1),
        ("a long one alone", vec![version(3, 5)], 10, 1),
        ("a short one alone", vec![version(3, 3)], 10, 1),
        ("3 behind a length of 5", vec![bad(5), told(3)], 4, 1),
        ("3 behind an overrun", vec![bad(999), told(3)], 5, 1),
        ("a length of 0 is no version", vec![bad(0)], 4, 1),
    ]
}
