//! Named figures about names: what a label takes, in each chunk that has one,
//! and 24 against the refusals around it.

use super::tree::{accepted, refused_at};
use super::Case;
use crate::differ::build::{faces, figure, meshed, object};
use crate::differ::node::{Node, Path};

/// A figure with a chunk that has a name, the way to it, and what stands behind
/// the name's zero.
type Place = (u16, fn(Node) -> Node, &'static [usize], &'static [u8]);

const PLACES: [Place; 5] = [
    (0x4000, |chunk| figure(vec![chunk]), &[0, 0], &[]),
    (0xA000, material, &[0, 0, 0], &[]),
    (0x4130, grouped, &[0, 0, 0, 0, 0], &[0, 0]),
    (0x4653, spot, &[0, 0, 0, 0, 0], &[]),
    (0xB010, hung, &[1, 0, 0], &[0, 0, 0, 0, 255, 255]),
];

fn material(name: Node) -> Node {
    figure(vec![Node::holding(0xAFFF, vec![], vec![name])])
}

fn grouped(group: Node) -> Node {
    figure(vec![meshed("m", vec![faces(&[], vec![group])])])
}

fn spot(file: Node) -> Node {
    let spot = Node::holding(0x4610, vec![0; 20], vec![file]);
    figure(vec![object(
        "lamp",
        vec![Node::holding(0x4600, vec![0; 12], vec![spot])],
    )])
}

fn hung(part: Node) -> Node {
    let part = Node::holding(0xB002, vec![], vec![part]);
    let mut root = figure(vec![]);
    root.children
        .push(Node::holding(0xB000, vec![], vec![part]));
    root
}

pub fn cases() -> Vec<Case> {
    let mut cases: Vec<Case> = PLACES.into_iter().flat_map(in_place).collect();
    cases.extend(orders());
    cases
}

/// So many letters, with a byte at a position.
fn letters(count: usize, at: usize, byte: u8) -> Vec<u8> {
    let mut name = vec![b'n'; count];
    name[at] = byte;
    name
}

/// Names in one chunk.
fn in_place((identifier, around, path, behind): Place) -> Vec<Case> {
    let mut cases = Vec::with_capacity(64);
    let all: Vec<u8> = (32..=126).collect();
    for name in [&all[..63], &all[63..], b"", b" ", b"~"] {
        let own = [name, &[0], behind].concat();
        let root = around(Node::leaf(identifier, own));
        let said = format!("{} good bytes of a name in {identifier:04X}", name.len());
        cases.extend(accepted(&said, &root));
    }
    let long = [64, 65, 255, 300].map(|count| letters(count, 0, b'~'));
    let bytes = [1, 31, 127, 128, 160, 255].map(|byte| letters(3, 1, byte));
    let around_63 = [(63, 62), (64, 0), (64, 62), (64, 63), (65, 64), (70, 66)];
    let around_63 = around_63.map(|(count, at)| letters(count, at, 31));
    for name in long.iter().chain(&bytes).chain(&around_63) {
        let root = around(Node::leaf(identifier, [&name[..], &[0], behind].concat()));
        let said = format!("{identifier:04X} with the name {name:?}");
        cases.extend(refused_at(&said, &root, 24, path, 0));
        // Without a zero it is no name at all.
        let root = around(Node::leaf(identifier, name.clone()));
        cases.extend(refused_at(&format!("{said}, no zero"), &root, 9, path, 0));
    }
    cases
}

/// 24 before what comes after it, and after what comes before.
#[rustfmt::skip]
fn orders() -> Vec<Case> {
    let leaf = |identifier, own: &[u8]| Node::leaf(identifier, own.to_vec());
    let good = || leaf(0xA000, b"oak\0");
    let bad = || leaf(0xA000, b"o\x07k\0");
    let twice = Node::holding(0xAFFF, vec![], vec![good(), bad()]);
    let mut stray = figure(vec![leaf(0x4000, b"\x7F\0")]);
    stray.at(&[0, 0]).tail = vec![0; 3];
    let all: [(&str, Node, u32, Path); 7] = [
        ("10 against 24: a material", material(leaf(0xA000, b"\x1F\0\0")), 24, vec![0, 0, 0]),
        ("10 against 24: a spot", spot(leaf(0x4653, b"\xFF\0\0")), 24, vec![0; 5]),
        ("10 against 24: a group", grouped(leaf(0x4130, b"\x1F\0\0")), 24, vec![0; 5]),
        ("12 against 24", grouped(leaf(0x4130, b"\x1F\0\x01\0\x09\0")), 24, vec![0; 5]),
        ("6 against 24", stray, 24, vec![0, 0]),
        ("24 against 8", figure(vec![twice]), 8, vec![0, 0, 1]),
        ("24 against 7", figure(vec![bad()]), 7, vec![0, 0]),
    ];
    all.into_iter()
        .flat_map(|(name, root, number, path)| refused_at(name, &root, number, &path, 0))
        .collect()
}
