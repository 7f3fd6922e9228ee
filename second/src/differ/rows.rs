//! Every row of the table tried: each identifier under each chunk it may
//! stand in, with bodies of every length.

use super::grow::LISTED;
use super::node::Node;
use super::parts::called;
use super::random::Random;
use crate::{row, ROOT};

/// The identifiers whose rows end in "+"; but for the camera, in which no listed
/// chunk may stand.
pub const HOLDERS: &[u16] = &[
    0x4D4D, 0x3D3D, 0x2100, 0xAFFF, 0xA010, 0xA020, 0xA030, 0xA040, 0x4000, 0x4100, 0x4120, 0x4600,
    0x4610, 0xB000, 0xB002,
];

/// Body lengths tried: up to one more than the longest fixed row.
const LENGTHS: usize = 66;

/// How a body is filled.
const FILLS: usize = 5;

/// How many chunks of one kind in one place there are.
const PLACES: usize = 77;

/// How many cases there are.
pub const CASES: usize = PLACES * LENGTHS * FILLS;

/// Every listed identifier in every place it may stand, and an unlisted one in
/// each; those in other places are swept over elsewhere.
fn places() -> Vec<(u16, u16)> {
    let mut places = Vec::with_capacity(PLACES);
    for holder in HOLDERS.iter().copied() {
        let all = LISTED.iter().copied();
        let legal = all.filter(|inside| under(*inside, holder));
        places.extend(legal.map(|identifier| (identifier, holder)));
        places.push((0xB001, holder));
    }
    places
}

/// The figure of a case: one chunk with a body under one holder.
pub fn tried(case: usize, random: &mut Random) -> Node {
    let (case, fill) = (case / FILLS, case % FILLS);
    let (which, length) = (case / LENGTHS, case % LENGTHS);
    let places = places();
    let (identifier, holder) = places[which % places.len()];
    let chunk = Node::leaf(identifier, body(fill, length, random));
    in_holder(holder, vec![chunk], random)
}

/// A body of a length: random, zeros, a good count, or a name.
fn body(fill: usize, length: usize, random: &mut Random) -> Vec<u8> {
    let mut body = match fill {
        0 => random.bytes(length),
        1 => vec![0; length],
        2 => vec![1; length],
        _ => random.bytes(length).iter().map(|byte| byte & 1).collect(),
    };
    if fill == 4 && length >= 2 {
        let each = random.pick(&[8, 12]);
        let count = ((length - 2) / each) as u16;
        body[..2].copy_from_slice(&count.to_le_bytes());
    }
    body
}

/// A figure around children of a holder, each chunk as bare as it may be; what
/// a chunk needs besides is put into it as one is told.
pub fn around(holder: u16, children: Vec<Node>, put: &mut dyn FnMut(&mut Node, Node)) -> Node {
    let own = match holder {
        0x4000 => vec![0],
        0x4120 => [&[2, 0][..], &[0; 16]].concat(),
        0x4600 => vec![0; 12],
        0x4610 => vec![0; 20],
        _ => vec![],
    };
    let mut node = Node::holding(holder, own, children);
    if let Some(needed) = needed(holder) {
        put(&mut node, needed);
    }
    match holder {
        0x4D4D => node,
        _ => {
            let mut parents = HOLDERS.iter().copied();
            let parent = parents.find(|parent| under(holder, *parent));
            around(parent.unwrap_or(0x4D4D), vec![node], put)
        }
    }
}

/// The same, with what is needed on either side, and sometimes once too often.
pub fn in_holder(holder: u16, children: Vec<Node>, random: &mut Random) -> Node {
    around(holder, children, &mut |node, needed| {
        let there = node.child(needed.identifier).is_some();
        if !there || random.chance(3) {
            let spot = random.below(node.children.len() + 1);
            node.children.insert(spot, needed);
        }
    })
}

/// Whether a chunk may stand under another.
pub fn under(identifier: u16, parent: u16) -> bool {
    match (row(identifier), row(parent)) {
        (Some(row), Some(parent)) => row.under & parent.holds != 0,
        _ => false,
    }
}

/// What a holder needs, and the vertices for its faces.
fn needed(holder: u16) -> Option<Node> {
    match holder {
        0x4D4D => Some(Node::leaf(0x3D3D, vec![])),
        0xAFFF => Some(Node::leaf(0xA000, vec![0])),
        0xB002 => Some(called("", ROOT)),
        0x4100 => Some(Node::leaf(0x4110, [&[2, 0][..], &[0; 24]].concat())),
        _ => None,
    }
}

#[test]
fn the_places_are_counted() {
    assert_eq!(places().len(), PLACES);
}
