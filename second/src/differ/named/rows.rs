//! Every row of the table: in each place it may stand, in each it may not,
//! once and twice, and with own data a byte too short and too long.

use super::tree::{accepted, refused_at};
use super::Case;
use crate::differ::grow::LISTED;
use crate::differ::node::{Node, Path};
use crate::differ::parts::called;
use crate::differ::rows::{around, under, HOLDERS};
use crate::{row, Own, Row, ROOT};

/// The kinds of object, which count together.
const KINDS: [u16; 3] = [0x4100, 0x4600, 0x4700];

pub fn cases() -> Vec<Case> {
    let mut cases = Vec::with_capacity(2_048);
    for identifier in LISTED.iter().copied() {
        let Some(row) = row(identifier) else { continue };
        for holder in HOLDERS.iter().copied() {
            match under(identifier, holder) {
                false => cases.extend(misplaced(identifier, holder)),
                true => {
                    cases.extend(sized(identifier, row, holder));
                    cases.extend(repeated(identifier, row, holder));
                }
            }
        }
    }
    cases.extend(
        KINDS
            .into_iter()
            .flat_map(|first| KINDS.map(|second| together(first, second)))
            .flatten(),
    );
    cases
}

/// A chunk of good own data, in a mesh of two vertices and two faces.
fn good(identifier: u16, row: &Row) -> Node {
    let own = match row.own {
        Own::Bytes(count) => vec![0; usize::from(count)],
        Own::Name => vec![b'n', 0],
        Own::Vertices => [&[2, 0][..], &[0; 24]].concat(),
        Own::Faces => [&[1, 0][..], &[0; 8]].concat(),
        Own::Group => vec![b'g', 0, 1, 0, 1, 0],
        Own::Smoothing => vec![0; 8],
        Own::Mapping => [&[2, 0][..], &[0; 16]].concat(),
        Own::Part => called("p", ROOT).own,
    };
    let mut node = Node::leaf(identifier, own);
    match identifier {
        0xAFFF => node.children.push(Node::leaf(0xA000, vec![0])),
        0xB002 => node.children.push(called("", ROOT)),
        _ => (),
    }
    node
}

/// A figure around chunks in a holder, with what is needed before them, and
/// the ways to those that are as the last of them.
fn placed(holder: u16, chunks: Vec<Node>) -> (Node, Vec<Path>) {
    let last = chunks[chunks.len() - 1].clone();
    let root = around(holder, chunks, &mut |node, needed| {
        if node.child(needed.identifier).is_none() {
            node.children.insert(0, needed);
        }
    });
    let paths = root.paths(&|node| *node == last);
    (root, paths)
}

/// A row where it may not stand: 7, whatever its own data.
fn misplaced(identifier: u16, holder: u16) -> Vec<Case> {
    let name = format!("{identifier:04X} under {holder:04X}");
    // Own data that no row has, so that the chunk is none of those around it.
    let chunk = Node::leaf(identifier, vec![0xAB; 7]);
    let (root, paths) = placed(holder, vec![chunk]);
    refused_at(&name, &root, 7, &paths[0], 0).to_vec()
}

/// A row with own data as long as it must be, a byte less and a byte more.
fn sized(identifier: u16, row: &Row, holder: u16) -> Vec<Case> {
    let name = format!("{identifier:04X} in {holder:04X}");
    let chunk = good(identifier, row);
    let (root, _) = placed(holder, vec![chunk.clone()]);
    let mut cases = accepted(&name, &root).to_vec();
    let mut long = chunk.clone();
    long.tail.push(0xAB);
    let (root, paths) = placed(holder, vec![long]);
    let (number, behind) = match row.holds {
        0 => (10, 0),
        _ => (6, chunk.size()),
    };
    let more = format!("{name}, a byte more");
    cases.extend(refused_at(&more, &root, number, &paths[0], behind));
    let mut short = chunk;
    if short.own.pop().is_some() {
        let number = match row.own {
            Own::Name => 9,
            _ => 10,
        };
        let (root, paths) = placed(holder, vec![short]);
        let less = format!("{name}, a byte less");
        cases.extend(refused_at(&less, &root, number, &paths[0], 0));
    }
    cases
}

/// A row twice in one parent: 8 where at most one may be, also if its length
/// is wrong.
fn repeated(identifier: u16, row: &Row, holder: u16) -> Vec<Case> {
    let name = format!("{identifier:04X} twice in {holder:04X}");
    let chunk = good(identifier, row);
    let (root, paths) = placed(holder, vec![chunk.clone(), chunk.clone()]);
    if row.once == 0 {
        return accepted(&name, &root).to_vec();
    }
    let mut cases = refused_at(&name, &root, 8, &paths[1], 0).to_vec();
    let mut bad = chunk.clone();
    bad.own = vec![0xAB; 7];
    let (root, paths) = placed(holder, vec![chunk, bad]);
    let name = format!("{name}, 8 against 9 and 10");
    cases.extend(refused_at(&name, &root, 8, &paths[0], 0));
    cases
}

/// Two kinds in one object, which count together.
fn together(first: u16, second: u16) -> [Case; 2] {
    let chunk = |identifier| {
        Node::leaf(
            identifier,
            match identifier {
                0x4600 => vec![0; 12],
                0x4700 => vec![0; 32],
                _ => vec![],
            },
        )
    };
    let (root, paths) = placed(0x4000, vec![chunk(first), chunk(second)]);
    let name = format!("{first:04X} and {second:04X} in one object");
    let later = &paths[paths.len() - 1];
    refused_at(&name, &root, 8, later, 0)
}
