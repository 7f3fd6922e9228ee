//! Named figures about parts: every kind of tree, every father that is none,
//! and 23 against the refusals around it.

use super::tree::{accepted, refused_at};
use super::Case;
use crate::differ::build::figure;
use crate::differ::node::Node;
use crate::differ::parts::{called, part};
use crate::ROOT;

/// A figure with a keyframer of these blocks behind its 3D3D.
fn keyed(blocks: Vec<Node>) -> Node {
    let mut root = figure(vec![]);
    root.children.push(Node::holding(0xB000, vec![], blocks));
    root
}

/// Parts of these fathers.
fn parts(fathers: &[u16]) -> Vec<Node> {
    fathers.iter().map(|father| part("p", *father)).collect()
}

/// A block of another kind, with a B010 inside.
fn block(identifier: u16) -> Node {
    Node::leaf(identifier, called("b", 0).bytes())
}

pub fn cases() -> Vec<Case> {
    [trees(), fathers(), orders()].concat()
}

#[rustfmt::skip]
fn trees() -> Vec<Case> {
    const R: u16 = ROOT;
    let chain: Vec<u16> = (0..300).map(|number: u16| number.wrapping_sub(1)).collect();
    let star: Vec<u16> = (0..400).map(|number| if number == 0 { R } else { 0 }).collect();
    let halves: Vec<u16> = (0..600).map(|number: u16| if number == 0 { R } else { (number - 1) / 2 }).collect();
    let mut first = keyed(parts(&[R, 0]));
    first.children.reverse();
    let between = vec![block(0xB001), part("a", R), block(0xB003), block(0xB007), part("b", 0), part("c", 1), block(0xB004)];
    let mut inside = parts(&[R, 0]);
    inside[1].children.insert(0, Node::leaf(0xB020, vec![7; 9]));
    inside[1].children.push(Node::leaf(0xB011, vec![]));
    let all = [
        ("no parts", keyed(vec![])),
        ("frames alone", keyed(vec![Node::leaf(0xB008, vec![1; 8])])),
        ("one root", keyed(parts(&[R]))),
        ("roots", keyed(parts(&[R, R, R]))),
        ("a chain", keyed(parts(&[R, 0, 1, 2, 3]))),
        ("a star", keyed(parts(&[R, 0, 0, 0, 0]))),
        ("two trees", keyed(parts(&[R, 0, R, 2, 1, 3, 0, 5]))),
        ("a keyframer before the 3D3D", first),
        ("300 in a chain", keyed(parts(&chain))),
        ("400 in a star", keyed(parts(&star))),
        ("600 in halves", keyed(parts(&halves))),
        ("other blocks between", keyed(between)),
        ("private chunks in a part", keyed(inside)),
        ("a part without letters", keyed(vec![part("", R)])),
    ];
    all.iter().flat_map(|(name, root)| accepted(name, root)).collect()
}

/// Fathers that are no earlier part.
fn fathers() -> Vec<Case> {
    let mut cases = Vec::with_capacity(64);
    // The fathers before it, and the one that is wrong.
    let good: [&[u16]; 4] = [&[], &[ROOT], &[ROOT, 0, 1], &[ROOT, ROOT, 1, 0, 3]];
    for before in good {
        let own = before.len() as u16;
        for wrong in [own, own + 1, own + 2, 256, 0x7FFF, 0x8000, 65_534] {
            let blocks = parts(&[before, &[wrong], &[ROOT, ROOT, ROOT]].concat());
            let name = format!("part {own} hangs on {wrong}");
            let path = [1, before.len(), 0];
            cases.extend(refused_at(&name, &keyed(blocks), 23, &path, 0));
        }
    }
    let long: Vec<u16> = (0..300)
        .map(|number| if number == 0 { ROOT } else { 0 })
        .collect();
    let blocks = parts(&[&long[..], &[300]].concat());
    let last = refused_at(
        "the 301st is its own father",
        &keyed(blocks),
        23,
        &[1, 300, 0],
        0,
    );
    cases.extend(last);
    // Of the blocks only the B002 have numbers.
    let counted = vec![block(0xB001), part("a", ROOT), part("b", 1)];
    let name = "another block has no number";
    cases.extend(refused_at(name, &keyed(counted), 23, &[1, 2, 0], 0));
    cases
}

/// 23 after what comes before it; at most one and at least one.
fn orders() -> Vec<Case> {
    let of_heads = heads().into_iter().flat_map(|(name, own, number)| {
        let bad = Node::holding(0xB002, vec![], vec![Node::leaf(0xB010, own)]);
        let root = keyed(vec![part("a", ROOT), bad]);
        refused_at(&format!("a part: {name}"), &root, number, &[1, 1, 0], 0)
    });
    let of_parts = broken_parts();
    let of_parts = of_parts.iter().flat_map(|(name, parts, number, path)| {
        let behind = if *number == 6 { 20 } else { 0 };
        let root = keyed(parts.clone());
        refused_at(&format!("a part: {name}"), &root, *number, path, behind)
    });
    of_heads.chain(of_parts).collect()
}

/// Own data of a B010 behind a good part, and its refusal.
fn heads() -> Vec<(&'static str, Vec<u8>, u32)> {
    let own = |name: &[u8], rest: &[u8]| [name, rest].concat();
    vec![
        ("no bytes", vec![], 9),
        ("no zero", own(b"abcdefg", b""), 9),
        ("23 against 9", own(b"a", &[9; 6]), 9),
        ("23 against 24", own(b"\x1F\0", &[9; 6]), 24),
        ("10 against 24", own(b"\x1F\0", &[9; 5]), 24),
        ("23 against 10: a byte less", own(b"a\0", &[9; 5]), 10),
        ("23 against 10: a byte more", own(b"a\0", &[9; 7]), 10),
        ("a name alone", own(b"a\0", b""), 10),
    ]
}

/// Parts, the refusal, and where it is.
fn broken_parts() -> Vec<(&'static str, Vec<Node>, u32, Vec<usize>)> {
    let good = || part("a", ROOT);
    let twice = Node::holding(0xB002, vec![], vec![called("b", 0), called("b", 9)]);
    let bare = || Node::holding(0xB002, vec![], vec![Node::leaf(0xB020, vec![])]);
    let mut strays = part("b", 0);
    strays.tail = vec![0; 5];
    vec![
        ("23 against 8", vec![good(), twice], 8, vec![1, 1, 1]),
        ("no B010", vec![good(), bare()], 14, vec![1, 1]),
        ("14 before 23", vec![bare(), part("a", 9)], 14, vec![1, 0]),
        ("6 in a part", vec![good(), strays], 6, vec![1, 1]),
    ]
}
