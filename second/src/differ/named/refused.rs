//! Named figures that are refused: each refusal of the walk, each against
//! those it comes before or after, and its place.

use super::tree::refused_at;
use super::Case;
use crate::differ::build::{faces, figure, group, meshed, object, pairs, points, words};
use crate::differ::node::Node;

/// A figure and its refusal: the number, the way to the chunk, and how many
/// bytes behind the chunk's first the place is.
type Fault = (String, Node, u32, Vec<usize>, usize);

pub fn cases() -> Vec<Case> {
    let all = [
        floats(),
        corners(),
        groups(),
        mapping(),
        lengths(),
        headers(),
        strays(),
        missing(),
        names(),
    ];
    let faults = all.concat();
    let faults = faults.iter();
    faults
        .flat_map(|(name, root, number, path, behind)| {
            refused_at(name, root, *number, path, *behind)
        })
        .collect()
}

/// A fault at a chunk.
fn at(path: &[usize], name: &str, root: Node, number: u32) -> Fault {
    behind(0, path, name, root, number)
}

/// A fault so many bytes behind the first of a chunk.
fn behind(bytes: usize, path: &[usize], name: &str, root: Node, number: u32) -> Fault {
    (name.to_string(), root, number, path.to_vec(), bytes)
}

/// A fault at a part of the mesh of an only object.
fn part(which: usize, name: &str, parts: Vec<Node>, number: u32) -> Fault {
    at(&[0, 0, 0, which], name, mesh(parts), number)
}

/// A figure of an only object, which is a mesh.
fn mesh(parts: Vec<Node>) -> Node {
    figure(vec![meshed("m", parts)])
}

/// The same in a figure whose version asks for as many pairs as vertices.
fn mapped(which: usize, name: &str, parts: Vec<Node>, number: u32) -> Fault {
    let mut root = mesh(parts);
    root.children.push(Node::leaf(0x0002, vec![3, 0, 0, 0]));
    at(&[0, 0, 0, which], name, root, number)
}

/// A chunk without its last byte of own data, and one with a byte more.
fn shorter(mut node: Node) -> Node {
    node.own.pop();
    node
}

fn longer(mut node: Node) -> Node {
    node.own.push(0);
    node
}

fn floats() -> Vec<Fault> {
    let bad = [
        ("not-a-number", 0x7FC0_0000),
        ("minus not-a-number", 0xFFC0_0000),
        ("not-a-number by the last bit", 0x7F80_0001),
        ("infinity", 0x7F80_0000),
        ("minus infinity", 0xFF80_0000),
    ];
    bad.into_iter()
        .flat_map(|(name, bits)| bad_float(name, f32::from_bits(bits)))
        .collect()
}

/// A bad float in both lists, at the first and last places, and against 10.
#[rustfmt::skip]
fn bad_float(name: &str, bad: f32) -> Vec<Fault> {
    let mut all = vec![
        part(0, &format!("11 against 10: {name} in a 4110"), vec![longer(points(&[bad; 3]))], 10),
        part(0, &format!("11 against 10: {name} in a 4140"), vec![shorter(pairs(&[bad; 2]))], 10),
    ];
    for at in [0, 4, 5] {
        let mut floats = [1.0; 6];
        floats[at] = bad;
        let (three, mapping) = (points(&[0.0; 9]), pairs(&floats));
        all.push(part(0, &format!("{name} as float {at} of a 4110"), vec![points(&floats)], 11));
        all.push(part(1, &format!("{name} as float {at} of a 4140"), vec![three, mapping], 11));
    }
    let parts = vec![faces(&[[5; 3]], vec![]), pairs(&[bad; 2]), points(&[0.0; 3])];
    all.push(part(1, &format!("12 and 13 against {name}"), parts, 11));
    all
}

#[rustfmt::skip]
fn corners() -> Vec<Fault> {
    let good = || points(&[1.0; 6]);
    let one = |corner| faces(&[[corner; 3]], vec![]);
    let mut all = vec![
        part(0, "faces without a 4110", vec![one(0)], 12),
        part(0, "faces before a 4110 of none", vec![one(0), points(&[])], 12),
        part(1, "a corner of 256", vec![good(), one(256)], 12),
        part(2, "12 against 10 behind it", vec![one(9), good(), Node::leaf(0x4165, vec![0; 2])], 10),
    ];
    for corner in 0..3 {
        let mut face = [1; 3];
        face[corner] = 2;
        let bad = || faces(&[[0; 3], face, [1; 3]], vec![]);
        let second = figure(vec![meshed("first", vec![good(), one(1)]), meshed("", vec![good(), bad()])]);
        all.push(part(1, &format!("corner {corner} is n"), vec![good(), bad()], 12));
        all.push(part(0, &format!("corner {corner} is n, before the 4110"), vec![bad(), good()], 12));
        all.push(at(&[0, 1, 0, 1], &format!("corner {corner} is n, in a second mesh"), second, 12));
    }
    all
}

#[rustfmt::skip]
fn groups() -> Vec<Fault> {
    let grouped = |corners: &[[u16; 3]], group| mesh(vec![points(&[1.0; 9]), faces(corners, vec![group])]);
    let inside = [0, 0, 0, 1, 0];
    let two = [[0; 3], [2; 3]];
    let mut wide = group("g", &[2, 0]);
    wide.own[2] = 1;
    let half = Node::leaf(0x4130, b"g\0\x01".to_vec());
    vec![
        at(&inside, "a group's face is f", grouped(&two, group("g", &[2])), 12),
        at(&inside, "the last of a group's faces is f", grouped(&two, group("", &[0, 1, 2])), 12),
        at(&inside, "a group where there are no faces", grouped(&[], group("g", &[0])), 12),
        at(&inside, "a bad group before bad corners", grouped(&[[9; 3]], group("g", &[1])), 12),
        at(&inside[..4], "a good group and bad corners", grouped(&[[9; 3]], group("g", &[0])), 12),
        at(&inside, "a group a byte too long", grouped(&two, longer(group("g", &[0]))), 10),
        at(&inside, "a group a byte too short", grouped(&two, shorter(group("g", &[0]))), 10),
        at(&inside, "12 against 10: a group two bytes too long", grouped(&two, wide), 10),
        at(&inside, "a group whose count has one byte", grouped(&two, half), 10),
    ]
}

#[rustfmt::skip]
fn mapping() -> Vec<Fault> {
    let good = || points(&[1.0; 6]);
    let bad = || faces(&[[0, 0, 2]], vec![]);
    let (less, more) = (|| pairs(&[0.0; 2]), || pairs(&[0.0; 6]));
    vec![
        mapped(0, "a 4140 without a 4110", vec![less()], 13),
        mapped(1, "a pair too few", vec![good(), less()], 13),
        mapped(0, "a pair too many", vec![more(), good()], 13),
        mapped(0, "no pairs", vec![pairs(&[]), good()], 13),
        part(2, "13 against 12", vec![more(), good(), bad()], 12),
        part(2, "13 against 10 behind it", vec![more(), good(), Node::leaf(0x4160, vec![0; 47])], 10),
    ]
}

#[rustfmt::skip]
fn lengths() -> Vec<Fault> {
    let count = |mut node: Node, count: u16| {
        node.own[..2].copy_from_slice(&words(&[count]));
        node
    };
    let (point, pair) = (|| points(&[0.0; 3]), || pairs(&[0.0; 2]));
    let face = || faces(&[[0; 3]], vec![]);
    let smoothing = |bytes| faces(&[[0; 3]; 2], vec![Node::leaf(0x4150, vec![0; bytes])]);
    let mut all = vec![
        part(0, "a vertex count too big", vec![count(point(), 2)], 10),
        part(0, "a vertex count too small", vec![count(point(), 0)], 10),
        part(0, "a pair count too big", vec![count(pair(), 2)], 10),
        part(0, "a pair count too small", vec![count(pair(), 0)], 10),
        part(1, "a face count too big", vec![point(), count(face(), 2)], 10),
        part(0, "a face count of 65,535", vec![count(face(), 65_535)], 10),
        // Behind the count word of none a child of length 0 is met.
        behind(8, &[0, 0, 0, 1], "a face count too small", mesh(vec![point(), count(face(), 0)]), 4),
    ];
    for bytes in [0, 2, 4, 7, 9] {
        let name = format!("smoothing of {bytes} bytes for two faces");
        all.push(at(&[0, 0, 0, 1, 0], &name, mesh(vec![point(), smoothing(bytes)]), 10));
    }
    all
}

#[rustfmt::skip]
fn headers() -> Vec<Fault> {
    let stating = |mut node: Node, length| {
        node.stated = Some(length);
        node
    };
    let edit = |length| stating(Node::leaf(0x3D3D, vec![]), length);
    let root = |children| Node::holding(0x4D4D, vec![], children);
    let mut all = vec![
        at(&[0], "P7", root(vec![edit(7)]), 5),
        at(&[1], "8 against 5", root(vec![edit(6), edit(7)]), 5),
        at(&[1], "8 against 4", root(vec![edit(6), edit(5)]), 4),
    ];
    for (identifier, kind) in [(0x1400, "known"), (0x8123, "unlisted"), (0x0002, "misplaced")] {
        for (length, number) in LENGTHS {
            let chunk = stating(Node::leaf(identifier, vec![0; 4]), length);
            let root = figure(vec![Node::leaf(0x1470, vec![]), chunk]);
            all.push(at(&[0, 1], &format!("{kind}, length {length}"), root, number));
        }
    }
    all
}

/// Lengths of a last chunk of ten bytes; behind some of them its end passes 2^32.
const LENGTHS: [(u32, u32); 9] = [
    (0, 4),
    (1, 4),
    (5, 4),
    (11, 5),
    (16, 5),
    (0x1_000A, 5),
    (0x8000_0000, 5),
    (u32::MAX - 17, 5),
    (u32::MAX, 5),
];

#[rustfmt::skip]
fn strays() -> Vec<Fault> {
    let mut all = Vec::new();
    for count in 1..6 {
        let leaving = |path: &[usize], mut root: Node| {
            let behind = root.at(path).size();
            root.at(path).tail = vec![0x41; count];
            (root, behind)
        };
        let empty = Node::leaf(0x4D4D, vec![]);
        for (name, path, root) in [
            ("in 3D3D", &[0][..], figure(vec![Node::leaf(0x1470, vec![])])),
            ("in 4120", &[0, 0, 0, 0], mesh(vec![faces(&[], vec![])])),
            ("in 4D4D: against 14", &[], empty),
        ] {
            let (root, left) = leaving(path, root);
            all.push(behind(left, path, &format!("{count} bytes left {name}"), root, 6));
        }
        let leaf = figure(vec![Node::leaf(0x1470, vec![0; count])]);
        all.push(at(&[0, 0], &format!("{count} bytes in a chunk of none"), leaf, 10));
    }
    all
}

#[rustfmt::skip]
fn missing() -> Vec<Fault> {
    let material = |children| Node::holding(0xAFFF, vec![], children);
    let bare = || material(vec![Node::leaf(0xA010, vec![])]);
    let name = || Node::leaf(0xA000, vec![0]);
    let version = Node::holding(0x4D4D, vec![], vec![Node::leaf(0x0002, vec![3, 0, 0, 0])]);
    let stray = figure(vec![material(vec![Node::leaf(0xA010, vec![0; 3])])]);
    vec![
        at(&[], "P3", Node::leaf(0x4D4D, vec![]), 14),
        at(&[], "a version alone", version, 14),
        at(&[0, 0], "no name", figure(vec![bare()]), 14),
        at(&[0, 1], "no name in the second", figure(vec![material(vec![name()]), bare()]), 14),
        at(&[0, 0], "14 before 7 behind it", figure(vec![bare(), name()]), 14),
        behind(6, &[0, 0, 0], "14 against a fault inside", stray, 6),
    ]
}

#[rustfmt::skip]
fn names() -> Vec<Fault> {
    let leaf = |identifier, own: &[u8]| Node::leaf(identifier, own.to_vec());
    let named = |own| figure(vec![leaf(0x4000, own), Node::leaf(0x1470, vec![])]);
    let material = |own| figure(vec![Node::holding(0xAFFF, vec![], vec![leaf(0xA000, own)])]);
    let grouped = |own| mesh(vec![faces(&[], vec![leaf(0x4130, own)])]);
    // The zero is found in the child's length: no label takes such a name.
    let run_on = figure(vec![shorter(object("abc", vec![Node::leaf(0x4010, vec![])]))]);
    vec![
        at(&[0, 0], "an object of no bytes", named(b""), 9),
        at(&[0, 0], "an object whose zero stands behind it", named(b"ab"), 9),
        at(&[0, 0], "a name that runs on", run_on, 24),
        at(&[0, 0, 0], "a material of no bytes", material(b""), 9),
        at(&[0, 0, 0], "a material without a zero", material(b"oak"), 9),
        at(&[0, 0, 0], "a byte behind a material's name", material(b"a\0b"), 10),
        at(&[0, 0, 0, 0, 0], "10 against 9: no zero and no count", grouped(b"ab"), 9),
        at(&[0, 0, 0, 0, 0], "10 against 9: no bytes", grouped(b""), 9),
        at(&[0, 0, 0, 0, 0], "a name and half a count", grouped(b"ab\0\0"), 10),
    ]
}
