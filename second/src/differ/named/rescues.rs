//! Named rescues: what is cut out of a damaged figure, and the faults outside
//! that are answered instead.

use super::Case;
use crate::boundary::refused;
use crate::differ::build::{faces, figure, meshed, object, pairs, points};
use crate::differ::families::Subject;
use crate::differ::node::Node;
use crate::differ::rescues::Cuts;

/// A damaged figure; the check's answer follows from what else is compared.
fn case(name: &str, root: &Node, cuts: Cuts) -> Case {
    let file = root.bytes();
    Case {
        name: format!("rescue: {name}"),
        expected: crate::boundary::answer(crate::check(&file).map(|counts| counts.records)),
        subject: Subject::File(file),
        facts: None,
        rescue: Some(cuts),
    }
}

/// The cut of a child of the 3D3D, which is the first of the figure.
fn cut(root: &Node, child: usize, number: u32) -> [u32; 3] {
    let bytes = root.children[0].children[child].size();
    [root.offset(&[0, child]) as u32, number, bytes as u32]
}

/// The cut from a child on, or from the bytes behind the last, to the end.
fn rest(root: &Node, child: usize, number: u32) -> [u32; 3] {
    let edit = &root.children[0];
    let before: usize = edit.children[..child].iter().map(Node::size).sum();
    let bytes = edit.size() - 6 - before;
    [12 + before as u32, number, bytes as u32]
}

fn good() -> Node {
    meshed("good", vec![points(&[1.0; 3]), faces(&[[0; 3]], vec![])])
}

/// A mesh whose only corner is too high: 12, or the number of a fault before.
fn bad() -> Node {
    meshed("bad", vec![points(&[1.0; 3]), faces(&[[1; 3]], vec![])])
}

fn stating(mut node: Node, length: u32) -> Node {
    node.stated = Some(length);
    node
}

fn leaf(identifier: u16, bytes: usize) -> Node {
    Node::leaf(identifier, vec![0; bytes])
}

pub fn cases() -> Vec<Case> {
    [children(), headers(), deeper(), outside(), versions()].concat()
}

/// Children that fail, alone and several.
fn children() -> Vec<Case> {
    let one = figure(vec![good(), bad(), leaf(0x8123, 9), leaf(0x1470, 0)]);
    let two = figure(vec![
        bad(),
        leaf(0x1470, 1),
        good(),
        leaf(0xA000, 1),
        leaf(0x8123, 0),
    ]);
    let all = figure(vec![bad(), bad(), leaf(0x1420, 3)]);
    let nothing = figure(vec![good(), leaf(0x8123, 3)]);
    let empty = figure(vec![]);
    let nameless = figure(vec![Node::holding(0xAFFF, vec![], vec![]), good()]);
    let misplaced = figure(vec![figure(vec![]), Node::leaf(0x3D3D, vec![]), good()]);
    vec![
        case("a mesh", &one, Ok(vec![cut(&one, 1, 12)])),
        case(
            "three",
            &two,
            Ok(vec![cut(&two, 0, 12), cut(&two, 1, 10), cut(&two, 3, 7)]),
        ),
        case(
            "all",
            &all,
            Ok(vec![cut(&all, 0, 12), cut(&all, 1, 12), cut(&all, 2, 10)]),
        ),
        case("nothing", &nothing, Ok(vec![])),
        case("an empty 3D3D", &empty, Ok(vec![])),
        case("14 in a child", &nameless, Ok(vec![cut(&nameless, 0, 14)])),
        case(
            "figures inside",
            &misplaced,
            Ok(vec![cut(&misplaced, 0, 7), cut(&misplaced, 1, 7)]),
        ),
    ]
}

/// Bad headers and bytes that are left: all from there on goes.
fn headers() -> Vec<Case> {
    let mut cases = Vec::with_capacity(16);
    for (length, number) in [(0, 4), (5, 4), (9_999, 5), (u32::MAX, 5)] {
        let root = figure(vec![
            bad(),
            good(),
            stating(leaf(0x1470, 0), length),
            good(),
            bad(),
        ]);
        let cuts = vec![cut(&root, 0, 12), rest(&root, 2, number)];
        cases.push(case(&format!("a length of {length}"), &root, Ok(cuts)));
        let root = figure(vec![stating(leaf(0x8123, 0), length)]);
        let name = format!("an unlisted length of {length}");
        cases.push(case(&name, &root, Ok(vec![rest(&root, 0, number)])));
    }
    for count in 1..6 {
        let mut root = figure(vec![bad(), good()]);
        root.children[0].tail = vec![0x41; count];
        let cuts = vec![cut(&root, 0, 12), rest(&root, 2, 6)];
        cases.push(case(&format!("{count} bytes left"), &root, Ok(cuts)));
    }
    cases
}

/// A bad header deeper than a child: only the child goes.
fn deeper() -> Vec<Case> {
    let mut cases = Vec::with_capacity(8);
    for (length, number) in [(3, 4), (77_777, 5)] {
        let broken = object("o", vec![stating(leaf(0x4010, 0), length), leaf(0x4012, 0)]);
        let root = figure(vec![good(), broken, good(), bad()]);
        let cuts = vec![cut(&root, 1, number), cut(&root, 3, 12)];
        cases.push(case(
            &format!("a length of {length} deeper"),
            &root,
            Ok(cuts),
        ));
    }
    let mut stray = object("o", vec![]);
    stray.tail = vec![1; 4];
    let root = figure(vec![stray, good()]);
    cases.push(case("bytes left deeper", &root, Ok(vec![cut(&root, 0, 6)])));
    cases
}

/// Faults outside the children of the 3D3D, before it, behind it, its own.
fn outside() -> Vec<Case> {
    let with = |behind: Vec<Node>| {
        let mut root = figure(vec![bad(), good()]);
        root.children.extend(behind);
        root
    };
    let edit = |children| Node::holding(0x3D3D, vec![], children);
    let answered = |name: &str, root: Node, number, path: &[usize]| {
        let place = root.offset(path);
        case(name, &root, Err(refused(number, place)))
    };
    let mut before = with(vec![]);
    before.children.insert(0, leaf(0x0002, 3));
    let mut inside = with(vec![]);
    inside.children.insert(0, good());
    let mut short = with(vec![]);
    short.children[0].stated = Some(5);
    let mut over = with(vec![]);
    over.children[0].stated = Some(9_999);
    let mut none = Node::leaf(0x4D4D, vec![]);
    none.children.push(leaf(0x8123, 5));
    let mut stray = with(vec![]);
    stray.tail = vec![0; 2];
    let left = stray.size() - 2;
    vec![
        answered("10 before", before, 10, &[0]),
        answered("7 before", inside, 7, &[0]),
        answered("10 behind", with(vec![leaf(0x0002, 5)]), 10, &[1]),
        answered("8 behind", with(vec![leaf(0x0002, 4); 2]), 8, &[2]),
        answered("two 3D3D", with(vec![edit(vec![])]), 8, &[1]),
        answered("the second damaged", with(vec![edit(vec![bad()])]), 8, &[1]),
        answered("4 of the 3D3D", short, 4, &[0]),
        answered("5 of the 3D3D", over, 5, &[0]),
        answered("4 behind", with(vec![stating(leaf(0x8123, 0), 1)]), 4, &[1]),
        answered("no 3D3D", none, 14, &[]),
        case("bytes left in the figure", &stray, Err(refused(6, left))),
    ]
}

/// A child is judged with the file's version, wherever it stands.
fn versions() -> Vec<Case> {
    let mapped = |m: usize| meshed("m", vec![points(&[1.0; 6]), pairs(&vec![0.5; 2 * m])]);
    let mut cases = Vec::with_capacity(8);
    for version in [None, Some(2), Some(3)] {
        let mut root = figure(vec![mapped(1), mapped(2), mapped(3)]);
        let chunk = version.map(|version| Node::leaf(0x0002, vec![version, 0, 0, 0]));
        root.children.extend(chunk);
        let fewer = (version == Some(3)).then(|| cut(&root, 0, 13));
        let cuts = fewer.into_iter().chain([cut(&root, 2, 13)]).collect();
        cases.push(case(&format!("version {version:?}"), &root, Ok(cuts)));
    }
    cases
}
