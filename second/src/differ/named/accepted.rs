//! Named figures that are accepted: parents, meshes, boxes, and all that a
//! strict reader might take for a fault.

use super::tree::accepted;
use super::Case;
use crate::differ::build::{faces, figure, group, meshed, named, object, pairs, points};
use crate::differ::node::Node;

/// A leaf of zeros.
fn zeros(identifier: u16, count: usize) -> Node {
    Node::leaf(identifier, vec![0; count])
}

pub fn cases() -> Vec<Case> {
    let all = [parents(), meshes(), boxes(), odd_floats(), free(), full()].concat();
    all.iter()
        .flat_map(|(name, root)| accepted(name, root))
        .collect()
}

type Figures = Vec<(&'static str, Node)>;

fn parents() -> Figures {
    let colour = || Node::holding(0x2100, vec![], vec![zeros(0x0010, 12)]);
    let shown = |name| object(name, vec![zeros(0x4010, 0)]);
    let material = |name: &str| {
        let own = Node::leaf(0xA000, named(name));
        let diffuse = Node::holding(0xA020, vec![], vec![zeros(0x0011, 3), zeros(0x0012, 3)]);
        Node::holding(0xAFFF, vec![], vec![diffuse, own])
    };
    vec![
        ("an empty 3D3D", figure(vec![])),
        (
            "a parent that is not depth - 1",
            figure(vec![shown("a"), object("b", vec![]), colour()]),
        ),
        (
            "parents of later siblings",
            figure(vec![colour(), zeros(0x1470, 0), colour(), shown("c")]),
        ),
        (
            "a name in each of two materials",
            figure(vec![material("oak"), material("")]),
        ),
    ]
}

#[rustfmt::skip]
fn meshes() -> Figures {
    let floats = [-1.5, -0.0, 3.0, 2.0, 0.0, -7.25, -4.0, 0.5, 3.0_f32];
    let other = [0.0, 9.0, -2.0, -0.0, 8.0, -1.0, 5.0, 8.5, -3.0_f32];
    let corners = [[0, 1, 2], [2, 1, 0]];
    let mesh = |parts| figure(vec![meshed("", parts)]);
    let grouped = vec![group("x", &[1]), zeros(0x4150, 8), group("", &[]), group("y", &[0, 1, 1])];
    let two = vec![
        meshed("first", vec![points(&floats), faces(&corners, vec![])]),
        object("light", vec![zeros(0x4600, 12)]),
        object("nothing", vec![]),
        meshed("the second", vec![points(&other), faces(&[[1, 1, 2]], vec![])]),
    ];
    let late = vec![pairs(&other[..6]), faces(&corners, vec![]), points(&floats)];
    vec![
        ("two meshes, a light and nothing between them", figure(two)),
        ("faces and pairs before vertices", mesh(late)),
        ("smoothing of two faces between groups", mesh(vec![points(&other), faces(&corners, grouped)])),
        ("smoothing of no faces", mesh(vec![faces(&[], vec![zeros(0x4150, 0)])])),
        ("an empty mesh before one of a vertex", figure(vec![meshed("e", vec![]), meshed("", vec![points(&[7.0; 3])])])),
        ("no pairs and no vertices", mesh(vec![pairs(&[])])),
    ]
}

fn boxes() -> Figures {
    let (tiny, less) = (f32::from_bits(1), f32::from_bits(0x8000_0001));
    let mesh = |floats: &[f32]| figure(vec![meshed("", vec![points(floats)])]);
    vec![
        (
            "minus zero before zero",
            mesh(&[-0.0, 0.0, -0.0, 0.0, -0.0, 0.0]),
        ),
        (
            "all below zero",
            mesh(&[-3.0, -1.0, -2.0, -1.0, -3.0, -2.5]),
        ),
        ("all above zero", mesh(&[3.0, 1.0, 2.0, 1.0, 3.0, 2.5])),
        ("a centre whose sum overflows", mesh(&[f32::MAX; 6])),
        (
            "halves of the smallest",
            mesh(&[tiny, less, tiny, tiny, less, less]),
        ),
        (
            "signs apart",
            mesh(&[-5.0, 4.0, 0.0, 2.0, -8.0, 1.0, -6.0, 0.5, -1.0]),
        ),
    ]
}

fn odd_floats() -> Figures {
    let bad = [f32::NAN, f32::INFINITY, f32::NEG_INFINITY];
    let matrix = bad.map(f32::to_le_bytes).concat().repeat(4);
    let colour = Node::leaf(0x0010, bad.map(f32::to_le_bytes).concat());
    let extremes = [f32::MAX, f32::MIN, f32::MIN_POSITIVE, 1e-45, -1e-45, -0.0];
    vec![
        (
            "a matrix of no numbers",
            figure(vec![meshed("", vec![Node::leaf(0x4160, matrix)])]),
        ),
        (
            "a colour of no numbers",
            figure(vec![Node::holding(0x2100, vec![], vec![colour])]),
        ),
        (
            "the largest and the smallest floats",
            figure(vec![meshed(
                "",
                vec![points(&extremes), pairs(&extremes[..4])],
            )]),
        ),
    ]
}

/// What is nowhere judged.
fn free() -> Figures {
    let mut flagged = faces(&[[0; 3]], vec![]);
    flagged.own[8..].fill(0xFF);
    let mut keyed = figure(vec![]);
    keyed.children.insert(0, zeros(0xB000, 0));
    keyed.children.push(zeros(0x0002, 4));
    // The name begins with the bytes of a 4120's header.
    let disguised = object(" A ", vec![zeros(0x4010, 0)]);
    vec![
        ("a version behind, a keyframer before", keyed),
        (
            "a flag word of ones",
            figure(vec![meshed("", vec![points(&[1.0; 3]), flagged])]),
        ),
        (
            "unlisted chunks of six bytes and of more",
            figure(vec![zeros(0x3E3D, 0), zeros(0x4111, 5), zeros(0x7FFF, 300)]),
        ),
        ("a name that looks like a header", figure(vec![disguised])),
    ]
}

/// One figure with everything in it that can stand under a light or material.
fn full() -> Figures {
    let colours = || {
        vec![
            zeros(0x0010, 12),
            zeros(0x0011, 3),
            zeros(0x0012, 3),
            zeros(0x0013, 12),
        ]
    };
    let inside = vec![
        zeros(0x4651, 0),
        Node::leaf(0x4653, named("spot.tga")),
        zeros(0x4656, 4),
    ];
    let spot = Node::holding(0x4610, vec![7; 20], inside);
    let light = [colours(), vec![spot, zeros(0x4620, 0)]].concat();
    let light = Node::holding(0x4600, vec![9; 12], light);
    let share = Node::holding(0xA040, vec![], vec![zeros(0x0030, 2), zeros(0x0031, 4)]);
    let shades = [0xA010, 0xA020, 0xA030].map(|shade| Node::holding(shade, vec![], colours()));
    let material = [
        vec![Node::leaf(0xA000, named("beech")), share],
        shades.to_vec(),
    ]
    .concat();
    let camera = object("camera", vec![zeros(0x4700, 32), zeros(0x4017, 0)]);
    vec![(
        "a light, a camera and a material",
        figure(vec![
            object("lamp", vec![light]),
            camera,
            Node::holding(0xAFFF, vec![], material),
        ]),
    )]
}
