//! Figures and writings at the length limit: as many chunks, vertices, faces
//! or name bytes as there can be, and one more.

use super::build;
use super::names;
use super::node::Node;
use super::parts;
use super::random::Random;
use super::writing::{room, Writing};
use crate::{LIMIT, ROOT};

/// How many kinds of long figure there are.
pub const KINDS: usize = 16;

/// A long figure of one kind, perhaps a little damaged.
pub fn figure(kind: usize, random: &mut Random) -> Vec<u8> {
    let children = match kind % KINDS {
        0 => vec![Node::leaf(0x8123, vec![]); (LIMIT - 12) / 6],
        1 => vec![Node::leaf(0x1470, vec![]); (LIMIT - 12) / 6],
        2 => objects(3_000 + random.below(6_000), random),
        3 => vec![object(b"", 43_000, 64_000), object(b"", 1, 500)],
        4 => named(random),
        5 => vec![object(b"", 65_535, 20_000)],
        6 => vec![object(b"", 20_000, 65_535)],
        7 => vec![Node::leaf(0x8123, random.bytes(500_000))],
        8 => late(random),
        9 => vec![bare(); random.from_to(65_530, 80_000)],
        15 => vec![],
        10..=12 => vec![mapped(kind % KINDS - 10, random)],
        _ => vec![painted(kind % KINDS == 13, random)],
    };
    let mut root = build::figure(children);
    if kind % KINDS == 15 {
        root.children.push(hung(random));
    }
    // The kinds behind the tenth are about long lists, and are left as they are.
    let lists = kind % KINDS >= 10;
    if !lists {
        fill(&mut root, random);
    }
    let mut file = root.bytes();
    if !lists && random.chance(40) {
        hurt(&mut file, random);
    }
    if file.len() > LIMIT && random.chance(30) {
        file[random.below(2)] ^= 1 << random.below(8);
    }
    file
}

/// An object with a mesh of so many vertices and faces.
fn object(name: &[u8], n: u16, f: u16) -> Node {
    let parts = vec![
        Node::leaf(0x4120, faces(n, f)),
        Node::leaf(0x4110, points(n)),
    ];
    build::meshed(name, parts)
}

/// Vertices, no two alike and not in order, so that one that is left out or given twice is missed.
fn points(n: u16) -> Vec<u8> {
    let mut points = n.to_le_bytes().to_vec();
    for k in 0..3 * u32::from(n) {
        let value = (k.wrapping_mul(40_503) % 262_139) as f32 - 131_000.0;
        points.extend(value.to_le_bytes());
    }
    points
}

/// Faces with corners up to the last vertex.
fn faces(n: u16, f: u16) -> Vec<u8> {
    let mut faces = f.to_le_bytes().to_vec();
    for face in 0..f {
        let high = n.saturating_sub(1);
        for corner in [face.min(high), 0, high, face] {
            faces.extend(corner.to_le_bytes());
        }
    }
    faces
}

/// The smallest object with a mesh.
fn bare() -> Node {
    build::meshed("", vec![])
}

/// Objects behind so many records that their own numbers take more than 16 bits.
fn late(random: &mut Random) -> Vec<Node> {
    let mut children = vec![Node::leaf(0x1470, vec![]); random.from_to(65_530, 90_000)];
    children.extend([object(b"", 3, 1), bare(), object(b"", 1, 2)]);
    children
}

/// A mesh with many mapping coordinates: right (0), one bit of the count another (1), or the last not finite (2).
fn mapped(fault: usize, random: &mut Random) -> Node {
    let n = random.from_to(1_000, 40_000) as u16;
    let count = match fault {
        1 => n ^ random.pick(&[0x0100, 0x1000, 0x4000, 0x8000]),
        _ => n,
    };
    let mut pairs = count.to_le_bytes().to_vec();
    pairs.extend(points(count)[2..][..8 * usize::from(count)].to_vec());
    if fault == 2 {
        let last = pairs.len() - 4;
        pairs[last..].copy_from_slice(&f32::NAN.to_le_bytes());
    }
    let parts = vec![Node::leaf(0x4140, pairs), Node::leaf(0x4110, points(n))];
    build::meshed("", parts)
}

/// A mesh with a material and a smoothing group for each of many faces; if not right, the last face number is too large.
fn painted(right: bool, random: &mut Random) -> Node {
    let f = random.from_to(1_000, 40_000) as u16;
    let mut numbers = [&b"paint\0"[..], &f.to_le_bytes()].concat();
    (0..f).for_each(|face| numbers.extend(face.to_le_bytes()));
    if !right {
        let last = numbers.len() - 2;
        numbers[last..].copy_from_slice(&f.to_le_bytes());
    }
    let inside = vec![
        Node::leaf(0x4130, numbers),
        Node::leaf(0x4150, vec![1; 4 * usize::from(f)]),
    ];
    let parts = vec![
        Node::leaf(0x4110, points(9)),
        Node::holding(0x4120, faces(9, f), inside),
    ];
    build::meshed("", parts)
}

/// A keyframer of very many parts: the first in a chain, so that depths pass a
/// byte, and those behind on the one before or on any.
fn hung(random: &mut Random) -> Node {
    let chain = random.chance(50);
    let father = |number: usize, random: &mut Random| match number {
        0 => ROOT,
        _ if chain || number < 1_000 => number as u16 - 1,
        _ => random.below(number) as u16,
    };
    let parts = (0..40_000).map(|number| parts::part("", father(number, random)));
    Node::holding(0xB000, vec![], parts.collect())
}

/// Many small objects.
fn objects(count: usize, random: &mut Random) -> Vec<Node> {
    let one = |_| object(b"a", random.below(4) as u16 + 1, 2);
    (0..count).map(one).collect()
}

/// Mostly many objects with names as long as they may be; else objects and
/// materials with names of far too many bytes.
fn named(random: &mut Random) -> Vec<Node> {
    if random.chance(75) {
        let one = |_| object(&names::name(names::MOST, random), 1, 1);
        return (0..8_000).map(one).collect();
    }
    let name = vec![b'x'; random.from_to(100_000, 300_000)];
    let material = Node::leaf(0xA000, build::named(&name));
    vec![
        object(&name, 3, 1),
        Node::holding(0xAFFF, vec![], vec![material]),
        object(&[b'x'; 400_000], 1, 1),
    ]
}

/// Fills a figure up to the limit with one private chunk, or to a byte more.
fn fill(root: &mut Node, random: &mut Random) {
    let over = random.pick(&[0, 0, 0, 1, 2]);
    while root.size() + 6 > LIMIT + over {
        root.children[0].children.pop();
    }
    let body = vec![0x4D; LIMIT + over - root.size() - 6];
    let spot = random.below(2) * root.children[0].children.len();
    let private = Node::leaf(0x7FFF, body);
    root.children[0].children.insert(spot, private);
}

/// Turns a bit, in the first header or mostly near the end.
fn hurt(file: &mut [u8], random: &mut Random) {
    if random.chance(30) {
        file[random.below(6)] ^= 1 << random.below(8);
        return;
    }
    let back = random.pick(&[6, 60, 600, 1_000_000]);
    let at = file.len() - 1 - random.below(back);
    file[at] ^= 1 << random.below(8);
}

/// A writing at the limit of its rows or of its size.
pub fn writing(random: &mut Random) -> Writing {
    let n = random.pick(&[0, 3, 3, 65_534, 65_535, 65_535, 65_536, 40_000]);
    let f = random.pick(&[0, 3, 3, 32_764, 32_765, 65_535, 65_535, 65_536]);
    // Few bytes are missing to the limit, where a long name cannot make them up.
    let near = [(65_535, 32_764), (65_534, 32_765), (50_000, 56_066)];
    let (n, f) = match random.chance(60) {
        true => random.pick(&near),
        false => (n, f),
    };
    let odd = random.pick(&[[0, 0], [0, 0], [0, 0], [0, 0], [1, 0], [0, 2], [2, 1]]);
    let mut writing = Writing {
        name: vec![b'n'; random.pick(&[0, 1, 2])],
        vertices: vec![1.5; 3 * n + odd[0]],
        corners: vec![n.saturating_sub(1).min(65_535) as u16; 3 * f + odd[1]],
        room: 0,
    };
    if let Some(missing) = LIMIT.checked_sub(writing.size()) {
        if random.chance(if missing > 60 { 9 } else { 75 }) {
            let more = (missing + 1).saturating_sub(random.below(3));
            writing.name.extend(vec![b'm'; more]);
        }
    }
    if !writing.corners.is_empty() && random.chance(45) {
        let corner = random.below(writing.corners.len());
        writing.corners[corner] = u16::MAX;
    }
    writing.room = room(writing.size(), random);
    writing
}
