//! Figures whose version decides over their mapping: 0002 chunks of any length
//! and version, before and behind the 3D3D and bad headers.

use super::build::{self, meshed, pairs, points};
use super::grow::private;
use super::node::Node;
use super::random::Random;

/// A figure of one mesh, with any mapping and any versions.
pub fn figure(random: &mut Random) -> Node {
    let (n, with) = (random.below(4), random.chance(90));
    let m = random.below(n + 2);
    let mut parts = vec![pairs(&vec![1.5; 2 * m])];
    if with {
        parts.push(points(&vec![0.5; 3 * n]));
    }
    random.shuffle(&mut parts);
    let mut root = build::figure(vec![meshed("m", parts)]);
    if random.chance(5) {
        let inside = Node::leaf(0x0002, vec![3, 0, 0, 0]);
        root.children[0].children.push(inside);
    }
    for _ in 0..random.below(4) {
        let chunk = beside(random);
        // Mostly behind the 3D3D, where a fault is met after the mesh.
        let first = usize::from(random.chance(70));
        let spot = random.from_to(first, root.children.len());
        root.children.insert(spot, chunk);
    }
    if random.chance(20) {
        let count = random.from_to(1, 5);
        root.tail = random.bytes(count);
    }
    root
}

/// A chunk beside the 3D3D: a version, one of another length, a private chunk,
/// one whose header is bad.
fn beside(random: &mut Random) -> Node {
    let number = random.pick(&[0, 1, 2, 2, 3, 3, 4, 5, 0x0100, 0x0001_0000, u32::MAX]);
    let mut own = number.to_le_bytes().to_vec();
    if random.chance(35) {
        own.resize(random.pick(&[0, 3, 5, 5, 8, 9]), 0);
    }
    let mut chunk = match random.below(5) {
        0 => private(random),
        _ => Node::leaf(0x0002, own),
    };
    if random.chance(16) {
        chunk.stated = Some(random.pick(&[0, 5, 1 << 20, u32::MAX]));
    }
    chunk
}
