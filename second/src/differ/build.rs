//! The chunks of a figure by hand, from what stands in them; counts and
//! lengths are those that follow.

use super::node::Node;

/// A figure whose 3D3D has these children.
pub fn figure(children: Vec<Node>) -> Node {
    let edit = Node::holding(0x3D3D, vec![], children);
    Node::holding(0x4D4D, vec![], vec![edit])
}

/// An object of a name with these children.
pub fn object(name: impl AsRef<[u8]>, children: Vec<Node>) -> Node {
    Node::holding(0x4000, named(name), children)
}

/// An object that holds a mesh of these parts.
pub fn meshed(name: impl AsRef<[u8]>, parts: Vec<Node>) -> Node {
    object(name, vec![Node::holding(0x4100, vec![], parts)])
}

/// A name with its zero.
pub fn named(name: impl AsRef<[u8]>) -> Vec<u8> {
    [name.as_ref(), &[0]].concat()
}

/// A 4110 of these floats.
pub fn points(floats: &[f32]) -> Node {
    Node::leaf(0x4110, counted(floats.len() / 3, floats))
}

/// A 4140 of these floats.
pub fn pairs(floats: &[f32]) -> Node {
    Node::leaf(0x4140, counted(floats.len() / 2, floats))
}

fn counted(count: usize, floats: &[f32]) -> Vec<u8> {
    let floats = floats.iter().flat_map(|float| float.to_le_bytes());
    words(&[count as u16]).into_iter().chain(floats).collect()
}

/// A 4120 of these corners, flag words 0, with these children.
pub fn faces(corners: &[[u16; 3]], children: Vec<Node>) -> Node {
    let faces = corners.iter().flat_map(|[a, b, c]| [*a, *b, *c, 0]);
    let all: Vec<u16> = [corners.len() as u16].into_iter().chain(faces).collect();
    Node::holding(0x4120, words(&all), children)
}

/// A 4130 of a name and face numbers.
pub fn group(name: &str, numbers: &[u16]) -> Node {
    let count = words(&[numbers.len() as u16]);
    Node::leaf(0x4130, [named(name), count, words(numbers)].concat())
}

/// Words, one behind the other.
pub fn words(words: &[u16]) -> Vec<u8> {
    words.iter().flat_map(|word| word.to_le_bytes()).collect()
}
