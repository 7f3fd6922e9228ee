//! Cases from trees: an accepted one with all that is said of it, and a fault
//! at a chunk; each again with private chunks put in before the children.

use super::Case;
use crate::boundary::refused;
use crate::differ::facts::Facts;
use crate::differ::families::Subject;
use crate::differ::node::Node;
use crate::row;

/// A figure that is accepted, plain and with private chunks.
pub fn accepted(name: &str, root: &Node) -> [Case; 2] {
    let mut with_private = root.clone();
    let holders = root.paths(&|node| row(node.identifier).is_some_and(|row| row.holds != 0));
    // The longest ways first: what is put in moves the ways behind it.
    for path in holders.iter().rev() {
        with_private.at(path).children.insert(0, private());
    }
    [(name.to_string(), root), (skipping(name), &with_private)].map(|(name, root)| {
        let facts = Facts::of_tree(root);
        Case {
            name,
            subject: Subject::File(root.bytes()),
            expected: facts.records.len() as u64,
            facts: Some(facts),
            rescue: None,
        }
    })
}

/// A figure that is refused at the chunk at the end of a way, or so many bytes
/// behind it; plain, and with private chunks before those on the way.
pub fn refused_at(
    name: &str,
    root: &Node,
    number: u32,
    path: &[usize],
    behind: usize,
) -> [Case; 2] {
    let mut with_private = root.clone();
    let mut moved = path.to_vec();
    for step in (0..path.len()).rev() {
        with_private.at(&path[..step]).children.insert(0, private());
        moved[step] += 1;
    }
    [
        refused_case(name, root, number, path, behind),
        refused_case(&skipping(name), &with_private, number, &moved, behind),
    ]
}

fn refused_case(name: &str, root: &Node, number: u32, path: &[usize], behind: usize) -> Case {
    Case {
        name: name.to_string(),
        subject: Subject::File(root.bytes()),
        expected: refused(number, root.offset(path) + behind),
        facts: None,
        rescue: None,
    }
}

fn skipping(name: &str) -> String {
    format!("{name}, behind skipped chunks")
}

/// An unlisted chunk that a careless reader takes for vertices.
fn private() -> Node {
    Node::leaf(0x8123, vec![0x10, 0x41, 8, 0, 0, 0, 0, 0])
}
