//! Figures whose parts hang on each other: on earlier ones, and with one fault
//! on others or in their chunks.

use super::build;
use super::grow::{private, unlisted};
use super::names;
use super::node::Node;
use super::random::Random;
use crate::ROOT;

/// A B002 with its B010 of a name and a father.
pub fn part(name: impl AsRef<[u8]>, father: u16) -> Node {
    Node::holding(0xB002, vec![], vec![called(name, father)])
}

/// A B010 of a name and a father.
pub fn called(name: impl AsRef<[u8]>, father: u16) -> Node {
    let words = build::words(&[0x4000, 0x0001, father]);
    Node::leaf(0xB010, [build::named(name), words].concat())
}

/// A figure with a keyframer, mostly right.
pub fn figure(random: &mut Random) -> Node {
    let many = match random.below(30) {
        0 => random.from_to(200, 700),
        _ => random.below(9),
    };
    let bad = random.chance(45).then(|| random.below(many.max(1)));
    let mut blocks = Vec::with_capacity(many + 4);
    for number in 0..many {
        if random.chance(12) {
            blocks.push(block(random));
        }
        let father = match bad == Some(number) {
            true => stranger(number, many, random),
            false => earlier(number, random),
        };
        let length = random.below(9);
        blocks.push(part(names::name(length, random), father));
    }
    if random.chance(50) {
        let spot = random.below(blocks.len() + 1);
        blocks.insert(spot, Node::leaf(0xB008, random.bytes(8)));
    }
    let mut keyframer = Node::holding(0xB000, vec![], blocks);
    if random.chance(25) {
        harm(&mut keyframer, random);
    }
    let mut root = build::figure(vec![]);
    root.children.insert(random.below(2), keyframer);
    root
}

/// The number of an earlier part, or none.
fn earlier(number: usize, random: &mut Random) -> u16 {
    match random.below(6) {
        _ if number == 0 => ROOT,
        0 => ROOT,
        1 => number as u16 - 1,
        _ => random.below(number) as u16,
    }
}

/// A number that is no earlier part's.
fn stranger(number: usize, many: usize, random: &mut Random) -> u16 {
    let (own, many) = (number as u16, many as u16);
    random.pick(&[
        own,
        own,
        own + 1,
        many,
        many - 1,
        65_534,
        0x8000,
        own | 0x0100,
    ])
}

/// A block of another kind, with something inside that looks like a part.
fn block(random: &mut Random) -> Node {
    let identifier = random.pick(&[0xB001, 0xB003, 0xB004, 0xB005, 0xB006, 0xB007]);
    Node::leaf(identifier, called("x", 0).bytes())
}

/// Spoils one chunk of the keyframer.
fn harm(keyframer: &mut Node, random: &mut Random) {
    let which = random.below(keyframer.children.len().max(1));
    let Some(block) = keyframer.children.get_mut(which) else {
        keyframer.children.push(called("stray", ROOT));
        return;
    };
    let inside = block.children.first_mut();
    match (random.below(7), inside) {
        (0, Some(called)) => called.identifier = unlisted(random),
        (1, Some(called)) => {
            let again = called.clone();
            block.children.push(again);
        }
        (2, Some(called)) => drop(called.own.pop()),
        (3, Some(called)) => called.own.push(0xFF),
        (4, Some(_)) => block.children.insert(0, private(random)),
        (5, _) => block.identifier = random.pick(&[0xB002, 0xB008, 0xB010, 0xB000]),
        _ => block.tail = vec![0; 3],
    }
}
