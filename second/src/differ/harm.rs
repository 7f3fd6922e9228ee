//! Faults put into valid figures on purpose: each refusal of the walk alone,
//! and every two of them at one chunk, to see which is answered.

use super::grow::{figure, grower, unlisted, Fill, LISTED};
use super::names;
use super::node::{Node, Path};
use super::random::Random;
use crate::{row, Own};

/// What can be done to a chunk, mostly named after the refusal it aims at.
#[derive(Clone, Copy, Debug, PartialEq, Eq)]
pub enum Harm {
    Misplaced,
    Twice,
    Name,
    Text,
    Length,
    Number,
    Index,
    Count,
    Bare,
    Missing,
    Stray,
    Short,
    Overrun,
}

/// In the order they are done: the first few move the chunk about.
pub const HARMS: [Harm; 13] = [
    Harm::Misplaced,
    Harm::Twice,
    Harm::Name,
    Harm::Text,
    Harm::Length,
    Harm::Number,
    Harm::Index,
    Harm::Count,
    Harm::Bare,
    Harm::Missing,
    Harm::Stray,
    Harm::Short,
    Harm::Overrun,
];

/// The parts of a mesh, which most rules are about.
const PARTS: [u16; 6] = [0x4100, 0x4110, 0x4120, 0x4130, 0x4140, 0x4150];

/// The chunks that have names.
const NAMED: &[u16] = &[0xA000, 0x4000, 0x4130, 0x4653, 0xB010];

/// The chunks that are harmed: all, and the parts of a mesh five times more.
const TARGETS: usize = LISTED.len() + 5 * PARTS.len();

/// How many different cases there are, before chance has its say.
pub const CASES: usize = TARGETS * HARMS.len() * HARMS.len();

/// The figure of a case: one listed chunk with one harm, or two.
pub fn harmed(case: usize, random: &mut Random) -> Node {
    let (target, harms) = (case % TARGETS, case / TARGETS);
    let identifier = match LISTED.get(target) {
        Some(identifier) => *identifier,
        None => PARTS[target % PARTS.len()],
    };
    let (first, second) = (harms % HARMS.len(), harms / HARMS.len());
    let (mut root, mut path) = with_chunk(identifier, random);
    for harm in [first.min(second), first.max(second)] {
        harm_at(HARMS[harm], &mut root, &mut path, random);
        if first == second {
            break;
        }
    }
    root
}

/// A full figure, often pruned, and the way to a chunk of an identifier in
/// it. Chance may leave that chunk out: then another figure is grown.
fn with_chunk(identifier: u16, random: &mut Random) -> (Node, Vec<usize>) {
    let (mut root, paths) = loop {
        let root = figure(random, Fill::Full);
        let paths = root.paths(&|node| node.identifier == identifier);
        if !paths.is_empty() {
            break (root, paths);
        }
    };
    let mut path = paths[random.below(paths.len())].clone();
    if random.chance(60) {
        prune(&mut root, &mut path, 0, random);
    }
    (root, path)
}

/// A figure with a name that no label takes, and perhaps another fault there.
pub fn misnamed(random: &mut Random) -> Node {
    let identifier = random.pick(NAMED);
    let (mut root, mut path) = with_chunk(identifier, random);
    let other = random.pick(&[None, Some(Harm::Twice), Some(Harm::Misplaced)]);
    for harm in other.into_iter().chain([Harm::Text]) {
        harm_at(harm, &mut root, &mut path, random);
    }
    let chunk = root.at(&path);
    match (
        random.below(4),
        chunk.own.iter().position(|byte| *byte == 0),
    ) {
        (0, Some(zero)) => {
            chunk.own.truncate(zero);
            chunk.children.clear();
        }
        (1, _) => chunk.own.push(0),
        _ => (),
    }
    root
}

/// Takes away what may go and is not on the way to the chunk.
fn prune(node: &mut Node, path: &mut Path, step: usize, random: &mut Random) {
    // Those of a keyframer hang on each other.
    const NEEDED: [u16; 7] = [0x3D3D, 0xA000, 0x4110, 0x4120, 0x4100, 0xB002, 0xB010];
    let on_the_way = path.get(step).copied();
    let mut kept = Vec::with_capacity(node.children.len());
    for (at, child) in std::mem::take(&mut node.children).into_iter().enumerate() {
        let way = on_the_way == Some(at);
        if way {
            path[step] = kept.len();
        }
        if way || NEEDED.contains(&child.identifier) || random.chance(15) {
            kept.push(child);
        }
    }
    node.children = kept;
    if let Some(next) = path.get(step).copied() {
        prune(&mut node.children[next], path, step + 1, random);
    }
}

/// Does one harm to the chunk at the end of a way, where it can be done.
pub fn harm_at(harm: Harm, root: &mut Node, path: &mut Path, random: &mut Random) {
    match harm {
        Harm::Misplaced => misplace(root, path, random),
        Harm::Twice => repeat(root, path, random),
        Harm::Name => unname(root.at(path), random),
        Harm::Text => mistext(root.at(path), random),
        Harm::Length => stretch(root.at(path), random),
        Harm::Number => not_a_number(in_mesh(root, path, &[0x4110, 0x4140]), random),
        Harm::Index => index(root, path, random),
        Harm::Count => miscount(in_mesh(root, path, &[0x4140]), random),
        Harm::Bare => strip(root, path, random),
        Harm::Missing => bereave(root, path, random),
        Harm::Stray => stray(root, path, random),
        Harm::Short => root.at(path).stated = Some(random.below(6) as u32),
        Harm::Overrun => overrun(root, path, random),
    }
}

/// Puts a copy of the chunk under another parent, or another in its place.
fn misplace(root: &mut Node, path: &mut Path, random: &mut Random) {
    if path.is_empty() || random.chance(30) {
        let mut other = random.pick(LISTED);
        if other == 0x4D4D && path.is_empty() {
            other = 0x4D4C;
        }
        root.at(path).identifier = other;
        return;
    }
    let chunk = root.at(path).clone();
    let holds = |node: &Node| row(node.identifier).is_some_and(|row| row.holds != 0);
    let paths = root.paths(&holds);
    *path = paths[random.below(paths.len())].clone();
    put_in(root, path, chunk, 0, random);
}

/// Puts a chunk among the children of another, not before one of them.
fn put_in(root: &mut Node, path: &mut Path, chunk: Node, not_before: usize, random: &mut Random) {
    let children = &mut root.at(path).children;
    let spot = random.from_to(not_before, children.len());
    children.insert(spot, chunk);
    path.push(spot);
}

/// Puts one more of the chunk behind it, or one that is counted with it.
fn repeat(root: &mut Node, path: &mut Path, random: &mut Random) {
    const TOGETHER: [u16; 3] = [0x4100, 0x4600, 0x4700];
    let mut chunk = root.at(path).clone();
    if TOGETHER.contains(&chunk.identifier) && random.chance(60) {
        let other = random.pick(&TOGETHER);
        chunk = grower(random, Fill::Some).grow(other);
    }
    if let Some(last) = path.pop() {
        put_in(root, path, chunk, last + 1, random);
    }
}

/// Takes the zero out of a name.
fn unname(chunk: &mut Node, random: &mut Random) {
    let own = row(chunk.identifier).map(|row| row.own);
    if matches!(own, Some(Own::Name | Own::Group | Own::Part)) {
        let length = random.below(8);
        chunk.own = random.bytes(length);
        chunk.own.iter_mut().for_each(|byte| *byte |= 1);
        if random.chance(70) {
            chunk.children.clear();
        }
    }
}

/// Makes a name one that no label takes.
fn mistext(chunk: &mut Node, random: &mut Random) {
    let own = row(chunk.identifier).map(|row| row.own);
    let zero = chunk.own.iter().position(|byte| *byte == 0);
    if let (Some(Own::Name | Own::Group | Own::Part), Some(zero)) = (own, zero) {
        let behind = chunk.own.split_off(zero);
        names::spoil(&mut chunk.own, random);
        chunk.own.extend(behind);
    }
}

/// Makes own data shorter or longer, or its count another.
fn stretch(chunk: &mut Node, random: &mut Random) {
    let most = if random.chance(70) { 3 } else { 14 };
    let by = random.from_to(1, most);
    match random.below(3) {
        0 => {
            let length = chunk.own.len().saturating_sub(by);
            chunk.own.truncate(length);
            if random.chance(80) {
                chunk.children.clear();
            }
        }
        1 => chunk.own.extend(random.bytes(by)),
        _ if chunk.own.len() >= 2 => {
            let change = random.pick(&[1, 0xFFFF, 2, 0x100, 0x8000]);
            let count = u16::from_le_bytes([chunk.own[0], chunk.own[1]]);
            let count = u16::wrapping_add(count, change);
            chunk.own[..2].copy_from_slice(&count.to_le_bytes());
        }
        _ => chunk.tail = random.bytes(by),
    }
}

/// The chunk itself if it is one of these, else one in the mesh around it.
fn in_mesh<'a>(root: &'a mut Node, path: &[usize], which: &[u16]) -> Option<&'a mut Node> {
    if which.contains(&root.at(path).identifier) {
        return Some(root.at(path));
    }
    let steps = (0..=path.len()).rev();
    let mut around = steps.map(|step| &path[..step]);
    let mesh = around.find(|way| root.at(way).identifier == 0x4100)?;
    let children = &mut root.at(mesh).children;
    children
        .iter_mut()
        .find(|child| which.contains(&child.identifier))
}

/// Puts an infinite float or none at all among the floats.
fn not_a_number(chunk: Option<&mut Node>, random: &mut Random) {
    let Some(chunk) = chunk else { return };
    let floats = chunk.own.len().saturating_sub(2) / 4;
    if floats > 0 {
        let at = 2 + 4 * random.below(floats);
        let low = random.pick(&[0, 0, 0, 1, 0x40_0000, 0x7F_FFFF]);
        let bits: u32 = random.pick(&[0x7F80_0000, 0xFF80_0000]) | low;
        chunk.own[at..at + 4].copy_from_slice(&bits.to_le_bytes());
    }
}

/// Puts a number that is too high among a group's or the faces' numbers.
fn index(root: &mut Node, path: &[usize], random: &mut Random) {
    let count = |chunk: Option<&mut Node>| match chunk.as_ref().map(|chunk| &chunk.own[..]) {
        Some([low, high, ..]) => u16::from_le_bytes([*low, *high]),
        _ => 0,
    };
    let group = root.at(path).identifier == 0x4130;
    let limit = match group {
        true => count(in_mesh(root, path, &[0x4120])),
        false => count(in_mesh(root, path, &[0x4110])),
    };
    let high = random.pick(&[limit, limit.saturating_add(1), u16::MAX]);
    let chunk = in_mesh(root, path, &[if group { 0x4130 } else { 0x4120 }]);
    let Some(own) = chunk.map(|chunk| &mut chunk.own) else {
        return;
    };
    let at = match group {
        true => own.len().saturating_sub(2),
        false => 2 + 8 * random.below((own.len() / 8).max(1)) + 2 * random.below(3),
    };
    if let Some(slot) = own.get_mut(at..at + 2) {
        slot.copy_from_slice(&high.to_le_bytes());
    }
}

/// Makes the mapping one pair longer or shorter than the vertices.
fn miscount(chunk: Option<&mut Node>, random: &mut Random) {
    let Some(own) = chunk.map(|chunk| &mut chunk.own) else {
        return;
    };
    if random.chance(50) || own.len() < 10 {
        own.extend([0; 8]);
    } else {
        own.truncate(own.len() - 8);
    }
    let count = (own.len().saturating_sub(2) / 8) as u16;
    if let Some(slot) = own.get_mut(..2) {
        slot.copy_from_slice(&count.to_le_bytes());
    }
}

/// Hides the vertices of a mesh, and perhaps its faces.
fn strip(root: &mut Node, path: &[usize], random: &mut Random) {
    let parts = [0x4110, 0x4120];
    for part in &parts[..random.from_to(1, 2)] {
        if let Some(chunk) = in_mesh(root, path, &[*part]) {
            chunk.identifier = unlisted(random);
        }
    }
}

/// Takes a needed child from a chunk on the way, or hides it.
fn bereave(root: &mut Node, path: &mut Path, random: &mut Random) {
    let needed = |node: &Node| matches!(node.identifier, 0x3D3D | 0xA000 | 0xB010);
    let mut paths = root.paths(&needed);
    let near = |way: &[usize]| path.starts_with(way);
    paths.retain(|way| way.split_last().is_some_and(|(_, parent)| near(parent)));
    if let Some(way) = paths.last() {
        root.at(way).identifier = unlisted(random);
    }
}

/// Puts a few bytes behind the last child of the chunk or of its parent.
fn stray(root: &mut Node, path: &[usize], random: &mut Random) {
    let step = path.len().saturating_sub(random.below(2));
    let length = random.from_to(1, 6);
    root.at(&path[..step]).tail = random.bytes(length);
}

/// States a length beyond the parent's end, by one byte or by many.
fn overrun(root: &mut Node, path: &[usize], random: &mut Random) {
    let left = match path.split_last() {
        None => root.size(),
        Some((last, before)) => {
            let parent = root.at(before);
            let after = parent.children[*last..].iter().map(Node::size);
            after.sum::<usize>() + parent.tail.len()
        }
    };
    let beyond = left as u32 + 1 + random.below(4) as u32;
    let stated = random.pick(&[beyond, beyond, u32::MAX, 0x8000_0000, u32::MAX - 5]);
    root.at(path).stated = Some(stated);
}
