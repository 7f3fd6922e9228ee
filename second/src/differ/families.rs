//! The families of cases: how the file of each case is made, and what both
//! sides must say of it.

use super::build;
use super::compare::{Call, Pair};
use super::facts::Facts;
use super::gaps;
use super::grow::{figure, finite, grower, unlisted, Fill, LISTED};
use super::lent::{anywhere, Difference};
use super::node::Node;
use super::random::Random;
use super::run::{few, share, Share};
use super::writing::Writing;
use super::{damage, harm, long, parts, rescues, rows, swaps, versions};
use crate::boundary::Boundary;
use crate::{row, LIMIT};

/// The families.
#[derive(Clone, Copy, Debug, PartialEq, Eq)]
pub enum Family {
    Grown,
    Rows,
    Faults,
    Names,
    Versions,
    Parts,
    Rescues,
    Damage,
    Gaps,
    Swaps,
    Boxes,
    Soup,
    Noise,
    Writer,
    Long,
    LongWriter,
}

/// Each family, how many cases it has, and what it is.
#[rustfmt::skip]
pub const FAMILIES: [(Family, Share, &str); 16] = [
    (Family::Grown,      share(1_700, 60), "valid figures"),
    (Family::Rows,       share(1_500, 60), "each row in each place"),
    (Family::Faults,     share(2_000, 60), "each two faults at one chunk"),
    (Family::Names,      share(400, 60),   "names that no label takes"),
    (Family::Versions,   share(800, 60),   "versions and mapping lists"),
    (Family::Parts,      share(400, 60),   "parts that hang on each other"),
    (Family::Rescues,    share(800, 60),   "several faults at once"),
    (Family::Damage,     share(1_800, 60), "bits, lengths, bytes damaged"),
    (Family::Gaps,       share(700, 60),   "private chunks in gaps"),
    (Family::Swaps,      share(300, 60),   "neighbours in the 3D3D exchanged"),
    (Family::Boxes,      share(300, 60),   "boxes of floats of note"),
    (Family::Soup,       share(1_200, 60), "legal parents, all else free"),
    (Family::Noise,      share(277, 60),   "bytes of no sense"),
    (Family::Writer,     share(900, 60),   "names and rows written"),
    (Family::LongWriter, few(20, 200),     "writings at the limit"),
    (Family::Long,       few(3, 60),       "figures at the limit"),
];

/// What a case is over: a file, or what the writer is handed.
#[derive(Clone, Debug)]
pub enum Subject {
    File(Vec<u8>),
    Writing(Writing),
}

/// Makes the subject of a case.
pub fn make(family: Family, index: u64, random: &mut Random) -> Subject {
    let spread = |cases: usize| (index.wrapping_mul(1_000_003) % cases as u64) as usize;
    let file = match family {
        Family::Grown | Family::Gaps | Family::Swaps => figure(random, Fill::Some).bytes(),
        Family::Rows => rows::tried(spread(rows::CASES), random).bytes(),
        Family::Faults => faulty(spread(harm::CASES), random),
        Family::Names => harm::misnamed(random).bytes(),
        Family::Versions => versions::figure(random).bytes(),
        Family::Parts => parts::figure(random).bytes(),
        Family::Rescues => rescues::damaged(random).bytes(),
        Family::Damage => damaged(random),
        Family::Boxes => floats(random),
        Family::Soup => soup(0x4D4D, 0, random).bytes(),
        Family::Noise => noise(random),
        Family::Long => long::figure(index as usize, random),
        Family::Writer => return Subject::Writing(Writing::small(random)),
        Family::LongWriter => return Subject::Writing(long::writing(random)),
    };
    Subject::File(file)
}

/// What both sides say of a subject; the check's or writer's answer, if they
/// agree and it is as it must be.
pub fn judge<L: Boundary, R: Boundary>(
    family: Family,
    subject: &Subject,
    random: &mut Random,
    pair: &mut Pair<L, R>,
) -> Result<u64, Difference> {
    match (family, subject) {
        (_, Subject::Writing(writing)) => writing.ask(pair),
        (_, Subject::File(file)) => anywhere(file, random, |file, random| match family {
            Family::Gaps => gap(file, random, pair),
            Family::Swaps => swap(file, random, pair),
            _ => pair.whole(file, random),
        }),
    }
}

/// A valid figure against the tree it was grown as.
pub fn judge_tree<L: Boundary, R: Boundary>(
    random: &mut Random,
    pair: &Pair<L, R>,
) -> Result<(), Difference> {
    let root = figure(random, Fill::Some);
    Facts::of_tree(&root).said_of(&root.bytes(), pair)
}

/// Private chunks put in or taken out, judged on both sides.
fn gap<L: Boundary, R: Boundary>(
    file: &[u8],
    random: &mut Random,
    pair: &mut Pair<L, R>,
) -> Result<u64, Difference> {
    let Ok(tried) = gaps::prepare(&pair.left, file, random) else {
        return pair.ask(file, Call::Check);
    };
    if tried.after.len() > LIMIT {
        return pair.ask(file, Call::Check);
    }
    tried.judge(&pair.left, "left")?;
    tried.judge(&pair.right, "right")?;
    pair.ask(&tried.after, Call::Check)
}

/// Neighbours in the 3D3D exchanged, one pair after the other, judged on both
/// sides.
fn swap<L: Boundary, R: Boundary>(
    file: &[u8],
    random: &mut Random,
    pair: &mut Pair<L, R>,
) -> Result<u64, Difference> {
    let mut file = file.to_vec();
    for _ in 0..random.from_to(1, 4) {
        let Some(tried) = swaps::prepare(&pair.left, &file, random) else {
            break;
        };
        tried.judge(&pair.left, "left")?;
        tried.judge(&pair.right, "right")?;
        file = tried.after;
    }
    pair.ask(&file, Call::Check)
}

/// A figure with faults put in on purpose, or with the file's own faults.
fn faulty(case: usize, random: &mut Random) -> Vec<u8> {
    let mut file = harm::harmed(case, random).bytes();
    if random.chance(6) {
        match random.below(4) {
            0 => file.push(random.word() as u8),
            1 => file.truncate(random.below(8)),
            2 => {
                let byte = random.below(2);
                file[byte] ^= 1 << random.below(8);
            }
            _ => file[2..6].copy_from_slice(&(random.below(300) as u32).to_le_bytes()),
        }
    }
    file
}

/// A valid figure, damaged.
fn damaged(random: &mut Random) -> Vec<u8> {
    let fill = random.pick(&[Fill::Some, Fill::Some, Fill::Some, Fill::Full]);
    let mut file = figure(random, fill).bytes();
    damage::damage(&mut file, random);
    file
}

/// One mesh of a few vertices, whose floats are often equal.
fn floats(random: &mut Random) -> Vec<u8> {
    let n = random.from_to(1, 6);
    let few = [finite(random), finite(random), finite(random) ^ 1 << 31];
    let mut own = (n as u16).to_le_bytes().to_vec();
    for _ in 0..3 * n {
        let bits = match random.below(4) {
            0 => finite(random),
            1 => random.pick(&[0, 1 << 31]),
            _ => random.pick(&few),
        };
        let sure = if bits & 0x7F80_0000 == 0x7F80_0000 {
            0
        } else {
            bits
        };
        own.extend(sure.to_le_bytes());
    }
    build::figure(vec![build::meshed("", vec![Node::leaf(0x4110, own)])]).bytes()
}

/// A chunk with children mostly of its own, and all else left to chance.
fn soup(identifier: u16, depth: usize, random: &mut Random) -> Node {
    let holds = row(identifier).map_or(0, |row| row.holds);
    let mut node = Node::leaf(identifier, grower(random, Fill::Some).own(identifier, 0));
    if random.chance(3) {
        let length = random.below(16);
        node.own = random.bytes(length);
    }
    if holds == 0 || depth > 5 {
        return node;
    }
    let legal = LISTED.iter().copied();
    let legal: Vec<u16> = legal
        .filter(|inside| row(*inside).is_some_and(|row| row.under & holds != 0))
        .collect();
    for _ in 0..random.below(if depth < 2 { 3 } else { 4 }) {
        let inside = match random.below(20) {
            0 => random.pick(LISTED),
            1 | 2 => unlisted(random),
            // a camera may hold children, but none that are listed
            _ if legal.is_empty() => unlisted(random),
            _ => random.pick(&legal),
        };
        let child = soup(inside, depth + 1, random);
        node.children.push(child);
    }
    let needed = match identifier {
        0x4D4D => 0x3D3D,
        0xAFFF => 0xA000,
        0xB002 => 0xB010,
        _ => return node,
    };
    if node.child(needed).is_none() && random.chance(95) {
        let child = soup(needed, depth + 1, random);
        node.children.push(child);
    }
    node
}

/// Bytes that make little sense, mostly behind a good beginning.
fn noise(random: &mut Random) -> Vec<u8> {
    const FEW: [u8; 12] = [0, 0, 0, 1, 6, 7, 12, 0x3D, 0x4D, 0x40, 0x41, 0xFF];
    let length = random.below(60);
    let bytes: Vec<u8> = (0..length).map(|_| random.pick(&FEW)).collect();
    match random.below(4) {
        0 => bytes,
        1 => Node::leaf(0x4D4D, bytes).bytes(),
        _ => {
            let edit = Node::leaf(0x3D3D, bytes);
            Node::holding(0x4D4D, vec![], vec![edit]).bytes()
        }
    }
}

/// Every identifier there is under every chunk that holds others, checked.
pub fn sweep<L: Boundary, R: Boundary>(
    step: usize,
    pair: &mut Pair<L, R>,
    mut tally: impl FnMut(u64),
) -> Result<(), (Vec<u8>, Difference)> {
    let mut random = Random::of_case(0, 0, 1);
    for holder in rows::HOLDERS.iter().copied() {
        for body in [0, 4] {
            let chunk = Node::leaf(0x1234, vec![0; body]);
            let root = rows::in_holder(holder, vec![chunk], &mut random);
            let (mut file, headers) = root.marked();
            let mine = |at: &&usize| file[**at..**at + 2] == [0x34, 0x12];
            let at = headers.iter().find(mine).copied().unwrap_or(0);
            for identifier in (0..=u16::MAX).step_by(step) {
                file[at..at + 2].copy_from_slice(&identifier.to_le_bytes());
                let answer = pair.ask(&file, Call::Check);
                tally(answer.map_err(|difference| (file.clone(), difference))?);
            }
        }
    }
    Ok(())
}
