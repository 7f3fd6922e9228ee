//! Rescues on both sides: every room, and what must hold of the result: it is
//! accepted, and with the cuts put back it is the damaged file.

use super::compare::{Call, Pair};
use super::facts::numbers;
use super::grow::{figure, Fill};
use super::harm::{harm_at, HARMS};
use super::lent::{spoken, Difference};
use super::node::Node;
use super::random::Random;
use crate::boundary::{refusal, Boundary, CUT_BYTES};
use crate::bytes::header;
use crate::HEADER;

/// What is cut: offset, number, bytes; or the answer that refuses.
pub type Cuts = Result<Vec<[u32; 3]>, u64>;

/// A figure with several faults at once, inside the 3D3D and sometimes outside.
pub fn damaged(random: &mut Random) -> Node {
    let fill = random.pick(&[Fill::Full, Fill::Some, Fill::Some]);
    let mut root = figure(random, fill);
    for _ in 0..random.from_to(1, 4) {
        let outside = random.chance(8);
        let paths = root.paths(&|_| true);
        let edit = root
            .children
            .iter()
            .position(|child| child.identifier == 0x3D3D);
        let inside = |path: &&Vec<usize>| path.len() > 1 && path.first().copied() == edit;
        let paths: Vec<_> = paths
            .iter()
            .filter(|path| outside != inside(path))
            .collect();
        if !paths.is_empty() {
            let mut path = paths[random.below(paths.len())].clone();
            let harm = random.pick(&HARMS);
            harm_at(harm, &mut root, &mut path, random);
        }
    }
    root
}

impl<L: Boundary, R: Boundary> Pair<L, R> {
    /// The rescue of a file with all kinds of room.
    pub fn rescued(&mut self, file: &[u8], random: &mut Random) -> Result<(), Difference> {
        self.ask(file, Call::Rescue(0, 0))?;
        let answer = self.ask(file, Call::Rescue(most(file), file.len()))?;
        if refusal(answer).is_some() {
            self.ask(file, Call::Rescue(random.below(30), random.below(99)))?;
            return Ok(());
        }
        let cuts = CUT_BYTES * answer as usize;
        let out = self.wanting(file, Call::Rescue(cuts, 0))?;
        let (less_cuts, less_out) = (cuts.saturating_sub(1), out.saturating_sub(1));
        for (cuts, out) in [
            (cuts, out),
            (less_cuts, out),
            (cuts, less_out),
            (less_cuts, less_out),
            (cuts + random.below(30), out + random.below(9)),
        ] {
            self.ask(file, Call::Rescue(cuts, out))?;
        }
        sound(&self.left, file)?;
        sound(&self.right, file)
    }

    /// Whether both sides cut just this.
    pub fn cuts(&self, file: &[u8], expected: &Cuts) -> Result<(), Difference> {
        for side in [&self.left as &dyn Boundary, &self.right] {
            let said = said(side, file).map(|(cuts, _)| cuts);
            if said != *expected {
                return Err(Difference::should("a rescue".into(), expected, &said));
            }
        }
        Ok(())
    }
}

/// Bytes for as many cuts as a file can need.
fn most(file: &[u8]) -> usize {
    CUT_BYTES * (file.len() / HEADER + 1)
}

/// The cuts and the mended figure.
fn said(side: &dyn Boundary, file: &[u8]) -> Result<(Vec<[u32; 3]>, Vec<u8>), u64> {
    let (mut cuts, mut out) = (vec![0; most(file)], vec![0; file.len()]);
    let answer = side.rescue(file, &mut cuts, &mut out);
    if refusal(answer).is_some() {
        return Err(answer);
    }
    cuts.truncate(CUT_BYTES * answer as usize);
    let cuts = numbers(&cuts);
    let removed: u32 = cuts.iter().map(|[_, _, bytes]| *bytes).sum();
    out.truncate(file.len() - removed as usize);
    Ok((cuts, out))
}

/// Whether a mended figure is accepted, and is the file but for its cuts; of an
/// accepted file nothing is cut.
fn sound(side: &dyn Boundary, file: &[u8]) -> Result<(), Difference> {
    let Ok((cuts, out)) = said(side, file) else {
        return Ok(());
    };
    let good = refusal(side.check(file)).is_none();
    let accepted = refusal(side.check(&out)).is_none();
    let mut back = out.clone();
    for [offset, _, bytes] in &cuts {
        let (from, to) = (*offset as usize, (offset + bytes) as usize);
        back.splice(from..from, file[from..to].iter().copied());
    }
    // Only the two lengths are others.
    for around in [0, edit(file)] {
        let length = around + 2..around + 6;
        back[length.clone()].copy_from_slice(&file[length]);
    }
    if accepted && back == file && good == cuts.is_empty() {
        return Ok(());
    }
    Err(Difference {
        call: format!("a rescue, cuts {cuts:?}"),
        left: format!("the mended figure: {}", spoken(side.check(&out))),
        right: format!("put back it is the file: {}", back == file),
    })
}

/// The first 3D3D of a file that has one behind good headers.
fn edit(file: &[u8]) -> usize {
    let mut at = HEADER;
    while let Some((identifier, length)) = header(&file[at..]) {
        if identifier == 0x3D3D {
            return at;
        }
        at += length;
    }
    0
}
