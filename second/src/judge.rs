//! The strict walk over a whole file: the first fault in the paper's order,
//! or the byte counts and the place of the mesh that is asked for.

use crate::bytes::{header, word};
use crate::own::Mesh;
use crate::parts::{next_part, Part};
use crate::rescue::Cut;
use crate::table::{place, row, Own, Row};
use crate::version::mapped_whole;
use crate::{Number, Refusal, HEADER, LIMIT};
use std::ops::Range;

/// The identifier that a figure begins with, and its row.
const FIGURE: u16 = 0x4D4D;
const FIGURE_ROW: &Row = row(FIGURE).expect("the table begins with it");

/// The count of known chunks, and the three byte counts.
#[derive(Clone, Copy, Debug, Default, PartialEq, Eq)]
pub struct Counts {
    pub records: usize,
    pub headers: usize,
    pub own: usize,
    pub skipped: usize,
}

/// A mesh of an accepted file: its lists, and the span of its name.
#[derive(Clone, Copy, Debug)]
pub struct Found {
    pub mesh: Mesh,
    pub name: (usize, usize),
}

/// The chunk whose children are being walked.
struct Parent {
    chunk: usize,
    end: usize,
    place: u16,
    /// The "at most one" bits met so far.
    seen: u8,
    needs: u8,
}

/// The walk, and what it has gathered so far.
struct Walk<'a> {
    file: &'a [u8],
    /// Whether mapping lists must be as long as the vertices.
    mapped_whole: bool,
    counts: Counts,
    /// The span of the last object's name.
    name: (usize, usize),
    mesh: Mesh,
    meshes: usize,
    parts: Vec<Part>,
    /// The numbers of the meshes that are asked for, and those that were found.
    wanted: Range<usize>,
    found: Vec<Found>,
    /// Whether the 3D3D is to be mended; where it stands, and what is cut.
    mending: bool,
    edit: usize,
    cuts: Vec<Cut>,
}

/// Whether a file is a figure, and what it counts to.
pub fn check(file: &[u8]) -> Result<Counts, Refusal> {
    Ok(walked(file, 0..0)?.counts)
}

/// A mesh of a file; the file's own fault comes before "no such mesh".
pub(crate) fn find(file: &[u8], mesh: u32) -> Result<Found, Refusal> {
    let mesh = mesh as usize;
    let walk = walked(file, mesh..mesh + 1)?;
    let found = walk.found.first().copied();
    found.ok_or(Number::NoSuchMesh.at(walk.meshes))
}

/// All meshes of a file.
pub(crate) fn found(file: &[u8]) -> Result<Vec<Found>, Refusal> {
    Ok(walked(file, 0..usize::MAX)?.found)
}

/// The parts of a file.
pub(crate) fn hung(file: &[u8]) -> Result<Vec<Part>, Refusal> {
    Ok(walked(file, 0..0)?.parts)
}

/// The 3D3D of a damaged file and what must be cut out of it, or the first fault
/// outside its children.
pub(crate) fn cuts(file: &[u8]) -> Result<(usize, Vec<Cut>), Refusal> {
    let mut walk = begun(file, 0..0)?;
    walk.mending = true;
    walk.known(FIGURE_ROW, 0, &file[HEADER..])?;
    Ok((walk.edit, walk.cuts))
}

/// The walk over a whole file.
fn walked(file: &[u8], wanted: Range<usize>) -> Result<Walk<'_>, Refusal> {
    let mut walk = begun(file, wanted)?;
    walk.known(FIGURE_ROW, 0, &file[HEADER..])?;
    walk.counts.headers = HEADER * walk.counts.records;
    Ok(walk)
}

/// A walk that has judged 1 and 2, and 4, 5 and 3 for the 4D4D.
fn begun(file: &[u8], wanted: Range<usize>) -> Result<Walk<'_>, Refusal> {
    Number::TooLong.unless(file.len() <= LIMIT, 0)?;
    let (FIGURE, length) = header(file).ok_or(Number::NotAFigure.at(0))? else {
        return Err(Number::NotAFigure.at(0));
    };
    Number::Short.unless(length >= HEADER, 0)?;
    Number::Overrun.unless(length <= file.len(), 0)?;
    Number::Trailing.unless(length == file.len(), length)?;
    Ok(Walk {
        file,
        mapped_whole: mapped_whole(file),
        counts: Counts::default(),
        name: (0, 0),
        mesh: Mesh::default(),
        meshes: 0,
        parts: Vec::new(),
        wanted,
        found: Vec::new(),
        mending: false,
        edit: 0,
        cuts: Vec::new(),
    })
}

impl Parent {
    /// Takes a known chunk for a child, or 7 or 8.
    #[inline(always)]
    fn take(&mut self, row: &Row, at: usize) -> Result<(), Refusal> {
        Number::Misplaced.unless(row.under & self.place != 0, at)?;
        Number::Twice.unless(row.once & self.seen == 0, at)?;
        self.seen |= row.once;
        Ok(())
    }
}

impl Walk<'_> {
    /// Walks the children from an offset to the parent's end, and judges what
    /// must be there; depth is bounded by the table, siblings take no stack.
    fn children(&mut self, parent: &mut Parent, start: usize) -> Result<(), Refusal> {
        let mut skipped = 0;
        let mut rest = &self.file[start..parent.end];
        while !rest.is_empty() {
            let at = parent.end - rest.len();
            let (identifier, length) = child(rest, at)?;
            match row(identifier) {
                None => skipped += length,
                Some(row) => {
                    parent.take(row, at)?;
                    self.known(row, at, &rest[HEADER..length])?;
                }
            }
            rest = &rest[length..];
        }
        self.counts.skipped += skipped;
        Number::Missing.unless(parent.needs & !parent.seen == 0, parent.chunk)
    }

    /// Judges and counts a known chunk that stands in its place.
    #[inline(always)]
    fn known(&mut self, row: &Row, at: usize, body: &[u8]) -> Result<(), Refusal> {
        let own = self.mesh.own(row, body, at)?;
        if row.own == Own::Part {
            self.hang(word(body, own - 2), at)?;
        }
        self.counts.records += 1;
        self.counts.own += own;
        match row.holds {
            0 => Ok(()),
            _ => self.inside(row, at, own, at + HEADER + body.len()),
        }
    }

    /// Notes the next part, if its father is an earlier one, or 23.
    #[inline(never)]
    fn hang(&mut self, father: u16, at: usize) -> Result<(), Refusal> {
        let part = next_part(&self.parts, father, at)?;
        self.parts.push(part);
        Ok(())
    }

    /// Walks what stands behind the own data of a chunk whose row has a "+";
    /// the only call that nests, so that bare chunks are walked without one.
    #[inline(never)]
    fn inside(&mut self, row: &Row, at: usize, own: usize, end: usize) -> Result<(), Refusal> {
        let mut parent = Parent {
            chunk: at,
            end,
            place: row.holds,
            seen: 0,
            needs: row.needs,
        };
        let start = at + HEADER;
        if row.holds == place::H3D3D && self.mending {
            self.edit = at;
            self.mend(start, end);
            return Ok(());
        }
        match row.own {
            Own::Name => self.name = (start, own - 1),
            _ if row.holds == place::H4100 => self.mesh = Mesh::default(),
            _ => (),
        }
        self.children(&mut parent, start + own)?;
        if row.holds == place::H4100 {
            self.mesh.close(self.file, self.mapped_whole)?;
            self.count_mesh();
        }
        Ok(())
    }

    /// Judges each child of a 3D3D by itself, and adds those that fail to the
    /// cuts; from a bad header on all is cut.
    fn mend(&mut self, start: usize, end: usize) {
        let mut at = start;
        while at < end {
            let (failed, bytes) = match child(&self.file[at..end], at) {
                Err(refusal) => (Err(refusal), end - at),
                Ok((_, length)) => (self.alone(at, at + length), length),
            };
            if let Err(Refusal { number, .. }) = failed {
                self.cuts.push(Cut {
                    offset: at,
                    number,
                    bytes,
                });
            }
            at += bytes;
        }
    }

    /// Judges one child of a 3D3D as if it were the only one.
    fn alone(&mut self, at: usize, end: usize) -> Result<(), Refusal> {
        let mut parent = Parent {
            chunk: at,
            end,
            place: place::H3D3D,
            seen: 0,
            needs: 0,
        };
        self.children(&mut parent, at)
    }

    /// Counts a mesh that met the rules, and keeps it if it is asked for.
    fn count_mesh(&mut self) {
        if self.wanted.contains(&self.meshes) {
            self.found.push(Found {
                mesh: self.mesh,
                name: self.name,
            });
        }
        self.meshes += 1;
    }
}

/// Identifier and length of the child that some bytes begin with, or 6, 4 or 5.
#[inline(always)]
pub fn child(rest: &[u8], at: usize) -> Result<(u16, usize), Refusal> {
    let (identifier, length) = header(rest).ok_or(Number::Stray.at(at))?;
    Number::Short.unless(length >= HEADER, at)?;
    Number::Overrun.unless(length <= rest.len(), at)?;
    Ok((identifier, length))
}
