//! The plain reader's walk: the rules one after the other, with no thought
//! of speed, and an error at each that can be switched on.

use super::{Error, Seeded};
use crate::differ::facts::Mesh;
use crate::{place, row, Number, Own, Refusal, Row, LIMIT, RECORD};

/// What the plain reader makes of a file.
#[derive(Debug, Default)]
pub struct Read {
    pub records: Vec<[u32; RECORD]>,
    pub own: usize,
    pub skipped: usize,
    /// How many unlisted chunks were passed over.
    pub passed: usize,
    pub meshes: Vec<Mesh>,
    /// Father and depth of each.
    pub parts: Vec<[u32; 2]>,
}

/// What is known of a mesh before its end.
#[derive(Default)]
pub struct Parts {
    pub vertices: Option<Vec<u8>>,
    pub faces: Vec<u8>,
    pub faces_at: usize,
    pub mapping: Option<(usize, Vec<u8>)>,
    /// Count and offset of the vertices, the faces and the pairs.
    pub places: [u32; 6],
    /// A refusal put off to the mesh's end, by mistake.
    pub put_off: Option<Refusal>,
}

/// The chunk whose children are read.
struct Around {
    row: Row,
    at: usize,
    end: usize,
    record: usize,
    depth: u32,
}

pub struct Reader<'a> {
    pub seeded: Seeded,
    pub file: &'a [u8],
    pub read: Read,
    pub name: [u32; 2],
    pub parts: Parts,
    /// Blocks of all kinds met in a keyframer, and the last part.
    pub blocks: usize,
    pub part_at: usize,
    met_in_file: u8,
}

/// The row of the figure itself.
const FIGURE: &Row = row(0x4D4D).expect("the table begins with it");

/// Judges 1 and 2.
fn begin(seeded: Seeded, file: &[u8]) -> Result<(), Refusal> {
    let long = match seeded.error {
        Some(Error::LimitOff) => file.len() >= LIMIT,
        Some(Error::LimitNotJudged) => false,
        _ => file.len() > LIMIT,
    };
    let other = !file.starts_with(&[0x4D, 0x4D]) || file.len() < 6;
    if other && file.len() > 1 && file[..2] == *b"MM" && seeded.makes(Error::ShortFigureRead) {
        return Err(Number::Stray.at(0));
    }
    let too_long = Err(Number::TooLong.at(0));
    let not_a_figure = Err(Number::NotAFigure.at(0));
    match (long, other) {
        (true, true) if seeded.makes(Error::LimitAfterFigure) => not_a_figure,
        (true, _) => too_long,
        (false, true) => not_a_figure,
        (false, false) => Ok(()),
    }
}

/// A reader that has read nothing.
fn reader(seeded: Seeded, file: &[u8]) -> Reader<'_> {
    Reader {
        seeded,
        file,
        read: Read::default(),
        name: [0; 2],
        parts: Parts::default(),
        blocks: 0,
        part_at: 0,
        met_in_file: 0,
    }
}

/// The version of a whole file.
pub fn version(seeded: Seeded, file: &[u8]) -> Option<u32> {
    reader(seeded, file).version()
}

/// Reads a whole file.
pub fn read(seeded: Seeded, file: &[u8]) -> Result<Read, Refusal> {
    begin(seeded, file)?;
    let mut reader = reader(seeded, file);
    let length = reader.length(0);
    if length < 6 && !seeded.makes(Error::TrailingBeforeShort) {
        return Err(Number::Short.at(0));
    }
    if length > file.len() {
        return Err(Number::Overrun.at(0));
    }
    if length < file.len() && !seeded.makes(Error::TrailingAllowed) {
        let off = seeded.makes(Error::TrailingPlace);
        return Err(Number::Trailing.at(if off { file.len() } else { length }));
    }
    let row = seeded.row(0x4D4D).unwrap_or(Row { ..*FIGURE });
    match reader.known(row, [0, length, 0, 0]) {
        Ok(()) => Ok(reader.read),
        Err(refusal) if seeded.makes(Error::PlaceWithoutSkipped) => Err(Refusal {
            place: refusal.place.saturating_sub(reader.read.skipped),
            ..refusal
        }),
        Err(refusal) => Err(refusal),
    }
}

impl Reader<'_> {
    pub fn word(&self, at: usize) -> usize {
        usize::from(self.file[at]) + 256 * usize::from(self.file[at + 1])
    }

    pub fn length(&self, at: usize) -> usize {
        let more = if self.makes(Error::LengthExcludesHeader) {
            6
        } else {
            0
        };
        self.word(at + 2) + 65_536 * self.word(at + 4) + more
    }

    pub fn makes(&self, error: Error) -> bool {
        self.seeded.makes(error)
    }

    /// The row of the chunk at an offset, or of another by mistake.
    fn row(&self, at: usize) -> Option<Row> {
        match self.word(at) as u16 {
            0x4D4D if self.makes(Error::FigureInsideSkipped) => None,
            identifier => self.seeded.row(identifier),
        }
    }

    /// The children of a chunk, and what is judged at its end.
    fn run(&mut self, around: &Around, start: usize) -> Result<(), Refusal> {
        let (mut at, mut met) = (start, 0);
        while at < around.end {
            let (left, missing) = (around.end - at, around.row.needs & !met != 0);
            if left < 6 {
                if missing && self.makes(Error::MissingBeforeStray) {
                    return Err(Number::Missing.at(around.at));
                }
                let place = match self.seeded.error {
                    Some(Error::StrayPlace) => at + 1,
                    Some(Error::StrayAtParent) => around.at,
                    _ => at,
                };
                return Err(Number::Stray.at(place));
            }
            at += self.child(around, at, &mut met)?;
        }
        let missing = around.row.needs & !met != 0;
        if missing && !(self.makes(Error::MissingNotJudged) && around.at > 0) {
            let end = self.makes(Error::MissingAtEnd);
            return Err(Number::Missing.at(if end { around.end } else { around.at }));
        }
        Ok(())
    }

    /// One child, of whose header all bytes are there; how far to step.
    fn child(&mut self, around: &Around, at: usize, met: &mut u8) -> Result<usize, Refusal> {
        let (left, length, row) = (around.end - at, self.length(at), self.row(at));
        let misplaced = row.is_some_and(|row| row.under & around.row.holds == 0);
        let bad = length < 6 || length > left;
        let unjudged = match self.seeded.error {
            Some(Error::UnlistedStepsTwo) => 2,
            Some(Error::UnlistedUnjudged) => left,
            _ => 0,
        };
        if row.is_none() && bad && unjudged > 0 {
            self.read.skipped += unjudged;
            return Ok(unjudged);
        }
        Number::Short.unless(length >= 6, at)?;
        if misplaced && self.makes(Error::MisplacedBeforeOverrun) {
            return Err(Number::Misplaced.at(at));
        }
        if self.makes(Error::TwiceBeforeOverrun) && !misplaced {
            let again = row.is_some_and(|row| row.once & *met != 0);
            Number::Twice.unless(!again, at)?;
        }
        let wraps = self.makes(Error::LengthWraps) && at + length > u32::MAX as usize;
        if length > left && !wraps {
            return Err(Number::Overrun.at(at));
        }
        let length = length.min(left);
        if (0xB001..=0xB007).contains(&self.word(at)) {
            self.blocks += 1;
            self.part_at = at;
        }
        let Some(row) = row else {
            return Ok(self.pass_over(length));
        };
        Number::Misplaced.unless(!misplaced, at)?;
        self.once(row, [at, length, around.at], met)?;
        self.known(row, [at, length, around.record, around.depth as usize + 1])?;
        Ok(length)
    }

    /// Counts an unlisted chunk; how far to step.
    fn pass_over(&mut self, length: usize) -> usize {
        let step = if self.makes(Error::UnlistedOpened) {
            6
        } else {
            length
        };
        self.read.skipped += step;
        self.read.passed += 1;
        step
    }

    /// Judges "at most one".
    fn once(&mut self, row: Row, numbers: [usize; 3], met: &mut u8) -> Result<(), Refusal> {
        let [at, length, parent] = numbers;
        let mut once = row.once;
        if self.makes(Error::TwiceEachAlone) && row.under == place::H4000 && once != 0 {
            once = 1 << (self.word(at) >> 8 & 7);
        }
        let own = self.own(row, at, length);
        let text = own.is_err_and(|refusal| refusal.number == Number::Text as u32);
        if self.makes(Error::LengthBeforeTwice) || text && self.makes(Error::TextBeforeTwice) {
            own?;
        }
        let name = self.word(at) == 0xA000 && self.makes(Error::TwiceAcrossParents);
        if once & *met != 0 || (name && self.met_in_file != 0) {
            let elsewhere = self.makes(Error::TwiceAtParent);
            return Err(Number::Twice.at(if elsewhere { parent } else { at }));
        }
        *met |= once;
        self.met_in_file |= u8::from(name);
        Ok(())
    }

    /// A listed chunk in its place: own data, record, children, end.
    fn known(&mut self, row: Row, numbers: [usize; 4]) -> Result<(), Refusal> {
        let [at, length, parent, depth] = numbers;
        let mesh = row.holds == place::H4100;
        if mesh {
            self.parts = Parts::default();
        }
        let own = self.own(row, at, length)?;
        self.numbers(row, at, own)?;
        let (record, passed) = (self.record(row, numbers, own), self.read.passed);
        if row.holds == place::H4000 {
            self.name = [at as u32 + 6, own as u32 - 1];
        }
        if row.holds != 0 {
            let around = Around {
                row,
                at,
                end: at + length,
                record,
                depth: depth as u32,
            };
            let before = self.read.meshes.len();
            self.run(&around, at + 6 + own)?;
            let none = before == self.read.meshes.len();
            if row.holds == place::H4000 && none && self.makes(Error::MeshesAreObjects) {
                self.read.meshes.push(Mesh::default());
            }
        }
        debug_assert!(parent <= record);
        if mesh {
            self.close(at)?;
        }
        self.next(record, self.read.passed - passed);
        Ok(())
    }

    /// Notes the number behind a record and all inside it.
    fn next(&mut self, number: usize, passed: usize) {
        let behind = &self.read.records[number + 1..];
        let next = match self.seeded.error {
            Some(Error::NextWithoutOne) => number + behind.len(),
            Some(Error::NextIsCount) => 1 + behind.len(),
            Some(Error::NextOfUnlistedToo) => number + 1 + behind.len() + passed,
            Some(Error::NextOfChildrenOnly) => {
                let children = behind.iter().filter(|record| record[4] == number as u32);
                number + 1 + children.count()
            }
            _ => number + 1 + behind.len(),
        };
        self.read.records[number][6] = next as u32;
    }

    /// Lists a chunk, and answers the number of its record.
    fn record(&mut self, row: Row, numbers: [usize; 4], own: usize) -> usize {
        let [at, mut length, mut parent, mut depth] = numbers;
        let number = self.read.records.len();
        let mut said = own;
        match self.seeded.error {
            Some(Error::ParentOff) if depth > 2 => parent += 1,
            Some(Error::DepthOff) if row.own == Own::Group => depth -= 1,
            Some(Error::LengthWithoutHeader) => length -= 6,
            Some(Error::ParentIsDepthLess) => parent = depth.saturating_sub(1),
            Some(Error::ParentIsPrevious) => parent = number.saturating_sub(1),
            Some(Error::DepthFromOne) => depth += 1,
            Some(Error::OwnIsBody) => said = length - 6,
            Some(Error::OwnOfGroupWithoutName) if row.own == Own::Group => {
                let entries = self.file[at + 6..].iter().position(|byte| *byte == 0);
                said -= entries.unwrap_or(0) + 1;
            }
            _ => (),
        }
        let offset = if self.makes(Error::OffsetOfBody) {
            at + 6
        } else {
            at
        };
        let numbers = [self.word(at), offset, length, depth, parent, said, 0];
        self.read.records.push(numbers.map(|number| number as u32));
        self.read.own += own;
        number
    }
}
