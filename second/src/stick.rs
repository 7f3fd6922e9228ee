//! A stick against its slip: what a walk met, item by item with its evidence,
//! held against the manifest, which is the slip's own file and its entries.

use crate::{read_slip, Number, Refusal, Sums};
use std::collections::{HashMap, HashSet};

/// The bytes of an item: seven numbers of eight.
pub const ITEM_BYTES: usize = 56;

/// The name of the slip's own file.
const SLIP: &[u8] = b"stick.slip";

/// The most bytes of a folder's path.
const LONGEST_FOLDER: usize = 63;

/// Answers from here on are refusals.
const REFUSALS: u64 = 1 << 32;

/// `Ok` of a good stick, else its first problem.
pub fn judge_stick(slip: &[u8], paths: &[u8], items: &[u8]) -> Result<(), Refusal> {
    let manifest = Manifest::of(slip)?;
    let (whole, part) = items.as_chunks::<ITEM_BYTES>();
    Number::Unchecked.unless(part.is_empty(), whole.len())?;
    let items: Vec<Item> = whole.iter().map(|item| Item::of(item, paths)).collect();
    if let Some(top) = items.first() {
        top.judge_as_top()?;
    }
    let mut met = Met::default();
    for (number, item) in items.iter().enumerate().skip(1) {
        match item.kind {
            Kind::File => item.judge_file(number, &manifest, &mut met)?,
            kind => item.judge_folder(kind, number, &manifest, &mut met)?,
        }
    }
    Number::Incomplete.unless(is_whole(&items), 0)?;
    let lines = 0..manifest.lines.len();
    if let Some(line) = lines.into_iter().find(|line| !met.files.contains(line)) {
        return Err(Number::Absent.at(line));
    }
    let figure = |item: &Item| item.kind == Kind::File && item.reader != 0;
    Number::NoFigure.unless(items.iter().any(figure), 0)
}

/// The reader that a file of this path belongs to; 0 for none.
pub fn own_reader(path: &[u8]) -> u64 {
    let ending = path.last_chunk::<4>().copied().unwrap_or_default();
    match &ending.map(|byte| byte.to_ascii_lowercase()) {
        b".3ds" => 1,
        b".cob" => 2,
        b".c4d" => 3,
        _ => 0,
    }
}

/// All files that must be there.
struct Manifest {
    lines: Vec<Line>,
    /// The first line of each name, in small letters.
    by_name: HashMap<Vec<u8>, usize>,
    /// The paths, in small letters, of all folders that lead to a line.
    folders: HashSet<Vec<u8>>,
}

/// What a line says of its file.
struct Line {
    length: u64,
    sums: u64,
}

impl Manifest {
    fn of(slip: &[u8]) -> Result<Manifest, Refusal> {
        let entries = read_slip(slip)?;
        let mut manifest = Manifest {
            lines: Vec::with_capacity(1 + entries.len()),
            by_name: HashMap::with_capacity(1 + entries.len()),
            folders: HashSet::new(),
        };
        let own = Sums::of(slip);
        manifest.add(SLIP, own.length, own.number());
        for entry in entries {
            let name = &slip[entry.name_offset as usize..][..entry.name_length as usize];
            manifest.add(name, u64::from(entry.length), entry.sums);
        }
        Ok(manifest)
    }

    fn add(&mut self, name: &[u8], length: u64, sums: u32) {
        let name = name.to_ascii_lowercase();
        for (at, _) in name.iter().enumerate().filter(|(_, byte)| **byte == b'/') {
            if !self.folders.contains(&name[..at]) {
                self.folders.insert(name[..at].to_vec());
            }
        }
        self.by_name.entry(name).or_insert(self.lines.len());
        let sums = u64::from(sums);
        self.lines.push(Line { length, sums });
    }
}

/// What was met already: lines that have their file, and folders, in small letters.
#[derive(Default)]
struct Met {
    files: HashSet<usize>,
    folders: HashSet<Vec<u8>>,
}

#[derive(Clone, Copy, PartialEq, Eq)]
enum Kind {
    File,
    Folder,
    Neither,
}

/// One thing that the walk met.
struct Item {
    /// In small letters.
    path: Vec<u8>,
    kind: Kind,
    size: u64,
    sum: u64,
    reader: u64,
    answer: u64,
}

impl Item {
    fn of(bytes: &[u8; ITEM_BYTES], paths: &[u8]) -> Item {
        let number = |which: usize| u64::from_le_bytes(bytes.as_chunks().0[which]);
        let path = span(paths, number(0), number(1));
        Item {
            path: path.unwrap_or_default().to_ascii_lowercase(),
            kind: match (path, number(2)) {
                (Some(_), 1) => Kind::File,
                (Some(_), 2) => Kind::Folder,
                _ => Kind::Neither,
            },
            size: number(3),
            sum: number(4),
            reader: number(5),
            answer: number(6),
        }
    }

    /// As the first item, which is the stick's own folder.
    fn judge_as_top(&self) -> Result<(), Refusal> {
        Number::Unchecked.unless(self.kind == Kind::Folder, 0)?;
        Number::Unexpected.unless(self.path.is_empty(), 0)?;
        Number::Unchecked.unless(self.size != 0, 0)
    }

    fn judge_file(&self, number: usize, all: &Manifest, met: &mut Met) -> Result<(), Refusal> {
        let line = all.by_name.get(&self.path).copied();
        // No name is empty, so an empty path has no line.
        let line = line.filter(|line| met.files.insert(*line));
        let Line { length, sums } = all.lines[line.ok_or(Number::Unexpected.at(number))?];
        Number::Changed.unless(self.size == length, number)?;
        Number::Unchecked.unless(self.sum / 65_536 == self.size, number)?;
        Number::Unchecked.unless(self.reader == own_reader(&self.path), number)?;
        Number::Changed.unless(self.sum % 65_536 == sums, number)?;
        Number::BadFigure.unless(self.answer < REFUSALS, number)
    }

    fn judge_folder(
        &self,
        kind: Kind,
        number: usize,
        all: &Manifest,
        met: &mut Met,
    ) -> Result<(), Refusal> {
        Number::Unchecked.unless(kind == Kind::Folder, number)?;
        let path = &self.path;
        let fits = (1..=LONGEST_FOLDER).contains(&path.len());
        let leads = all.folders.contains(path) && !all.by_name.contains_key(path);
        let expected = fits && leads && met.folders.insert(path.clone());
        Number::Unexpected.unless(expected, number)?;
        Number::Unchecked.unless(self.size != 0, number)
    }
}

/// The bytes from an offset on, so many, if they are all there.
fn span(bytes: &[u8], offset: u64, length: u64) -> Option<&[u8]> {
    let begin = usize::try_from(offset).ok()?;
    let end = begin.checked_add(usize::try_from(length).ok()?)?;
    bytes.get(begin..end)
}

/// Whether there are as many items as the stick's folder and all listed names.
fn is_whole(items: &[Item]) -> bool {
    let folders = items.iter().filter(|item| item.kind == Kind::Folder);
    let listed = folders.map(|folder| u128::from(folder.size.saturating_sub(1)));
    items.len() as u128 == 1 + listed.sum::<u128>()
}
