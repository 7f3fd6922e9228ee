//! Good sticks grown at random: files in folders, the slip of them, and what a
//! walk that misses nothing gathers of both.

use crate::boundary::set;
use crate::differ::random::Random;
use crate::{own_reader, write_slip, Entry, Sums, ITEM_BYTES};
use std::collections::BTreeMap;

/// A file: its path, its length, and its sums as one number.
#[derive(Clone, Debug)]
pub struct File {
    pub name: Vec<u8>,
    pub length: u32,
    pub sums: u32,
}

/// The seven numbers of an item.
pub type Row = [u64; 7];

/// A folder in which no name is listed.
const EMPTY: Row = [0, 0, 2, 1, 0, 0, 0];

/// What the judge is given.
#[derive(Clone, Debug, Default)]
pub struct Stick {
    pub slip: Vec<u8>,
    pub paths: Vec<u8>,
    pub rows: Vec<Row>,
    /// Bytes behind the last whole item.
    pub tail: Vec<u8>,
}

/// So many files, one of them a figure, all of different names.
pub fn files(count: usize, random: &mut Random) -> Vec<File> {
    let figure = random.below(count);
    let alike = count <= 8 && random.chance(20);
    let file = |number: usize| {
        let endings: &[&[u8]] = match number == figure {
            true => &[b".3ds", b".cob", b".c4d"],
            false => &[
                b".3ds", b".cob", b".c4d", b".txt", b"", b".3d", b"3ds", b"/3ds",
            ],
        };
        let folders: &[&[u8]] = &[b"", b"", b"a/", b"a/b/", b"ab/", b"b/b/", b"[@/", LONG];
        let (folders, stem) = match alike {
            true => (&folders[..3], alike_stem(number)),
            false => (folders, stem(number)),
        };
        let mut name = [random.pick(folders), &stem, random.pick(endings)].concat();
        other_letters(&mut name, random);
        File::any(name, random)
    };
    (0..count).map(file).collect()
}

/// A few letters, others for each number.
fn stem(number: usize) -> Vec<u8> {
    let letters = [8_u32, 4, 0].map(|digit| b'a' + (number >> digit & 15) as u8);
    letters.to_vec()
}

/// Letters of which the library makes one number, by which it tells most names
/// apart.
fn alike_stem(number: usize) -> Vec<u8> {
    let part = |bit: u32| [*b"uqnn37g", *b"6c3u1mn"][number >> bit & 1];
    [0, 1, 2].map(part).concat()
}

/// A folder whose path is nearly as long as it may be.
const LONG: &[u8] = b"long-long-long-long-long-long-long-long/long-long-long/";

/// Perhaps makes some letters small or capital.
pub fn other_letters(name: &mut [u8], random: &mut Random) {
    if random.chance(30) {
        let letters = name.iter_mut().filter(|byte| byte.is_ascii_alphabetic());
        letters.for_each(|byte| *byte ^= random.pick(&[0, 0x20]));
    }
}

impl File {
    /// A file of this name, often empty, often of a length near a power of 2.
    pub fn any(name: Vec<u8>, random: &mut Random) -> File {
        let length = match random.below(6) {
            0 => 0,
            1 => random.pick(&[1 << 16, u32::MAX, 1 << 31, 65_535]),
            _ => random.below(3_000) as u32,
        };
        let sums = [0, 8].map(|shift| (random.below(255) as u32) << shift);
        let sums = if length == 0 { 0 } else { sums[0] + sums[1] };
        File { name, length, sums }
    }

    /// What is gathered of it.
    pub fn row(&self, random: &mut Random) -> Row {
        let reader = own_reader(&self.name);
        let answer = match (reader, random.below(4)) {
            (0, _) => 0,
            (_, 0) => u64::from(u32::MAX),
            _ => random.below(40) as u64,
        };
        let [length, sums] = [self.length, self.sums].map(u64::from);
        [0, 0, 1, length, sums + 65_536 * length, reader, answer]
    }
}

/// The slip of some files; nothing where there is none of them.
pub fn slip(files: &[File]) -> Vec<u8> {
    let mut names = Vec::new();
    let mut entries = Vec::new();
    for file in files {
        entries.push(Entry {
            name_offset: names.len() as u32,
            name_length: file.name.len() as u32,
            length: file.length,
            sums: file.sums,
        });
        names.extend_from_slice(&file.name);
    }
    write_slip(&names, &entries).unwrap_or_default()
}

impl Stick {
    /// What a walk over these files, and over this slip, gathers.
    pub fn walked(files: &[File], slip: Vec<u8>, random: &mut Random) -> Stick {
        let own = File {
            name: b"stick.slip".to_vec(),
            length: slip.len() as u32,
            sums: Sums::of(&slip).number(),
        };
        let all = || files.iter().chain([&own]);
        let mut items: Vec<(Vec<u8>, Row)> = folders(all()).into_iter().collect();
        items.extend(all().map(|file| (file.name.clone(), file.row(random))));
        random.shuffle(&mut items[1..]);
        let mut stick = Stick {
            slip,
            ..Stick::default()
        };
        for (mut path, row) in items {
            other_letters(&mut path, random);
            stick.add(&path, row, random);
        }
        stick
    }

    /// An item more, whose path may be part of another's.
    pub fn add(&mut self, path: &[u8], row: Row, random: &mut Random) {
        let mut parts = self.paths.windows(path.len().max(1));
        let known = parts.position(|part| part == path);
        let at = known.filter(|_| random.chance(20)).unwrap_or_else(|| {
            self.paths.extend_from_slice(path);
            self.paths.len() - path.len()
        });
        let [_, _, evidence @ ..] = row;
        let mut row = [at as u64, path.len() as u64, 0, 0, 0, 0, 0];
        row[2..].copy_from_slice(&evidence);
        self.rows.push(row);
    }

    /// The path of an item, if it is there.
    pub fn path(&self, number: usize) -> Option<&[u8]> {
        let [at, length, ..] = *self.rows.get(number)?;
        self.paths.get(at as usize..)?.get(..length as usize)
    }

    /// The items as bytes.
    pub fn items(&self) -> Vec<u8> {
        let mut items = vec![0; ITEM_BYTES * self.rows.len()];
        let each = items.as_chunks_mut().0.iter_mut().zip(&self.rows);
        each.for_each(|(item, row)| set(item, 0, row));
        items.extend_from_slice(&self.tail);
        items
    }
}

/// The stick's own folder, which comes first as its path is empty, and those
/// that the files stand in; each with the names that it lists, and one more.
pub fn folders<'a>(files: impl Iterator<Item = &'a File>) -> BTreeMap<Vec<u8>, Row> {
    let mut folders = BTreeMap::from([(vec![], EMPTY)]);
    for file in files {
        let mut path = file.name.to_ascii_lowercase();
        // A folder that is known has been listed itself.
        let mut known = false;
        while !known {
            path.truncate(path.iter().rposition(|byte| *byte == b'/').unwrap_or(0));
            known = folders.contains_key(&path);
            folders.entry(path.clone()).or_insert(EMPTY)[3] += 1;
        }
    }
    folders
}
