//! What can be wrong with a stick: the slip is not that of the files, its bytes
//! are damaged, or what was gathered is not what is there.

use super::grow::{File, Row, Stick};
use crate::differ::damage::bits;
use crate::differ::random::Random;
use crate::read_slip;

/// Makes the entries of a slip others than the files on the stick are.
pub fn misfit(files: &mut Vec<File>, entries: &mut Vec<File>, random: &mut Random) {
    let (one, other) = (
        random.below(entries.len().max(1)),
        random.below(files.len()),
    );
    let kind = random.below(9);
    let Some(entry) = entries.get_mut(one) else {
        return;
    };
    match kind {
        0 => drop(entries.swap_remove(one)),
        1 => entries.insert(one, unmet(&files[other], random)),
        2 => entry.length ^= random.pick(&[1, 1 << 16, 1 << 31, 3]),
        3 => entry.sums = (entry.sums ^ random.pick(&[1, 128, 1 << 8, 1 << 15])) & 0xFEFE,
        4 => letter(&mut entry.name, random),
        5 => entry.name = files[other].name.clone(),
        6 => no_figure([files, entries]),
        7 => as_folder(files, entries, random),
        _ => drop(files.swap_remove(other)),
    }
    if files.is_empty() {
        files.push(File::any(b"x".to_vec(), random));
    }
}

/// An entry that no file is met for.
fn unmet(file: &File, random: &mut Random) -> File {
    let mut name = file.name.clone();
    match random.below(4) {
        0 => {
            name = random
                .pick(&[&b"stick.slip"[..], b"STICK.SLIP", b"Stick.slip"])
                .to_vec()
        }
        1 => name.iter_mut().for_each(|byte| {
            if byte.is_ascii_alphabetic() {
                *byte ^= 0x20;
            }
        }),
        2 => name.extend(b"/z.3ds"),
        _ => name = b"new.3ds".to_vec(),
    }
    name.truncate(63);
    File {
        name,
        ..file.clone()
    }
}

/// Changes a byte of a name; one that differs in the bit of letters stays the
/// same name where it is a letter.
fn letter(name: &mut [u8], random: &mut Random) {
    let at = random.below(name.len().max(1));
    if let Some(byte) = name.get_mut(at) {
        *byte ^= random.pick(&[0x20, 0x20, 1]);
    }
}

/// Takes the endings of all figures away, on the stick and on the slip.
fn no_figure(rows: [&mut Vec<File>; 2]) {
    for file in rows.into_iter().flatten() {
        let end = file.name.len() - 1;
        file.name[end] = b'x';
    }
}

/// One file more, on the slip too, of the name of a folder.
fn as_folder(files: &mut Vec<File>, entries: &mut Vec<File>, random: &mut Random) {
    let name = random.pick(&[&b"a"[..], b"A/b", b"ab", b"b", b"stick.slip/a"]);
    let file = File::any(name.to_vec(), random);
    files.push(file.clone());
    entries.insert(random.below(entries.len() + 1), file);
}

/// Damages the bytes of a slip.
pub fn slip(slip: &mut Vec<u8>, random: &mut Random) {
    let entries = read_slip(slip).unwrap_or_default();
    match (random.below(5), entries.len()) {
        (0, _) => slip.truncate(random.below(slip.len() + 1)),
        (1, _) => slip.push(0),
        _ if slip.is_empty() => (),
        (2 | 3, 1..) => {
            let entry = random.pick(&entries);
            let at = entry.name_offset as usize + random.below(entry.name_length as usize);
            slip[at] = random.pick(&[31, 32, 126, 127, 255]);
        }
        _ => bits(slip, random),
    }
}

/// Spoils what was gathered.
pub fn gathered(stick: &mut Stick, random: &mut Random) {
    let count = stick.rows.len();
    let (one, other) = (random.below(count.max(1)), random.below(count.max(1)));
    match random.below(10) {
        _ if count == 0 => (),
        0 => lost(stick, one, random),
        1 => doubled(stick, one, other, random),
        2 => more(stick, random),
        3 => stick.rows.swap(one, other),
        4 => cut(stick, random),
        5 => path(stick, one, other, random),
        6 => folder(stick, random),
        _ => evidence(&mut stick.rows[one], random),
    }
}

/// An item that was not looked at, or is lost.
fn lost(stick: &mut Stick, one: usize, random: &mut Random) {
    match random.below(4) {
        0 => stick.rows[one] = [0; 7],
        1 => stick.rows[one][2..].fill(0),
        2 => drop(stick.rows.remove(one)),
        _ => {
            stick.rows.remove(one);
            listed(stick, u64::MAX, random);
        }
    }
}

/// An item that comes twice, in a folder that lists it or not.
fn doubled(stick: &mut Stick, one: usize, other: usize, random: &mut Random) {
    let mut row = stick.rows[one];
    if random.chance(20) {
        row[3] = 0;
    }
    stick.rows.insert(other + 1, row);
    if random.chance(60) {
        listed(stick, 1, random);
    }
}

/// Something that is not on the slip.
fn more(stick: &mut Stick, random: &mut Random) {
    let long = [b'a'; 70];
    let paths: [&[u8]; 9] = [
        b"",
        b"z",
        b"a",
        b"a/",
        b"A",
        b"ab/b",
        b"/",
        &long[..64],
        &long[..63],
    ];
    let (path, kind) = (random.pick(&paths), random.pick(&[2, 2, 1, 3]));
    stick.add(path, [0, 0, kind, 1, 0, 0, 0], random);
    if random.chance(80) {
        listed(stick, 1, random);
    }
}

/// A folder that lists so many names more.
fn listed(stick: &mut Stick, by: u64, random: &mut Random) {
    let folder = some(stick, 2, random);
    if let Some(row) = folder.and_then(|number| stick.rows.get_mut(number)) {
        row[3] = row[3].wrapping_add(by);
    }
}

/// One of the items of a kind.
fn some(stick: &Stick, kind: u64, random: &mut Random) -> Option<usize> {
    let all = (0..stick.rows.len()).filter(|number| stick.rows[*number][2] == kind);
    let all: Vec<usize> = all.collect();
    (!all.is_empty()).then(|| random.pick(&all))
}

/// Items cut off, in the middle of one or not, or a part of one more.
fn cut(stick: &mut Stick, random: &mut Random) {
    match random.below(4) {
        0 => stick.rows.clear(),
        1 => stick.rows.truncate(1),
        2 => drop(stick.rows.pop()),
        _ => (),
    }
    if random.chance(60) {
        let part = random.from_to(1, 55);
        stick.tail = random.bytes(part);
    }
}

/// A path that is another's, or is not there whole.
fn path(stick: &mut Stick, one: usize, other: usize, random: &mut Random) {
    let (all, [at, length]) = (
        stick.paths.len() as u64,
        [0, 1].map(|n| stick.rows[other][n]),
    );
    let [to, from] = [one, other].map(|number| stick.rows[number][1]);
    let row = &mut stick.rows[one];
    match random.below(11) {
        0 => row[..2].copy_from_slice(&[at, length]),
        1 => row[0] = all.wrapping_sub(to).wrapping_add(1),
        2 => row[0] = row[0].wrapping_add(1),
        3 => row[1] = 0,
        4 => row[1] = row[1].wrapping_sub(1),
        5 => row[1] = row[1].wrapping_add(1),
        6 => row[..2].copy_from_slice(&[u64::MAX, 1]),
        7 => row[0] = row[0].wrapping_add(1 << random.pick(&[32, 63])),
        8 => row[..2].copy_from_slice(&[all + 1, 0]),
        9 => row[1] = from.wrapping_neg(),
        _ => {
            let at = random.below(stick.paths.len().max(1));
            let byte = stick.paths.get_mut(at);
            byte.into_iter()
                .for_each(|byte| *byte ^= random.pick(&[0x20, 0x20, 1]));
        }
    }
}

/// Folders that were not listed, or list another number; or two that list as
/// many as there are only where the count runs over.
fn folder(stick: &mut Stick, random: &mut Random) {
    let two = [0, 1].map(|_| some(stick, 2, random));
    let [Some(one), Some(other)] = two else {
        return;
    };
    match random.below(4) {
        0 => stick.rows[one][3] = 0,
        1 => stick.rows[one][3] = random.pick(&[1, 2, u64::MAX, 1 << 32]),
        2 => stick.rows[one][3] = stick.rows[one][3].wrapping_add(random.pick(&[1, u64::MAX])),
        _ => {
            for number in [one, other] {
                stick.rows[number][3] = stick.rows[number][3].wrapping_add(1 << 63);
            }
        }
    }
}

/// Evidence that is not what it should be.
fn evidence(row: &mut Row, random: &mut Random) {
    let which = random.from_to(2, 6);
    let wide = random.pick(&[1, 1 << 8, 1 << 16, 1 << 32, 1 << 48, 1 << 63]);
    row[which] = match (which, random.below(5)) {
        (_, 0) => 0,
        (2, _) => random.pick(&[1, 2, 3, 1 + wide, 2 + wide]),
        (4, 1) => row[4] ^ 1 << random.below(16),
        (4, 2) => row[4] ^ 65_536 << random.below(20),
        (4, 3) => row[4] | random.pick(&[0xFF, 0xFF00]),
        (5, _) => random.below(5) as u64,
        (6, 1) => 1 << 32,
        (6, 2) => u64::from(u32::MAX),
        (6, _) => random.next(),
        _ => row[which].wrapping_add(wide),
    };
    if which == 3 && random.chance(50) {
        // Read whole, and of another length.
        row[4] = row[3] << 16 | row[4] & 0xFFFF;
    }
}
