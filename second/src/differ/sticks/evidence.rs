//! The evidence for files, made by both sides: of any bytes, whole and in
//! parts; and sticks of such files, good and with a bit turned.

use super::grow::{folders, slip, File, Stick};
use crate::boundary::{numbers_of, Sticks};
use crate::differ::compare::Pair;
use crate::differ::damage::bits;
use crate::differ::lent::{hex, spoken, Difference};
use crate::differ::random::Random;
use crate::{own_reader, Sums, ITEM_BYTES, LIMIT};

/// The smallest figures: .3ds, .cob, .c4d.
const STUDIO: &[u8] = b"MM\x0C\0\0\0==\x06\0\0\0";
const CALIGARI: &[u8] =
    b"Caligari V00.01BLH             \nEND \x01\0\0\0\0\0\0\0\0\0\0\0\xFF\xFF\xFF\xFF";
const CINEMA: &[u8] = b"FORM\0\0\0\x04MC4D";

/// What stands around a lent item.
const GUARD: [u8; 9] = [0xA5; 9];

/// A file of any bytes in any parts, into an item of the right length or not.
pub fn parts<L: Sticks, R: Sticks>(
    _: u64,
    random: &mut Random,
    pair: &mut Pair<L, R>,
) -> Result<u64, Difference> {
    let endings: [&[u8]; 10] = [
        b".3ds", b".3DS", b".cob", b".COb", b".c4d", b".C4d", b".txt", b"", b"3ds", b".3dS/a",
    ];
    let path = [
        random.pick(&[&b"a"[..], b"", b"a/b"]),
        random.pick(&endings),
    ]
    .concat();
    let bytes = any_bytes(random);
    let size = random.pick(&[bytes.len() as u64, bytes.len() as u64, 0, u64::MAX, 1 << 48]);
    let room = random.pick(&[56, 56, 56, 56, 56, 56, 0, 55, 57, 112]);
    let mut item = random.bytes(room);
    let mut end = match random.chance(50) {
        true => bytes.len(),
        false => random.below(bytes.len() + 1),
    };
    let first = &bytes[..end];
    let mut answer = both(&mut item, pair, "file", &bytes, |side, item| {
        side.stick_file(&path, size, first, item)
    })?;
    for _ in 0..random.below(4) {
        let part = &bytes[end..][..random.below(bytes.len() - end + 1)];
        end += part.len();
        answer = both(&mut item, pair, "more", part, |side, item| {
            side.stick_more(part, item)
        })?;
    }
    let Ok(item) = <&[u8; ITEM_BYTES]>::try_from(&item[..]) else {
        return Ok(answer);
    };
    let [_, _, told @ .., _answer] = numbers_of(item);
    let known = [1, size, Sums::of(&bytes[..end]).state(), own_reader(&path)];
    match told == known {
        true => Ok(answer),
        false => Err(Difference::should("an item".into(), &known, &told)),
    }
}

/// Has both sides fill an item, which then has what they filled in.
fn both<L: Sticks, R: Sticks>(
    item: &mut Vec<u8>,
    pair: &Pair<L, R>,
    words: &str,
    bytes: &[u8],
    call: impl Fn(&dyn Sticks, &mut [u8]) -> u64,
) -> Result<u64, Difference> {
    let [left, right] = [&pair.left as &dyn Sticks, &pair.right].map(|side| {
        let mut lent = [&GUARD, &item[..], &GUARD].concat();
        let answer = call(side, &mut lent[GUARD.len()..][..item.len()]);
        (answer, lent)
    });
    if left == right {
        let filled = &left.1[GUARD.len()..][..item.len()];
        item.copy_from_slice(filled);
        return Ok(left.0);
    }
    let shown = hex(&bytes[..bytes.len().min(400)]);
    let [left, right] =
        [left, right].map(|(answer, lent)| format!("{} {}", spoken(answer), hex(&lent)));
    let call = format!("{words}, {} bytes {shown}, item {}", bytes.len(), hex(item));
    Err(Difference { call, left, right })
}

/// Figures of each format, whole and damaged, and bytes of any kind.
fn any_bytes(random: &mut Random) -> Vec<u8> {
    let mut bytes = random.pick(&[STUDIO, CALIGARI, CINEMA]).to_vec();
    match random.below(400) {
        0 => [STUDIO, &vec![0; LIMIT + random.below(3) - STUDIO.len() - 1]].concat(),
        1..60 => {
            let length = random.below(300);
            random.bytes(length)
        }
        60..200 => {
            bits(&mut bytes, random);
            bytes
        }
        _ => bytes,
    }
}

/// A stick of bytes: good, and not good with a bit of a file turned, or of the
/// slip that is on it.
pub fn stick<L: Sticks, R: Sticks>(
    _: u64,
    random: &mut Random,
    pair: &mut Pair<L, R>,
) -> Result<u64, Difference> {
    let count = random.from_to(1, 4);
    let names = super::grow::files(count, random);
    let mut files: Vec<(File, Vec<u8>)> = names
        .into_iter()
        .map(|file| of_bytes(file.name, random))
        .collect();
    let entries: Vec<File> = files.iter().map(|(file, _)| file.clone()).collect();
    let slip = slip(&entries);
    let own = File {
        name: b"stick.slip".to_vec(),
        ..entries[0].clone()
    };
    files.push((own, slip.clone()));
    let good = judged(&slip, &files, random, pair)?;
    let turned = random.below(files.len());
    let bytes = &mut files[turned].1;
    if good != 1 || bytes.is_empty() {
        return expected(good == 1, good);
    }
    let at = random.below(bytes.len());
    bytes[at] ^= 1 << random.below(8);
    let answer = judged(&slip, &files, random, pair)?;
    expected(answer != 1, answer)
}

/// An answer, if it is as it must be.
fn expected(so: bool, answer: u64) -> Result<u64, Difference> {
    match so {
        true => Ok(answer),
        false => Err(Difference::should(
            "a stick of bytes".into(),
            &"the other verdict",
            &spoken(answer),
        )),
    }
}

/// A file of this name, with bytes that its reader accepts.
fn of_bytes(name: Vec<u8>, random: &mut Random) -> (File, Vec<u8>) {
    let length = random.below(40);
    let bytes = match own_reader(&name) {
        1 => STUDIO.to_vec(),
        2 => CALIGARI.to_vec(),
        3 => CINEMA.to_vec(),
        _ => random.bytes(length),
    };
    let (length, sums) = (bytes.len() as u32, Sums::of(&bytes).number());
    (File { name, length, sums }, bytes)
}

/// Has each side judge what it gathered itself; the answer, if it is one.
fn judged<L: Sticks, R: Sticks>(
    slip: &[u8],
    files: &[(File, Vec<u8>)],
    random: &mut Random,
    pair: &mut Pair<L, R>,
) -> Result<u64, Difference> {
    let sides = [&pair.left as &dyn Sticks, &pair.right];
    let [left, right] = sides.map(|side| {
        let stick = gathered(side, slip, files, &mut random.clone());
        (side.stick_judge(slip, &stick.paths, &stick.items()), stick)
    });
    random.next();
    match left.0 == right.0 && left.1.rows == right.1.rows {
        true => Ok(left.0),
        false => Err(Difference {
            call: super::words(&left.1),
            left: spoken(left.0),
            right: format!("{} of {}", spoken(right.0), super::words(&right.1)),
        }),
    }
}

/// What a side gathers of a stick: figures whole, all else in up to three parts.
fn gathered(
    side: &dyn Sticks,
    slip: &[u8],
    files: &[(File, Vec<u8>)],
    random: &mut Random,
) -> Stick {
    let mut stick = Stick {
        slip: slip.to_vec(),
        ..Stick::default()
    };
    for (path, row) in folders(files.iter().map(|(file, _)| file)) {
        stick.add(&path, row, random);
    }
    for (File { name, .. }, bytes) in files {
        let mut item = [0; ITEM_BYTES];
        let mut cuts = [random.below(bytes.len() + 1), random.below(bytes.len() + 1)];
        cuts.sort_unstable();
        let [first, second] = if own_reader(name) == 0 {
            cuts
        } else {
            [bytes.len(); 2]
        };
        side.stick_file(name, bytes.len() as u64, &bytes[..first], &mut item);
        side.stick_more(&bytes[first..second], &mut item);
        side.stick_more(&bytes[second..], &mut item);
        stick.add(name, numbers_of(&item), random);
    }
    stick
}
