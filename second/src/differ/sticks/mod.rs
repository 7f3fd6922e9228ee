//! Both sides over sticks: good ones, ones with a few things spoilt, every bit
//! of small ones turned, very many files, rows of any numbers; and the evidence
//! for files of any bytes.

pub mod erring;
mod evidence;
mod grow;
mod harm;
mod plain;

use super::compare::Pair;
use super::lent::{anywhere, hex, spoken, Difference};
use super::random::Random;
use super::run::{few, share, Cases, Failure, Plan, Tally};
use crate::boundary::Sticks;
use grow::{File, Stick};

/// The first stream of numbers of these families.
const STREAM: u64 = 700;

/// Runs all families of sticks.
pub fn run<L: Sticks, R: Sticks>(plan: Plan, pair: &mut Pair<L, R>) -> Result<Tally, Box<Failure>> {
    #[rustfmt::skip]
    let families: [Cases<Pair<L, R>>; 6] = [
        Cases("Sticks",     "good, or 1 to 3 things spoilt",    share(8_000, 9_000), near),
        Cases("StickRows",  "items of any numbers",             share(1_000, 600),   rows),
        Cases("StickBits",  "every bit of a good one turned",   share(2, 12),        turned),
        Cases("SticksLong", "1,000 entries, files in folders",  few(2, 12),          long),
        Cases("Evidence",   "files of any bytes, in parts",     share(900, 900),     evidence::parts),
        Cases("StickBytes", "sticks of bytes, a bit turned",    share(100, 200),     evidence::stick),
    ];
    plan.all(STREAM, &families, pair)
}

/// Has both sides judge a stick; the answer, if they agree.
fn judged<L: Sticks, R: Sticks>(
    stick: &Stick,
    random: &mut Random,
    pair: &mut Pair<L, R>,
) -> Result<u64, Difference> {
    let (slip, items) = (&stick.slip, stick.items());
    let [left, right] = anywhere(&items, random, |items, random| {
        anywhere(&stick.paths, random, |paths, _| {
            [&pair.left as &dyn Sticks, &pair.right]
                .map(|side| side.stick_judge(slip, paths, items))
        })
    });
    match left == right {
        true => Ok(left),
        false => Err(Difference {
            call: words(stick),
            left: spoken(left),
            right: spoken(right),
        }),
    }
}

/// What a stick is judged by.
fn words(stick: &Stick) -> String {
    let [slip, paths] = [&stick.slip, &stick.paths].map(|bytes| hex(bytes));
    let mut words = format!("judge, slip {slip}, paths {paths}, items");
    for (number, row) in stick.rows.iter().enumerate() {
        let path = stick.path(number).map(String::from_utf8_lossy);
        words += &format!("\n         {number}: {row:X?} {path:?}");
    }
    words + &format!("\n         and {} bytes", stick.tail.len())
}

/// A good stick that both sides must call good, or one with up to three
/// things spoilt.
fn near<L: Sticks, R: Sticks>(
    _: u64,
    random: &mut Random,
    pair: &mut Pair<L, R>,
) -> Result<u64, Difference> {
    let count = random.from_to(1, 6);
    let files = grow::files(count, random);
    let spoilt = random.pick(&[0, 1, 1, 1, 1, 2, 2, 3]);
    judged_so(files, spoilt, random, pair)
}

/// Very many files, all of them in folders or not; good, or with a few things
/// spoilt.
fn long<L: Sticks, R: Sticks>(
    index: u64,
    random: &mut Random,
    pair: &mut Pair<L, R>,
) -> Result<u64, Difference> {
    let count = [1_000, 999, 998][(index % 3) as usize];
    let mut files = grow::files(count, random);
    if index % 3 == 1 {
        for (number, file) in files.iter_mut().enumerate() {
            file.name = format!("f{}/g{}/{number}.3ds", number / 37, number / 9).into_bytes();
        }
    }
    judged_so(files, index as usize / 3 % 3, random, pair)
}

/// The stick of these files with so many things spoilt.
fn judged_so<L: Sticks, R: Sticks>(
    mut files: Vec<File>,
    spoilt: usize,
    random: &mut Random,
    pair: &mut Pair<L, R>,
) -> Result<u64, Difference> {
    let mut entries = files.clone();
    random.shuffle(&mut entries);
    let kinds: Vec<usize> = (0..spoilt).map(|_| random.below(16)).collect();
    let times = |kinds: &[usize], of: std::ops::Range<usize>| {
        kinds.iter().filter(|kind| of.contains(kind)).count()
    };
    (0..times(&kinds, 0..4)).for_each(|_| harm::misfit(&mut files, &mut entries, random));
    let mut slip = grow::slip(&entries);
    (0..times(&kinds, 4..6)).for_each(|_| harm::slip(&mut slip, random));
    let mut stick = Stick::walked(&files, slip, random);
    (0..times(&kinds, 6..7)).for_each(|_| harm::slip(&mut stick.slip, random));
    (0..times(&kinds, 7..16)).for_each(|_| harm::gathered(&mut stick, random));
    let answer = judged(&stick, random, pair)?;
    match spoilt == 0 && answer != 1 {
        true => Err(Difference::should(words(&stick), &1, &spoken(answer))),
        false => Ok(answer),
    }
}

/// Every bit turned of what a small good stick is judged by.
fn turned<L: Sticks, R: Sticks>(
    _: u64,
    random: &mut Random,
    pair: &mut Pair<L, R>,
) -> Result<u64, Difference> {
    let count = random.from_to(1, 2);
    let files = grow::files(count, random);
    let mut stick = Stick::walked(&files, grow::slip(&files), random);
    let [slip, paths, rows] = [stick.slip.len(), stick.paths.len(), 56 * stick.rows.len()];
    for bit in 0..8 * (slip + paths + rows) {
        turn(&mut stick, bit);
        judged(&stick, random, pair)?;
        turn(&mut stick, bit);
    }
    judged(&stick, random, pair)
}

/// Turns a bit of the slip, of the paths or of the items.
fn turn(stick: &mut Stick, bit: usize) {
    let (byte, mask) = (bit / 8, 1 << (bit % 8));
    let (slip, paths) = (stick.slip.len(), stick.paths.len());
    match byte {
        _ if byte < slip => stick.slip[byte] ^= mask,
        _ if byte < slip + paths => stick.paths[byte - slip] ^= mask,
        _ => {
            let bit = bit - 8 * (slip + paths);
            stick.rows[bit / 448][bit % 448 / 64] ^= 1 << (bit % 64);
        }
    }
}

/// A small slip, and items of any numbers.
fn rows<L: Sticks, R: Sticks>(
    _: u64,
    random: &mut Random,
    pair: &mut Pair<L, R>,
) -> Result<u64, Difference> {
    let names: [&[u8]; 4] = [b"a.3ds", b"a/b", b"A.cob", b"a"];
    let count = random.below(4);
    let files: Vec<File> = (0..count)
        .map(|_| File {
            name: random.pick(&names).to_vec(),
            length: 1,
            sums: 0x101,
        })
        .collect();
    let mut stick = Stick {
        slip: grow::slip(&files),
        ..Stick::default()
    };
    let top = random.pick(&[
        [0, 0, 2, 3, 0, 0, 0],
        [0, 0, 2, 2, 0, 0, 0],
        [0, 0, 1, 1, 0, 0, 0],
    ]);
    stick.rows.push(top);
    for _ in 0..random.below(5) {
        let path = random.pick(&[&b""[..], b"a", b"A.3ds", b"a.COB", b"stick.slip", b"a/B"]);
        let [kind, size, reader] = [3, 3, 4].map(|below| random.below(below) as u64);
        let sum = random.pick(&[0, 0x1_0101, 0x1_01FF, 0x1_0000]);
        let answer = random.pick(&[0, 1, 1 << 32]);
        stick.add(path, [0, 0, kind, size, sum, reader, answer], random);
    }
    judged(&stick, random, pair)
}
