//! The calls over slips on both sides: rooms too small, exact and larger, and
//! what is read written again.

use crate::boundary::{refusal, Slips, ENTRY_BYTES};
use crate::differ::compare::Pair;
use crate::differ::lent::{hex, inside, Difference, Lent};
use crate::differ::random::Random;

/// The bytes that an answer says are filled, so many for each of its count.
pub fn filled(answer: u64, each: usize) -> [usize; 2] {
    match refusal(answer) {
        None => [each * answer as usize, 0],
        Some(_) => [0, 0],
    }
}

/// Reads a slip with several rooms; the answer where there is enough.
pub fn read<L: Slips, R: Slips>(
    slip: &[u8],
    random: &mut Random,
    pair: &mut Pair<L, R>,
) -> Result<u64, Difference> {
    let answer = read_into(ENTRY_BYTES * 1_001, slip, pair)?;
    let needed = filled(answer, ENTRY_BYTES)[0];
    for room in [
        0,
        needed.saturating_sub(1),
        needed,
        needed + random.below(20),
    ] {
        read_into(room, slip, pair)?;
    }
    Ok(answer)
}

fn read_into<L: Slips, R: Slips>(
    room: usize,
    slip: &[u8],
    pair: &mut Pair<L, R>,
) -> Result<u64, Difference> {
    let (left, right) = (&pair.left, &pair.right);
    pair.lender.compare(
        Lent {
            call: &|| format!("read, room {room}, slip {}", hex(slip)),
            bytes: [room, 0],
            filled: &|answer| filled(answer, ENTRY_BYTES),
        },
        |buffers| left.slip_read(slip, inside(buffers)[0]),
        |buffers| right.slip_read(slip, inside(buffers)[0]),
    )
}

/// Writes again what was read, with the slip itself for the names.
pub fn again<L: Slips, R: Slips>(
    slip: &[u8],
    count: usize,
    pair: &mut Pair<L, R>,
) -> Result<(), Difference> {
    let mut entries = vec![0; ENTRY_BYTES * count];
    pair.left.slip_read(slip, &mut entries);
    write(slip, &entries, slip.len(), pair)?;
    for side in [&pair.left as &dyn Slips, &pair.right] {
        let mut out = vec![0; slip.len()];
        let answer = side.slip_write(slip, &entries, &mut out);
        if answer != slip.len() as u64 || out != slip {
            return Err(Difference {
                call: "a slip that was read, written again".into(),
                left: format!("should be {}", hex(slip)),
                right: format!("is {}", hex(&out)),
            });
        }
    }
    Ok(())
}

/// Entries with or without faults, written with several rooms.
pub fn entries<L: Slips, R: Slips>(
    _: u64,
    random: &mut Random,
    pair: &mut Pair<L, R>,
) -> Result<u64, Difference> {
    let [names, entries] = match random.chance(1) {
        true => many(random),
        false => any(random),
    };
    let answer = write(&names, &entries, 300_000, pair)?;
    let size = filled(answer, 1)[0];
    for room in [0, size.saturating_sub(1), size, size + random.below(9)] {
        write(&names, &entries, room, pair)?;
    }
    Ok(answer)
}

/// As many entries as there may be and a few more, all good and no two names
/// alike: nothing but their count can be refused.
fn many(random: &mut Random) -> [Vec<u8>; 2] {
    let count = random.from_to(999, 1_002) as u32;
    let name = |k: u32| [k / 64, k % 64].map(|digit| 32 + digit as u8);
    let entry = |k: u32| [2 * k, 2, k, 0].map(u32::to_le_bytes).concat();
    [
        (0..count).flat_map(name).collect(),
        (0..count).flat_map(entry).collect(),
    ]
}

/// The names and the entries, with or without faults.
fn any(random: &mut Random) -> [Vec<u8>; 2] {
    let length = random.below(600);
    // Of few different bytes, so that names are often alike.
    let mut names: Vec<u8> = (0..length).map(|_| random.pick(b"aab")).collect();
    if length > 0 && random.chance(15) {
        names[random.below(length)] = random.pick(&[0, 31, 32, 126, 127, 128, 255]);
    }
    let count = match random.below(40) {
        0 => random.from_to(995, 1_003),
        _ => random.below(6),
    };
    let mut entries: Vec<u8> = (0..count).flat_map(|_| entry(length, random)).collect();
    if random.chance(8) {
        let part = random.below(ENTRY_BYTES);
        entries.extend(random.bytes(part));
    }
    [names, entries]
}

/// The four numbers of an entry, mostly good.
fn entry(names: usize, random: &mut Random) -> Vec<u8> {
    let bad = random.chance(3);
    let most = if random.chance(80) { 30 } else { 255 };
    let length = random.below(most) + 1;
    let offset = random.below(names.saturating_sub(length) + 1);
    let sums = [0, 1].map(|_| random.below(255) as u32);
    let mut numbers = [
        offset as u32,
        length as u32,
        random.next() as u32,
        sums[0] + 256 * sums[1],
    ];
    if bad {
        let (which, odd) = match random.below(8) {
            0 => (0, names as u32),
            1 => (0, u32::MAX),
            2 => (1, 0),
            3 => (1, 256),
            4 => (1, u32::MAX),
            5 => (3, 0xFF),
            6 => (3, 0xFF01),
            _ => (3, 0x1_0000),
        };
        numbers[which] = odd;
    }
    numbers.map(u32::to_le_bytes).concat()
}

fn write<L: Slips, R: Slips>(
    names: &[u8],
    entries: &[u8],
    room: usize,
    pair: &mut Pair<L, R>,
) -> Result<u64, Difference> {
    let (left, right) = (&pair.left, &pair.right);
    let call = || {
        format!(
            "write, room {room}, names {}, entries {}",
            hex(names),
            hex(entries)
        )
    };
    pair.lender.compare(
        Lent {
            call: &call,
            bytes: [room, 0],
            filled: &|answer| filled(answer, 1),
        },
        |buffers| left.slip_write(names, entries, inside(buffers)[0]),
        |buffers| right.slip_write(names, entries, inside(buffers)[0]),
    )
}
