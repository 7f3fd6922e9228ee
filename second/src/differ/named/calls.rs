//! Every call over one file, with just the room that is needed, a byte less
//! and a byte more; of every mesh, and of some that are not there.

use crate::boundary::{refusal, Boundary, BOX_BYTES, PART_BYTES, PLACES_BYTES, RECORD_BYTES};
use crate::differ::compare::{Call, Pair};
use crate::differ::lent::Difference;
use crate::differ::random::Random;
use crate::RECORD;

/// The check's answer, if both sides agree in all calls.
pub fn all<L: Boundary, R: Boundary>(
    file: &[u8],
    pair: &mut Pair<L, R>,
) -> Result<u64, Difference> {
    let answer = pair.ask(file, Call::Check)?;
    pair.rescued(file, &mut Random::of_case(0, 0, 0))?;
    if refusal(answer).is_some() {
        for room in [0, 999] {
            pair.refused(file, answer, refused_calls(room))?;
        }
        return Ok(answer);
    }
    let (n, bytes) = (answer as usize, RECORD_BYTES * answer as usize);
    for room in [0, bytes - 1, bytes, bytes + 1] {
        pair.ask(file, Call::List(room))?;
    }
    let row = RECORD * n;
    for (row, table) in [(row, n), (row - 1, n), (row, n - 1), (row + 1, n + 1)] {
        pair.ask(file, Call::Records(row, table))?;
    }
    for room in [11, 12, 13] {
        pair.ask(file, Call::Counts(room))?;
    }
    let parts = PART_BYTES * pair.wanting(file, Call::Parts(0))?;
    around(file, parts, pair, Call::Parts)?;
    let count = pair.ask(file, Call::Name(u32::MAX, 8))? as u32;
    around(file, PLACES_BYTES * count as usize, pair, Call::Meshes)?;
    around(file, BOX_BYTES * count as usize, pair, Call::Boxes)?;
    for mesh in count..count + 3 {
        absent(file, mesh, pair)?;
    }
    // Of very many meshes the first and the last.
    for mesh in (0..count).filter(|mesh| *mesh < 9 || *mesh + 1 == count) {
        one(file, mesh, pair)?;
    }
    Ok(answer)
}

/// A call with a byte less room than it needs, just enough, and a byte more.
fn around<L: Boundary, R: Boundary>(
    file: &[u8],
    room: usize,
    pair: &mut Pair<L, R>,
    call: fn(usize) -> Call,
) -> Result<(), Difference> {
    for room in [room.saturating_sub(1), room, room + 1] {
        pair.ask(file, call(room))?;
    }
    Ok(())
}

/// All calls but the check, each with the same room.
fn refused_calls(room: usize) -> [Call; 9] {
    [
        Call::List(room),
        Call::Records(room, room),
        Call::Counts(room),
        Call::Tables(0, room, room),
        Call::Name(0, room),
        Call::Box(0, room),
        Call::Mapping(0, room),
        Call::Parts(room),
        Call::Meshes(room),
    ]
}

/// A mesh that is not there, with room and without.
fn absent<L: Boundary, R: Boundary>(
    file: &[u8],
    mesh: u32,
    pair: &mut Pair<L, R>,
) -> Result<(), Difference> {
    for room in [0, 99] {
        pair.ask(file, Call::Tables(mesh, room, room))?;
        pair.ask(file, Call::Name(mesh, room))?;
        pair.ask(file, Call::Box(mesh, room))?;
        pair.ask(file, Call::Mapping(mesh, room))?;
    }
    Ok(())
}

/// A mesh that is there.
fn one<L: Boundary, R: Boundary>(
    file: &[u8],
    mesh: u32,
    pair: &mut Pair<L, R>,
) -> Result<(), Difference> {
    let (n, f) = pair.sizes(file, mesh)?;
    let (v, c) = (4 * n, 2 * f);
    let (less_v, less_c) = (v.saturating_sub(1), c.saturating_sub(1));
    for (vertices, corners) in [
        (v, c),
        (less_v, c),
        (v, less_c),
        (less_v, less_c),
        (v + 1, c + 1),
    ] {
        pair.ask(file, Call::Tables(mesh, vertices, corners))?;
    }
    for room in [7, 8, 9] {
        pair.ask(file, Call::Name(mesh, room))?;
    }
    for room in [35, 36, 37] {
        pair.ask(file, Call::Box(mesh, room))?;
    }
    let m = 4 * pair.wanting(file, Call::Mapping(mesh, 0))?;
    for room in [m.saturating_sub(1), m, m + 1] {
        pair.ask(file, Call::Mapping(mesh, room))?;
    }
    Ok(())
}
