//! The calls over Caligari figures on both sides, with rooms too small, exact
//! and larger, and against what is to be said of a file.

use super::grow::File;
use crate::boundary::{refusal, Cobs, COB_MESH_BYTES, COB_RECORD_BYTES};
use crate::differ::compare::Pair;
use crate::differ::drafts::Asks;
use crate::differ::facts::numbers;
use crate::differ::lent::{hex, inside, spoken, Buffers, Difference, Lent};
use crate::differ::random::Random;
use crate::{Cob, CobMesh};

/// One call, with the bytes it lends.
#[derive(Clone, Copy, Debug)]
enum Call {
    Check,
    List(usize),
    Sizes(u32, usize),
    Tables(u32, usize, usize),
    Meshes(usize),
}

impl Call {
    fn lent(self) -> [usize; 2] {
        match self {
            Call::Check => [0, 0],
            Call::List(bytes) | Call::Sizes(_, bytes) | Call::Meshes(bytes) => [bytes, 0],
            Call::Tables(_, vertices, corners) => [vertices, corners],
        }
    }

    /// The bytes that an answer says are filled; of the corners it says none,
    /// and they are compared with what is to be said.
    fn filled(self, answer: u64) -> [usize; 2] {
        let count = answer as usize;
        match self {
            _ if refusal(answer).is_some() => [0, 0],
            Call::Check => [0, 0],
            Call::List(_) => [COB_RECORD_BYTES * count, 0],
            Call::Sizes(..) => [4 * count, 0],
            Call::Tables(_, _, corners) => [12 * count, corners],
            Call::Meshes(_) => [COB_MESH_BYTES * count, 0],
        }
    }

    fn make(self, side: &impl Cobs, file: &[u8], buffers: &mut Buffers) -> u64 {
        let [first, second] = inside(buffers);
        match self {
            Call::Check => side.cob_check(file),
            Call::List(_) => side.cob_list(file, first),
            Call::Sizes(mesh, _) => side.cob_sizes(file, mesh, first),
            Call::Tables(mesh, ..) => side.cob_tables(file, mesh, first, second),
            Call::Meshes(_) => side.cob_meshes(file, first),
        }
    }
}

/// Makes one call on both sides.
fn ask<L: Cobs, R: Cobs>(
    file: &[u8],
    call: Call,
    pair: &mut Pair<L, R>,
) -> Result<u64, Difference> {
    let (left, right) = (&pair.left, &pair.right);
    let shown = &file[..file.len().min(2_000)];
    pair.lender.compare(
        Lent {
            call: &|| format!("{call:?} of {} bytes {}", file.len(), hex(shown)),
            bytes: call.lent(),
            filled: &|answer| call.filled(answer),
        },
        |buffers| call.make(left, file, buffers),
        |buffers| call.make(right, file, buffers),
    )
}

impl<L: Cobs, R: Cobs> Asks<File> for Pair<L, R> {
    fn whole(&mut self, file: &[u8], random: &mut Random) -> Result<u64, Difference> {
        let answer = ask(file, Call::Check, self)?;
        let needed = Call::List(0).filled(answer)[0];
        for room in [
            needed,
            needed.saturating_sub(1),
            needed + random.below(30),
            random.below(needed + 1),
        ] {
            ask(file, Call::List(room), self)?;
        }
        let count = ask(file, Call::Sizes(u32::MAX, 8), self)? as u32;
        if refusal(answer).is_some() {
            ask(file, Call::Meshes(random.below(80)), self)?;
            ask(
                file,
                Call::Tables(random.below(2) as u32, random.below(50), random.below(50)),
                self,
            )?;
            return Ok(answer);
        }
        let all = COB_MESH_BYTES * count as usize;
        for room in [all, all.saturating_sub(1), all + random.below(40), 0] {
            ask(file, Call::Meshes(room), self)?;
        }
        // 0 in fewer bits, and no mesh.
        let wide = 1 << random.from_to(16, 31);
        for mesh in [count, count + 1, wide, random.next() as u32 | 1 << 20] {
            ask(file, Call::Sizes(mesh, random.below(9)), self)?;
            ask(
                file,
                Call::Tables(mesh, random.below(9), random.below(9)),
                self,
            )?;
        }
        for mesh in (0..count).take(3) {
            one(file, mesh, random, self)?;
        }
        Ok(answer)
    }

    fn said(&self, draft: &File, file: &[u8]) -> Result<(), Difference> {
        let expected = draft.read();
        for side in [&self.left as &dyn Cobs, &self.right] {
            let said = all(side, file, &expected);
            if said.as_ref() != Ok(&expected) {
                return Err(Difference::should(
                    format!("a valid file {}", hex(&file[..file.len().min(2_000)])),
                    &expected,
                    &said,
                ));
            }
        }
        Ok(())
    }
}

/// One mesh, with all kinds of room.
fn one<L: Cobs, R: Cobs>(
    file: &[u8],
    mesh: u32,
    random: &mut Random,
    pair: &mut Pair<L, R>,
) -> Result<(), Difference> {
    for room in [8, 7, random.below(12)] {
        ask(file, Call::Sizes(mesh, room), pair)?;
    }
    let needed = |answer| refusal(answer).map_or(0, |(_, place)| 4 * place as usize);
    let v = needed(ask(file, Call::Tables(mesh, 0, 0), pair)?);
    let c = needed(ask(file, Call::Tables(mesh, v, 0), pair)?);
    let rooms = [
        (v, c),
        (v.saturating_sub(1), c),
        (v, c.saturating_sub(1)),
        (v + 5, c + random.below(9)),
    ];
    for (vertices, corners) in rooms {
        ask(file, Call::Tables(mesh, vertices, corners), pair)?;
    }
    Ok(())
}

/// All that a side says of a file, with just the room for what is expected.
fn all(side: &dyn Cobs, file: &[u8], expected: &Cob) -> Result<Cob, String> {
    let accepted = |answer| match refusal(answer) {
        None => Ok(answer as usize),
        Some(_) => Err(spoken(answer)),
    };
    let mut cob = Cob::default();
    let mut records = vec![0; COB_RECORD_BYTES * expected.records.len()];
    let count = accepted(side.cob_list(file, &mut records))?;
    cob.records = numbers(&records);
    cob.records.truncate(count);
    let mut meshes = vec![0; COB_MESH_BYTES * expected.meshes.len()];
    let count = accepted(side.cob_meshes(file, &mut meshes))?;
    let told = &numbers::<8>(&meshes)[..count.min(expected.meshes.len())];
    for (number, (mesh, told)) in expected.meshes.iter().zip(told).enumerate() {
        let rows = [&mesh.vertices, &mesh.corners];
        let [mut vertices, mut corners] = rows.map(|row| vec![0; 4 * row.len()]);
        let n = accepted(side.cob_tables(file, number as u32, &mut vertices, &mut corners))?;
        let [vertices, corners] =
            [vertices, corners].map(|bytes| numbers::<1>(&bytes).into_flattened());
        let mut sizes = [0; 8];
        accepted(side.cob_sizes(file, number as u32, &mut sizes))?;
        let sizes = numbers(&sizes)[0];
        if sizes != [n, rows[1].len() / 3].map(|size| size as u32) {
            return Err(format!("sizes {sizes:?} of mesh {number}"));
        }
        cob.meshes.push(CobMesh {
            vertices,
            corners,
            told: *told,
        });
    }
    Ok(cob)
}
