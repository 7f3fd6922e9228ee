//! One file, both sides: the same calls with the same rooms, and the answers
//! and all lent bytes compared, those around the lent ones too.

use super::lent::{inside, spoken, Buffers, Difference, Lender, Lent};
use super::random::Random;
use super::run::{count, Tally, NO_CASE};
use crate::boundary::{refusal, Boundary, Chunk};
use crate::boundary::{BOX_BYTES, CUT_BYTES, PART_BYTES, PLACES_BYTES, RECORD_BYTES};
use crate::{rescue, RECORD};

/// One call, with the bytes it lends; of a row and a table, the elements.
#[derive(Clone, Copy, Debug, PartialEq, Eq)]
pub enum Call {
    Check,
    List(usize),
    Records(usize, usize),
    Counts(usize),
    Tables(u32, usize, usize),
    Name(u32, usize),
    Box(u32, usize),
    Mapping(u32, usize),
    Parts(usize),
    Meshes(usize),
    Boxes(usize),
    /// Cuts, and the mended figure.
    Rescue(usize, usize),
}

/// Two sides, and the bytes they are lent.
pub struct Pair<L, R> {
    pub left: L,
    pub right: R,
    /// How often each answer was met: 0 for accepted, else the number.
    pub met: Tally,
    pub lender: Lender,
}

impl<L, R> Pair<L, R> {
    pub fn new(left: L, right: R) -> Pair<L, R> {
        Pair {
            left,
            right,
            met: NO_CASE,
            lender: Lender::new(),
        }
    }
}

impl<L: Boundary, R: Boundary> Pair<L, R> {
    /// Makes one call on both sides; the answer, if they agree in everything.
    pub fn ask(&mut self, file: &[u8], call: Call) -> Result<u64, Difference> {
        let (left, right) = (&self.left, &self.right);
        let answer = self.lender.compare(
            Lent {
                call: &|| format!("{call:?}"),
                bytes: call.lent(),
                filled: &|answer| call.filled(answer, file),
            },
            |buffers| make(left, file, call, buffers),
            |buffers| make(right, file, call, buffers),
        )?;
        count(&mut self.met, answer);
        Ok(answer)
    }
}

/// Makes one call with slices inside the buffers.
fn make(side: &impl Boundary, file: &[u8], call: Call, buffers: &mut Buffers) -> u64 {
    let [first, second] = inside(buffers);
    match call {
        Call::Check => side.check(file),
        Call::List(_) => side.list(file, first),
        Call::Records(..) => records(side, file, buffers),
        Call::Counts(_) => side.counts(file, first),
        Call::Tables(mesh, ..) => side.tables(file, mesh, first, second),
        Call::Name(mesh, _) => side.name(file, mesh, first),
        Call::Box(mesh, _) => side.bounding_box(file, mesh, first),
        Call::Mapping(mesh, _) => side.mapping(file, mesh, first),
        Call::Parts(_) => side.parts(file, first),
        Call::Meshes(_) => side.meshes(file, first),
        Call::Boxes(_) => side.boxes(file, first),
        Call::Rescue(..) => side.rescue(file, first, second),
    }
}

/// Makes the call that is lent a row and a table: the same buffers, guards and
/// all but their odd bytes, as the machine's own numbers and structs.
fn records(side: &impl Boundary, file: &[u8], buffers: &mut Buffers) -> u64 {
    let [mut row, numbers] = buffers.each_ref().map(|buffer| {
        let words = buffer[1..buffer.len() - 1].as_chunks().0.iter();
        words
            .map(|word| u32::from_ne_bytes(*word))
            .collect::<Vec<u32>>()
    });
    let records = numbers.as_chunks::<RECORD>().0.iter();
    let mut table: Vec<Chunk> = records.map(|record| Chunk::from(*record)).collect();
    let (row_end, table_end) = (row.len() - RECORD, table.len() - 1);
    let answer = side.records(file, &mut row[RECORD..row_end], &mut table[1..table_end]);
    put_back(&mut buffers[0], row.into_iter());
    put_back(
        &mut buffers[1],
        table.into_iter().flat_map(<[u32; RECORD]>::from),
    );
    answer
}

/// The numbers of a buffer, behind its odd byte.
fn put_back(buffer: &mut [u8], numbers: impl Iterator<Item = u32>) {
    for (slot, number) in buffer[1..].as_chunks_mut().0.iter_mut().zip(numbers) {
        *slot = number.to_ne_bytes();
    }
}

impl Call {
    /// The bytes lent in the two slices.
    fn lent(self) -> [usize; 2] {
        match self {
            Call::Check => [0, 0],
            Call::List(bytes) | Call::Counts(bytes) => [bytes, 0],
            Call::Parts(bytes) | Call::Meshes(bytes) | Call::Boxes(bytes) => [bytes, 0],
            Call::Records(row, table) => [4 * row, RECORD_BYTES * table],
            Call::Name(_, bytes) | Call::Box(_, bytes) | Call::Mapping(_, bytes) => [bytes, 0],
            Call::Tables(_, vertices, corners) => [vertices, corners],
            Call::Rescue(cuts, out) => [cuts, out],
        }
    }

    /// The bytes that an answer says are filled.
    fn filled(self, answer: u64, file: &[u8]) -> [usize; 2] {
        let count = answer as usize;
        match self {
            _ if refusal(answer).is_some() => [0, 0],
            Call::Check => [0, 0],
            Call::List(_) => [RECORD_BYTES * count, 0],
            Call::Parts(_) => [PART_BYTES * count, 0],
            Call::Meshes(_) => [PLACES_BYTES * count, 0],
            Call::Boxes(_) => [BOX_BYTES * count, 0],
            Call::Rescue(..) => {
                let mended = rescue(file).map_or(0, |rescued| rescued.figure.len());
                [CUT_BYTES * count, mended]
            }
            Call::Records(..) => [RECORD_BYTES * count; 2],
            Call::Tables(..) => [12 * (count & 0xFFFF), 6 * (count >> 16)],
            Call::Counts(_) | Call::Name(..) | Call::Box(..) | Call::Mapping(..) => [4 * count, 0],
        }
    }
}

impl<L: Boundary, R: Boundary> Pair<L, R> {
    /// All calls over one file, with rooms around those needed; the answer of
    /// the check, if both sides agree in all.
    pub fn whole(&mut self, file: &[u8], random: &mut Random) -> Result<u64, Difference> {
        let answer = self.ask(file, Call::Check)?;
        self.rescued(file, random)?;
        if refusal(answer).is_some() {
            self.refused(file, answer, some_calls(random))?;
            return Ok(answer);
        }
        let needed = RECORD_BYTES * answer as usize;
        self.ask(file, Call::List(needed + random.below(30)))?;
        self.ask(file, Call::List(needed - 1 - random.below(RECORD_BYTES)))?;
        self.ask(file, Call::List(random.below(needed + 40)))?;
        self.records(file, answer as usize, random)?;
        self.ask(file, Call::Counts(12 + random.below(6)))?;
        self.ask(file, Call::Counts(random.below(12)))?;
        let parts = PART_BYTES * self.wanting(file, Call::Parts(0))?;
        for bytes in [parts.saturating_sub(1), parts, parts + random.below(20)] {
            self.ask(file, Call::Parts(bytes))?;
        }
        let count = self.ask(file, Call::Name(u32::MAX, 8))? as u32;
        let places = PLACES_BYTES * count as usize;
        for bytes in [
            0,
            places.saturating_sub(1),
            places,
            places + random.below(40),
        ] {
            self.ask(file, Call::Meshes(bytes))?;
        }
        let boxes = BOX_BYTES * count as usize;
        for bytes in [0, boxes.saturating_sub(1), boxes, boxes + random.below(44)] {
            self.ask(file, Call::Boxes(bytes))?;
        }
        self.meshes(file, count, random)?;
        Ok(answer)
    }

    /// The list as a table, with rooms around those needed, of the row and of
    /// the table apart.
    fn records(&mut self, file: &[u8], n: usize, random: &mut Random) -> Result<(), Difference> {
        let row = RECORD * n;
        let rooms = [
            (row, n),
            (row - 1, n),
            (row, n - 1),
            (row + 1, n),
            (row, n + 1),
            (row + random.below(9), n + random.below(3)),
            (random.below(row + 9), random.below(n + 3)),
        ];
        for (row, table) in rooms {
            self.ask(file, Call::Records(row, table))?;
        }
        Ok(())
    }

    /// All other calls over a file that is refused answer the same.
    pub fn refused(
        &mut self,
        file: &[u8],
        answer: u64,
        calls: impl IntoIterator<Item = Call>,
    ) -> Result<(), Difference> {
        for call in calls {
            let other = self.ask(file, call)?;
            if other != answer {
                let call = format!("{call:?} of a file that the check refuses");
                let left = format!("check: {}", spoken(answer));
                let right = format!("call: {}", spoken(other));
                return Err(Difference { call, left, right });
            }
        }
        Ok(())
    }

    /// Some meshes of an accepted file, and some that are not there.
    fn meshes(&mut self, file: &[u8], count: u32, random: &mut Random) -> Result<(), Difference> {
        let absent = count + random.below(3) as u32;
        let high = random.pick(&[0x1_0000, 0x100_0000, 0x8000_0000]) + random.below(3) as u32;
        for mesh in [absent, random.next() as u32 | 0x8000_0000, absent.max(high)] {
            self.ask(file, Call::Tables(mesh, random.below(20), random.below(20)))?;
            self.ask(file, Call::Name(mesh, random.below(12)))?;
            self.ask(file, Call::Box(mesh, random.below(44)))?;
            self.ask(file, Call::Mapping(mesh, random.below(20)))?;
        }
        let first = random.below(count.max(1) as usize) as u32;
        for mesh in (first..count).take(2) {
            self.mesh(file, mesh, random)?;
        }
        Ok(())
    }

    /// One mesh, with all kinds of room.
    pub fn mesh(&mut self, file: &[u8], mesh: u32, random: &mut Random) -> Result<(), Difference> {
        let (n, f) = self.sizes(file, mesh)?;
        let (v, c) = (4 * n, 2 * f);
        let rooms = [
            (v + random.below(9), c + random.below(5)),
            (v, c),
            (v.saturating_sub(1), c),
            (v, c.saturating_sub(1)),
            (v.saturating_sub(1 + random.below(8)), random.below(c + 1)),
        ];
        for (vertices, corners) in rooms {
            self.ask(file, Call::Tables(mesh, vertices, corners))?;
        }
        for bytes in [8 + random.below(6), random.below(8)] {
            self.ask(file, Call::Name(mesh, bytes))?;
        }
        for bytes in [36 + random.below(6), 32 + random.below(4), random.below(36)] {
            self.ask(file, Call::Box(mesh, bytes))?;
        }
        let m = self.wanting(file, Call::Mapping(mesh, 0))?;
        let less = (4 * m).saturating_sub(1 + random.below(8));
        for bytes in [4 * m, 4 * m + random.below(9), less] {
            self.ask(file, Call::Mapping(mesh, bytes))?;
        }
        Ok(())
    }

    /// What a call that is lent nothing says is needed.
    pub fn wanting(&mut self, file: &[u8], call: Call) -> Result<usize, Difference> {
        let answer = self.ask(file, call)?;
        Ok(refusal(answer).map_or(0, |(_, place)| place as usize))
    }

    /// The numbers that a mesh's tables need; a mesh of an accepted file has no
    /// faces without vertices.
    pub fn sizes(&mut self, file: &[u8], mesh: u32) -> Result<(usize, usize), Difference> {
        let n = self.wanting(file, Call::Tables(mesh, 0, 0))?;
        let f = self.wanting(file, Call::Tables(mesh, 4 * n, 0))?;
        Ok((n, f))
    }
}

/// All calls but the check, with rooms as they come.
fn some_calls(random: &mut Random) -> [Call; 10] {
    let mesh = random.pick(&[0, 1, 2, u32::MAX]);
    [
        Call::List(random.below(200)),
        Call::Records(random.below(50), random.below(9)),
        Call::Counts(random.below(16)),
        Call::Tables(mesh, random.below(50), random.below(30)),
        Call::Name(mesh, random.below(12)),
        Call::Box(mesh, random.below(44)),
        Call::Mapping(mesh, random.below(20)),
        Call::Parts(random.below(20)),
        Call::Meshes(random.below(80)),
        Call::Boxes(random.below(90)),
    ]
}
