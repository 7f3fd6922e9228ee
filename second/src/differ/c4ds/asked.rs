//! The calls over Cinema 4D figures on both sides, with rooms too small, exact
//! and larger, and against what is to be said of a file.

use super::grow::File;
use crate::boundary::{refusal, C4ds, OBJECT_BYTES};
use crate::differ::compare::Pair;
use crate::differ::drafts::Asks;
use crate::differ::facts::numbers;
use crate::differ::lent::{hex, inside, spoken, Difference, Lent};
use crate::differ::random::Random;
use crate::C4d;

/// The file in words, or its beginning.
fn shown(file: &[u8]) -> String {
    format!(
        "{} bytes {}",
        file.len(),
        hex(&file[..file.len().min(2_000)])
    )
}

impl<L: C4ds, R: C4ds> Asks<File> for Pair<L, R> {
    fn whole(&mut self, file: &[u8], random: &mut Random) -> Result<u64, Difference> {
        let (left, right) = (&self.left, &self.right);
        let answer = self.lender.compare(
            Lent {
                call: &|| format!("check of {}", shown(file)),
                bytes: [0, 0],
                filled: &|_| [0, 0],
            },
            |_| left.c4d_check(file),
            |_| right.c4d_check(file),
        )?;
        let objects = match refusal(answer) {
            None => OBJECT_BYTES * answer as usize,
            Some(_) => random.below(40),
        };
        // With room for the objects alone the answer says what the materials need.
        let needed = list(file, [objects, 0], self)?;
        let materials = match refusal(needed) {
            Some((15, needed)) => 4 * needed as usize,
            _ => 0,
        };
        for rooms in [
            [objects, materials],
            [objects.saturating_sub(1), materials],
            [objects, materials.saturating_sub(1)],
            [random.below(objects + 1), random.below(materials + 1)],
            [objects + random.below(13), materials + random.below(5)],
        ] {
            list(file, rooms, self)?;
        }
        Ok(answer)
    }

    fn said(&self, draft: &File, file: &[u8]) -> Result<(), Difference> {
        let expected = draft.read();
        for side in [&self.left as &dyn C4ds, &self.right] {
            let said = all(side, file, &expected);
            if said.as_ref() != Ok(&expected) {
                return Err(Difference::should(
                    format!("a valid file, {}", shown(file)),
                    &expected,
                    &said,
                ));
            }
        }
        Ok(())
    }
}

/// The list on both sides; of the materials the answer does not say how many
/// are filled, and they are compared with what is to be said.
fn list<L: C4ds, R: C4ds>(
    file: &[u8],
    rooms: [usize; 2],
    pair: &mut Pair<L, R>,
) -> Result<u64, Difference> {
    let (left, right) = (&pair.left, &pair.right);
    let make = |side: &dyn C4ds, [objects, materials]: [&mut [u8]; 2]| {
        side.c4d_list(file, objects, materials)
    };
    pair.lender.compare(
        Lent {
            call: &|| format!("list, rooms {rooms:?}, of {}", shown(file)),
            bytes: rooms,
            filled: &|answer| match refusal(answer) {
                None => [OBJECT_BYTES * answer as usize, rooms[1]],
                Some(_) => [0, 0],
            },
        },
        |buffers| make(left, inside(buffers)),
        |buffers| make(right, inside(buffers)),
    )
}

/// All that a side says of a file, with a little more room than is expected.
fn all(side: &dyn C4ds, file: &[u8], expected: &C4d) -> Result<C4d, String> {
    let mut objects = vec![0xA5; OBJECT_BYTES * expected.objects.len() + 1];
    let mut materials = vec![0xA5; 4 * expected.materials.len() + 1];
    let answer = side.c4d_list(file, &mut objects, &mut materials);
    match refusal(answer) {
        Some(_) => Err(spoken(answer)),
        None if objects.last() != Some(&0xA5) || materials.last() != Some(&0xA5) => {
            Err("the byte behind is another".into())
        }
        None => Ok(C4d {
            objects: numbers(&objects)[..answer as usize].to_vec(),
            materials: numbers::<1>(&materials).into_flattened(),
        }),
    }
}
