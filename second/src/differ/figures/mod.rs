//! Both sides writing figures of many objects and materials: valid ones against
//! the tree that they are, with faults put in, and as long as they may be.

pub mod erring;
mod grow;
mod harm;

use super::compare::Pair;
use super::lent::{hex, inside, spoken, Difference, Lent};
use super::random::Random;
use super::run::{few, share, Cases, Failure, Plan, Tally};
use crate::boundary::{refusal, Figures, Rows};
use crate::LIMIT;
use grow::Draft;

/// The first stream of numbers of these families.
const STREAM: u64 = 500;

/// Runs all families of such figures.
pub fn run<L: Figures, R: Figures>(
    plan: Plan,
    pair: &mut Pair<L, R>,
) -> Result<Tally, Box<Failure>> {
    #[rustfmt::skip]
    let families: [Cases<Pair<L, R>>; 4] = [
        Cases("Figures",   "objects and materials written", share(500, 600),     valid),
        Cases("FigFaults", "faults put in, one or more",    share(1_200, 1_500), faulty),
        Cases("FigRows",   "rows of other lengths",         share(200, 300),     misfits),
        Cases("FigLong",   "as long as they may be",        few(1, 8),           long),
    ];
    plan.all(STREAM, &families, pair)
}

/// A valid figure: both sides write the tree that it is.
fn valid<L: Figures, R: Figures>(
    _: u64,
    random: &mut Random,
    pair: &mut Pair<L, R>,
) -> Result<u64, Difference> {
    written(&Draft::grown(random), random, pair)
}

/// A figure at the limit; too long by a byte where the index says so.
fn long<L: Figures, R: Figures>(
    index: u64,
    random: &mut Random,
    pair: &mut Pair<L, R>,
) -> Result<u64, Difference> {
    written(&Draft::long(index, random), random, pair)
}

fn written<L: Figures, R: Figures>(
    draft: &Draft,
    random: &mut Random,
    pair: &mut Pair<L, R>,
) -> Result<u64, Difference> {
    let (rows, file) = (draft.rows(), draft.tree().bytes());
    let answer = whole(&rows, random, pair)?;
    for side in [&pair.left as &dyn Figures, &pair.right] {
        let mut out = vec![0; file.len()];
        let said = side.write_figure(&rows, &mut out);
        let right = said == file.len() as u64 && out == file && crate::check(&file).is_ok();
        if !right && file.len() <= LIMIT {
            let should = format!("{} bytes {}", file.len(), hex(&file[..file.len().min(999)]));
            let is = format!("{}, {}", spoken(said), hex(&out[..out.len().min(999)]));
            return Err(Difference::should(shown(&rows), &should, &is));
        }
    }
    Ok(answer)
}

/// A figure with a fault of the kind of the index put in, and perhaps more.
fn faulty<L: Figures, R: Figures>(
    index: u64,
    random: &mut Random,
    pair: &mut Pair<L, R>,
) -> Result<u64, Difference> {
    let mut draft = Draft::grown(random);
    harm::once(&mut draft, index % harm::KINDS, random);
    while random.chance(40) {
        let kind = random.next() % harm::KINDS;
        harm::once(&mut draft, kind, random);
    }
    whole(&draft.rows(), random, pair)
}

/// Rows that are not as long as they are said to be.
fn misfits<L: Figures, R: Figures>(
    index: u64,
    random: &mut Random,
    pair: &mut Pair<L, R>,
) -> Result<u64, Difference> {
    let mut rows = Draft::grown(random).rows();
    harm::misfit(&mut rows, index % harm::ROWS, random);
    while random.chance(40) {
        let row = random.next() % harm::ROWS;
        harm::misfit(&mut rows, row, random);
    }
    whole(&rows, random, pair)
}

/// The call with several rooms; the answer where there is enough.
fn whole<L: Figures, R: Figures>(
    rows: &Rows,
    random: &mut Random,
    pair: &mut Pair<L, R>,
) -> Result<u64, Difference> {
    let answer = write(rows, enough(rows), pair)?;
    let size = match refusal(answer) {
        None => answer as usize,
        Some(_) => 0,
    };
    for room in [0, size.saturating_sub(1), size, size + random.below(9)] {
        write(rows, room, pair)?;
    }
    Ok(answer)
}

fn write<L: Figures, R: Figures>(
    rows: &Rows,
    room: usize,
    pair: &mut Pair<L, R>,
) -> Result<u64, Difference> {
    let (left, right) = (&pair.left, &pair.right);
    pair.lender.compare(
        Lent {
            call: &|| format!("room {room}, {}", shown(rows)),
            bytes: [room, 0],
            filled: &|answer| match refusal(answer) {
                None => [answer as usize, 0],
                Some(_) => [0, 0],
            },
        },
        |buffers| left.write_figure(rows, inside(buffers)[0]),
        |buffers| right.write_figure(rows, inside(buffers)[0]),
    )
}

/// A room that is enough for a figure, and not much more than it needs.
fn enough(rows: &Rows) -> usize {
    let chunks = rows.objects.len() + rows.groups.len() + rows.materials.len();
    let numbers =
        rows.vertices.len() + rows.corners.len() + rows.smoothing.len() + rows.faces.len();
    (99 + 99 * chunks + rows.names.len() + 4 * numbers).min(LIMIT + 9)
}

/// The rows in words, or the beginning of the words.
fn shown(rows: &Rows) -> String {
    format!("{rows:?}").chars().take(4_000).collect()
}
