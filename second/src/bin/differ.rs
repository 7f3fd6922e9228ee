//! The comparison on the command line: many cases from a seed, every bit of
//! some files turned, or all figures in some folders.

use second::boundary::{Boundary, Right, Second, LINKED};
use second::differ::compare::Pair;
use second::differ::run::{add, run, words, Failure, Plan, Tally, NO_CASE};
use second::differ::seeded::{Seeded, ERRORS};
use second::differ::{c4ds, cobs, figures, guarded, real, slips, sticks, sums, turned};
use std::path::Path;
use std::process::ExitCode;
use std::time::Instant;

const USAGE: &str = "differ --count N --seed S      both sides over N files grown from a seed
                               (--only KIND: figures, sums, slips, sticks, cobs, c4ds or materials;
                               --trace names each case before it is run)
differ --turned FILE...        every bit of some files turned: what becomes of it
differ --guarded FILE...       every bit of some files turned: refused, and found with a slip
differ --real FOLDER...        both sides over the figures in some folders
differ --seeded                the second reader against errors seeded on purpose";

fn main() -> ExitCode {
    let arguments: Vec<String> = std::env::args().skip(1).collect();
    let arguments: Vec<&str> = arguments.iter().map(String::as_str).collect();
    if LINKED {
        println!("left: the second reader; right: the library under test");
    } else {
        println!("*** NOTHING IS TESTED: the library under test is not linked, and the second");
        println!("*** reader is compared with itself (build with --features tds and TDS_LIB_DIR)");
    }
    let pair = &mut Pair::new(Second, Right::default());
    let outcome = match arguments[..] {
        ["--turned", ref files @ ..] => all_turned(files, pair),
        ["--guarded", ref files @ ..] => all_guarded(files),
        ["--real", ref folders @ ..] => all_real(folders, pair),
        ["--seeded"] => all_seeded(),
        _ => match plan(&arguments) {
            Some((plan, kinds)) => grown(plan, kinds, pair),
            None => Err(USAGE.to_string()),
        },
    };
    match outcome {
        Ok(()) => ExitCode::SUCCESS,
        Err(text) => {
            println!("{text}");
            ExitCode::FAILURE
        }
    }
}

/// What is compared, by the names of `--only`: the figures, other formats, and
/// the writer of figures with materials.
type Kind = (&'static str, Run);
type Run = fn(Plan, &mut Pair<Second, Right>) -> Result<Tally, Box<Failure>>;
const KINDS: &[Kind] = &[
    ("figures", run::<Second, Right>),
    ("sums", sums::run::<Second, Right>),
    ("slips", slips::run::<Second, Right>),
    ("sticks", sticks::run::<Second, Right>),
    ("cobs", cobs::run::<Second, Right>),
    ("c4ds", c4ds::run::<Second, Right>),
    ("materials", figures::run::<Second, Right>),
];

/// The count, the seed and the kinds, if the arguments are just these.
fn plan(arguments: &[&str]) -> Option<(Plan, &'static [Kind])> {
    let mut plan = Plan {
        count: 200_000,
        seed: 1,
        loud: true,
        trace: false,
    };
    let (mut rest, mut kinds) = (arguments, KINDS);
    loop {
        rest = match rest {
            [] => return Some((plan, kinds)),
            ["--trace", rest @ ..] => {
                plan.trace = true;
                rest
            }
            ["--count", count, rest @ ..] => {
                plan.count = count.parse().ok()?;
                rest
            }
            ["--seed", seed, rest @ ..] => {
                plan.seed = seed.parse().ok()?;
                rest
            }
            ["--only", only, rest @ ..] => {
                let which = KINDS.iter().position(|(name, _)| name == only)?;
                kinds = &KINDS[which..=which];
                rest
            }
            _ => return None,
        };
    }
}

/// Many cases of some kinds from a seed.
fn grown(plan: Plan, kinds: &[Kind], pair: &mut Pair<Second, Right>) -> Result<(), String> {
    let begin = Instant::now();
    let mut total = NO_CASE;
    for (_, run) in kinds {
        let tally = run(plan, pair).map_err(|failure| {
            let (family, index) = (&failure.family, failure.index);
            if failure.subject.is_some() {
                println!("{family}, case {index}: a difference; looking for a smaller one");
            }
            failure.shrunk(plan.seed, pair).words(plan.seed)
        })?;
        add(&mut total, &tally);
    }
    let seconds = begin.elapsed().as_secs_f64();
    println!("{:<46}{seconds:>7.1} s {}", "Total", words(&total));
    Ok(())
}

fn read(path: &Path) -> Result<Vec<u8>, String> {
    std::fs::read(path).map_err(|error| format!("{}: {error}", path.display()))
}

/// Every bit of some files turned.
fn all_turned<L: Boundary, R: Boundary>(
    files: &[&str],
    pair: &mut Pair<L, R>,
) -> Result<(), String> {
    for path in files {
        let file = read(Path::new(path))?;
        let turned = turned::turned(&file, pair).map_err(|found| format!("{path}\n{found}"))?;
        let verdict = pair.right.check(&file);
        println!("{path}: {}", turned::words(&turned, verdict));
    }
    Ok(())
}

/// Every bit of some files turned: a slip has to find all of them.
fn all_guarded(files: &[&str]) -> Result<(), String> {
    for path in files {
        let file = read(Path::new(path))?;
        let all = guarded::guarded(&file).map_err(|found| format!("{path}\n{found}"))?;
        let guarded::Guarded {
            bits,
            refused,
            found,
        } = all;
        println!(
            "{path}: {bits} bits: {refused} refused by structure alone, {found} found with a slip"
        );
        if found != bits {
            return Err(format!("{path}: a slip misses {} bits", bits - found));
        }
    }
    Ok(())
}

/// All figures in some folders.
fn all_real<L: Boundary, R: Boundary>(
    folders: &[&str],
    pair: &mut Pair<L, R>,
) -> Result<(), String> {
    println!("{}", real::HEAD);
    for folder in folders {
        let files = real::files(Path::new(folder)).map_err(|error| format!("{folder}: {error}"))?;
        for path in files {
            let shown = path.display();
            let line = real::line(&read(&path)?, pair);
            println!(
                "{}  {shown}",
                line.map_err(|found| format!("{shown}\n{found}"))?
            );
        }
    }
    Ok(())
}

/// The smallest file that shows each of the errors seeded on purpose.
fn all_seeded() -> Result<(), String> {
    for error in std::iter::once(None).chain(ERRORS.iter().copied().map(Some)) {
        let plan = Plan {
            count: if error.is_some() { 6_000 } else { 1_000_000 },
            seed: 7,
            loud: error.is_none(),
            trace: false,
        };
        let pair = &mut Pair::new(Second, Seeded { error });
        match (error, run(plan, pair)) {
            (None, Ok(_)) => println!("no error: no difference"),
            (Some(error), Err(failure)) => {
                println!(
                    "{error:?}: {}",
                    failure.shrunk(plan.seed, pair).words(plan.seed)
                );
            }
            (None, Err(failure)) => return Err(failure.shrunk(plan.seed, pair).words(plan.seed)),
            (Some(error), Ok(_)) => return Err(format!("{error:?}: not seen")),
        }
    }
    Ok(())
}
