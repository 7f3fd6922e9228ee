//! A whole run: so many cases from a seed, a line for each family, and the
//! smallest file of the first difference.

use super::compare::Pair;
use super::families::{judge, judge_tree, make, sweep, Family, Subject, FAMILIES};
use super::lent::{hex, Difference};
use super::named;
use super::random::Random;
use super::shrink::shrink;
use super::writing::Writing;
use crate::boundary::{refusal, Boundary};
use std::time::{Duration, Instant};

/// How often each answer was met: 0 for accepted, else the refusal's number.
pub type Tally = [u64; 38];

/// Before any case.
pub const NO_CASE: Tally = [0; 38];

/// The first difference found, and where.
#[derive(Debug)]
pub struct Failure {
    pub family: String,
    pub index: u64,
    /// What can be made smaller; of another format the difference says it all.
    pub subject: Option<Subject>,
    pub difference: Difference,
}

/// How a case is judged: its number, its source of numbers, and both sides.
pub type Judge<P> = fn(u64, &mut Random, &mut P) -> Result<u64, Difference>;

/// A family of cases of another format: its name, what it is, how many there
/// are, and how one is judged.
pub struct Cases<P>(pub &'static str, pub &'static str, pub Share, pub Judge<P>);

/// How many cases a family has: a share of all in ten thousand, and how many
/// there are at the least and at the most.
#[derive(Clone, Copy, Debug)]
pub struct Share(u64, u64, u64);

/// A share with a least number.
pub const fn share(of_all: u64, least: u64) -> Share {
    Share(of_all, least, u64::MAX)
}

/// The same for cases at the limit of length: one takes the time of thousands,
/// so that a long run is mostly over small files, and other seeds bring more.
pub const fn few(of_all: u64, least: u64) -> Share {
    Share(of_all, least, 600)
}

impl Share {
    fn of(self, count: u64) -> u64 {
        let Share(of_all, least, most) = self;
        (count * of_all).div_ceil(10_000).clamp(least, most)
    }
}

/// What to run, and whether to speak of it.
#[derive(Clone, Copy, Debug)]
pub struct Plan {
    pub count: u64,
    pub seed: u64,
    pub loud: bool,
    /// Names each case before it is run, to find one that never comes back.
    pub trace: bool,
}

/// Runs the named cases, then all families; how often each answer was met, if
/// no difference is found.
pub fn run<L: Boundary, R: Boundary>(
    plan: Plan,
    pair: &mut Pair<L, R>,
) -> Result<Tally, Box<Failure>> {
    let begin = Instant::now();
    let mut total = named::run(&named::cases(), pair)?;
    plan.say("Named", "cases with the paper's answer", &total, begin);
    add(&mut total, &grown(plan, pair)?);
    Ok(total)
}

/// Runs all families.
pub fn grown<L: Boundary, R: Boundary>(
    plan: Plan,
    pair: &mut Pair<L, R>,
) -> Result<Tally, Box<Failure>> {
    let mut total = NO_CASE;
    for (family, share, what) in FAMILIES {
        let begin = Instant::now();
        let tally = plan.cases_of(family, share.of(plan.count), pair)?;
        plan.say(&format!("{family:?}"), what, &tally, begin);
        add(&mut total, &tally);
    }
    let begin = Instant::now();
    let mut tally = NO_CASE;
    let step = if plan.count >= 20_000 { 1 } else { 31 };
    let swept = sweep(step, pair, |answer| count(&mut tally, answer));
    swept.map_err(|(file, difference)| {
        let subject = Some(Subject::File(file));
        Box::new(Failure {
            family: "Sweep".into(),
            index: 0,
            subject,
            difference,
        })
    })?;
    plan.say("Sweep", "every identifier under each parent", &tally, begin);
    add(&mut total, &tally);
    Ok(total)
}

/// Counts an answer by its number.
pub fn count(tally: &mut Tally, answer: u64) {
    let number = refusal(answer).map_or(0, |(number, _)| number as usize);
    tally[number.min(tally.len() - 1)] += 1;
}

/// Adds a tally to another.
pub fn add(total: &mut Tally, tally: &Tally) {
    total
        .iter_mut()
        .zip(tally)
        .for_each(|(sum, more)| *sum += more);
}

/// A tally in words: all, accepted, and how often each refusal.
pub fn words(tally: &Tally) -> String {
    let all: u64 = tally.iter().sum();
    let met = tally.iter().enumerate().skip(1);
    let numbers: Vec<String> = met
        .filter(|(_, times)| **times > 0)
        .map(|(number, times)| format!("{number}:{times}"))
        .collect();
    let accepted = tally[0];
    format!(
        "{all:>9} files {accepted:>9} accepted  {}",
        numbers.join(" ")
    )
}

impl Plan {
    /// The cases of one family.
    fn cases_of<L: Boundary, R: Boundary>(
        &self,
        family: Family,
        cases: u64,
        pair: &mut Pair<L, R>,
    ) -> Result<Tally, Box<Failure>> {
        let mut made = None;
        let judged = self.each(
            &format!("{family:?}"),
            family as u64,
            cases,
            |index, source| {
                let mut random = source.clone();
                let subject = made.insert(make(family, index, &mut random));
                let answer = judge(family, subject, &mut random, pair)?;
                if family == Family::Grown {
                    judge_tree(&mut source.clone(), pair)?;
                }
                Ok(answer)
            },
        );
        judged.map_err(|mut failure| {
            failure.subject = made.take();
            failure
        })
    }

    /// So many cases, each from its own source of numbers.
    fn each(
        &self,
        family: &str,
        stream: u64,
        cases: u64,
        mut judge: impl FnMut(u64, &Random) -> Result<u64, Difference>,
    ) -> Result<Tally, Box<Failure>> {
        let mut tally = NO_CASE;
        for index in 0..cases {
            if self.trace {
                eprintln!("{family} {index}");
            }
            match judge(index, &Random::of_case(self.seed, stream, index)) {
                Ok(answer) => count(&mut tally, answer),
                Err(difference) => {
                    return Err(Box::new(Failure {
                        family: family.to_string(),
                        index,
                        subject: None,
                        difference,
                    }))
                }
            }
        }
        Ok(tally)
    }

    /// All families of another format, each with a stream of numbers of its own.
    pub fn all<P>(
        &self,
        stream: u64,
        families: &[Cases<P>],
        pair: &mut P,
    ) -> Result<Tally, Box<Failure>> {
        let mut total = NO_CASE;
        for (which, Cases(family, what, share, judge)) in families.iter().enumerate() {
            let begin = Instant::now();
            let (stream, cases) = (stream + which as u64, share.of(self.count));
            let tally = self.each(family, stream, cases, |index, source| {
                judge(index, &mut source.clone(), pair)
            })?;
            self.say(family, what, &tally, begin);
            add(&mut total, &tally);
        }
        Ok(total)
    }

    /// The line of a family.
    fn say(&self, family: &str, what: &str, tally: &Tally, begin: Instant) {
        if self.loud {
            let seconds = begin.elapsed().as_secs_f64();
            println!("{family:<11}{what:<35}{seconds:>7.1} s {}", words(tally));
        }
    }
}

impl Failure {
    /// The failure with the smallest file or writing that can be found.
    pub fn shrunk<L: Boundary, R: Boundary>(mut self, seed: u64, pair: &mut Pair<L, R>) -> Failure {
        let family = FAMILIES
            .iter()
            .find(|family| format!("{:?}", family.0) == self.family);
        let family = family.map_or(Family::Noise, |family| family.0);
        let source = Random::of_case(seed, family as u64, self.index);
        let mut fails = |subject: &Subject| {
            let tries = (0..4).map(|turn| match turn {
                0 => source.clone(),
                turn => Random::of_case(seed, 99, turn),
            });
            let mut tries =
                tries.filter_map(|mut random| judge(family, subject, &mut random, pair).err());
            tries.next()
        };
        let Some(subject) = self.subject.take_if(|subject| fails(subject).is_some()) else {
            return self;
        };
        let subject = match subject {
            Subject::File(file) => {
                let mut bytes = |file: &[u8]| fails(&Subject::File(file.to_vec())).is_some();
                Subject::File(shrink(file, &mut bytes))
            }
            Subject::Writing(writing) => {
                let mut test = |less: &Writing| fails(&Subject::Writing(less.clone())).is_some();
                Subject::Writing(smallest(writing, &mut test))
            }
        };
        self.difference = fails(&subject).unwrap_or(self.difference);
        self.subject = Some(subject);
        self
    }

    /// What is printed of it.
    pub fn words(&self, seed: u64) -> String {
        let subject = match &self.subject {
            Some(Subject::File(file)) => format!("  file   {} bytes {}", file.len(), shown(file)),
            Some(Subject::Writing(_)) => "  (a writing)".to_string(),
            None => "  (of another format)".to_string(),
        };
        let Failure { family, index, .. } = self;
        let difference = &self.difference;
        format!("DIFFERENCE in {family}, case {index} of seed {seed}\n{subject}\n{difference}")
    }
}

/// A file as hex digits; of a long one the beginning and the end, as the case
/// and the seed bring it back whole.
fn shown(file: &[u8]) -> String {
    match file.len() {
        0..10_000 => hex(file),
        long => format!("{} ... {}", hex(&file[..512]), hex(&file[long - 128..])),
    }
}

/// The smallest writing that still fails.
fn smallest(mut writing: Writing, fails: &mut dyn FnMut(&Writing) -> bool) -> Writing {
    let until = Instant::now() + Duration::from_secs(10);
    let mut fails = |less: &Writing| Instant::now() < until && fails(less);
    while let Some(less) = writing.smaller().into_iter().find(|less| fails(less)) {
        writing = less;
    }
    writing
}
