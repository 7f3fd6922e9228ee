//! A fixed list of named cases, run first: each has the answer that the paper
//! gives it, so that two sides that err alike are seen too.

mod accepted;
mod bytes;
mod calls;
mod labels;
mod parts;
mod refused;
mod rescues;
mod rows;
mod tree;
mod versions;
mod writings;

use super::compare::Pair;
use super::facts::Facts;
use super::families::Subject;
use super::lent::{spoken, Difference};
use super::rescues::Cuts;
use super::run::{count, Failure, Tally, NO_CASE};
use crate::boundary::Boundary;

/// A file or a writing, and what is to be said of it.
#[derive(Clone, Debug)]
pub struct Case {
    pub name: String,
    pub subject: Subject,
    /// The answer of the check, or of the writer.
    pub expected: u64,
    /// What is said of an accepted figure that was built as a tree.
    pub facts: Option<Facts>,
    /// What is cut when it is rescued, where that is named.
    pub rescue: Option<Cuts>,
}

/// All of them, the long ones last.
pub fn cases() -> Vec<Case> {
    let mut cases = Vec::with_capacity(2_048);
    cases.extend(accepted::cases());
    cases.extend(refused::cases());
    cases.extend(rows::cases());
    cases.extend(labels::cases());
    cases.extend(versions::cases());
    cases.extend(parts::cases());
    cases.extend(rescues::cases());
    cases.extend(bytes::cases());
    cases.extend(writings::cases());
    cases
}

/// Puts named cases to both sides.
pub fn run<'a, L: Boundary, R: Boundary>(
    cases: impl IntoIterator<Item = &'a Case>,
    pair: &mut Pair<L, R>,
) -> Result<Tally, Box<Failure>> {
    let mut tally = NO_CASE;
    for (index, case) in cases.into_iter().enumerate() {
        match case.judge(pair) {
            Ok(answer) => count(&mut tally, answer),
            Err(difference) => {
                return Err(Box::new(Failure {
                    family: format!("Named ({})", case.name),
                    index: index as u64,
                    subject: Some(case.subject.clone()),
                    difference,
                }))
            }
        }
    }
    Ok(tally)
}

impl Case {
    /// The answer, if both sides agree in all and it is the one expected.
    fn judge<L: Boundary, R: Boundary>(&self, pair: &mut Pair<L, R>) -> Result<u64, Difference> {
        let answer = match &self.subject {
            Subject::Writing(writing) => writing.ask(pair)?,
            Subject::File(file) => {
                // A search that runs on behind the file finds zeros there.
                let lent = [file, &[0; 24][..]].concat();
                calls::all(&lent[..file.len()], pair)?
            }
        };
        if let (Some(facts), Subject::File(file)) = (&self.facts, &self.subject) {
            facts.said_of(file, pair)?;
        }
        if let (Some(cuts), Subject::File(file)) = (&self.rescue, &self.subject) {
            pair.cuts(file, cuts)?;
        }
        match answer == self.expected {
            true => Ok(answer),
            false => Err(Difference {
                call: self.name.clone(),
                left: format!("should be {}", spoken(self.expected)),
                right: format!("both sides {}", spoken(answer)),
            }),
        }
    }
}
