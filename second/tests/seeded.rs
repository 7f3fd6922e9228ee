//! The comparison itself, put to the test: it finds nothing between readers
//! that agree, and each error that is seeded into one of them.

use second::boundary::Second;
use second::differ::compare::Pair;
use second::differ::named;
use second::differ::run::{grown, Plan, Tally};
use second::differ::seeded::{misread_rows, Error, Seeded, ERRORS};
use std::ops::Range;

/// A small run that prints nothing.
fn plan(count: u64) -> Plan {
    Plan {
        count,
        seed: 7,
        loud: false,
        trace: false,
    }
}

/// Those of some answers, and of 23 and 24, that no case has met.
fn unmet(tally: &Tally, numbers: Range<usize>) -> Vec<usize> {
    let numbers = numbers.chain([23, 24]);
    numbers.filter(|number| tally[*number] == 0).collect()
}

/// Those of some errors that a run does not see.
fn unseen(errors: &[Error], mut run: impl FnMut(&mut Pair<Second, Seeded>) -> bool) -> Vec<Error> {
    let mut pair = Pair::new(Second, Seeded::default());
    let mut passes = |error: &&Error| {
        pair.right.error = Some(**error);
        run(&mut pair)
    };
    errors
        .iter()
        .filter(|error| passes(error))
        .copied()
        .collect()
}

#[test]
fn readers_that_agree_agree() {
    let mut pair = Pair::new(Second, Seeded::default());
    let tally = grown(plan(6_000), &mut pair).unwrap_or_else(|failure| {
        panic!("{}", failure.shrunk(7, &mut pair).words(7));
    });
    let unmet = unmet(&tally, 0..15);
    assert_eq!(unmet, [], "refusals that no case has met");
}

#[test]
fn every_seeded_error_is_seen() {
    let unseen = unseen(ERRORS, |pair| grown(plan(4_000), pair).is_ok());
    assert!(unseen.is_empty(), "not seen: {unseen:?}");
}

#[test]
fn named_cases_have_the_papers_answers() {
    let mut pair = Pair::new(Second, Seeded::default());
    let tally = named::run(&named::cases(), &mut pair)
        .unwrap_or_else(|failure| panic!("{}", failure.words(0)));
    let unmet = unmet(&tally, 0..16);
    assert_eq!(unmet, [], "refusals that no named case has met");
}

#[test]
fn named_cases_alone_see_every_seeded_error() {
    let cases = named::cases();
    assert!(ERRORS.len() > 200, "only {} errors", ERRORS.len());
    let unseen = unseen(ERRORS, |pair| named::run(&cases, pair).is_ok());
    assert!(unseen.is_empty(), "not seen: {unseen:?}");
}

#[test]
fn named_cases_alone_see_every_misread_row() {
    let (cases, errors) = (named::cases(), misread_rows());
    assert!(
        errors.len() > 700,
        "each field of each row: {}",
        errors.len()
    );
    let unseen = unseen(&errors, |pair| {
        // Those that are about the row first, as most misreadings show there.
        let Some(Error::Row(identifier, _)) = pair.right.error else {
            return true;
        };
        let row = format!("{identifier:04X}");
        let about = cases.iter().filter(|case| case.name.contains(&row));
        named::run(about, pair).is_ok() && named::run(&cases, pair).is_ok()
    });
    assert!(unseen.is_empty(), "not seen: {unseen:?}");
}
