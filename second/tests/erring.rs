//! The comparison of other formats, put to the test: it finds nothing between
//! sides that agree, meets each refusal, and sees each error made on purpose.

use second::boundary::Second;
use second::differ::compare::Pair;
use second::differ::run::{Failure, Plan, Tally};
use second::differ::{c4ds, cobs, figures, slips, sticks, sums};

/// A small run that prints nothing.
const PLAN: Plan = Plan {
    count: 2_000,
    seed: 7,
    loud: false,
    trace: false,
};

type Outcome = Result<Tally, Box<Failure>>;

/// Sides that agree agree, and each of these answers is met.
fn agrees(outcome: Outcome, numbers: &[usize]) {
    let tally = outcome.unwrap_or_else(|failure| panic!("{}", failure.words(PLAN.seed)));
    let unmet: Vec<&usize> = numbers
        .iter()
        .filter(|number| tally[**number] == 0)
        .collect();
    assert!(unmet.is_empty(), "answers that no case has met: {unmet:?}");
}

/// No error goes unseen.
fn all_seen<E: Copy + std::fmt::Debug>(errors: &[E], run: impl Fn(E) -> Outcome) {
    let unseen: Vec<&E> = errors.iter().filter(|error| run(**error).is_ok()).collect();
    assert!(unseen.is_empty(), "not seen: {unseen:?}");
}

#[test]
fn errors_in_slips_are_seen() {
    let run = |error| {
        slips::run(
            PLAN,
            &mut Pair::new(Second, slips::erring::Erring { error }),
        )
    };
    agrees(run(None), &[0, 18, 24]);
    all_seen(slips::erring::ERRORS, |error| run(Some(error)));
}

#[test]
fn errors_in_sticks_are_seen() {
    let run = |error| {
        sticks::run(
            PLAN,
            &mut Pair::new(Second, sticks::erring::Erring { error }),
        )
    };
    agrees(run(None), &[0, 15, 18, 24, 31, 32, 33, 34, 35, 36, 37]);
    all_seen(sticks::erring::ERRORS, |error| run(Some(error)));
}

#[test]
fn errors_in_sums_are_seen() {
    let run = |error| sums::run(PLAN, &mut Pair::new(Second, sums::erring::Erring { error }));
    agrees(run(None), &[0, 1, 19]);
    all_seen(sums::erring::ERRORS, |error| run(Some(error)));
}

#[test]
fn errors_in_caligari_figures_are_seen() {
    let run = |error| cobs::run(PLAN, &mut Pair::new(Second, cobs::erring::Erring { error }));
    agrees(run(None), &[0, 1, 3, 5, 10, 11, 12, 14, 20, 21, 22]);
    all_seen(cobs::erring::ERRORS, |error| run(Some(error)));
}

#[test]
fn errors_in_cinema_figures_are_seen() {
    let run = |error| c4ds::run(PLAN, &mut Pair::new(Second, c4ds::erring::Erring { error }));
    agrees(run(None), &[0, 1, 5, 10, 25, 26, 27, 28]);
    all_seen(c4ds::erring::ERRORS, |error| run(Some(error)));
}

#[test]
fn errors_in_figures_with_materials_are_seen() {
    let run = |error| {
        figures::run(
            PLAN,
            &mut Pair::new(Second, figures::erring::Erring { error }),
        )
    };
    agrees(run(None), &[0, 1, 9, 11, 12, 13, 24, 29, 30]);
    all_seen(figures::erring::ERRORS, |error| run(Some(error)));
}
