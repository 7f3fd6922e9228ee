//! Neighbours in the 3D3D exchanged: one pair by hand, very many at random, and
//! that answers which do not follow the meshes are seen.

mod common;
use common::{chunk, figure, vertices};
use second::boundary::{Boundary, Right, Second};
use second::differ::grow::{self, Fill};
use second::differ::random::Random;
use second::differ::seeded::{Error, Seeded};
use second::differ::swaps::prepare;
use second::{bounding_box, check, name, tables};

fn named(name: &[u8], floats: &[f32]) -> Vec<u8> {
    chunk(0x4000, &[name, &chunk(0x4100, &[&vertices(floats)])])
}

#[test]
fn two_objects_by_hand() {
    let (adze, vice) = (
        named(b"adze\0", &[1.0, -0.0, 3.0]),
        named(b"vice\0", &[0.5; 6]),
    );
    let lamp = chunk(0x1470, &[]);
    let before = figure(&[&lamp, &adze, &vice, &lamp]);
    let after = figure(&[&lamp, &vice, &adze, &lamp]);
    assert_eq!(check(&before), check(&after));
    for (old, new) in [(0, 1), (1, 0)] {
        let [one, other] = [(&before, old), (&after, new)].map(|(file, mesh)| {
            let mut floats = [7.0; 6];
            let sizes = tables(file, mesh, &mut floats, &mut []).unwrap();
            let (at, length) = name(file, mesh).unwrap();
            let bits = floats.map(f32::to_bits);
            let found = bounding_box(file, mesh).unwrap();
            (sizes, bits, file[at..at + length].to_vec(), found)
        });
        assert_eq!(one, other);
    }
}

/// Whether a side says what it must of some hundred swaps.
fn swapped(side: &impl Boundary) -> bool {
    (0..400).all(|case| {
        let mut random = Random::of_case(7, 11, case);
        let file = grow::figure(&mut random, Fill::Some).bytes();
        let tried = prepare(&Second, &file, &mut random);
        tried.is_none_or(|tried| tried.judge(side, "a").is_ok())
    })
}

#[test]
fn every_answer_moves_as_the_objects_do() {
    assert!(swapped(&Second) && swapped(&Right::default()));
    let mut random = Random::of_case(7, 11, 0);
    let file = figure(&[&named(b"a\0", &[1.0; 3]), &chunk(0x8123, &[])]);
    assert!(prepare(&Second, &file, &mut random).is_some());
    assert!(prepare(&Second, &figure(&[&named(b"a\0", &[])]), &mut random).is_none());
}

#[test]
fn answers_that_do_not_are_seen() {
    let errors = [
        Error::TablesOfFirst,
        Error::NameOfFirst,
        Error::BoxOfFirst,
        Error::MeshesReversed,
        Error::ParentIsPrevious,
        Error::SkippedInvented,
    ];
    for error in errors {
        assert!(!swapped(&Seeded { error: Some(error) }), "{error:?}");
    }
}
