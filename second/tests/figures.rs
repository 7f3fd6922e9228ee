//! Figures of many objects and materials: one by hand, each refusal with its
//! place and against those it comes before; asked of both sides.

mod common;
use common::{alike, chunk, counts, faces, figure, vertices, words};
use second::boundary::{refused, Boundary, Figures, Right, Rows, Second};
use second::LIMIT;

/// An object: name, floats, corners, smoothing words, groups.
type Object<'a> = (
    &'a str,
    &'a [f32],
    &'a [u16],
    &'a [u32],
    &'a [(&'a str, &'a [u16])],
);

/// What spoils some rows, and the length that is then refused.
type Spoilt = (fn(&mut Rows), usize);

/// The rows of some objects and of materials of these names.
fn rows(objects: &[Object], materials: &[&str]) -> Rows {
    let mut rows = Rows::default();
    let groups = objects.iter().flat_map(|object| object.4);
    let names = objects.iter().map(|object| object.0);
    let names = names.chain(materials.iter().copied());
    rows.names = names
        .chain(groups.clone().map(|group| group.0))
        .collect::<String>()
        .into_bytes();
    for (name, floats, corners, smoothing, groups) in objects {
        let numbers = [
            name.len(),
            floats.len(),
            corners.len(),
            smoothing.len(),
            groups.len(),
        ];
        rows.objects.extend(numbers.map(|number| number as u32));
        rows.vertices.extend_from_slice(floats);
        rows.corners.extend_from_slice(corners);
        rows.smoothing.extend_from_slice(smoothing);
    }
    for (name, faces) in groups {
        rows.groups.extend([name.len() as u32, faces.len() as u32]);
        rows.faces.extend_from_slice(faces);
    }
    for (number, name) in materials.iter().enumerate() {
        rows.materials.push(name.len() as u32);
        rows.colours
            .extend((0..9).map(|part| (10 * number + part) as u8));
    }
    rows
}

/// What both sides answer, which is the same, and what becomes of the room.
fn both(rows: &Rows, room: usize) -> (u64, Vec<u8>) {
    let [left, right] = [&Second as &dyn Figures, &Right::default()].map(|side| {
        let mut out = vec![0xA5; room];
        (side.write_figure(rows, &mut out), out)
    });
    assert_eq!(right, left, "right, left");
    left
}

/// The answer with room.
fn write(objects: &[Object], materials: &[&str]) -> u64 {
    both(&rows(objects, materials), LIMIT + 99).0
}

const POINT: [f32; 3] = [1.0, -0.0, 2.5];
const FACE: [u16; 3] = [0, 0, 0];

/// A material as it is written, its nine colour bytes counted from one.
fn material(name: &[u8], first: u8) -> Vec<u8> {
    let shades = [(0xA010, first), (0xA020, first + 3), (0xA030, first + 6)];
    let shades = shades.map(|(shade, first)| {
        let colour = chunk(0x0011, &[&[first, first + 1, first + 2]]);
        chunk(shade, &[&colour])
    });
    chunk(0xAFFF, &[&chunk(0xA000, &[name]), &shades.concat()])
}

#[test]
fn a_figure_by_hand() {
    let groups: [(&str, &[u16]); 2] = [("oak", &[1, 0, 1]), ("", &[])];
    let lid: Object = ("lid", &POINT, &[0; 6], &[7, 1 << 31], &groups);
    let rows = rows(&[lid, ("", &[], &[], &[], &[])], &["", "oak"]);
    let inside = [
        chunk(0x4130, &[b"oak\0", &words(&[3, 1, 0, 1])]),
        chunk(0x4130, &[b"\0", &words(&[0])]),
        chunk(0x4150, &[&[7, 0, 0, 0, 0, 0, 0, 0x80]]),
    ];
    let inside = faces(&[FACE; 2], &[&inside.concat()]);
    let mesh = chunk(0x4100, &[&vertices(&POINT), &inside]);
    let empty = chunk(0x4100, &[&vertices(&[]), &faces(&[], &[])]);
    let known = figure(&[
        &material(b"\0", 0),
        &material(b"oak\0", 10),
        &chunk(0x4000, &[b"lid\0", &mesh]),
        &chunk(0x4000, &[b"\0", &empty]),
    ]);
    let (size, less) = (known.len(), known.len() - 1);
    let (answer, out) = both(&rows, size + 1);
    assert_eq!(answer as usize, size);
    assert_eq!(out, [&known[..], &[0xA5]].concat());
    assert_eq!(counts(&known).2, 0);
    assert_eq!(both(&rows, less), (refused(15, size), vec![0xA5; less]));
}

#[test]
fn nothing_and_a_bare_figure() {
    assert_eq!(both(&Rows::default(), 12), (12, figure(&[])));
    let corners = [0, 1, 0];
    let floats = [0.0, 1.0, 2.0, 3.0, 4.0, 5.0];
    let mut bare = vec![0xA5; 99];
    let size = Second.write(b"adze", &floats, &corners, &mut bare);
    let rows = rows(&[("adze", &floats, &corners, &[], &[])], &[]);
    assert_eq!(both(&rows, 99), (size, bare));
}

#[test]
fn rows_are_as_long_as_they_are_said_to_be() {
    let whole = rows(&[("ab", &POINT, &FACE, &[1], &[("m", &[0])])], &["m"]);
    let all: [Spoilt; 11] = [
        (|rows| rows.objects.push(0), 6),
        (|rows| rows.groups.push(0), 3),
        (|rows| rows.groups.extend([0, 0]), 4),
        (|rows| rows.names.push(0), 5),
        (|rows| rows.vertices.truncate(2), 2),
        (|rows| rows.corners.push(0), 4),
        (|rows| rows.smoothing.clear(), 0),
        (|rows| rows.faces.push(9), 2),
        (|rows| rows.colours.push(0), 10),
        (|rows| rows.materials.push(0), 9),
        (|rows| rows.objects[0] = u32::MAX, 4),
    ];
    let size = both(&whole, 999).0;
    assert_eq!(size, 12 + 59 + (9 + 6 + 20 + 16) + (6 + 2 + 4) + 10);
    for (spoil, place) in all {
        let mut rows = whole.clone();
        spoil(&mut rows);
        assert_eq!(both(&rows, 999).0, refused(13, place));
    }
    // In the order of the rows, and before all else: each comes before those spoilt so far.
    let mut rows = whole.clone();
    rows.names[0] = 0;
    for which in [8, 7, 6, 5, 4, 3, 1, 0] {
        let (spoil, place) = all[which];
        spoil(&mut rows);
        assert_eq!(both(&rows, 0).0, refused(13, place));
    }
}

#[test]
fn zeros_in_names() {
    let bad: &[u16] = &[9; 4];
    assert_eq!(
        write(
            &[("a", &[], bad, &[], &[]), ("b\0c\0", &[], bad, &[], &[])],
            &["m\0"]
        ),
        refused(9, 1)
    );
    assert_eq!(
        write(
            &[("a", &[], bad, &[], &[]), ("a", &[], bad, &[], &[])],
            &["m", "no\0"]
        ),
        refused(9, 2)
    );
    // A group's name is judged by its material alone.
    assert_eq!(
        write(&[("a", &[], &[], &[], &[("\0", &[])])], &["m"]),
        refused(30, 0)
    );
}

#[test]
fn names_fit_for_the_label() {
    let long = "n".repeat(64);
    assert_eq!(write(&[("a\x1F", &[], &[], &[], &[])], &[]), refused(24, 1));
    assert_eq!(write(&[(&long, &[], &[], &[], &[])], &[]), refused(24, 63));
    assert_eq!(write(&[(&long[1..], &[], &[], &[], &[])], &[]), 41 + 63);
}

#[test]
fn names_are_all_different() {
    const GROUPS: &[(&str, &[u16])] = &[("x", &[9])];
    fn named(name: &str) -> Object<'_> {
        (name, &[], &[0; 4], &[], GROUPS)
    }
    fn plain(name: &str) -> Object<'_> {
        (name, &[], &[], &[], &[])
    }
    assert_eq!(
        write(
            &[named("a"), named("b"), named("a"), named("b")],
            &["m", "m"]
        ),
        refused(29, 2)
    );
    assert_eq!(
        write(&[named("a"), named("b")], &["m", "", "m", ""]),
        refused(29, 2)
    );
    assert_eq!(
        write(&[plain("a"), plain("A"), plain("")], &["a", "A", ""]),
        12 + 3 * 29 + 2 + 3 * 58 + 2
    );
}

/// Many names: alike to whoever looks them up by a number, or each the
/// beginning of the next.
#[test]
fn many_names() {
    fn plain(name: &String) -> Object<'_> {
        (name, &[], &[], &[], &[])
    }
    let longer = (0..64).map(|size| "n".repeat(size)).collect();
    for mut names in [alike(33), alike(512), longer] {
        let last = names.len() - 1;
        let size: usize = names.iter().map(|name| 29 + name.len()).sum();
        let objects: Vec<Object> = names.iter().map(plain).collect();
        assert_eq!(write(&objects, &[]), 12 + size as u64);
        let materials: Vec<&str> = names.iter().map(|name| &name[..]).collect();
        for named in [0, 7, last] {
            let groups: [(&str, &[u16]); 1] = [(materials[named], &[])];
            let object: Object = ("o", &[], &[], &[], &groups);
            assert!(write(&[object], &materials) < LIMIT as u64, "{named}");
            let others = [&materials[..named], &materials[named + 1..]].concat();
            assert_eq!(write(&[object], &others), refused(30, 0), "{named}");
        }
        for first in [0, 7, last - 1] {
            names[last] = names[first].clone();
            let objects: Vec<Object> = names.iter().map(plain).collect();
            assert_eq!(write(&objects, &[]), refused(29, last), "{first}");
        }
    }
}

#[test]
fn groups_have_a_material() {
    let groups: [(&str, &[u16]); 2] = [("m", &[]), ("n", &[])];
    let objects: [Object; 2] = [
        ("a", &[0.0; 4], &[], &[], &groups),
        ("b", &[], &[], &[], &groups),
    ];
    assert_eq!(write(&objects, &["m"]), refused(30, 1));
    assert_eq!(write(&objects, &["n"]), refused(30, 0));
    let objects: [Object; 2] = [
        ("a", &[0.0; 4], &[], &[], &groups),
        ("b", &[], &[], &[], &[("a", &[])]),
    ];
    assert_eq!(write(&objects, &["m", "n"]), refused(30, 2));
    assert_eq!(write(&objects, &["m", "n", "a"]), refused(13, 4));
}

#[test]
fn lengths_of_rows() {
    let nan = [f32::NAN; 3];
    let first: Object = ("a", &nan, &FACE, &[], &[]);
    let behind = |second: Object| write(&[first, second], &[]);
    assert_eq!(
        behind(("b", &nan[..2], &[0; 4], &[0; 9], &[])),
        refused(13, 2)
    );
    assert_eq!(behind(("b", &nan, &[0; 4], &[0; 9], &[])), refused(13, 4));
    assert_eq!(behind(("b", &nan, &[9; 6], &[0; 3], &[])), refused(13, 3));
    assert_eq!(behind(("b", &nan, &[9; 6], &[0; 1], &[])), refused(13, 1));
    assert_eq!(behind(("b", &[], &[], &[0], &[])), refused(13, 1));
    // An object's rows come before the next one's.
    let smooth: Object = ("a", &nan, &FACE, &[0; 5], &[]);
    let odd: Object = ("b", &nan[..1], &[], &[], &[]);
    assert_eq!(write(&[smooth, odd], &[]), refused(13, 5));
    let most = vec![0.0; 196_608];
    assert_eq!(behind(("b", &most, &[], &[], &[])), refused(13, 196_608));
    assert_eq!(
        write(&[("b", &most[3..], &[], &[], &[])], &[]),
        42 + 4 * 196_605
    );
}

#[test]
fn lengths_of_groups() {
    let many = vec![0; 65_536];
    let group = |count: usize| {
        let groups = [("m", &many[..1]), ("m", &many[..count])];
        write(&[("a", &POINT, &FACE, &[], &groups)], &["m"])
    };
    assert_eq!(group(65_536), refused(13, 65_536));
    assert_eq!(group(65_535), 12 + 59 + 50 + 12 + 10 + 2 * 65_535);
}

#[test]
fn numbers_and_indices() {
    let (nan, low) = ([0.0, 0.0, f32::NAN], [0.0, f32::NEG_INFINITY, f32::NAN]);
    let (one, nine): (&[u16], &[u16]) = (&[0], &[9]);
    let (one, nine) = ([("m", one)], [("m", nine)]);
    let two: [(&str, &[u16]); 2] = [("m", &[0]), ("m", &[0, 0, 1, 5])];
    let good: Object = ("a", &POINT, &FACE, &[], &one);
    let corner: Object = ("c", &POINT, &[0, 1, 7], &[], &nine);
    let group: Object = ("g", &POINT, &FACE, &[], &two);
    let float: Object = ("n", &low, &[], &[], &[]);
    let other: Object = ("o", &nan, &[], &[], &[]);
    let write = |objects: &[Object]| write(objects, &["m"]);
    assert_eq!(write(&[good, corner, float, other]), refused(11, 1));
    assert_eq!(write(&[good, corner, other]), refused(11, 2));
    assert_eq!(write(&[good, corner, group]), refused(12, 1));
    assert_eq!(write(&[good, group, corner]), refused(12, 2));
    assert_eq!(write(&[("a", &[], &FACE, &[], &[])]), refused(12, 0));
    assert_eq!(write(&[("a", &POINT, &[], &[], &one)]), refused(12, 0));
}

#[test]
fn sizes_come_last() {
    // With a name of three letters just as long as a figure may be.
    let (points, corners) = (vec![0.5; 3 * 65_535], vec![0; 3 * 32_764]);
    let bad = [&[0, u16::MAX][..], &corners[2..]].concat();
    let sized = |name: &str, corners: &[u16], room| {
        both(&rows(&[(name, &points, corners, &[], &[])], &[]), room).0
    };
    assert_eq!(sized("abc", &corners, LIMIT), LIMIT as u64);
    assert_eq!(sized("abc", &corners, LIMIT - 1), refused(15, LIMIT));
    assert_eq!(sized("abcd", &corners, 0), refused(1, 0));
    assert_eq!(sized("abcd", &bad, 0), refused(12, 1));
}
