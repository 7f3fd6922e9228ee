//! The parts of a moving figure: fathers, depths, each refusal with its place;
//! asked of both sides.

mod common;
use common::{chunk, words};
use second::boundary::{refused, Boundary, Right, Second};
use second::{parts, Part, ROOT};

/// What both sides answer, which is the same, and what the lent bytes become.
fn both(file: &[u8], room: usize) -> (u64, Vec<u8>) {
    let [left, right] = [&Second as &dyn Boundary, &Right::default()].map(|side| {
        let mut lent = vec![0xA5; room];
        (side.parts(file, &mut lent), lent)
    });
    assert_eq!(right, left, "right, left");
    left
}

/// A figure with a keyframer of these blocks; the first stands at 18.
fn keyed(blocks: &[&[u8]]) -> Vec<u8> {
    chunk(0x4D4D, &[&chunk(0x3D3D, &[]), &chunk(0xB000, blocks)])
}

fn part(father: u16) -> Vec<u8> {
    chunk(0xB002, &[&called(b"p\0", &words(&[1, 2, father]))])
}

fn called(name: &[u8], rest: &[u8]) -> Vec<u8> {
    chunk(0xB010, &[name, rest])
}

/// The answer for parts of these fathers, each of 20 bytes.
fn hung(fathers: &[u16]) -> u64 {
    let parts: Vec<u8> = fathers.iter().flat_map(|father| part(*father)).collect();
    both(&keyed(&[&parts]), 8 * fathers.len()).0
}

#[test]
fn fathers_and_depths() {
    let blocks = [
        part(ROOT),
        chunk(0xB001, &[&part(9)]),
        part(0),
        chunk(0xB008, &[&[0; 8]]),
    ];
    let more = [part(1), chunk(0xB003, &[]), part(ROOT), part(1)];
    let file = keyed(&[&blocks.concat(), &more.concat()]);
    let known = [(ROOT, 0), (0, 1), (1, 2), (ROOT, 0), (1, 2)];
    let known = known.map(|(father, depth)| Part { father, depth });
    assert_eq!(parts(&file).as_deref(), Ok(&known[..]));
    let numbers = known.map(|part| [u32::from(part.father), part.depth]);
    let numbers = numbers.as_flattened().iter();
    let bytes: Vec<u8> = numbers.flat_map(|number| number.to_le_bytes()).collect();
    assert_eq!(both(&file, 47), (5, [&bytes[..], &[0xA5; 7]].concat()));
    for room in [0, 8, 39] {
        assert_eq!(both(&file, room), (refused(15, 5), vec![0xA5; room]));
    }
    assert_eq!(both(&keyed(&[]), 0).0, 0);
    assert_eq!(both(&common::triangle(), 0).0, 0);
    assert_eq!(both(&file[1..], 0).0, refused(2, 0));
}

#[test]
fn a_father_stands_earlier() {
    assert_eq!(hung(&[ROOT, 0, 1, 2]), 4);
    assert_eq!(hung(&[ROOT, ROOT, 0, 0]), 4);
    for father in [0, 1, 65_534] {
        assert_eq!(hung(&[father, ROOT]), refused(23, 24));
    }
    for father in [1, 2, 3, 256, 0x8000, 65_534] {
        assert_eq!(hung(&[ROOT, father, ROOT]), refused(23, 44));
    }
    let chain: Vec<u16> = (0..700).map(|number: u16| number.wrapping_sub(1)).collect();
    assert_eq!(hung(&chain), 700);
    assert_eq!(
        hung(&[&chain[..], &[700]].concat()),
        refused(23, 24 + 14_000)
    );
    // Only the B002 have numbers.
    let file = keyed(&[&chunk(0xB001, &[]), &part(ROOT), &part(1)]);
    assert_eq!(both(&file, 0).0, refused(23, 50));
}

#[test]
fn the_order_at_a_part() {
    let whose = |inside: &[u8]| both(&keyed(&[&chunk(0xB002, &[inside])]), 8).0;
    assert_eq!(whose(&called(b"", b"")), refused(9, 24));
    assert_eq!(whose(&called(b"abcdefgh", b"")), refused(9, 24));
    assert_eq!(whose(&called(b"a\0", &[9; 5])), refused(10, 24));
    assert_eq!(whose(&called(b"a\0", &[9; 7])), refused(10, 24));
    assert_eq!(whose(&called(b"a\0", &[9; 6])), refused(23, 24));
    assert_eq!(whose(&called(b"\n\0", &[9; 6])), refused(24, 24));
    assert_eq!(whose(&called(b"\0", &[255; 6])), 1);
    assert_eq!(whose(&called(b"a\0", &[255; 6]).repeat(2)), refused(8, 38));
    assert_eq!(whose(&[]), refused(14, 18));
    assert_eq!(
        whose(&chunk(0xB020, &[&called(b"a\0", &[255; 6])])),
        refused(14, 18)
    );
    assert_eq!(whose(&[0; 5]), refused(6, 24));
}

#[test]
fn once_and_in_their_places() {
    let frames = |bytes: usize| chunk(0xB008, &[&vec![0; bytes]]);
    let check = |file: &[u8]| both(file, 99).0;
    assert_eq!(check(&keyed(&[&frames(8)])), 0);
    assert_eq!(check(&keyed(&[&frames(7)])), refused(10, 18));
    assert_eq!(check(&keyed(&[&frames(9)])), refused(10, 18));
    assert_eq!(check(&keyed(&[&frames(8), &frames(8)])), refused(8, 32));
    assert_eq!(check(&keyed(&[&keyed(&[])[12..]])), refused(7, 18));
    assert_eq!(check(&keyed(&[&called(b"\0", &[255; 6])])), refused(7, 18));
    let edit = chunk(0x3D3D, &[]);
    let keyframer = chunk(0xB000, &[]);
    assert_eq!(
        check(&chunk(0x4D4D, &[&edit, &keyframer, &keyframer])),
        refused(8, 18)
    );
    assert_eq!(check(&chunk(0x4D4D, &[&keyframer, &edit])), 0);
    assert_eq!(check(&chunk(0x4D4D, &[&keyframer])), refused(14, 0));
    assert_eq!(check(&common::figure(&[&keyframer])), refused(7, 12));
    assert_eq!(check(&chunk(0x4D4D, &[&edit, &part(ROOT)])), refused(7, 12));
}
