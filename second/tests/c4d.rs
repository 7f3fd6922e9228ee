//! Cinema 4D figures by hand: each refusal with its place and against those it
//! comes before, combinations, textures; asked of both sides.

use second::boundary::{refused, C4ds, Right, Second};
use second::LIMIT;

/// A file of chunks, of which the first stands at 12.
fn file(chunks: &[Vec<u8>]) -> Vec<u8> {
    let chunks = chunks.concat();
    let size = (chunks.len() as u32 + 4).to_be_bytes();
    [&b"FORM"[..], &size, b"MC4D", &chunks].concat()
}

fn chunk(letters: &[u8; 4], body: &[u8]) -> Vec<u8> {
    [letters, &(body.len() as u32).to_be_bytes()[..], body].concat()
}

/// A MAT4 of sub-chunks of these identifiers, each of two bytes.
fn materials(identifiers: &[u16]) -> Vec<u8> {
    let inside = identifiers
        .iter()
        .flat_map(|id| [id.to_be_bytes(), [0, 2], [0xAB; 2]]);
    chunk(b"MAT4", &inside.flatten().collect::<Vec<u8>>())
}

/// A sub-chunk of an OBJ5.
fn sub(identifier: u8, body: &[u8]) -> Vec<u8> {
    let [_, size @ ..] = (body.len() as u32).to_be_bytes();
    [&[identifier], &size[..], body].concat()
}

fn texture(material: i32) -> Vec<u8> {
    sub(23, &[&[0; 60][..], &material.to_be_bytes()].concat())
}

/// An OBJ5 of sub-chunks of these identifiers, each of four bytes but for the textures.
fn objects(identifiers: &[u8]) -> Vec<u8> {
    let inside = identifiers.iter().map(|identifier| match identifier {
        23 => texture(-1),
        identifier => sub(*identifier, &[0xAB; 4]),
    });
    chunk(b"OBJ5", &inside.collect::<Vec<_>>().concat())
}

/// What both sides answer, which is the same, and what becomes of the lent bytes.
fn both(file: &[u8], rooms: [usize; 2]) -> (u64, [Vec<u8>; 2]) {
    let [left, right] = [&Second as &dyn C4ds, &Right::default()].map(|side| {
        let mut lent = rooms.map(|room| vec![0xA5; room]);
        let [first, second] = lent.each_mut();
        (side.c4d_list(file, first, second), lent)
    });
    assert_eq!(right, left, "right, left");
    let checked = [&Second as &dyn C4ds, &Right::default()].map(|side| side.c4d_check(file));
    assert_eq!(checked[0], checked[1]);
    assert!(
        checked[0] == left.0 || left.0 >> 32 == 15,
        "the check says what the list says"
    );
    left
}

/// The answer with room for all.
fn check(chunks: &[Vec<u8>]) -> u64 {
    both(&file(chunks), [9_000, 9_000]).0
}

#[test]
fn the_head_is_exact() {
    let whole = file(&[]);
    assert_eq!(both(&whole, [0, 0]).0, 0);
    for at in 0..12 {
        let mut other = whole.clone();
        other[at] ^= 1;
        assert_eq!(both(&other, [0, 0]).0, refused(25, 0), "byte {at}");
        assert_eq!(both(&whole[..at], [0, 0]).0, refused(25, 0));
    }
    assert_eq!(both(&[&whole[..], &[0]].concat(), [0, 0]).0, refused(25, 0));
    let long = file(&[chunk(b"UMG4", &vec![0; LIMIT - 19])]);
    assert_eq!(both(&long, [0, 0]).0, refused(1, 0));
    let full = file(&[chunk(b"UMG4", &vec![0; LIMIT - 20])]);
    assert_eq!(both(&full, [0, 0]).0, 0);
    assert_eq!(both(&vec![0; LIMIT + 1], [0, 0]).0, refused(1, 0));
}

#[test]
fn chunks_do_not_pass_the_end() {
    for left in 1..8 {
        assert_eq!(
            check(&[chunk(b"UMG4", &[0; 3]), vec![b'P'; left]]),
            refused(5, 23)
        );
    }
    let mut long = chunk(b"OBJ5", &[]);
    long[7] = 1;
    assert_eq!(check(&[long.clone()]), refused(5, 12));
    long[4..8].fill(0xFF);
    assert_eq!(check(&[long]), refused(5, 12));
    // 5 before 26 at one place.
    let mut second = materials(&[0]);
    second[7] += 1;
    assert_eq!(check(&[materials(&[0]), second]), refused(5, 26));
}

#[test]
fn chunks_are_in_order() {
    let (platform, mat, obj) = (chunk(b"PLTF", &[0; 4]), materials(&[0]), objects(&[]));
    let other = chunk(b"UMG4", &[]);
    let all = |chunks: &[&Vec<u8>]| {
        let chunks: Vec<Vec<u8>> = chunks.iter().map(|chunk| chunk.to_vec()).collect();
        check(&chunks)
    };
    assert_eq!(
        all(&[&platform, &other, &mat, &other, &obj, &other, &other]),
        0
    );
    assert_eq!(all(&[&obj]), 0);
    assert_eq!(all(&[&other, &platform]), refused(26, 20));
    assert_eq!(all(&[&platform, &platform]), refused(26, 24));
    assert_eq!(all(&[&mat, &mat]), refused(26, 26));
    assert_eq!(all(&[&obj, &mat]), refused(26, 20));
    assert_eq!(all(&[&obj, &obj]), refused(26, 20));
    assert_eq!(all(&[&obj, &platform]), refused(26, 20));
    assert_eq!(all(&[&chunk(b"PLTF", b"x")]), 0);
    assert_eq!(all(&[&chunk(b"pltf", b"x"), &chunk(b"pltf", b"x")]), 0);
}

#[test]
fn materials_end() {
    assert_eq!(check(&[materials(&[])]), refused(26, 12));
    assert_eq!(check(&[materials(&[1, 65])]), refused(26, 12));
    assert_eq!(check(&[materials(&[1, 65, 300, 0])]), 0);
    assert_eq!(check(&[materials(&[0, 1])]), refused(26, 26));
    assert_eq!(check(&[materials(&[0, 0])]), refused(26, 26));
    for left in 1..4 {
        let body = [&[0; 4][..], &vec![0; left]].concat();
        assert_eq!(check(&[chunk(b"MAT4", &body)]), refused(5, 24));
        assert_eq!(check(&[chunk(b"MAT4", &body[4..])]), refused(5, 20));
    }
    // 5 before 26 behind the end; a fault inside before the missing end.
    assert_eq!(
        check(&[chunk(b"MAT4", &[0, 0, 0, 0, 0, 0, 0, 1])]),
        refused(5, 24)
    );
    assert_eq!(check(&[chunk(b"MAT4", &[0, 1, 0, 1])]), refused(5, 20));
}

#[test]
fn objects_begin_and_end() {
    assert_eq!(check(&[objects(&[])]), 0);
    assert_eq!(check(&[objects(&[2, 15, 33, 255])]), 0);
    assert_eq!(check(&[objects(&[1, 0, 99, 1, 99, 99, 0])]), 2);
    assert_eq!(check(&[objects(&[0])]), refused(26, 20));
    assert_eq!(check(&[objects(&[1, 1, 0])]), refused(26, 28));
    assert_eq!(check(&[objects(&[1, 0, 0])]), refused(26, 36));
    for listed in 16..=32 {
        assert_eq!(check(&[objects(&[listed])]), refused(26, 20), "{listed}");
        assert_eq!(
            check(&[objects(&[1, 0, listed])]),
            refused(26, 36),
            "{listed}"
        );
    }
    assert_eq!(check(&[objects(&[1])]), refused(26, 12));
    assert_eq!(check(&[objects(&[1, 0, 1, 16])]), refused(26, 12));
    for left in 1..4 {
        assert_eq!(check(&[chunk(b"OBJ5", &vec![1; left])]), refused(5, 20));
    }
    assert_eq!(check(&[chunk(b"OBJ5", &[1, 0, 0, 1])]), refused(5, 20));
    assert_eq!(
        check(&[chunk(b"OBJ5", &[0, 255, 255, 255])]),
        refused(5, 20)
    );
    // A fault inside comes before the missing end.
    assert_eq!(
        check(&[chunk(b"OBJ5", &[1, 0, 0, 0, 1, 0, 0, 0])]),
        refused(26, 24)
    );
}

/// The combination of an object of these kinds and of some that may be in
/// any; 27 if it is refused so.
fn combination(kinds: &[u8]) -> u64 {
    let kinds = [&[1], kinds, &[24, 28, 31, 32, 23, 23, 200, 200, 0]].concat();
    let file = file(&[objects(&kinds)]);
    let end = file.len() - 8;
    match both(&file, [12, 8]) {
        (1, [object, _]) => u64::from(object[4]),
        (answer, _) if answer == refused(27, end) => 27,
        (answer, _) => panic!("{answer:X}"),
    }
}

#[test]
fn the_nine_combinations() {
    for (kinds, known) in [
        (&[16][..], 1),
        (&[16, 19], 1),
        (&[17, 19, 16], 1),
        (&[16, 18, 19], 1),
        (&[19, 18, 17, 16], 1),
        (&[20], 2),
        (&[20, 16], 2),
        (&[30, 20], 2),
        (&[16, 20, 30], 2),
        (&[21], 3),
        (&[22], 4),
        (&[25], 5),
        (&[26], 6),
        (&[27, 16], 7),
        (&[29], 8),
        (&[], 9),
    ] {
        assert_eq!(combination(kinds), known, "{kinds:?}");
    }
}

#[test]
fn no_other_combination() {
    for bad in [
        &[17][..],
        &[16, 17],
        &[16, 18],
        &[19],
        &[17, 19],
        &[30],
        &[16, 30],
        &[20, 19],
        &[20, 16, 19],
        &[27],
        &[27, 16, 19],
        &[21, 22],
        &[29, 16],
        &[25, 26],
        &[21, 16],
        &[20, 27, 16],
    ] {
        assert_eq!(combination(bad), 27, "{bad:?}");
    }
}

#[test]
fn only_textures_repeat() {
    let known = [
        &[16, 19, 17][..],
        &[20, 30],
        &[21],
        &[22],
        &[25],
        &[26],
        &[29],
        &[24],
        &[28],
        &[31],
        &[32],
    ];
    for kinds in known {
        let with = |more: &[u8]| check(&[objects(&[&[1], kinds, more, &[0]].concat())]);
        assert_eq!(with(&[]), 1);
        for kind in kinds {
            let end = 20 + 8 * (kinds.len() + 2);
            assert_eq!(with(&[*kind]), refused(27, end), "{kind} twice");
        }
    }
    // What was met is forgotten with the object.
    assert_eq!(check(&[objects(&[1, 21, 0, 1, 21, 0])]), 2);
}

#[test]
fn textures_and_their_materials() {
    let with = |chunks: &[Vec<u8>], material: i32| {
        let object = [sub(1, &[]), texture(-1), texture(material), sub(0, &[])].concat();
        let chunks = [chunks, &[chunk(b"OBJ5", &object)]].concat();
        let at = chunks.iter().map(Vec::len).sum::<usize>() + 12 - 72;
        match check(&chunks) {
            1 => true,
            answer => {
                assert_eq!(answer, refused(28, at));
                false
            }
        }
    };
    assert!(with(&[], -1) && !with(&[], 0) && !with(&[], 1) && !with(&[], -2));
    let one = [materials(&[1, 0])];
    assert!(with(&one, 0) && with(&one, -1) && !with(&one, 1) && !with(&one, -2));
    let three = [materials(&[65, 7, 65, 0])];
    assert!(
        with(&three, 2) && !with(&three, 3) && !with(&three, i32::MAX) && !with(&three, i32::MIN)
    );
}

#[test]
fn textures_have_64_bytes() {
    for size in [0, 4, 63, 65, 68] {
        let wrong = sub(23, &vec![0; size]);
        let object = [sub(1, &[]), wrong.clone()].concat();
        assert_eq!(
            check(&[chunk(b"OBJ5", &object)]),
            refused(10, 24),
            "{size} bytes"
        );
        // 10 before 26 outside an object; 5 before 10.
        assert_eq!(
            check(&[chunk(b"OBJ5", &wrong)]),
            refused(10, 20),
            "{size} bytes"
        );
        if size > 0 {
            assert_eq!(
                check(&[chunk(b"OBJ5", &wrong[..wrong.len() - 1])]),
                refused(5, 20)
            );
        }
    }
    // 26 before 28: a texture outside an object, of a material that is not there.
    assert_eq!(check(&[chunk(b"OBJ5", &texture(5))]), refused(26, 20));
}

#[test]
fn objects_and_materials_are_listed() {
    let first = [
        sub(1, &[7; 9]),
        texture(1),
        sub(21, &[]),
        texture(-1),
        sub(0, &[]),
    ]
    .concat();
    let second = [
        sub(99, &[0; 3]),
        sub(1, &[]),
        sub(0, &[0; 2]),
        sub(1, &[]),
        texture(0),
        sub(0, &[]),
    ]
    .concat();
    let file = file(&[
        materials(&[65, 0]),
        chunk(b"OBJ5", &[first, second].concat()),
    ]);
    let known = [[40, 3, 2], [204, 9, 0], [214, 9, 1]];
    let known = known
        .as_flattened()
        .iter()
        .flat_map(|n: &u32| n.to_le_bytes())
        .collect::<Vec<u8>>();
    let (answer, [objects, textures]) = both(&file, [37, 13]);
    assert_eq!(answer, 3);
    assert_eq!(objects, [&known[..], &[0xA5]].concat());
    assert_eq!(textures, [1, 0, 0, 0, 255, 255, 255, 255, 0, 0, 0, 0, 0xA5]);
    for (rooms, needed) in [([35, 12], 3), ([36, 11], 3), ([0, 0], 3), ([24, 99], 3)] {
        assert_eq!(
            both(&file, rooms),
            (refused(15, needed), rooms.map(|room| vec![0xA5; room]))
        );
    }
}

/// What stands behind a sub-chunk of more than 65,535 bytes is listed too.
#[test]
fn sizes_of_sub_chunks_have_three_bytes() {
    let inside = [
        sub(1, &[]),
        sub(21, &vec![0xFE; 65_540]),
        texture(-1),
        sub(0, &[]),
        sub(1, &[]),
        sub(0, &[]),
    ];
    let file = file(&[chunk(b"OBJ5", &inside.concat())]);
    let known = [20, 3, 1, 65_640, 9, 0].map(u32::to_le_bytes).concat();
    assert_eq!(both(&file, [24, 4]), (2, [known, vec![0xFF; 4]]));
}
