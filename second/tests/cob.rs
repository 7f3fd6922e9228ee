//! Caligari figures by hand: each refusal with its place and against those it
//! comes before, the list with its owners, the tables; asked of both sides.

use second::boundary::{refused, Cobs, Right, Second};
use second::LIMIT;

const GROUP: (&[u8; 4], [u16; 2]) = (b"Grou", [0, 1]);
const MESH: (&[u8; 4], [u16; 2]) = (b"PolH", [0, 2]);
const MATERIAL: (&[u8; 4], [u16; 2]) = (b"Mat1", [0, 5]);
const END: (&[u8; 4], [u16; 2]) = (b"END ", [1, 0]);
const OTHER: (&[u8; 4], [u16; 2]) = (b"BitM", [0, 1]);

/// A chunk with its header: type and version, identifier, parent, size, body.
fn chunk(kind: (&[u8; 4], [u16; 2]), numbers: [u32; 2], size: i32, body: &[u8]) -> Vec<u8> {
    let version = kind.1.map(u16::to_le_bytes).concat();
    let numbers = numbers.map(u32::to_le_bytes).concat();
    [kind.0, &version[..], &numbers, &size.to_le_bytes(), body].concat()
}

/// A chunk that states its true size.
fn sized(kind: (&[u8; 4], [u16; 2]), numbers: [u32; 2], body: &[u8]) -> Vec<u8> {
    chunk(kind, numbers, body.len() as i32, body)
}

fn end() -> Vec<u8> {
    sized(END, [0, 0], &[])
}

/// The header, then chunks, of which the first stands at 32.
fn file(chunks: &[Vec<u8>]) -> Vec<u8> {
    [&b"Caligari V00.01BLH             \n"[..], &chunks.concat()].concat()
}

/// A name, axes and a position: 100 bytes and those of the name.
fn placed(name: &[u8]) -> Vec<u8> {
    let lengths = [0, name.len() as u16].map(u16::to_le_bytes).concat();
    [&lengths, name, &[0x7F; 96]].concat()
}

/// Vertices, textures and faces of a PolH, behind its name and place.
fn polygons(vertices: &[[f32; 3]], textures: &[[f32; 2]], faces: &[Vec<u8>]) -> Vec<u8> {
    let count = |count: usize| (count as u32).to_le_bytes().to_vec();
    let floats = |floats: &[f32]| {
        floats
            .iter()
            .flat_map(|f| f.to_le_bytes())
            .collect::<Vec<u8>>()
    };
    [
        placed(b"Cube"),
        count(vertices.len()),
        floats(vertices.as_flattened()),
        count(textures.len()),
        floats(textures.as_flattened()),
        count(faces.len()),
        faces.concat(),
    ]
    .concat()
}

/// A face of pairs, with a material, or a hole without.
fn face(flags: u8, pairs: &[[i32; 2]]) -> Vec<u8> {
    let material: &[u8] = if flags & 8 == 0 { &[0xFF; 2] } else { &[] };
    let corners = pairs
        .as_flattened()
        .iter()
        .flat_map(|index| index.to_le_bytes());
    let count = (pairs.len() as u16).to_le_bytes();
    [
        &[flags],
        &count[..],
        material,
        &corners.collect::<Vec<u8>>(),
    ]
    .concat()
}

/// What both sides answer, which is the same, and what becomes of the lent bytes.
fn both(
    rooms: [usize; 2],
    call: impl Fn(&dyn Cobs, &mut [u8], &mut [u8]) -> u64,
) -> (u64, [Vec<u8>; 2]) {
    let [left, right] = [&Second as &dyn Cobs, &Right::default()].map(|side| {
        let mut lent = rooms.map(|room| vec![0xA5; room]);
        let [first, second] = lent.each_mut();
        (call(side, first, second), lent)
    });
    assert_eq!(right, left, "right, left");
    left
}

fn check(chunks: &[Vec<u8>]) -> u64 {
    let file = file(chunks);
    both([0, 0], |side, _, _| side.cob_check(&file)).0
}

/// The list, which has room.
fn list(file: &[u8]) -> Vec<[u32; 6]> {
    let (count, [bytes, _]) = both([2_400, 0], |side, records, _| side.cob_list(file, records));
    let numbers: Vec<u32> = bytes
        .as_chunks()
        .0
        .iter()
        .map(|n| u32::from_le_bytes(*n))
        .collect();
    numbers.as_chunks().0[..count as usize].to_vec()
}

/// A PolH of a tetrahedron's corner: three vertices, one texture, one face.
fn triangle() -> Vec<u8> {
    let vertices = [[0.0, -0.0, 1.0], [2.0, 3.0, 4.0], [-5.0, 6.0, 7.0]];
    polygons(
        &vertices,
        &[[0.5, 0.5]],
        &[face(0, &[[0, 0], [1, 0], [2, 0]])],
    )
}

#[test]
fn the_header_is_exact() {
    let whole = file(&[end()]);
    assert_eq!(both([0, 0], |side, _, _| side.cob_check(&whole)).0, 1);
    for at in 0..32 {
        let mut other = whole.clone();
        other[at] ^= 1;
        assert_eq!(
            both([0, 0], |side, _, _| side.cob_check(&other)).0,
            refused(20, 0),
            "byte {at}"
        );
        assert_eq!(
            both([0, 0], |side, _, _| side.cob_check(&whole[..at])).0,
            refused(20, 0)
        );
    }
    let long = [&whole[..], &vec![0; LIMIT + 1 - whole.len()]].concat();
    assert_eq!(
        both([0, 0], |side, _, _| side.cob_check(&long)).0,
        refused(1, 0)
    );
    assert_eq!(
        both([0, 0], |side, _, _| side.cob_check(&long[1..])).0,
        refused(20, 0)
    );
    assert_eq!(
        both([0, 0], |side, _, _| side.cob_check(&long[..LIMIT])).0,
        refused(3, 52)
    );
}

#[test]
fn the_end_is_last() {
    assert_eq!(check(&[]), refused(14, 32));
    assert_eq!(check(&[sized(OTHER, [1, 0], &[0; 5])]), refused(14, 57));
    assert_eq!(check(&[end(), vec![0]]), refused(3, 52));
    assert_eq!(check(&[end(), end()]), refused(3, 52));
    for left in [1, 19] {
        assert_eq!(
            check(&[sized(GROUP, [1, 0], &placed(b"")), vec![b'E'; left]]),
            refused(5, 152)
        );
    }
    // Its identifier and parent are not looked at; its size is 0 or -1.
    assert_eq!(check(&[chunk(END, [7, 9], -1, &[])]), 1);
    assert_eq!(check(&[chunk(END, [0, 0], -2, &[])]), refused(22, 32));
    assert_eq!(check(&[chunk(END, [0, 0], 4, &[0; 4])]), refused(10, 32));
    assert_eq!(check(&[chunk(END, [0, 0], 4, &[0; 3])]), refused(5, 32));
    // Of another version it is another type, and its identifier counts.
    let other = |numbers, size| chunk((b"END ", [1, 1]), numbers, size, &[]);
    assert_eq!(check(&[other([1, 0], 0), end()]), 1);
    assert_eq!(check(&[other([0, 0], 0), end()]), refused(21, 32));
    assert_eq!(check(&[other([1, 0], -1), end()]), refused(22, 32));
    assert_eq!(check(&[other([1, 0], 0)]), refused(14, 52));
}

#[test]
fn owners_stand_earlier() {
    let group = |identifier, parent| sized(GROUP, [identifier, parent], &placed(b""));
    let other = |identifier, parent| sized(OTHER, [identifier, parent], &[]);
    assert_eq!(check(&[group(0, 0), end()]), refused(21, 32));
    assert_eq!(check(&[group(1, 1), end()]), refused(21, 32));
    assert_eq!(check(&[group(1, 2), group(2, 0), end()]), refused(21, 32));
    assert_eq!(check(&[group(1, 0), group(1, 0), end()]), refused(21, 152));
    assert_eq!(check(&[other(0, 0), end()]), refused(21, 32));
    assert_eq!(check(&[other(1, 0), group(1, 0), end()]), refused(21, 52));
    assert_eq!(check(&[other(1, 9), end()]), refused(21, 32));
    // Through an unlisted chunk to the topmost; identifiers may be anything.
    let chunks = [
        group(5, 0),
        other(u32::MAX, 5),
        group(6, u32::MAX),
        other(8, 0),
        group(7, 8),
        end(),
    ];
    let list = list(&file(&chunks));
    let owners: Vec<[u32; 3]> = list
        .iter()
        .map(|record| [record[3], record[4], record[5]])
        .collect();
    assert_eq!(owners, [[5, 0, 5], [6, u32::MAX, 5], [7, 8, 8], [0, 0, 0]]);
}

#[test]
fn records_are_six_numbers() {
    let chunks = [
        chunk(GROUP, [3, 0], -1, &placed(b"all")),
        sized(MESH, [4, 3], &triangle()),
        sized(MATERIAL, [9, 4], &[0; 37]),
        end(),
    ];
    let file = file(&chunks);
    let letters = [b"Grou", b"PolH", b"Mat1", b"END "].map(|letters| u32::from_le_bytes(*letters));
    let size = 20 + triangle().len() as u32;
    let known = [
        [letters[0], 32, 123, 3, 0, 3],
        [letters[1], 155, size, 4, 3, 3],
        [letters[2], 155 + size, 57, 9, 4, 3],
        [letters[3], 212 + size, 20, 0, 0, 0],
    ];
    assert_eq!(list(&file), known);
    assert_eq!(both([0, 0], |side, _, _| side.cob_check(&file)).0, 4);
    let (answer, [bytes, _]) = both([95, 0], |side, records, _| side.cob_list(&file, records));
    assert_eq!((answer, bytes), (refused(15, 4), vec![0xA5; 95]));
    let (_, [bytes, _]) = both([99, 0], |side, records, _| side.cob_list(&file, records));
    assert_eq!(bytes[96..], [0xA5; 3]);
}

#[test]
fn sizes_are_judged_in_order() {
    let group = |size| check(&[chunk(GROUP, [1, 0], size, &placed(b"ab")), end()]);
    assert_eq!(group(102), 2);
    assert_eq!(group(-1), 2);
    for bad in [0, 101, 103] {
        assert_eq!(group(bad), refused(10, 32), "size {bad}");
    }
    assert_eq!(group(123), refused(5, 32));
    assert_eq!(group(-2), refused(22, 32));
    assert_eq!(group(i32::MIN), refused(22, 32));
    // 5 before 21 before 22 before 10.
    assert_eq!(check(&[chunk(MESH, [0, 0], 99, &[])]), refused(5, 32));
    assert_eq!(check(&[chunk(MESH, [0, 0], -2, &[])]), refused(21, 32));
    assert_eq!(check(&[chunk(MATERIAL, [1, 0], -1, &[])]), refused(22, 32));
    assert_eq!(check(&[chunk(OTHER, [1, 0], -1, &[])]), refused(22, 32));
    assert_eq!(check(&[chunk(MESH, [1, 0], -1, &[])]), refused(10, 32));
}

#[test]
fn counts_are_not_negative() {
    let body = polygons(&[[0.0; 3]], &[[0.0; 2]], &[face(0, &[[0, 0]])]);
    // The highest bytes of: dupecount, name's length, the three counts, the face's.
    for high in [1, 3, 107, 123, 135, 138] {
        let mut bad = body.clone();
        assert_eq!(bad[high], 0);
        bad[high] = 0x80;
        assert_eq!(
            check(&[sized(MESH, [1, 0], &bad), end()]),
            refused(10, 32),
            "byte {high}"
        );
        assert_eq!(
            check(&[chunk(MESH, [1, 0], -1, &bad), end()]),
            refused(10, 32)
        );
    }
}

/// The lowest negative length is one too, where there are as many bytes.
#[test]
fn names_have_at_most_32767_bytes() {
    let group = |size, count| {
        check(&[
            chunk(GROUP, [1, 0], size, &placed(&vec![b'n'; count])),
            end(),
        ])
    };
    for (count, answer) in [(32_767, 2), (32_768, refused(10, 32))] {
        assert_eq!(group(-1, count), answer);
        assert_eq!(group(100 + count as i32, count), answer);
    }
}

#[test]
fn bodies_fit() {
    let body = polygons(
        &[[0.0; 3]],
        &[[0.0; 2]],
        &[face(0, &[[0, 0]]), face(8, &[[0, 0]])],
    );
    assert_eq!(check(&[chunk(MESH, [1, 0], -1, &body), end()]), 2);
    for cut in 0..body.len() {
        assert_eq!(
            check(&[sized(MESH, [1, 0], &body[..cut])]),
            refused(10, 32),
            "{cut} bytes"
        );
        assert_eq!(
            check(&[chunk(MESH, [1, 0], -1, &body[..cut])]),
            refused(10, 32),
            "{cut} bytes"
        );
    }
    let longer = [&body[..], &[0]].concat();
    assert_eq!(
        check(&[sized(MESH, [1, 0], &longer), end()]),
        refused(10, 32)
    );
}

/// The maps e, t and b of a material.
fn maps() -> [Vec<u8>; 3] {
    [(b"e:", 0), (b"t:", 16), (b"b:", 20)].map(|(identifier, behind)| {
        [&identifier[..], &[2, 3, 0], b"abc", &vec![0; behind]].concat()
    })
}

/// The answer to a material with these maps.
fn material(maps: &[&Vec<u8>]) -> u64 {
    let mut body = vec![0xFF; 37];
    maps.iter().for_each(|map| body.extend_from_slice(map));
    check(&[sized(MATERIAL, [1, 0], &body), end()])
}

#[test]
fn materials_have_optional_maps_in_order() {
    let [e, t, b] = maps();
    for good in [
        &[&e][..],
        &[&t],
        &[&b],
        &[&e, &t],
        &[&e, &b],
        &[&t, &b],
        &[&e, &t, &b],
        &[],
    ] {
        assert_eq!(material(good), 2);
    }
    for bad in [
        &[&t, &e][..],
        &[&b, &t],
        &[&e, &e],
        &[&b, &b],
        &[&e, &t, &b, &e],
        &[&vec![0]],
    ] {
        assert_eq!(material(bad), refused(10, 32));
    }
}

#[test]
fn maps_are_whole() {
    let [e, t, b] = maps();
    let mut negative = e.clone();
    negative[4] = 0x80;
    for bad in [&e[..1], &e[..7], &t[..23], &b[..27], &negative, b"g:\0\0\0"] {
        assert_eq!(material(&[&bad.to_vec()]), refused(10, 32));
    }
    // A letter without its colon begins no map.
    for mut bad in [e, t, b] {
        bad[1] = b';';
        assert_eq!(material(&[&bad]), refused(10, 32));
    }
    assert_eq!(
        check(&[sized(MATERIAL, [1, 0], &[0; 36]), end()]),
        refused(10, 32)
    );
}

#[test]
fn floats_of_both_lists_are_judged() {
    for bad in [f32::NAN, f32::INFINITY, f32::NEG_INFINITY] {
        let faces = [face(0, &[[9, 9]])];
        let mesh = polygons(&[[0.0; 3], [1.0, 1.0, bad]], &[[0.0; 2]], &faces);
        assert_eq!(check(&[sized(MESH, [1, 0], &mesh), end()]), refused(11, 32));
        let mesh = polygons(&[[0.0; 3]], &[[0.0, bad]], &faces);
        assert_eq!(check(&[sized(MESH, [1, 0], &mesh), end()]), refused(11, 32));
        // 10 anywhere in the body comes first.
        assert_eq!(
            check(&[chunk(MESH, [1, 0], -1, &mesh[..mesh.len() - 1])]),
            refused(10, 32)
        );
    }
    // Axes, positions and materials are not judged.
    let mesh = polygons(&[], &[], &[])
        .iter()
        .map(|byte| if *byte == 0x7F { 0xFF } else { *byte })
        .collect::<Vec<u8>>();
    assert_eq!(check(&[sized(MESH, [1, 0], &mesh), end()]), 2);
}

#[test]
fn indices_are_below_their_counts() {
    let mesh = |faces: &[Vec<u8>]| {
        let body = polygons(&[[0.0; 3]; 3], &[[0.0; 2]; 2], faces);
        check(&[sized(MESH, [1, 0], &body), end()])
    };
    assert_eq!(mesh(&[face(0, &[[2, 1], [0, 0]]), face(8, &[[2, 1]])]), 2);
    for bad in [
        [3, 0],
        [0, 2],
        [-1, 0],
        [0, -1],
        [i32::MIN, 0],
        [0, i32::MAX],
    ] {
        assert_eq!(
            mesh(&[face(0, &[[0, 0]]), face(0, &[[0, 0], bad])]),
            refused(12, 32),
            "{bad:?}"
        );
        assert_eq!(
            mesh(&[face(0, &[]), face(8, &[bad])]),
            refused(12, 32),
            "{bad:?}"
        );
    }
    assert_eq!(mesh(&[face(8, &[])]), refused(12, 32));
    assert_eq!(mesh(&[face(8, &[]), face(0, &[])]), refused(12, 32));
    assert_eq!(mesh(&[face(0, &[]), face(0x18, &[])]), 2);
    let bare = polygons(&[[0.0; 3]], &[], &[face(0, &[[0, 0]])]);
    assert_eq!(check(&[sized(MESH, [1, 0], &bare), end()]), refused(12, 32));
    // In a second mesh a hole needs a face again.
    let first = polygons(&[], &[], &[face(0, &[])]);
    let second = polygons(&[], &[], &[face(8, &[])]);
    let place = 32 + 20 + first.len();
    assert_eq!(
        check(&[sized(MESH, [1, 0], &first), sized(MESH, [2, 0], &second)]),
        refused(12, place)
    );
}

/// A file of two meshes; the second has triangles with and without holes.
fn two_meshes() -> Vec<u8> {
    let three = |k| [[k, 0], [k + 1, 0], [k + 2, 0]];
    let faces = [
        face(0, &three(0)),
        face(0, &three(1)),
        face(8, &three(0)),
        face(8, &[]),
        face(0x10, &three(2)),
        face(0, &[[0, 0]; 4]),
        face(0, &[[0, 0]; 2]),
        face(0, &three(3)),
        face(8, &[[0, 0]]),
    ];
    let vertices = [[1.0, -0.0, 2.0]; 6];
    let body = polygons(&vertices, &[[0.0; 2]], &faces);
    file(&[
        sized(MESH, [1, 0], &triangle()),
        sized(MESH, [2, 1], &body),
        end(),
    ])
}

#[test]
fn tables_have_the_triangles_without_holes() {
    let file = two_meshes();
    let (answer, [sizes, _]) = both([9, 0], |side, sizes, _| side.cob_sizes(&file, 1, sizes));
    assert_eq!(
        (answer, &sizes[..]),
        (2, &[6, 0, 0, 0, 2, 0, 0, 0, 0xA5][..])
    );
    let tables = |rooms| {
        both(rooms, |side, vertices, corners| {
            side.cob_tables(&file, 1, vertices, corners)
        })
    };
    let (answer, [floats, corners]) = tables([73, 25]);
    assert_eq!(answer, 6);
    assert_eq!(
        floats[..12],
        [1.0_f32, -0.0, 2.0].map(f32::to_le_bytes).concat()
    );
    assert_eq!(floats[72..], [0xA5]);
    let known = [0_u32, 1, 2, 2, 3, 4].map(u32::to_le_bytes).concat();
    assert_eq!(corners, [&known[..], &[0xA5]].concat());
    for (rooms, needed) in [([71, 24], 18), ([72, 23], 6), ([0, 0], 18)] {
        let untouched = rooms.map(|room| vec![0xA5; room]);
        assert_eq!(tables(rooms), (refused(15, needed), untouched));
    }
}

/// What is told of a mesh named Cube whose chunk stands at an offset.
fn told(at: usize, [vertices, faces, tabled, record]: [usize; 4]) -> Vec<u8> {
    let position = at + 24 + 4 + 48;
    let numbers = [
        at + 24,
        4,
        position,
        vertices,
        position + 52,
        faces,
        tabled,
        record,
    ];
    numbers.map(|number| (number as u32).to_le_bytes()).concat()
}

#[test]
fn all_meshes_with_the_faces_that_are_left_out() {
    let file = two_meshes();
    let meshes = |room| both([room, 0], |side, meshes, _| side.cob_meshes(&file, meshes));
    // Holes are no faces; of the second mesh four faces are in no table.
    let second = 32 + 20 + triangle().len();
    let known = [told(32, [3, 1, 1, 0]), told(second, [6, 6, 2, 1])].concat();
    assert_eq!(meshes(64), (2, [known.clone(), vec![]]));
    let more = [&known[..], &[0xA5; 31]].concat();
    assert_eq!(meshes(95), (2, [more, vec![]]));
    for room in [0, 32, 63] {
        assert_eq!(meshes(room), (refused(15, 2), [vec![0xA5; room], vec![]]));
    }
}

#[test]
fn a_mesh_is_numbered_among_the_records() {
    let group = sized(GROUP, [5, 0], &placed(b"g"));
    let other = sized(OTHER, [6, 0], b"private");
    let mesh = chunk(MESH, [7, 5], -1, &triangle());
    let at = 32 + group.len() + other.len();
    let file = file(&[group, other, mesh, end()]);
    assert_eq!(
        both([32, 0], |side, meshes, _| side.cob_meshes(&file, meshes)),
        (1, [told(at, [3, 1, 1, 1]), vec![]])
    );
    let cut = &file[..file.len() - 1];
    let answer = both([32, 0], |side, meshes, _| side.cob_meshes(cut, meshes)).0;
    assert_eq!(answer, refused(5, cut.len() - 19));
}

#[test]
fn tables_of_meshes_that_are_not_there() {
    let file = two_meshes();
    assert_eq!(
        both([7, 0], |side, sizes, _| side.cob_sizes(&file, 0, sizes)).0,
        refused(15, 2)
    );
    // Those that are 0 or 1 in fewer bits are not there either.
    for mesh in [2, 3, 1 << 8, 1 << 16, (1 << 16) + 1, 1 << 31, u32::MAX] {
        assert_eq!(
            both([0, 0], |side, sizes, _| side.cob_sizes(&file, mesh, sizes)).0,
            refused(16, 2)
        );
        assert_eq!(
            both([0, 0], |side, a, b| side.cob_tables(&file, mesh, a, b)).0,
            refused(16, 2)
        );
    }
    assert_eq!(
        both([0, 0], |side, a, b| side.cob_tables(&file[..99], 9, a, b)).0,
        refused(5, 32)
    );
}
