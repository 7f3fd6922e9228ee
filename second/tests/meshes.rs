//! All meshes in one call: where their names and lists stand; asked of both
//! sides.

mod common;
use common::{chunk, faces, figure, mapping, object, triangle, vertices};
use second::boundary::{refused, Boundary, Right, Second};
use second::{meshes, MeshPlaces};

/// What both sides answer, which is the same, and what the lent bytes become.
fn both(file: &[u8], room: usize) -> (u64, Vec<u8>) {
    let [left, right] = [&Second as &dyn Boundary, &Right::default()].map(|side| {
        let mut lent = vec![0xA5; room];
        (side.meshes(file, &mut lent), lent)
    });
    assert_eq!(right, left, "right, left");
    left
}

/// The numbers of some meshes as bytes.
fn bytes(meshes: &[[u32; 8]]) -> Vec<u8> {
    let numbers = meshes.as_flattened().iter();
    numbers.flat_map(|number| number.to_le_bytes()).collect()
}

#[test]
fn the_triangle() {
    let known = bytes(&[[18, 1, 3, 34, 1, 78, 0, 0]]);
    assert_eq!(both(&triangle(), 32), (1, known.clone()));
    assert_eq!(
        both(&triangle(), 63),
        (1, [&known[..], &[0xA5; 31]].concat())
    );
    for room in [0, 31] {
        assert_eq!(both(&triangle(), room), (refused(15, 1), vec![0xA5; room]));
    }
    assert_eq!(both(&triangle()[..85], 0).0, refused(5, 0));
    assert_eq!(both(&figure(&[]), 0).0, 0);
    let places = MeshPlaces {
        name: (18, 1),
        vertices: (3, 34),
        faces: (1, 78),
        mapping: (0, 0),
    };
    assert_eq!(meshes(&triangle()), Ok(vec![places]));
}

#[test]
fn every_mesh_and_nothing_else() {
    let private = chunk(0x8123, &[b"1041"]);
    let light = chunk(0x4000, &[b"lamp\0", &chunk(0x4600, &[&[0; 12]])]);
    let late = object(&[
        &mapping(1),
        &private,
        &faces(&[[0; 3]; 2], &[]),
        &vertices(&[1.0; 3]),
    ]);
    let empty = object(&[&vertices(&[]), &mapping(0), &faces(&[], &[])]);
    let file = figure(&[&light, &late, &object(&[]), &private, &empty]);
    let at = 12 + light.len();
    let (second, third) = (at + late.len(), at + late.len() + 13 + private.len());
    // Each list stands behind its header and its count.
    let lists = |at: usize, steps: [usize; 3]| steps.map(|step| at + 13 + step + 8);
    let [pairs, corners, floats] = lists(at, [0, 26, 50]);
    let [no_floats, no_pairs, no_corners] = lists(third, [0, 8, 16]);
    let known = [
        [at + 6, 0, 1, floats, 2, corners, 1, pairs],
        [second + 6, 0, 0, 0, 0, 0, 0, 0],
        [third + 6, 0, 0, no_floats, 0, no_corners, 0, no_pairs],
    ];
    let known = known.map(|mesh| mesh.map(|number| number as u32));
    assert_eq!(both(&file, 96), (3, bytes(&known)));
    assert_eq!(both(&file, 95).0, refused(15, 3));
}

#[test]
fn pairs_as_they_stand() {
    let file = figure(&[&object(&[&vertices(&[1.0; 6]), &mapping(1)])]);
    let known = bytes(&[[18, 0, 2, 33, 0, 0, 1, 65]]);
    assert_eq!(both(&file, 32), (1, known));
}

/// All boxes on both sides.
fn boxes(file: &[u8], room: usize) -> (u64, Vec<u8>) {
    let [left, right] = [&Second as &dyn Boundary, &Right::default()].map(|side| {
        let mut lent = vec![0xA5; room];
        (side.boxes(file, &mut lent), lent)
    });
    assert_eq!(right, left, "right, left");
    left
}

#[test]
fn every_box_and_zeros_without_vertices() {
    let points = object(&[&vertices(&[-0.0, 1.0, -3.0, 0.0, -1.0, 5.0])]);
    let file = figure(&[&object(&[]), &points, &object(&[&vertices(&[])])]);
    // Of zero and minus zero the first; the centre is the sum of the halves.
    let nine = [-0.0_f32, -1.0, -3.0, -0.0, 1.0, 5.0, -0.0, 0.0, 1.0];
    let floats = [[0.0; 9], nine, [0.0; 9]].as_flattened().to_vec();
    let known: Vec<u8> = floats.iter().flat_map(|f| f.to_le_bytes()).collect();
    assert_eq!(boxes(&file, 108), (3, known.clone()));
    let more = [&known[..], &[0xA5; 35]].concat();
    assert_eq!(boxes(&file, 143), (3, more));
    for room in [0, 72, 107] {
        assert_eq!(boxes(&file, room), (refused(15, 3), vec![0xA5; room]));
    }
    let mut one = [0; 36];
    assert_eq!(Second.bounding_box(&file, 1, &mut one), 9);
    assert_eq!(one, known[36..72]);
    assert_eq!(Second.bounding_box(&file, 2, &mut one), refused(17, 0));
    assert_eq!(boxes(&file[..20], 108), (refused(5, 0), vec![0xA5; 108]));
    assert_eq!(boxes(&figure(&[]), 0).0, 0);
}
