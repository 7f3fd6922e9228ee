//! The walk where the paper leaves room, each case named after the reading
//! it holds to; and every refusal of a file with its place.

mod common;
use common::{chunk, counts, faces, figure, mapping, mesh, object, refusal, vertices, words};

const POINT: [f32; 3] = [0.0; 3];

#[test]
fn plus_rows_are_never_too_long() {
    // Behind a light's 12 bytes and a camera's 32 children may stand, in a camera only unlisted ones.
    let light = |body: &[u8]| figure(&[&chunk(0x4000, &[&[0], &chunk(0x4600, &[body])])]);
    assert_eq!(refusal(&light(&[0; 11])), (10, 19));
    assert_eq!(counts(&light(&[0; 12])).1, 13);
    assert_eq!(refusal(&light(&[0; 13])), (6, 37));
    let camera = |body: &[u8]| figure(&[&chunk(0x4000, &[&[0], &chunk(0x4700, &[body])])]);
    assert_eq!(refusal(&camera(&[0; 31])), (10, 19));
    assert_eq!(counts(&camera(&[0; 32])).1, 33);
    assert_eq!(refusal(&camera(&[0; 33])), (6, 57));
    let holding = |identifier: u16| camera(&[&[0; 32][..], &chunk(identifier, &[&[1]])].concat());
    assert_eq!(counts(&holding(0x4710)).2, 7);
    assert_eq!(counts(&holding(0x4720)).2, 7);
    assert_eq!(refusal(&holding(0x4620)), (7, 57));
    assert_eq!(refusal(&figure(&[&chunk(0x2100, &[&[0; 3]])])), (6, 18));
}

#[test]
fn face_count_too_big_is_length() {
    let good = faces(&[[0, 0, 0]], &[]);
    let mut bad = good.clone();
    bad[6] = 2;
    let points = vertices(&POINT);
    assert_eq!(counts(&mesh(&[&points, &good])).2, 0);
    assert_eq!(refusal(&mesh(&[&points, &bad])), (10, 45));
    assert_eq!(
        refusal(&mesh(&[&points, &chunk(0x4120, &[&[0]])])),
        (10, 45)
    );
}

#[test]
fn face_count_too_small_leaves_children() {
    let mut file = mesh(&[&vertices(&POINT), &faces(&[[0, 0, 0]], &[])]);
    file[51] = 0;
    // Eight zero bytes stand where a child would start: a header of length 0.
    assert_eq!(refusal(&file), (4, 53));
    // A face that reads as an unlisted chunk of eight bytes is skipped.
    let face = [0x8123, 8, 0];
    let mut file = mesh(&[&vertices(&POINT), &faces(&[face], &[])]);
    file[51] = 0;
    assert_eq!(counts(&file).2, 8);
}

#[test]
fn face_count_may_swallow_a_child() {
    let child = chunk(0x4150, &[&[]]);
    let two = chunk(0x4120, &[&words(&[1]), &child, &[0, 0]]);
    let points = vertices(&[0.0; 3 * 16720]);
    assert_eq!(refusal(&mesh(&[&points, &two])).0, 12);
    let points = vertices(&[0.0; 3 * 16721]);
    assert_eq!(counts(&mesh(&[&points, &two])).2, 0);
}

#[test]
fn no_zero_is_name_before_length() {
    let group = |body: &[u8]| mesh(&[&faces(&[], &[&chunk(0x4130, &[body])])]);
    assert_eq!(refusal(&group(&[])), (9, 33));
    assert_eq!(refusal(&group(b"abc")), (9, 33));
    assert_eq!(refusal(&group(b"abc\0")), (10, 33));
    assert_eq!(refusal(&group(b"abc\0\0")), (10, 33));
    assert_eq!(counts(&group(b"abc\0\0\0")).2, 0);
    assert_eq!(refusal(&group(b"abc\0\0\0\0")), (10, 33));
    assert_eq!(refusal(&group(b"abc\x01\0")), (24, 33));
    let material = |body: &[u8]| figure(&[&chunk(0xAFFF, &[&chunk(0xA000, &[body])])]);
    assert_eq!(refusal(&material(&[])), (9, 18));
    assert_eq!(refusal(&material(b"x")), (9, 18));
    assert_eq!(counts(&material(b"\0")).1, 1);
    assert_eq!(refusal(&material(b"\0\0")), (10, 18));
    assert_eq!(refusal(&figure(&[&chunk(0x4000, &[])])), (9, 12));
}

#[test]
fn names_fit_for_the_label() {
    let object = |name: &[u8]| figure(&[&chunk(0x4000, &[name])]);
    let material = |name: &[u8]| figure(&[&chunk(0xAFFF, &[&chunk(0xA000, &[name])])]);
    let group = |name: &[u8]| mesh(&[&faces(&[], &[&chunk(0x4130, &[name, &[0; 2]])])]);
    let spot = |name: &[u8]| {
        let spot = chunk(0x4610, &[&[0; 20], &chunk(0x4653, &[name])]);
        figure(&[&chunk(0x4000, &[&[0], &chunk(0x4600, &[&[0; 12], &spot])])])
    };
    for good in [&b"\0"[..], b" ~\0", &[&[b'n'; 63][..], &[0]].concat()] {
        for file in [object(good), material(good), group(good), spot(good)] {
            assert_eq!(counts(&file).2, 0);
        }
    }
    for bad in [
        &b"\x1F\0"[..],
        b"\x7F\0",
        b"\x80\0",
        b"\xFF\0",
        &[&[b'n'; 64][..], &[0]].concat(),
    ] {
        assert_eq!(refusal(&object(bad)), (24, 12));
        assert_eq!(refusal(&material(bad)), (24, 18));
        assert_eq!(refusal(&group(bad)), (24, 33));
        assert_eq!(refusal(&spot(bad)), (24, 63));
    }
    // After 9, however long the name is, and before 10.
    assert_eq!(refusal(&object(&[1; 99])), (9, 12));
    assert_eq!(refusal(&material(b"\x1F\0\0")), (24, 18));
}

#[test]
fn the_zero_is_searched_in_the_whole_body() {
    // The name runs on into the child's header, up to its length's first zero.
    let file = figure(&[&chunk(0x4000, &[b"abc", &chunk(0x4010, &[])])]);
    assert_eq!(refusal(&file), (24, 12));
    // In a 4130 the count and the entries are searched too, but no further.
    let file = mesh(&[&faces(&[], &[&chunk(0x4130, &[b"abc", &words(&[0x0101])])])]);
    assert_eq!(refusal(&file), (9, 33));
    let file = mesh(&[&faces(&[], &[&chunk(0x4130, &[b"abc", &words(&[0])])])]);
    assert_eq!(refusal(&file), (10, 33));
}

#[test]
fn smoothing_is_four_bytes_a_face() {
    let smooth = |corners: &[[u16; 3]], body: &[u8]| {
        let child = chunk(0x4150, &[body]);
        mesh(&[&vertices(&POINT), &faces(corners, &[&child])])
    };
    assert_eq!(counts(&smooth(&[], &[])).2, 0);
    assert_eq!(refusal(&smooth(&[], &[0; 4])), (10, 53));
    assert_eq!(counts(&smooth(&[[0; 3]], &[0; 4])).2, 0);
    assert_eq!(refusal(&smooth(&[[0; 3]], &[0; 3])), (10, 61));
    assert_eq!(refusal(&smooth(&[[0; 3]], &[0; 5])), (10, 61));
}

#[test]
fn a_bad_group_comes_before_bad_corners() {
    let group = chunk(0x4130, &[&[0], &words(&[1, 1])]);
    let file = mesh(&[&vertices(&POINT), &faces(&[[0, 9, 0]], &[&group])]);
    assert_eq!(refusal(&file), (12, 61));
    let group = chunk(0x4130, &[&[0], &words(&[1, 0])]);
    let file = mesh(&[&vertices(&POINT), &faces(&[[0, 9, 0]], &[&group])]);
    assert_eq!(refusal(&file), (12, 45));
}

#[test]
fn corners_come_before_the_mapping_count() {
    let (points, bad) = (vertices(&POINT), faces(&[[0, 0, 1]], &[]));
    let good = faces(&[[0, 0, 0]], &[]);
    assert_eq!(refusal(&mesh(&[&mapping(2), &points, &bad])), (12, 69));
    assert_eq!(refusal(&mesh(&[&mapping(2), &points, &good])), (13, 25));
    assert_eq!(refusal(&mesh(&[&good, &mapping(0)])), (12, 25));
    assert_eq!(refusal(&mesh(&[&mapping(1)])), (13, 25));
    assert_eq!(counts(&mesh(&[&mapping(0)])).1, 3);
    assert_eq!(counts(&mesh(&[&good, &points, &mapping(1)])).2, 0);
}

#[test]
fn corners_wait_for_the_meshs_end() {
    let (points, bad) = (vertices(&POINT), faces(&[[0, 0, 1]], &[]));
    let long = chunk(0x4165, &[&[0; 2]]);
    assert_eq!(refusal(&mesh(&[&bad, &points, &long])), (10, 61));
    let short = object(&[&points, &faces(&[[0; 3]], &[])]);
    let second = object(&[&points, &bad]);
    assert_eq!(refusal(&figure(&[&short, &second])), (12, 94));
}

#[test]
fn twice_comes_after_misplaced_and_before_the_rest() {
    let version = |body: &[u8]| chunk(0x0002, &[body]);
    let edit = chunk(0x3D3D, &[]);
    let file = |parts: &[&[u8]]| chunk(0x4D4D, parts);
    assert_eq!(
        refusal(&file(&[&version(&[0; 4]), &version(&[0; 3]), &edit])),
        (8, 16)
    );
    assert_eq!(
        refusal(&file(&[&version(&[0; 3]), &version(&[0; 4]), &edit])),
        (10, 6)
    );
    assert_eq!(refusal(&file(&[&edit, &edit])), (8, 12));
    assert_eq!(counts(&file(&[&edit, &version(&[0; 4])])).1, 4);
    let name = chunk(0xA000, &[&[0]]);
    let nameless = chunk(0xA000, &[&[1]]);
    assert_eq!(
        refusal(&figure(&[&chunk(0xAFFF, &[&name, &nameless])])),
        (8, 25)
    );
    assert_eq!(refusal(&figure(&[&name])), (7, 12));
    for other in [0x4100, 0x4600, 0x4700] {
        let both = chunk(0x4000, &[&[0], &chunk(0x4100, &[]), &chunk(other, &[])]);
        assert_eq!(refusal(&figure(&[&both])), (8, 25));
    }
}

#[test]
fn lengths_are_asked_of_unlisted_chunks_too() {
    let mut file = figure(&[&chunk(0xB001, &[b"MM"])]);
    assert_eq!(counts(&file), (12, 0, 8));
    file[14] = 9;
    assert_eq!(refusal(&file), (5, 12));
    file[14] = 5;
    assert_eq!(refusal(&file), (4, 12));
    file[14] = 6;
    assert_eq!(refusal(&file), (6, 18));
    file[14..18].fill(0xFF);
    assert_eq!(refusal(&file), (5, 12));
}

#[test]
fn left_over_bytes_without_a_plus_are_length() {
    assert_eq!(refusal(&figure(&[&chunk(0x1470, &[&[0; 3]])])), (10, 12));
    assert_eq!(refusal(&figure(&[&chunk(0x1420, &[&[0; 3]])])), (10, 12));
    assert_eq!(refusal(&figure(&[&chunk(0x1420, &[&[0; 1]])])), (10, 12));
}

#[test]
fn the_figure_inside_itself_is_misplaced() {
    assert_eq!(refusal(&figure(&[&figure(&[])])), (7, 12));
    assert_eq!(refusal(&chunk(0x4D4D, &[&figure(&[])])), (7, 6));
    assert_eq!(counts(&figure(&[&chunk(0x3E3D, &[])])).2, 6);
    assert_eq!(counts(&figure(&[&chunk(0x3D3E, &[&[0; 4]])])).2, 0);
}

#[test]
fn missing_is_judged_at_the_end() {
    let version = chunk(0x0002, &[&[0; 4]]);
    assert_eq!(refusal(&chunk(0x4D4D, &[&version])), (14, 0));
    assert_eq!(refusal(&chunk(0x4D4D, &[&version, &[0]])), (6, 16));
    assert_eq!(refusal(&figure(&[&chunk(0xAFFF, &[])])), (14, 12));
    assert_eq!(
        refusal(&figure(&[&chunk(0xAFFF, &[&chunk(0x1400, &[])])])),
        (7, 18)
    );
}

#[test]
fn the_files_own_faults_in_order() {
    let long = vec![0; second::LIMIT + 1];
    assert_eq!(refusal(&long), (1, 0));
    assert_eq!(refusal(&long[1..]), (2, 0));
    assert_eq!(refusal(b"MM\x06\0\0"), (2, 0));
    assert_eq!(refusal(b"MN\x06\0\0\0"), (2, 0));
    assert_eq!(refusal(b"MM\x07\0\0\0"), (5, 0));
    assert_eq!(refusal(b"MM\x06\0\0\0\0"), (3, 6));
}

#[test]
fn floats_of_both_lists_are_judged() {
    for bad in [f32::NAN, f32::INFINITY, f32::NEG_INFINITY] {
        let points = vertices(&[0.0, 0.0, bad]);
        assert_eq!(refusal(&mesh(&[&mapping(0), &points])), (11, 33));
        let mut pairs = mapping(1);
        pairs[12..16].copy_from_slice(&bad.to_le_bytes());
        assert_eq!(refusal(&mesh(&[&pairs])), (11, 25));
        let matrix = chunk(0x4160, &[&[bad; 12].map(f32::to_le_bytes).concat()]);
        assert_eq!(counts(&mesh(&[&matrix])).1, 49);
    }
    let points = vertices(&[f32::MAX, f32::MIN, f32::from_bits(1)]);
    assert_eq!(counts(&mesh(&[&points])).2, 0);
}

#[test]
fn siblings_take_no_stack() {
    let many = chunk(0x1470, &[]).repeat((second::LIMIT - 12) / 6);
    let file = figure(&[&many]);
    assert!(file.len() > second::LIMIT - 6);
    let run = move || counts(&file);
    let thread = std::thread::Builder::new().stack_size(65_536).spawn(run);
    assert_eq!(thread.unwrap().join().unwrap().0, 6 * 174_762);
}
