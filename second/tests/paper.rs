//! P1 to P12 of the paper, the triangle's bytes and its listing, as the
//! paper writes them.

mod common;
use common::{chunk, counts, hex, pair, refusal, triangle};
use second::{bounding_box, check, list, name, tables, RECORD};

const P4: &str = "4D4D 0C000000 3D3D 06000000";

#[test]
fn the_triangle_is_the_papers() {
    let paper = hex(
        "4D4D 56000000 3D3D 50000000 0040 4A000000 4100 0041 42000000 1041 2C000000 0300
         00000000 00000000 00000000  0000803F 00000000 00000000  00000000 0000803F 00000000
         2041 10000000 0100 0000 0100 0200 0000",
    );
    assert_eq!(triangle(), paper);
    assert_eq!(paper.len(), 86);
}

#[test]
fn p1_to_p7() {
    assert_eq!(refusal(&[]), (2, 0));
    assert_eq!(refusal(&hex("4D4D 05000000")), (4, 0));
    assert_eq!(refusal(&hex("4D4D 06000000")), (14, 0));
    assert_eq!(counts(&hex(P4)), (12, 0, 0));
    let mut p5 = hex(P4);
    p5.push(0);
    assert_eq!(refusal(&p5), (3, 12));
    p5[2] = 13;
    assert_eq!(refusal(&p5), (6, 12));
    let mut p7 = hex(P4);
    p7[8] = 7;
    assert_eq!(refusal(&p7), (5, 6));
}

#[test]
fn p8_to_p11() {
    let file = triangle();
    assert_eq!(counts(&file), (36, 50, 0));
    let mut p9 = file.clone();
    p9[82] = 3;
    assert_eq!(refusal(&p9), (12, 70));
    let mut p10 = file.clone();
    p10[32] = 4;
    assert_eq!(refusal(&p10), (10, 26));
    let mut row = [7; 6 * RECORD - 1];
    assert_eq!(list(&file, &mut row).map_err(pair), Err((15, 6)));
    assert_eq!(row, [7; 6 * RECORD - 1]);
}

#[test]
fn p12() {
    let mut file = triangle();
    let private = chunk(0x8123, &[b"1041"]);
    file.splice(20..20, private);
    for length in [2, 8, 14] {
        file[length] += 10;
    }
    assert_eq!(file.len(), 96);
    assert_eq!(counts(&file), (36, 50, 10));
    let mut row = [0; 6 * RECORD];
    assert_eq!(list(&file, &mut row).unwrap().records, 6);
    let mesh = [0x4100, 30, 66, 3, 2, 0, 6];
    assert_eq!(row[3 * RECORD..4 * RECORD], mesh);
    assert_eq!(table_of(&file), table_of(&triangle()));
    assert_eq!(name(&file, 0), Ok((18, 1)));
}

/// The triangle's tables, with what stands behind them.
fn table_of(file: &[u8]) -> (Vec<u32>, [u16; 4]) {
    let (mut vertices, mut corners) = ([9.0; 10], [9; 4]);
    assert_eq!(tables(file, 0, &mut vertices, &mut corners), Ok((3, 1)));
    (vertices.map(f32::to_bits).to_vec(), corners)
}

#[test]
fn the_triangles_list_and_tables() {
    let file = triangle();
    let mut row = [7; 6 * RECORD + 4];
    let counts = list(&file, &mut row).unwrap();
    assert_eq!(Ok(counts), check(&file));
    let expected = [
        [0x4D4D, 0, 86, 0, 0, 0, 6],
        [0x3D3D, 6, 80, 1, 0, 0, 6],
        [0x4000, 12, 74, 2, 1, 2, 6],
        [0x4100, 20, 66, 3, 2, 0, 6],
        [0x4110, 26, 44, 4, 3, 38, 5],
        [0x4120, 70, 16, 4, 3, 10, 6],
    ];
    assert_eq!(row[..6 * RECORD], *expected.as_flattened());
    assert_eq!(row[6 * RECORD..], [7; 4]);
    let (vertices, corners) = table_of(&file);
    let floats = [0.0, 0.0, 0.0, 1.0, 0.0, 0.0, 0.0, 1.0, 0.0, 9.0_f32];
    assert_eq!(vertices, floats.map(f32::to_bits));
    assert_eq!(corners, [0, 1, 2, 9]);
    assert_eq!(name(&file, 0), Ok((18, 1)));
    let found = bounding_box(&file, 0).unwrap();
    assert_eq!(found.low, [0.0, 0.0, 0.0]);
    assert_eq!(found.high, [1.0, 1.0, 0.0]);
    assert_eq!(found.centre, [0.5, 0.5, 0.0]);
}
