//! What the library under test writes: this library reads it back as what was
//! given, it is written again as it was, and a refusal changes no lent byte.

#[path = "common/bare.rs"]
mod bare;
mod common;
use bare::{Figure, Seed, EDGES, FAULTS, MOST, SIGNALLING};
use second::boundary::{refused, Boundary, Second, Tds};
use second::{list, name, tables, LIMIT, RECORD};

/// Canaries on each side of the room; odd, so that the room is not aligned.
const GUARD: usize = 37;

/// The size that an answer gives, or the answer that refuses.
fn size_of(answer: u64) -> Result<usize, u64> {
    u32::try_from(answer).map_or(Err(answer), |size| Ok(size as usize))
}

/// The writers and the reader, over figures.
impl Figure {
    /// The file, or the answer that refuses; all other bytes must stay.
    fn written(&self, room: usize) -> Result<Vec<u8>, u64> {
        let canary = |at: usize| (at * 151 + room) as u8;
        let mut bytes: Vec<u8> = (0..room + 2 * GUARD).map(canary).collect();
        let lent = &mut bytes[GUARD..GUARD + room];
        let answer = Tds.write(&self.name, &self.vertices, &self.corners, lent);
        let size = size_of(answer).unwrap_or(0);
        let mut kept = (0..GUARD).chain(GUARD + size..bytes.len());
        assert!(size <= room && kept.all(|at| bytes[at] == canary(at)));
        size_of(answer).map(|size| bytes[GUARD..GUARD + size].to_vec())
    }

    /// What this library writes, in the same manner.
    fn by_second(&self, room: usize) -> Result<Vec<u8>, u64> {
        let mut out = vec![0; room];
        let answer = Second.write(&self.name, &self.vertices, &self.corners, &mut out);
        size_of(answer).map(|size| out[..size].to_vec())
    }

    /// What this library reads, the list judged number for number.
    fn read(file: &[u8], size_of_name: usize) -> Figure {
        let mut row = [0; 7 * RECORD];
        assert_eq!(list(file, &mut row).unwrap().records, 6);
        let listed = row.as_chunks::<RECORD>().0;
        let (all, mesh) = (file.len() as u32, size_of_name as u32 + 19);
        let (v, c) = (listed[4][2], listed[5][2]);
        let expected = [
            [0x4D4D, 0, all, 0, 0, 0, 6],
            [0x3D3D, 6, all - 6, 1, 0, 0, 6],
            [0x4000, 12, all - 12, 2, 1, mesh - 18, 6],
            [0x4100, mesh, v + c + 6, 3, 2, 0, 6],
            [0x4110, mesh + 6, v, 4, 3, v - 6, 5],
            [0x4120, mesh + 6 + v, c, 4, 3, c - 6, 6],
        ];
        assert_eq!(listed[..6], expected);
        let (n, f) = ((v as usize - 8) / 12, (c as usize - 8) / 8);
        let (mut vertices, mut corners) = (vec![f32::NAN; 3 * n], vec![7; 3 * f]);
        assert_eq!(tables(file, 0, &mut vertices, &mut corners), Ok((n, f)));
        let (offset, length) = name(file, 0).unwrap();
        let name = file[offset..offset + length].to_vec();
        Figure {
            name,
            vertices,
            corners,
        }
    }

    fn goes_round(&self) {
        let size = self.size();
        let file = self.written(size + 99).unwrap();
        assert_eq!(file.len(), size);
        assert_eq!(Tds.check(&file), 6);
        assert!(self.by_second(size).as_ref() == Ok(&file));
        let again = Figure::read(&file, self.name.len());
        assert!(again.name == self.name && again.corners == self.corners);
        assert!(again.bits() == self.bits());
        // Room that is just enough, and room that is one byte short.
        assert!(again.written(size).as_ref() == Ok(&file));
        self.refuses(15, size, &[size - 1, size / 2, 0]);
    }

    fn refuses(&self, number: u32, place: usize, rooms: &[usize]) {
        for room in rooms {
            assert_eq!(self.written(*room), Err(refused(number, place)));
            assert_eq!(self.by_second(*room), Err(refused(number, place)));
        }
    }
}

#[test]
fn the_papers_triangle_and_edges() {
    let mut figure = Seed(0).figure(0, 3, 1);
    (figure.name, figure.corners) = (b"A".to_vec(), vec![0, 1, 2]);
    figure.vertices = vec![0.0, 0.0, 0.0, 1.0, 0.0, 0.0, 0.0, 1.0, 0.0];
    assert_eq!(figure.written(90), Ok(common::triangle()));
    figure.goes_round();
    figure.vertices[3..].copy_from_slice(&EDGES.map(f32::from_bits));
    figure.goes_round();
}

/// So long a name, beside so many vertices and faces, makes the size just the limit.
fn filling(n: usize, f: usize) -> (usize, usize, usize) {
    // 41, as the paper counts the bytes beside name and rows.
    (LIMIT - 41 - 12 * n - 8 * f, n, f)
}

#[test]
fn from_nothing_to_the_limit() {
    let (all, fit) = (65_535, 32_764); // so many faces fit beside all vertices
    let small = [(0, 0, 0), (1, 0, 0), (0, 1, 0), (0, 1, 1), (256, 2, 2)];
    let wide = [(9, all, 0), (0, all, 4), (5, 1, all), (0, 3, all)];
    let long = [(all, 0, 0), (all + 1, 1, 1), (LIMIT - 42, 0, 0)];
    let near = [(0, all, fit), (2, all, fit), (LIMIT - 192, 7, 7)];
    let full = [filling(0, 0), filling(1, 0), filling(1, 1), filling(3, all)];
    let fullest = [filling(all, 0), filling(all, 1), filling(all, fit)];
    let labelled = [filling(43_687, all), filling(65_534, 32_765), (63, 1, 1)];
    let sizes = [&small[..], &wide, &long, &near, &full, &fullest, &labelled].concat();
    for (at, (name, n, f)) in sizes.into_iter().enumerate() {
        let mut figure = Seed(at as u64).figure(name, n, f);
        if name > 63 {
            figure.refuses(24, 63, &[0, LIMIT]);
            continue;
        }
        figure.goes_round();
        if figure.size() == LIMIT {
            figure.name.push(b'x');
            figure.refuses(1, 0, &[0, LIMIT, LIMIT + 1, LIMIT + 99]);
        }
    }
    let over = Seed(1).figure(0, all, fit + 1);
    over.refuses(1, 0, &[0, LIMIT, over.size()]);
}

#[test]
fn seeded_figures_go_round() {
    let mut seed = Seed(7);
    (0..2_000).for_each(|_| seed.small().goes_round());
}

#[test]
fn of_two_faults_the_first_speaks() {
    let sound = Seed(3).figure(50, 3, 2);
    sound.goes_round();
    for (first, (fault, number, place)) in FAULTS.iter().enumerate() {
        // The pair of a fault with itself is the fault alone.
        for (later, ..) in &FAULTS[first..] {
            let mut figure = sound.clone();
            later(&mut figure);
            fault(&mut figure);
            figure.refuses(*number, *place, &[0, 41, figure.size()]);
        }
    }
}

#[test]
fn faults_at_the_ends_of_rows() {
    let mut figure = Seed(4).figure(0, 65_535, 65_535);
    figure.refuses(1, 0, &[0, 2 * LIMIT]);
    figure.corners[MOST - 1] = 65_535;
    figure.refuses(12, MOST - 1, &[0, 2 * LIMIT]);
    figure.vertices[MOST - 1] = SIGNALLING;
    figure.refuses(11, MOST - 1, &[0, 2 * LIMIT]);
    figure.name = [vec![1; 2 * LIMIT], vec![0]].concat();
    figure.refuses(9, 2 * LIMIT, &[0, 2 * LIMIT]);
    (figure.name, figure.vertices) = (vec![], vec![]);
    figure.refuses(12, 0, &[0, 2 * LIMIT]);
}
