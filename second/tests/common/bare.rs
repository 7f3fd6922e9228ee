//! Bare figures for the round trips of the writer: a seed to make them from,
//! and the faults that a writer must refuse.

/// Bits of floats that arithmetic might change: zeros, subnormals, the largest.
pub const EDGES: [u32; 6] = [1 << 31, 0, 1, 0x807F_FFFF, 0xFF7F_FFFF, 0x7F7F_FFFF];

/// The most numbers in a row.
pub const MOST: usize = 196_605;
/// Not a number, with the lowest bit that makes it so.
pub const SIGNALLING: f32 = f32::from_bits(0x7F80_0001);

/// What a bare figure is written from.
#[derive(Clone)]
pub struct Figure {
    pub name: Vec<u8>,
    pub vertices: Vec<f32>,
    pub corners: Vec<u16>,
}

impl Figure {
    /// As the paper counts it.
    pub fn size(&self) -> usize {
        41 + self.name.len() + 12 * (self.vertices.len() / 3) + 8 * (self.corners.len() / 3)
    }

    fn vertex_count(&self) -> u16 {
        (self.vertices.len() / 3) as u16
    }

    /// Makes both rows as long as they may be, which is too long for a file.
    fn fill_rows(&mut self) {
        self.vertices.resize(MOST, 0.0);
        self.corners.resize(MOST, 0);
    }

    /// To tell zeros apart, which are equal as floats.
    pub fn bits(&self) -> Vec<u32> {
        self.vertices.iter().map(|float| float.to_bits()).collect()
    }
}

/// Numbers from a seed, the same on every machine.
pub struct Seed(pub u64);

impl Seed {
    fn below(&mut self, bound: usize) -> usize {
        let next = self.0.wrapping_mul(6_364_136_223_846_793_005);
        self.0 = next.wrapping_add(1_442_695_040_888_963_407);
        (self.0 >> 33) as usize % bound
    }

    /// A byte of a name, one for a label.
    fn letter(&mut self) -> u8 {
        32 + self.below(95) as u8
    }

    fn float(&mut self) -> f32 {
        let bits = ((self.below(1 << 16) << 16) + self.below(1 << 16)) as u32;
        let edge = f32::from_bits(EDGES[self.below(EDGES.len())]);
        let any = Some(f32::from_bits(bits)).filter(|float| float.is_finite());
        any.filter(|_| self.below(4) > 0).unwrap_or(edge)
    }

    /// A figure of so long a name, so many vertices and so many faces.
    pub fn figure(&mut self, name: usize, n: usize, f: usize) -> Figure {
        Figure {
            name: (0..name).map(|_| self.letter()).collect(),
            vertices: (0..3 * n).map(|_| self.float()).collect(),
            corners: (0..3 * f).map(|_| self.below(n) as u16).collect(),
        }
    }

    pub fn small(&mut self) -> Figure {
        let (name, n, f) = (self.below(64), self.below(40), self.below(40));
        // Without vertices there is no corner to choose.
        self.figure(name, n, if n > 0 { f } else { 0 })
    }
}

/// A fault, put into a figure of 3 vertices and 2 faces, and its refusal.
pub type Fault = (fn(&mut Figure), u32, usize);

/// All of them, in the order in which they are judged.
pub const FAULTS: &[Fault] = &[
    (|figure| figure.name[0] = 0, 9, 0),
    (|figure| figure.name[49] = 0, 9, 49),
    (|figure| figure.name[0] = 127, 24, 0),
    (|figure| figure.name[48] = 31, 24, 48),
    (|figure| figure.name.resize(64, b'x'), 24, 63),
    (|figure| figure.vertices.truncate(8), 13, 8),
    (|figure| figure.vertices.resize(10, 0.0), 13, 10),
    (|figure| figure.vertices.resize(MOST + 1, 0.0), 13, MOST + 1),
    (|figure| figure.vertices.resize(MOST + 3, 0.0), 13, MOST + 3),
    (|figure| figure.corners.truncate(1), 13, 1),
    (|figure| figure.corners.resize(8, 0), 13, 8),
    (|figure| figure.corners.resize(MOST + 3, 0), 13, MOST + 3),
    (|figure| figure.vertices[0] = f32::INFINITY, 11, 0),
    (|figure| figure.vertices[4] = SIGNALLING, 11, 4),
    (|figure| figure.vertices[7] = f32::NAN, 11, 7),
    (|figure| figure.vertices[8] = f32::NEG_INFINITY, 11, 8),
    (|figure| figure.corners[0] = figure.vertex_count(), 12, 0),
    (|figure| figure.corners[3] = 65_535, 12, 3),
    (|figure| figure.corners[5] = figure.vertex_count(), 12, 5),
    (Figure::fill_rows, 1, 0),
];
