//! Valid figures, grown at random: every row of the table in every place it
//! may stand, in any order, with private chunks between.

use super::names;
use super::node::Node;
use super::random::Random;
use crate::{row, Own, ROOT};

/// All identifiers with a row, in the table's order.
pub const LISTED: &[u16] = &[
    0x4D4D, 0x0002, 0x3D3D, 0x3D3E, 0x1400, 0x1450, 0x1460, 0x1420, 0x1470, 0x2100, 0xAFFF, 0xA000,
    0xA010, 0xA020, 0xA030, 0xA040, 0x0010, 0x0013, 0x0011, 0x0012, 0x0030, 0x0031, 0x4000, 0x4010,
    0x4012, 0x4013, 0x4015, 0x4017, 0x4100, 0x4110, 0x4120, 0x4130, 0x4150, 0x4140, 0x4160, 0x4165,
    0x4600, 0x4610, 0x4620, 0x4651, 0x4653, 0x4656, 0x4700, 0xB000, 0xB008, 0xB002, 0xB010,
];

/// Identifiers without a row that a careless reader might take for one.
const NEARLY: [u16; 18] = [
    0x00B0, 0x3E3D, 0x8123, 0x0000, 0xFFFF, 0x4111, 0x4D4E, 0x4170, 0x4611, 0x0001, 0xA200, 0xA001,
    0x1451, 0x4001, 0xB001, 0xB003, 0xB009, 0xB020,
];

const COLOURS: [u16; 4] = [0x0010, 0x0011, 0x0012, 0x0013];
const IN_EDIT: [u16; 8] = [
    0x3D3E, 0x1400, 0x1450, 0x1460, 0x1420, 0x1470, 0x2100, 0xAFFF,
];
const IN_MATERIAL: [u16; 4] = [0xA010, 0xA020, 0xA030, 0xA040];
const IN_OBJECT: [u16; 5] = [0x4010, 0x4012, 0x4013, 0x4015, 0x4017];

/// How a figure is grown: with every row at least once, or as it comes.
#[derive(Clone, Copy, Debug, PartialEq, Eq)]
pub enum Fill {
    Full,
    Some,
}

/// A grower of figures.
pub struct Grower<'a> {
    random: &'a mut Random,
    fill: Fill,
    /// How many objects there are so far.
    objects: usize,
    /// Whether the figure is one whose meshes may have fewer pairs than vertices.
    old: bool,
}

/// A valid figure.
pub fn figure(random: &mut Random, fill: Fill) -> Node {
    grower(random, fill).grow(0x4D4D)
}

/// A grower that has grown nothing yet.
pub fn grower(random: &mut Random, fill: Fill) -> Grower<'_> {
    Grower {
        random,
        fill,
        objects: 0,
        old: false,
    }
}

impl Grower<'_> {
    /// A chunk of a listed identifier with legal children; a part of a mesh
    /// belongs to one without vertices and faces.
    pub fn grow(&mut self, identifier: u16) -> Node {
        match identifier {
            0x4100 => return self.mesh(),
            0x4120 => return self.faces(0, 0),
            0xB000 => return self.keyframer(),
            0xB002 => return self.part(ROOT),
            _ => (),
        }
        let own = self.own(identifier, 0);
        let inside = self.inside(identifier);
        let mut children: Vec<Node> = inside.into_iter().map(|inside| self.grow(inside)).collect();
        self.random.shuffle(&mut children);
        if row(identifier).is_some_and(|row| row.holds != 0) {
            self.sprinkle(&mut children);
        }
        Node::holding(identifier, own, children)
    }

    /// The identifiers of a chunk's children.
    fn inside(&mut self, identifier: u16) -> Vec<u16> {
        match identifier {
            0x4D4D => {
                // The version grows before the meshes; without one the figure is old.
                self.old = true;
                let keyed = self.fill == Fill::Full || self.random.chance(40);
                let keyframer = if keyed { vec![0xB000] } else { vec![] };
                [self.some(&[0x0002], 1), vec![0x3D3D], keyframer].concat()
            }
            0x3D3D => {
                let objects = match self.fill {
                    Fill::Full => 5,
                    Fill::Some => self.random.below(4),
                };
                [self.some(&IN_EDIT, 3), vec![0x4000; objects]].concat()
            }
            0x2100 | 0xA010 | 0xA020 | 0xA030 => self.some(&COLOURS, 2),
            0xA040 => self.some(&[0x0030, 0x0031], 2),
            0xAFFF => [self.some(&IN_MATERIAL, 4), vec![0xA000]].concat(),
            0x4000 => [self.some(&IN_OBJECT, 2), self.body()].concat(),
            0x4600 => {
                let mut inside = [self.some(&COLOURS, 2), self.some(&[0x4620], 1)].concat();
                if self.fill == Fill::Full || self.random.chance(60) {
                    inside.push(0x4610);
                }
                inside
            }
            0x4610 => self.some(&[0x4651, 0x4653, 0x4656], 4),
            _ => vec![],
        }
    }

    /// Each of several when full, else a few of them, some perhaps twice.
    fn some(&mut self, choices: &[u16], most: usize) -> Vec<u16> {
        match self.fill {
            Fill::Full => choices.to_vec(),
            Fill::Some => {
                let count = self.random.below(most + 1);
                (0..count).map(|_| self.random.pick(choices)).collect()
            }
        }
    }

    /// What an object is: a mesh, a light, a camera or nothing.
    fn body(&mut self) -> Vec<u16> {
        self.objects += 1;
        let choice = match self.fill {
            Fill::Full => 2 * self.objects,
            Fill::Some => self.random.below(10),
        };
        match choice {
            0..6 => vec![0x4100],
            6 | 7 => vec![0x4600],
            8 => vec![0x4700],
            _ => vec![],
        }
    }

    /// Own data of a listed chunk, in a mesh of so many faces.
    pub fn own(&mut self, identifier: u16, faces: usize) -> Vec<u8> {
        match row(identifier).map(|row| row.own) {
            _ if identifier == 0x0002 => self.version(),
            Some(Own::Bytes(count)) => self.random.bytes(usize::from(count)),
            Some(Own::Name) => self.name(),
            Some(Own::Smoothing) => self.random.bytes(4 * faces),
            Some(Own::Group) => self.group(faces),
            Some(Own::Part) => self.called(ROOT),
            _ => vec![0, 0],
        }
    }

    /// A version, mostly near the one that decides over the mapping.
    fn version(&mut self) -> Vec<u8> {
        let version = match self.random.below(6) {
            0 => self.random.next() as u32,
            1 => self
                .random
                .pick(&[0x8000_0000, 0x0001_0000, 0x0300, 0x0001_0002]),
            _ => self.random.below(5) as u32,
        };
        self.old = version < 3;
        version.to_le_bytes().to_vec()
    }

    /// A name with its zero, mostly short.
    pub fn name(&mut self) -> Vec<u8> {
        let length = match self.random.below(40) {
            0..10 => 0,
            39 => self.random.below(300),
            _ => self.random.from_to(1, 12),
        };
        let mut name = names::name(length, self.random);
        name.push(0);
        name
    }

    /// A keyframer whose parts hang on earlier ones.
    fn keyframer(&mut self) -> Node {
        let all = self.fill == Fill::Full;
        let many = match self.random.below(40) {
            0 => self.random.below(300),
            _ if all => 3,
            _ => self.random.below(6),
        };
        let mut parts = Vec::with_capacity(many + 4);
        for number in 0..many {
            let father = match number == 0 || self.random.chance(25) {
                true => ROOT,
                false => self.index(number),
            };
            parts.push(self.part(father));
        }
        if all || self.random.chance(50) {
            let frames = Node::leaf(0xB008, self.random.bytes(8));
            parts.insert(self.random.below(parts.len() + 1), frames);
        }
        self.sprinkle(&mut parts);
        Node::holding(0xB000, vec![], parts)
    }

    /// A part of a father.
    fn part(&mut self, father: u16) -> Node {
        let mut inside = vec![Node::leaf(0xB010, self.called(father))];
        self.sprinkle(&mut inside);
        Node::holding(0xB002, vec![], inside)
    }

    /// Name, two words and the father.
    fn called(&mut self, father: u16) -> Vec<u8> {
        let (name, words) = (self.name(), self.random.bytes(4));
        [&name[..], &words, &father.to_le_bytes()].concat()
    }

    /// A face group: name, count, face numbers.
    fn group(&mut self, faces: usize) -> Vec<u8> {
        let least = usize::from(self.fill == Fill::Full);
        let count = if faces == 0 {
            0
        } else {
            self.random.from_to(least, 4)
        };
        let mut own = self.name();
        own.extend((count as u16).to_le_bytes());
        for _ in 0..count {
            let face = self.index(faces);
            own.extend(face.to_le_bytes());
        }
        own
    }

    /// A number below a count, often the highest.
    fn index(&mut self, count: usize) -> u16 {
        match self.random.chance(30) {
            true => (count - 1) as u16,
            false => self.random.below(count) as u16,
        }
    }

    /// How many vertices or faces.
    fn count(&mut self) -> usize {
        match (self.fill, self.random.below(100)) {
            (Fill::Full, _) => self.random.pick(&[1, 2, 3, 4, 10]),
            (_, 0..15) => 0,
            (_, 15..92) => self.random.from_to(1, 8),
            (_, 92..99) => self.random.from_to(1, 60),
            _ => self.random.from_to(250, 400),
        }
    }

    /// A mesh whose parts agree, in any order.
    fn mesh(&mut self) -> Node {
        let n = self.count();
        let f = if n == 0 { 0 } else { self.count() };
        let all = self.fill == Fill::Full;
        let mut parts = Vec::with_capacity(8);
        if n > 0 || all || self.random.chance(50) {
            parts.push(self.floats(0x4110, n, 3));
        }
        if f > 0 || all || self.random.chance(50) {
            parts.push(self.faces(n, f));
        }
        if all || self.random.chance(40) {
            let fewer = self.old && self.random.chance(60);
            let m = if fewer { self.random.below(n + 1) } else { n };
            parts.push(self.floats(0x4140, m, 2));
        }
        for identifier in [0x4160, 0x4165] {
            if all || self.random.chance(30) {
                let own = self.own(identifier, f);
                parts.push(Node::leaf(identifier, own));
            }
        }
        self.random.shuffle(&mut parts);
        self.sprinkle(&mut parts);
        Node::holding(0x4100, vec![], parts)
    }

    /// A list of so many times three or two floats.
    fn floats(&mut self, identifier: u16, count: usize, each: usize) -> Node {
        let mut own = Vec::with_capacity(2 + 4 * each * count);
        own.extend((count as u16).to_le_bytes());
        for _ in 0..each * count {
            let bits = finite(self.random);
            own.extend(bits.to_le_bytes());
        }
        Node::leaf(identifier, own)
    }

    /// The faces of a mesh, with groups and smoothing.
    fn faces(&mut self, n: usize, f: usize) -> Node {
        let mut own = (f as u16).to_le_bytes().to_vec();
        let alike = n > 8 && self.random.chance(50);
        for _ in 0..f {
            let (a, b, c) = match alike {
                true => (3, 8, 0),
                false => (self.index(n), self.index(n), self.index(n)),
            };
            for word in [a, b, c, self.random.word()] {
                own.extend(word.to_le_bytes());
            }
        }
        let all = self.fill == Fill::Full;
        let groups = if all { 2 } else { self.random.below(3) };
        let mut inside = vec![0x4130; groups];
        if all || self.random.chance(40) {
            inside.push(0x4150);
        }
        let parts = inside.into_iter();
        let mut parts: Vec<Node> = parts
            .map(|part| Node::leaf(part, self.own(part, f)))
            .collect();
        self.random.shuffle(&mut parts);
        self.sprinkle(&mut parts);
        if alike {
            // A private chunk that could as well be a face, as the faces be it.
            let face = Node::leaf(3, self.random.bytes(2));
            parts.insert(0, face);
        }
        Node::holding(0x4120, own, parts)
    }

    /// Puts private chunks between children.
    fn sprinkle(&mut self, children: &mut Vec<Node>) {
        while self.random.chance(22) {
            let private = private(self.random);
            children.insert(self.random.below(children.len() + 1), private);
        }
    }
}

/// An identifier without a row.
pub fn unlisted(random: &mut Random) -> u16 {
    let choice = match random.below(3) {
        0 => random.pick(&NEARLY),
        1 => random.pick(LISTED) ^ (1 << random.below(16)),
        _ => random.word(),
    };
    match row(choice) {
        None => choice,
        Some(_) => 0x8123,
    }
}

/// A chunk of an unlisted identifier; its inside may look like anything.
pub fn private(random: &mut Random) -> Node {
    let identifier = unlisted(random);
    let length = random.below(24);
    let body = match random.below(8) {
        0..3 => vec![],
        3 => Node::leaf(random.pick(LISTED), random.bytes(4)).bytes(),
        4 => [&[0x10, 0x41], &random.bytes(length)[..]].concat(),
        5 => vec![0xFF; length],
        _ => random.bytes(length),
    };
    Node::leaf(identifier, body)
}

/// The bits of a float that is neither infinite nor not-a-number.
pub fn finite(random: &mut Random) -> u32 {
    const FEW: [u32; 10] = [
        0,
        0x8000_0000,
        0x3F80_0000,
        0xBF80_0000,
        1,
        0x8000_0001,
        0x7F7F_FFFF,
        0xFF7F_FFFF,
        0x0080_0000,
        3,
    ];
    match random.below(4) {
        0 => (random.below(7) as f32 - 3.0).to_bits(),
        1 => random.pick(&FEW),
        2 => random.next() as u32 & 0x80FF_FFFF,
        _ => match random.next() as u32 {
            bits if f32::from_bits(bits).is_finite() => bits,
            bits => bits & !0x0080_0000,
        },
    }
}
