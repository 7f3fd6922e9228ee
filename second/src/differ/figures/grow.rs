//! Figures of many objects and materials, grown at random: as the rows that the
//! writer is handed, and as the tree that it has to write.

use crate::boundary::Rows;
use crate::differ::build::{faces, figure, meshed, named, points, words};
use crate::differ::grow::finite;
use crate::differ::names;
use crate::differ::node::Node;
use crate::differ::random::Random;
use crate::LIMIT;

/// A figure before it is rows or bytes.
#[derive(Clone, Debug, Default)]
pub struct Draft {
    pub objects: Vec<Object>,
    pub materials: Vec<(Vec<u8>, [u8; 9])>,
}

/// An object; a group is a name and face numbers.
#[derive(Clone, Debug, Default)]
pub struct Object {
    pub name: Vec<u8>,
    pub vertices: Vec<f32>,
    pub corners: Vec<u16>,
    pub smoothing: Vec<u32>,
    pub groups: Vec<(Vec<u8>, Vec<u16>)>,
}

impl Draft {
    /// A valid figure.
    pub fn grown(random: &mut Random) -> Draft {
        let materials = (0..several(random)).map(|number| {
            let bytes = random.bytes(9);
            (
                name(number, random),
                std::array::from_fn(|part| bytes[part]),
            )
        });
        let mut draft = Draft {
            objects: vec![],
            materials: materials.collect(),
        };
        for number in 0..several(random) {
            let object = draft.object(number, random);
            draft.objects.push(object);
        }
        draft
    }

    /// A figure at the limit, or a byte more: very many objects, a large mesh
    /// with large groups, or one large object.
    pub fn long(index: u64, random: &mut Random) -> Draft {
        let mut draft = Draft::grown(random);
        match index % 4 {
            0 => {
                let digit = |number: u32| 33 + (number % 90) as u8;
                let object = |number: u32| Object {
                    name: [number, number / 90, number / 8_100].map(digit).to_vec(),
                    ..Object::default()
                };
                draft.objects = (0..20_000).map(object).collect();
            }
            1 => {
                draft.materials = vec![(b"oak".to_vec(), [7; 9])];
                draft.objects = vec![large(random)];
            }
            _ => (),
        }
        let more = usize::from(index % 8 == 7);
        let size = draft.tree().size() + 29;
        draft
            .objects
            .push(filling((LIMIT + more).saturating_sub(size)));
        draft
    }

    /// An object whose groups have the figure's materials.
    fn object(&self, number: usize, random: &mut Random) -> Object {
        let n = random.below(6);
        let f = if n == 0 { 0 } else { random.below(6) };
        let smooth = if random.chance(50) { f } else { 0 };
        let mut object = Object {
            name: name(number, random),
            vertices: (0..3 * n).map(|_| f32::from_bits(finite(random))).collect(),
            corners: (0..3 * f).map(|_| random.below(n) as u16).collect(),
            smoothing: (0..smooth).map(|_| random.next() as u32).collect(),
            groups: vec![],
        };
        for _ in 0..if self.materials.is_empty() {
            0
        } else {
            random.below(4)
        } {
            let material = self.materials[random.below(self.materials.len())].0.clone();
            let many = if f == 0 { 0 } else { random.below(5) };
            let faces = (0..many).map(|_| random.below(f) as u16);
            object.groups.push((material, faces.collect()));
        }
        object
    }

    /// What the writer is handed.
    pub fn rows(&self) -> Rows {
        let mut rows = Rows::default();
        for object in &self.objects {
            let lengths = [
                object.name.len(),
                object.vertices.len(),
                object.corners.len(),
                object.smoothing.len(),
                object.groups.len(),
            ];
            rows.objects.extend(lengths.map(|length| length as u32));
            rows.names.extend_from_slice(&object.name);
            rows.vertices.extend_from_slice(&object.vertices);
            rows.corners.extend_from_slice(&object.corners);
            rows.smoothing.extend_from_slice(&object.smoothing);
        }
        for (name, colours) in &self.materials {
            rows.materials.push(name.len() as u32);
            rows.names.extend_from_slice(name);
            rows.colours.extend_from_slice(colours);
        }
        for (name, faces) in self.objects.iter().flat_map(|object| &object.groups) {
            rows.groups.extend([name.len() as u32, faces.len() as u32]);
            rows.names.extend_from_slice(name);
            rows.faces.extend_from_slice(faces);
        }
        rows
    }

    /// What it has to write.
    pub fn tree(&self) -> Node {
        let materials = self.materials.iter().map(|(name, colours)| {
            let shades = [0xA010, 0xA020, 0xA030]
                .iter()
                .zip(colours.as_chunks::<3>().0);
            let shade = |(shade, colour): (&u16, &[u8; 3])| {
                Node::holding(*shade, vec![], vec![Node::leaf(0x0011, colour.to_vec())])
            };
            let inside = std::iter::once(Node::leaf(0xA000, named(name)));
            Node::holding(0xAFFF, vec![], inside.chain(shades.map(shade)).collect())
        });
        let objects = self.objects.iter().map(Object::tree);
        figure(materials.chain(objects).collect())
    }
}

impl Object {
    fn tree(&self) -> Node {
        let mut inside: Vec<Node> = Vec::with_capacity(self.groups.len() + 1);
        for (name, numbers) in &self.groups {
            let count = words(&[numbers.len() as u16]);
            inside.push(Node::leaf(
                0x4130,
                [named(name), count, words(numbers)].concat(),
            ));
        }
        if !self.smoothing.is_empty() {
            let smoothing = self.smoothing.iter().flat_map(|word| word.to_le_bytes());
            inside.push(Node::leaf(0x4150, smoothing.collect()));
        }
        let corners = self.corners.as_chunks::<3>().0;
        meshed(
            &self.name,
            vec![points(&self.vertices), faces(corners, inside)],
        )
    }
}

/// An object that takes so many bytes more than a bare one: in vertices and
/// faces, and what is left in its name, which may not be long.
fn filling(bytes: usize) -> Object {
    let name = |length| [&b"##"[..], &vec![b'l'; length]].concat();
    let bytes = bytes.saturating_sub(2);
    let n = (bytes / 12).min(65_535);
    let f = if n > 0 { (bytes - 12 * n) / 8 } else { 0 };
    Object {
        name: name(bytes - 12 * n - 8 * f),
        vertices: vec![0.25; 3 * n],
        corners: vec![0; 3 * f],
        ..Object::default()
    }
}

/// A few objects or materials; now and then more than the library compares
/// one with the other, which is 32.
fn several(random: &mut Random) -> usize {
    let most = if random.chance(5) { 60 } else { 4 };
    random.below(most)
}

/// A name like no other, as its number is in it, behind a `#` that the one
/// without a number does not begin with.
fn name(number: usize, random: &mut Random) -> Vec<u8> {
    let length = if random.chance(95) {
        random.below(5)
    } else {
        random.below(names::MOST - 1)
    };
    let mut name = names::name(length, random);
    if number > 0 {
        name.insert(0, b'0' + number as u8);
        name.insert(0, b'#');
    } else if let Some(first @ b'#') = name.first_mut() {
        *first = b'+';
    }
    name
}

/// An object with rows that are long, and groups as large as they may be.
fn large(random: &mut Random) -> Object {
    let f = 40_000;
    let faces = |count: usize, random: &mut Random| {
        let numbers = (0..count).map(|_| random.below(f) as u16);
        (b"oak".to_vec(), numbers.collect::<Vec<u16>>())
    };
    Object {
        name: b"large".to_vec(),
        vertices: vec![0.5; 3 * 1_000],
        corners: (0..3 * f).map(|_| random.below(1_000) as u16).collect(),
        smoothing: (0..f as u32).collect(),
        groups: vec![faces(65_535, random), faces(65_534, random)],
    }
}
