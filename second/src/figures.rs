//! The writer of figures of many objects and materials, with face groups and
//! smoothing words.

use crate::writer::{corners_row, finite_row, length_of_row, text_in, zero_in};
use crate::{Number, Refusal, LIMIT};
use std::collections::HashSet;

/// What a figure is written from.
#[derive(Clone, Debug, Default)]
pub struct Figure<'a> {
    pub objects: Vec<Object<'a>>,
    pub materials: Vec<Material<'a>>,
}

/// A mesh with its name, without the zero.
#[derive(Clone, Debug, Default)]
pub struct Object<'a> {
    pub name: &'a [u8],
    pub vertices: &'a [f32],
    pub corners: &'a [u16],
    /// None, or one a face.
    pub smoothing: &'a [u32],
    pub groups: Vec<Group<'a>>,
}

/// The faces that have a material, by their numbers.
#[derive(Clone, Copy, Debug, Default)]
pub struct Group<'a> {
    pub name: &'a [u8],
    pub faces: &'a [u16],
}

/// A material: ambient, diffuse and specular, red, green and blue each.
#[derive(Clone, Copy, Debug, Default)]
pub struct Material<'a> {
    pub name: &'a [u8],
    pub colours: [[u8; 3]; 3],
}

/// The most face numbers in a group.
const MOST: usize = 65_535;

/// The bytes of a figure, or the first refusal of the lowest in order.
pub fn write_figure(figure: &Figure) -> Result<Vec<u8>, Refusal> {
    figure.names()?;
    figure.lengths()?;
    for object in &figure.objects {
        finite_row(object.vertices)?;
    }
    figure.indices()?;
    let bytes = figure.bytes();
    Number::TooLong.unless(bytes.len() <= LIMIT, 0)?;
    Ok(bytes)
}

impl Figure<'_> {
    /// 9, 24, 29 and 30: of all objects, then of all materials, then groups.
    fn names(&self) -> Result<(), Refusal> {
        let objects = self.objects.iter().map(|object| object.name);
        let materials = self.materials.iter().map(|material| material.name);
        let mut all = objects.clone().chain(materials.clone());
        all.clone().try_for_each(zero_in)?;
        all.try_for_each(text_in)?;
        different(objects)?;
        let known = different(materials)?;
        let mut groups = self.objects.iter().flat_map(|object| &object.groups);
        match groups.position(|group| !known.contains(group.name)) {
            Some(number) => Err(Number::NoMaterial.at(number)),
            None => Ok(()),
        }
    }

    /// 13, object by object.
    fn lengths(&self) -> Result<(), Refusal> {
        for object in &self.objects {
            length_of_row(object.vertices.len())?;
            length_of_row(object.corners.len())?;
            let words = object.smoothing.len();
            let smooth = words == 0 || words == object.corners.len() / 3;
            Number::Count.unless(smooth, words)?;
            for group in &object.groups {
                let length = group.faces.len();
                Number::Count.unless(length <= MOST, length)?;
            }
        }
        Ok(())
    }

    /// 12, object by object: corners, then the face numbers of its groups.
    fn indices(&self) -> Result<(), Refusal> {
        for object in &self.objects {
            corners_row(object.corners, object.vertices.len() / 3)?;
            for group in &object.groups {
                corners_row(group.faces, object.corners.len() / 3)?;
            }
        }
        Ok(())
    }

    /// The bytes of a figure without faults.
    fn bytes(&self) -> Vec<u8> {
        let materials = self.materials.iter().map(Material::bytes);
        let objects = self.objects.iter().map(Object::bytes);
        let children: Vec<Vec<u8>> = materials.chain(objects).collect();
        chunk(0x4D4D, &[&chunk(0x3D3D, &[&children.concat()])])
    }
}

/// All names, if no two of them are the same, or 29 with the later's number.
fn different<'a>(names: impl Iterator<Item = &'a [u8]>) -> Result<HashSet<&'a [u8]>, Refusal> {
    let mut met = HashSet::new();
    for (number, name) in names.enumerate() {
        Number::SameName.unless(met.insert(name), number)?;
    }
    Ok(met)
}

impl Material<'_> {
    fn bytes(&self) -> Vec<u8> {
        let shades = [0xA010, 0xA020, 0xA030].into_iter().zip(&self.colours);
        let shades = shades.map(|(shade, colour)| chunk(shade, &[&chunk(0x0011, &[colour])]));
        let shades = shades.collect::<Vec<_>>().concat();
        chunk(0xAFFF, &[&chunk(0xA000, &[self.name, &[0]]), &shades])
    }
}

impl Object<'_> {
    fn bytes(&self) -> Vec<u8> {
        let floats = self.vertices.iter().flat_map(|float| float.to_le_bytes());
        let points = [count(self.vertices.len() / 3), floats.collect()].concat();
        let corners = self.corners.as_chunks::<3>().0.iter();
        let faces: Vec<u8> = corners
            .flat_map(|[a, b, c]| words(&[*a, *b, *c, 0]))
            .collect();
        let mut inside: Vec<Vec<u8>> = self.groups.iter().map(Group::bytes).collect();
        if !self.smoothing.is_empty() {
            let smoothing = self.smoothing.iter().flat_map(|word| word.to_le_bytes());
            inside.push(chunk(0x4150, &[&smoothing.collect::<Vec<u8>>()]));
        }
        let faces = [count(self.corners.len() / 3), faces, inside.concat()].concat();
        let mesh = chunk(
            0x4100,
            &[&chunk(0x4110, &[&points]), &chunk(0x4120, &[&faces])],
        );
        chunk(0x4000, &[self.name, &[0], &mesh])
    }
}

impl Group<'_> {
    fn bytes(&self) -> Vec<u8> {
        chunk(
            0x4130,
            &[
                self.name,
                &[0],
                &count(self.faces.len()),
                &words(self.faces),
            ],
        )
    }
}

/// A count as a word.
fn count(count: usize) -> Vec<u8> {
    words(&[count as u16])
}

fn words(words: &[u16]) -> Vec<u8> {
    words.iter().flat_map(|word| word.to_le_bytes()).collect()
}

/// A chunk with the parts of its body.
fn chunk(identifier: u16, body: &[&[u8]]) -> Vec<u8> {
    let length: usize = crate::HEADER + body.iter().map(|part| part.len()).sum::<usize>();
    let header = [
        &identifier.to_le_bytes()[..],
        &(length as u32).to_le_bytes(),
    ]
    .concat();
    [&[&header[..]], body].concat().concat()
}
