//! The call that writes a figure of many objects and materials.

use super::{answer, Second};
use crate::{write_figure, Figure, Group, Material, Number, Object, Refusal};

/// What the writer is handed: rows one after another, and how they are divided.
#[derive(Clone, Debug, Default)]
pub struct Rows {
    /// Of the objects, of the materials, of the groups.
    pub names: Vec<u8>,
    /// Five numbers an object: bytes of its name, floats, corners, words, groups.
    pub objects: Vec<u32>,
    pub vertices: Vec<f32>,
    pub corners: Vec<u16>,
    pub smoothing: Vec<u32>,
    /// Two numbers a group: bytes of its name, face numbers.
    pub groups: Vec<u32>,
    pub faces: Vec<u16>,
    /// One number a material: bytes of its name.
    pub materials: Vec<u32>,
    /// Nine bytes a material.
    pub colours: Vec<u8>,
}

/// The call over figures of many objects.
pub trait Figures {
    /// The size of the figure, now in the slice.
    fn write_figure(&self, rows: &Rows, out: &mut [u8]) -> u64;
}

impl Figures for Second {
    fn write_figure(&self, rows: &Rows, out: &mut [u8]) -> u64 {
        let written = rows.figure().and_then(|figure| write_figure(&figure));
        answer(written.and_then(|bytes| {
            let size = bytes.len();
            Number::NoRoom.unless(size <= out.len(), size)?;
            out[..size].copy_from_slice(&bytes);
            Ok(size)
        }))
    }
}

impl Rows {
    /// The figure that the rows describe, or 13 with the length of the first
    /// row that is not as long as the description says.
    pub fn figure(&self) -> Result<Figure<'_>, Refusal> {
        let (objects, odd_objects) = self.objects.as_chunks::<5>();
        let (groups, odd_groups) = self.groups.as_chunks::<2>();
        let said = |field: usize| {
            objects
                .iter()
                .map(|object| u64::from(object[field]))
                .sum::<u64>()
        };
        let of_groups = |field: usize| {
            groups
                .iter()
                .map(|group| u64::from(group[field]))
                .sum::<u64>()
        };
        let of_materials = self
            .materials
            .iter()
            .map(|name| u64::from(*name))
            .sum::<u64>();
        let grouped = odd_groups.is_empty() && said(4) == groups.len() as u64;
        Number::Count.unless(odd_objects.is_empty(), self.objects.len())?;
        Number::Count.unless(grouped, self.groups.len())?;
        for (length, said) in [
            (self.names.len(), said(0) + of_materials + of_groups(0)),
            (self.vertices.len(), said(1)),
            (self.corners.len(), said(2)),
            (self.smoothing.len(), said(3)),
            (self.faces.len(), of_groups(1)),
            (self.colours.len(), 9 * self.materials.len() as u64),
        ] {
            Number::Count.unless(length as u64 == said, length)?;
        }
        Ok(self.divided(objects, groups))
    }

    /// The figure, once all rows are as long as they should be.
    fn divided(&self, objects: &[[u32; 5]], groups: &[[u32; 2]]) -> Figure<'_> {
        let mut names = &self.names[..];
        let object_names: Vec<&[u8]> = objects
            .iter()
            .map(|object| take(&mut names, object[0]))
            .collect();
        let materials = self.materials.iter().zip(self.colours.as_chunks::<9>().0);
        let materials = materials.map(|(name, colours)| Material {
            name: take(&mut names, *name),
            colours: [0, 1, 2].map(|shade| std::array::from_fn(|part| colours[3 * shade + part])),
        });
        let materials = materials.collect();
        let mut faces = &self.faces[..];
        let mut groups = groups.iter().map(|[name, count]| Group {
            name: take(&mut names, *name),
            faces: take(&mut faces, *count),
        });
        let (mut vertices, mut corners) = (&self.vertices[..], &self.corners[..]);
        let mut smoothing = &self.smoothing[..];
        let objects = objects
            .iter()
            .zip(object_names)
            .map(|(object, name)| Object {
                name,
                vertices: take(&mut vertices, object[1]),
                corners: take(&mut corners, object[2]),
                smoothing: take(&mut smoothing, object[3]),
                groups: groups.by_ref().take(object[4] as usize).collect(),
            });
        Figure {
            objects: objects.collect(),
            materials,
        }
    }
}

/// The next so many of a row, now behind.
fn take<'a, T>(row: &mut &'a [T], count: u32) -> &'a [T] {
    let (taken, rest) = row.split_at(count as usize);
    *row = rest;
    taken
}

#[cfg(feature = "tds")]
mod linked {
    //! The library under test.

    use super::{Figures, Rows};
    use crate::boundary::linked::{lend, read, Tds};

    extern "C" {
        fn tds_write_figure(
            names: *const u8,
            names_len: usize,
            objects: *const u32,
            objects_len: usize,
            vertices: *const f32,
            vertices_len: usize,
            corners: *const u16,
            corners_len: usize,
            smoothing: *const u32,
            smoothing_len: usize,
            groups: *const u32,
            groups_len: usize,
            faces: *const u16,
            faces_len: usize,
            materials: *const u32,
            materials_len: usize,
            colours: *const u8,
            colours_len: usize,
            out: *mut u8,
            out_len: usize,
        ) -> u64;
    }

    // As for the calls over figures: the slices live through the call.
    impl Figures for Tds {
        fn write_figure(&self, rows: &Rows, out: &mut [u8]) -> u64 {
            let (len, mut some) = (out.len(), [0; 8]);
            let out = lend(out, &mut some);
            unsafe {
                tds_write_figure(
                    read(&rows.names, &[0]),
                    rows.names.len(),
                    read(&rows.objects, &[0]),
                    rows.objects.len(),
                    read(&rows.vertices, &[0.0]),
                    rows.vertices.len(),
                    read(&rows.corners, &[0]),
                    rows.corners.len(),
                    read(&rows.smoothing, &[0]),
                    rows.smoothing.len(),
                    read(&rows.groups, &[0]),
                    rows.groups.len(),
                    read(&rows.faces, &[0]),
                    rows.faces.len(),
                    read(&rows.materials, &[0]),
                    rows.materials.len(),
                    read(&rows.colours, &[0]),
                    rows.colours.len(),
                    out,
                    len,
                )
            }
        }
    }
}
