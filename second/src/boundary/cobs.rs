//! The calls over Caligari figures.

use super::{answer, few, many, put, Second};
use crate::{read_cob, Cob, CobMesh, Number, Refusal};

/// The bytes of one record on the boundary.
pub const COB_RECORD_BYTES: usize = 24;

/// The bytes of what is told of one mesh on the boundary.
pub const COB_MESH_BYTES: usize = 32;

/// The calls over Caligari figures.
pub trait Cobs {
    /// The count of records.
    fn cob_check(&self, file: &[u8]) -> u64;
    /// The count of records, now in the slice.
    fn cob_list(&self, file: &[u8], records: &mut [u8]) -> u64;
    /// 2: vertices and faces of a mesh.
    fn cob_sizes(&self, file: &[u8], mesh: u32, sizes: &mut [u8]) -> u64;
    /// The count of vertices, now in the slices with the corners.
    fn cob_tables(&self, file: &[u8], mesh: u32, vertices: &mut [u8], corners: &mut [u8]) -> u64;
    /// The count of meshes, what is told of them now in the slice.
    fn cob_meshes(&self, file: &[u8], meshes: &mut [u8]) -> u64;
}

impl Cobs for Second {
    fn cob_check(&self, file: &[u8]) -> u64 {
        answer(read_cob(file).map(|cob| cob.records.len()))
    }

    fn cob_list(&self, file: &[u8], records: &mut [u8]) -> u64 {
        cob_list_of(read_cob(file), records)
    }

    fn cob_sizes(&self, file: &[u8], mesh: u32, sizes: &mut [u8]) -> u64 {
        cob_sizes_of(read_cob(file), mesh, sizes)
    }

    fn cob_tables(&self, file: &[u8], mesh: u32, vertices: &mut [u8], corners: &mut [u8]) -> u64 {
        cob_tables_of(read_cob(file), mesh, vertices, corners)
    }

    fn cob_meshes(&self, file: &[u8], meshes: &mut [u8]) -> u64 {
        cob_meshes_of(read_cob(file), meshes)
    }
}

/// The list of what was read.
pub(crate) fn cob_list_of(read: Result<Cob, Refusal>, records: &mut [u8]) -> u64 {
    answer(read.and_then(|cob| {
        let count = cob.records.len();
        Number::NoRoom.unless(count <= records.len() / COB_RECORD_BYTES, count)?;
        let numbers = cob.records.as_flattened().iter();
        put(records, numbers.map(|number| number.to_le_bytes()));
        Ok(count)
    }))
}

/// The sizes of a mesh of what was read.
pub(crate) fn cob_sizes_of(read: Result<Cob, Refusal>, mesh: u32, sizes: &mut [u8]) -> u64 {
    let two = find(read, mesh)
        .map(|mesh| [mesh.vertices.len(), mesh.corners.len()].map(|numbers| numbers as u32 / 3));
    few(two, sizes)
}

/// The tables of a mesh of what was read.
pub(crate) fn cob_tables_of(
    read: Result<Cob, Refusal>,
    mesh: u32,
    vertices: &mut [u8],
    corners: &mut [u8],
) -> u64 {
    answer(find(read, mesh).and_then(|mesh| {
        let (n, c) = (mesh.vertices.len(), mesh.corners.len());
        Number::NoRoom.unless(n <= vertices.len() / 4, n)?;
        Number::NoRoom.unless(c <= corners.len() / 4, c)?;
        put(
            vertices,
            mesh.vertices.iter().map(|float| float.to_le_bytes()),
        );
        put(
            corners,
            mesh.corners.iter().map(|corner| corner.to_le_bytes()),
        );
        Ok(n / 3)
    }))
}

/// What is told of all meshes of what was read.
pub(crate) fn cob_meshes_of(read: Result<Cob, Refusal>, meshes: &mut [u8]) -> u64 {
    let each = |cob: Cob| cob.meshes.iter().map(|mesh| mesh.told).collect();
    many(read.map(each), meshes)
}

/// A mesh of what was read; the file's own fault comes first.
fn find(read: Result<Cob, Refusal>, mesh: u32) -> Result<CobMesh, Refusal> {
    let mut meshes = read?.meshes;
    let (mesh, count) = (mesh as usize, meshes.len());
    Number::NoSuchMesh.unless(mesh < count, count)?;
    Ok(meshes.swap_remove(mesh))
}

#[cfg(feature = "tds")]
mod linked {
    //! The library under test.

    use super::Cobs;
    use crate::boundary::linked::{lend, read, Tds};

    extern "C" {
        fn tds_cob_check(file: *const u8, file_len: usize) -> u64;
        fn tds_cob_list(file: *const u8, file_len: usize, records: *mut u8, len: usize) -> u64;
        fn tds_cob_sizes(
            file: *const u8,
            file_len: usize,
            mesh: u32,
            sizes: *mut u8,
            sizes_len: usize,
        ) -> u64;
        fn tds_cob_tables(
            file: *const u8,
            file_len: usize,
            mesh: u32,
            vertices: *mut u8,
            vertices_len: usize,
            corners: *mut u8,
            corners_len: usize,
        ) -> u64;
        fn tds_cob_meshes(file: *const u8, file_len: usize, meshes: *mut u8, len: usize) -> u64;
    }

    // As for the calls over figures: the slices live through each call.
    impl Cobs for Tds {
        fn cob_check(&self, file: &[u8]) -> u64 {
            unsafe { tds_cob_check(read(file, &[0]), file.len()) }
        }

        fn cob_list(&self, file: &[u8], records: &mut [u8]) -> u64 {
            let (len, mut some) = (records.len(), [0; 8]);
            let records = lend(records, &mut some);
            unsafe { tds_cob_list(read(file, &[0]), file.len(), records, len) }
        }

        fn cob_sizes(&self, file: &[u8], mesh: u32, sizes: &mut [u8]) -> u64 {
            let (len, mut some) = (sizes.len(), [0; 8]);
            let sizes = lend(sizes, &mut some);
            unsafe { tds_cob_sizes(read(file, &[0]), file.len(), mesh, sizes, len) }
        }

        fn cob_tables(
            &self,
            file: &[u8],
            mesh: u32,
            vertices: &mut [u8],
            corners: &mut [u8],
        ) -> u64 {
            let (n, c) = (vertices.len(), corners.len());
            let (mut some, mut more) = ([0; 8], [0; 8]);
            let (vertices, corners) = (lend(vertices, &mut some), lend(corners, &mut more));
            let (file, len) = (read(file, &[0]), file.len());
            unsafe { tds_cob_tables(file, len, mesh, vertices, n, corners, c) }
        }

        fn cob_meshes(&self, file: &[u8], meshes: &mut [u8]) -> u64 {
            let (len, mut some) = (meshes.len(), [0; 8]);
            let meshes = lend(meshes, &mut some);
            unsafe { tds_cob_meshes(read(file, &[0]), file.len(), meshes, len) }
        }
    }
}
