//! The calls over Cinema 4D figures.

use super::{answer, put, Second};
use crate::{read_c4d, C4d, Number, Refusal};

/// The bytes of one object on the boundary.
pub const OBJECT_BYTES: usize = 12;

/// The calls over Cinema 4D figures.
pub trait C4ds {
    /// The count of objects.
    fn c4d_check(&self, file: &[u8]) -> u64;
    /// The count of objects, now in the slice, and the materials of all.
    fn c4d_list(&self, file: &[u8], objects: &mut [u8], materials: &mut [u8]) -> u64;
}

impl C4ds for Second {
    fn c4d_check(&self, file: &[u8]) -> u64 {
        answer(read_c4d(file).map(|c4d| c4d.objects.len()))
    }

    fn c4d_list(&self, file: &[u8], objects: &mut [u8], materials: &mut [u8]) -> u64 {
        c4d_list_of(read_c4d(file), objects, materials)
    }
}

/// The list of what was read.
pub(crate) fn c4d_list_of(
    read: Result<C4d, Refusal>,
    objects: &mut [u8],
    materials: &mut [u8],
) -> u64 {
    answer(read.and_then(|c4d| {
        let (count, textures) = (c4d.objects.len(), c4d.materials.len());
        Number::NoRoom.unless(count <= objects.len() / OBJECT_BYTES, count)?;
        Number::NoRoom.unless(textures <= materials.len() / 4, textures)?;
        let numbers = c4d.objects.as_flattened().iter();
        put(objects, numbers.map(|number| number.to_le_bytes()));
        put(
            materials,
            c4d.materials.iter().map(|number| number.to_le_bytes()),
        );
        Ok(count)
    }))
}

#[cfg(feature = "tds")]
mod linked {
    //! The library under test.

    use super::C4ds;
    use crate::boundary::linked::{lend, read, Tds};

    extern "C" {
        fn tds_c4d_check(file: *const u8, file_len: usize) -> u64;
        fn tds_c4d_list(
            file: *const u8,
            file_len: usize,
            objects: *mut u8,
            objects_len: usize,
            materials: *mut u8,
            materials_len: usize,
        ) -> u64;
    }

    // As for the calls over figures: the slices live through each call.
    impl C4ds for Tds {
        fn c4d_check(&self, file: &[u8]) -> u64 {
            unsafe { tds_c4d_check(read(file, &[0]), file.len()) }
        }

        fn c4d_list(&self, file: &[u8], objects: &mut [u8], materials: &mut [u8]) -> u64 {
            let (n, m) = (objects.len(), materials.len());
            let (mut some, mut more) = ([0; 8], [0; 8]);
            let (objects, materials) = (lend(objects, &mut some), lend(materials, &mut more));
            unsafe { tds_c4d_list(read(file, &[0]), file.len(), objects, n, materials, m) }
        }
    }
}
