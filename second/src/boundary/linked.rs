//! The library under test, called as C calls it; slices without elements
//! are handed over with the address of something that is there.

use super::{Boundary, Chunk};

extern "C" {
    fn tds_check(file: *const u8, file_len: usize) -> u64;
    fn tds_list(file: *const u8, file_len: usize, records: *mut u8, records_len: usize) -> u64;
    fn tds_records(
        file: *const u8,
        file_len: usize,
        row: *mut u32,
        row_len: usize,
        table: *mut Chunk,
        table_len: usize,
    ) -> u64;
    fn tds_tables(
        file: *const u8,
        file_len: usize,
        mesh: u32,
        vertices: *mut u8,
        vertices_len: usize,
        corners: *mut u8,
        corners_len: usize,
    ) -> u64;
    fn tds_counts(file: *const u8, file_len: usize, counts: *mut u8, counts_len: usize) -> u64;
    fn tds_name(file: *const u8, file_len: usize, mesh: u32, span: *mut u8, span_len: usize)
        -> u64;
    fn tds_box(
        file: *const u8,
        file_len: usize,
        mesh: u32,
        floats: *mut u8,
        floats_len: usize,
    ) -> u64;
    fn tds_write(
        name: *const u8,
        name_len: usize,
        vertices: *const f32,
        vertices_len: usize,
        corners: *const u16,
        corners_len: usize,
        out: *mut u8,
        out_len: usize,
    ) -> u64;
    fn tds_mapping(
        file: *const u8,
        file_len: usize,
        mesh: u32,
        mapping: *mut u8,
        mapping_len: usize,
    ) -> u64;
    fn tds_meshes(file: *const u8, file_len: usize, meshes: *mut u8, meshes_len: usize) -> u64;
    fn tds_boxes(file: *const u8, file_len: usize, boxes: *mut u8, boxes_len: usize) -> u64;
    fn tds_rescue(
        file: *const u8,
        file_len: usize,
        cuts: *mut u8,
        cuts_len: usize,
        out: *mut u8,
        out_len: usize,
    ) -> u64;
    fn tds_parts(file: *const u8, file_len: usize, parts: *mut u8, parts_len: usize) -> u64;
}

/// The address of a slice that is only read; of a stand-in if it is empty.
pub(super) fn read<T: Copy>(slice: &[T], stand_in: &'static [T; 1]) -> *const T {
    match slice {
        [] => stand_in.as_ptr(),
        _ => slice.as_ptr(),
    }
}

/// The address of a slice that is lent; of a stand-in if it is empty.
pub(super) fn lend<T, const N: usize>(slice: &mut [T], stand_in: &mut [T; N]) -> *mut T {
    match slice {
        [] => stand_in.as_mut_ptr(),
        _ => slice.as_mut_ptr(),
    }
}

/// The library under test.
#[derive(Clone, Copy, Debug, Default)]
pub struct Tds;

// Every call hands over addresses with the count of elements behind them;
// the slices live through the call, and the lent ones are held alone.
impl Boundary for Tds {
    fn check(&self, file: &[u8]) -> u64 {
        unsafe { tds_check(read(file, &[0]), file.len()) }
    }

    fn list(&self, file: &[u8], records: &mut [u8]) -> u64 {
        let (len, mut some) = (records.len(), [0; 8]);
        let records = lend(records, &mut some);
        unsafe { tds_list(read(file, &[0]), file.len(), records, len) }
    }

    fn records(&self, file: &[u8], row: &mut [u32], table: &mut [Chunk]) -> u64 {
        let (n, m) = (row.len(), table.len());
        let (mut some, mut more) = ([0], [Chunk::default()]);
        let row = lend(row, &mut some);
        let table = lend(table, &mut more);
        unsafe { tds_records(read(file, &[0]), file.len(), row, n, table, m) }
    }

    fn tables(&self, file: &[u8], mesh: u32, vertices: &mut [u8], corners: &mut [u8]) -> u64 {
        let (n, f) = (vertices.len(), corners.len());
        let (mut some, mut more) = ([0; 8], [0; 8]);
        let vertices = lend(vertices, &mut some);
        let corners = lend(corners, &mut more);
        let (file, len) = (read(file, &[0]), file.len());
        unsafe { tds_tables(file, len, mesh, vertices, n, corners, f) }
    }

    fn counts(&self, file: &[u8], counts: &mut [u8]) -> u64 {
        let (len, mut some) = (counts.len(), [0; 8]);
        let counts = lend(counts, &mut some);
        unsafe { tds_counts(read(file, &[0]), file.len(), counts, len) }
    }

    fn name(&self, file: &[u8], mesh: u32, span: &mut [u8]) -> u64 {
        let (len, mut some) = (span.len(), [0; 8]);
        let span = lend(span, &mut some);
        unsafe { tds_name(read(file, &[0]), file.len(), mesh, span, len) }
    }

    fn bounding_box(&self, file: &[u8], mesh: u32, floats: &mut [u8]) -> u64 {
        let (len, mut some) = (floats.len(), [0; 8]);
        let floats = lend(floats, &mut some);
        unsafe { tds_box(read(file, &[0]), file.len(), mesh, floats, len) }
    }

    fn write(&self, name: &[u8], vertices: &[f32], corners: &[u16], out: &mut [u8]) -> u64 {
        let (len, mut some) = (out.len(), [0; 8]);
        let out = lend(out, &mut some);
        let (a, a_len) = (read(name, &[0]), name.len());
        let (b, b_len) = (read(vertices, &[0.0]), vertices.len());
        let (c, c_len) = (read(corners, &[0]), corners.len());
        unsafe { tds_write(a, a_len, b, b_len, c, c_len, out, len) }
    }

    fn mapping(&self, file: &[u8], mesh: u32, numbers: &mut [u8]) -> u64 {
        let (len, mut some) = (numbers.len(), [0; 8]);
        let numbers = lend(numbers, &mut some);
        unsafe { tds_mapping(read(file, &[0]), file.len(), mesh, numbers, len) }
    }

    fn parts(&self, file: &[u8], numbers: &mut [u8]) -> u64 {
        let (len, mut some) = (numbers.len(), [0; 8]);
        let numbers = lend(numbers, &mut some);
        unsafe { tds_parts(read(file, &[0]), file.len(), numbers, len) }
    }

    fn meshes(&self, file: &[u8], numbers: &mut [u8]) -> u64 {
        let (len, mut some) = (numbers.len(), [0; 8]);
        let numbers = lend(numbers, &mut some);
        unsafe { tds_meshes(read(file, &[0]), file.len(), numbers, len) }
    }

    fn boxes(&self, file: &[u8], floats: &mut [u8]) -> u64 {
        let (len, mut some) = (floats.len(), [0; 8]);
        let floats = lend(floats, &mut some);
        unsafe { tds_boxes(read(file, &[0]), file.len(), floats, len) }
    }

    fn rescue(&self, file: &[u8], cuts: &mut [u8], out: &mut [u8]) -> u64 {
        let (n, m) = (cuts.len(), out.len());
        let (mut some, mut more) = ([0; 8], [0; 8]);
        let cuts = lend(cuts, &mut some);
        let out = lend(out, &mut more);
        unsafe { tds_rescue(read(file, &[0]), file.len(), cuts, n, out, m) }
    }
}
