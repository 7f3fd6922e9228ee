//! The independent second reader of strict 3D Studio figures: written from
//! the paper alone, to be compared with the reader under test.

pub mod boundary;
mod bounding_box;
mod bytes;
mod c4d;
mod cob;
pub mod differ;
mod figures;
mod judge;
mod label;
mod list;
mod mapping;
mod meshes;
mod own;
mod parts;
mod refusal;
mod rescue;
mod slip;
mod stick;
mod sums;
mod table;
mod tables;
mod version;
mod writer;

pub use bounding_box::{bounding_box, boxes, BoundingBox};
pub use c4d::{read_c4d, C4d};
pub use cob::{read_cob, Cob, CobMesh, CobRecord};
pub use figures::{write_figure, Figure, Group, Material, Object};
pub use judge::{check, Counts};
pub use list::list;
pub use mapping::mapping;
pub use meshes::{meshes, MeshPlaces};
pub use parts::{parts, Part, ROOT};
pub use refusal::{Number, Refusal};
pub use rescue::{rescue, Cut, Rescued};
pub use slip::{read_slip, write_slip, Entry, MOST as MOST_ENTRIES};
pub use stick::{judge_stick, own_reader, ITEM_BYTES};
pub use sums::{sums, Sums};
pub use table::{place, row, Own, Row};
pub use tables::{name, tables};
pub use writer::write;

/// The bytes of a chunk's header: identifier and length.
pub const HEADER: usize = 6;

/// The most bytes a figure may have.
pub const LIMIT: usize = 1_048_576;

/// The 32-bit numbers of one record in the list.
pub const RECORD: usize = 7;
