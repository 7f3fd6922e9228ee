//! The plain reader's answers on the boundary, with the errors that can be
//! made in rooms, tables, names and boxes.

use super::reader::{read, Read};
use super::{writer, Error, Seeded};
use crate::boundary::{answer, Boundary, Chunk, RECORD_BYTES};
use crate::differ::facts::Mesh;
use crate::{Number, Refusal, RECORD};

impl Boundary for Seeded {
    fn check(&self, file: &[u8]) -> u64 {
        answer(read(*self, file).map(|read| read.records.len()))
    }

    fn list(&self, file: &[u8], records: &mut [u8]) -> u64 {
        answer(self.listed(file, records))
    }

    fn records(&self, file: &[u8], row: &mut [u32], table: &mut [Chunk]) -> u64 {
        answer(self.recorded(file, row, table))
    }

    fn tables(&self, file: &[u8], mesh: u32, vertices: &mut [u8], corners: &mut [u8]) -> u64 {
        answer(self.tabled(file, mesh, vertices, corners))
    }

    fn counts(&self, file: &[u8], counts: &mut [u8]) -> u64 {
        let three = read(*self, file).map(|read| {
            let chunks = match self.makes(Error::HeadersOfAll) {
                true => read.records.len() + read.passed,
                false => read.records.len(),
            };
            let skipped = match self.error {
                Some(Error::SkippedInvented) => read.skipped.min(64),
                Some(Error::SkippedWithoutHeaders) => read.skipped - 6 * read.passed,
                _ => read.skipped,
            };
            [6 * chunks, read.own, skipped].map(|count| count as u32)
        });
        answer(self.few(three, counts))
    }

    fn name(&self, file: &[u8], mesh: u32, span: &mut [u8]) -> u64 {
        let two = self.find(file, mesh).map(|(read, mesh)| {
            let mut name = read.meshes[mesh].name;
            match self.error {
                Some(Error::NameOfFirst) => name = read.meshes[0].name,
                Some(Error::NameWithZero) => name[1] += 1,
                _ => (),
            }
            name
        });
        answer(self.few(two, span))
    }

    fn bounding_box(&self, file: &[u8], mesh: u32, floats: &mut [u8]) -> u64 {
        let found = self.find(file, mesh);
        let nine = found.and_then(|(read, mesh)| {
            let mesh = if self.makes(Error::BoxOfFirst) {
                0
            } else {
                mesh
            };
            self.boxed(&read.meshes[mesh])
        });
        answer(self.few(nine, floats))
    }

    fn write(&self, name: &[u8], vertices: &[f32], corners: &[u16], out: &mut [u8]) -> u64 {
        answer(writer::write(*self, name, vertices, corners, out))
    }

    fn mapping(&self, file: &[u8], mesh: u32, numbers: &mut [u8]) -> u64 {
        answer(self.mapped(file, mesh, numbers))
    }

    fn parts(&self, file: &[u8], numbers: &mut [u8]) -> u64 {
        answer(self.hung(file, numbers))
    }

    fn meshes(&self, file: &[u8], numbers: &mut [u8]) -> u64 {
        answer(self.placed(file, numbers))
    }

    fn boxes(&self, file: &[u8], floats: &mut [u8]) -> u64 {
        answer(self.all_boxed(file, floats))
    }

    fn rescue(&self, file: &[u8], cuts: &mut [u8], out: &mut [u8]) -> u64 {
        answer(self.mended(file, cuts, out))
    }
}

/// Puts bytes at the beginning of a slice, as many as there is room for.
fn put(slice: &mut [u8], bytes: &[u8]) {
    let count = bytes.len().min(slice.len());
    slice[..count].copy_from_slice(&bytes[..count]);
}

/// Makes every minus zero a zero.
fn lose_minus(floats: &mut [u8]) {
    let floats = floats.chunks_exact_mut(4);
    floats
        .filter(|float| float[..3] == [0; 3] && float[3] == 0x80)
        .for_each(|f| f[3] = 0);
}

impl Seeded {
    fn listed(self, file: &[u8], records: &mut [u8]) -> Result<usize, Refusal> {
        if records.len() < RECORD_BYTES && self.makes(Error::RoomBeforeFault) {
            return Err(Number::NoRoom.at(1));
        }
        let read = read(self, file)?;
        let needed = read.records.len();
        let numbers = read.records.iter().flatten();
        let bytes: Vec<u8> = numbers.flat_map(|number| number.to_le_bytes()).collect();
        let room = match self.error {
            Some(Error::RoomOfPart) => records.len().div_ceil(RECORD_BYTES),
            Some(Error::RoomOffByOne) => (records.len() / RECORD_BYTES).saturating_sub(1),
            _ => records.len() / RECORD_BYTES,
        };
        if room < needed {
            if self.makes(Error::WritesBeforeRefusing) {
                put(records, &bytes);
            }
            let place = self.makes(Error::RoomPlace);
            return Err(Number::NoRoom.at(if place { room } else { needed }));
        }
        if self.makes(Error::RestCleared) {
            records.fill(0);
        }
        put(records, &bytes);
        Ok(needed)
    }

    fn recorded(self, file: &[u8], row: &mut [u32], table: &mut [Chunk]) -> Result<usize, Refusal> {
        let read = read(self, file)?;
        let needed = read.records.len();
        let (of_row, of_table) = (row.len() / RECORD, table.len());
        let room = match self.error {
            Some(Error::RecordsRoomOfRow) => of_row,
            Some(Error::RecordsRoomOfTable) => of_table,
            _ => of_row.min(of_table),
        };
        let early = self.makes(Error::RecordsRowBeforeRoom);
        if needed <= room || early && needed <= of_row {
            let numbers = read.records.iter().flatten();
            row.iter_mut().zip(numbers).for_each(|(slot, n)| *slot = *n);
        }
        if room < needed {
            return Err(Number::NoRoom.at(needed));
        }
        let left_out = usize::from(self.makes(Error::RecordsOneFewer));
        let records = read.records.iter().take(needed - left_out);
        for (slot, record) in table.iter_mut().zip(records) {
            let mut record = *record;
            if self.makes(Error::RecordsExchanged) {
                record.swap(3, 4);
            }
            *slot = Chunk::from(record);
        }
        Ok(needed)
    }

    /// What is read of a file, with the number of a mesh that is there.
    fn find(self, file: &[u8], mesh: u32) -> Result<(Read, usize), Refusal> {
        let read = read(self, file)?;
        let (mesh, count) = (mesh as usize, read.meshes.len());
        match mesh < count {
            true if self.makes(Error::MeshesReversed) => Ok((read, count - 1 - mesh)),
            true => Ok((read, mesh)),
            false if self.makes(Error::NoSuchMeshPlace) => Err(Number::NoSuchMesh.at(mesh)),
            false => Err(Number::NoSuchMesh.at(count)),
        }
    }

    fn tabled(
        self,
        file: &[u8],
        mesh: u32,
        vertices: &mut [u8],
        corners: &mut [u8],
    ) -> Result<usize, Refusal> {
        let (mut read, mut mesh) = self.find(file, mesh)?;
        if self.makes(Error::TablesOfFirst) {
            mesh = 0;
        }
        let mesh = &mut read.meshes[mesh];
        if self.makes(Error::MinusZeroLost) {
            lose_minus(&mut mesh.vertices);
        }
        let (n, f) = (mesh.vertices.len() / 12, mesh.corners.len() / 6);
        let each = 3 - 2 * usize::from(self.makes(Error::RoomInVertices));
        let part = usize::from(self.makes(Error::TablesRoomOfPart));
        let few_vertices = (vertices.len() + 3 * part) / 4 < 3 * n;
        let few_corners = (corners.len() + part) / 2 < 3 * f;
        if few_corners && few_vertices && self.makes(Error::RoomOfCornersFirst) {
            return Err(Number::NoRoom.at(each * f));
        }
        if few_vertices {
            return Err(Number::NoRoom.at(each * n));
        }
        if few_corners {
            if self.makes(Error::VerticesBeforeCornersRoom) {
                put(vertices, &mesh.vertices);
            }
            return Err(Number::NoRoom.at(each * f));
        }
        put(vertices, &mesh.vertices);
        put(corners, &mesh.corners);
        Ok(n + 65_536 * f)
    }

    fn mended(self, file: &[u8], cuts: &mut [u8], out: &mut [u8]) -> Result<usize, Refusal> {
        let (all, figure) = self.rescued(file)?;
        let part = if self.makes(Error::CutRoomOfPart) {
            11
        } else {
            0
        };
        let few = (cuts.len() + part) / 12 < all.len();
        let small = out.len() < figure.len();
        if small && self.makes(Error::CutRoomOfOutputFirst) {
            return Err(Number::NoRoom.at(figure.len()));
        }
        if few {
            return Err(Number::NoRoom.at(all.len()));
        }
        let numbers = all.as_flattened().iter();
        let bytes: Vec<u8> = numbers.flat_map(|number| number.to_le_bytes()).collect();
        if small {
            if self.makes(Error::CutWritesBeforeRefusing) {
                put(cuts, &bytes);
            }
            return Err(Number::NoRoom.at(figure.len()));
        }
        if self.makes(Error::CutRestCleared) {
            out.fill(0);
        }
        put(cuts, &bytes);
        put(out, &figure);
        Ok(all.len())
    }

    fn placed(self, file: &[u8], numbers: &mut [u8]) -> Result<usize, Refusal> {
        let read = read(self, file)?;
        let needed = read.meshes.len();
        let part = if self.makes(Error::PlacesRoomOfPart) {
            31
        } else {
            0
        };
        if (numbers.len() + part) / 32 < needed {
            let numbers = self.makes(Error::PlacesRoomInNumbers);
            return Err(Number::NoRoom.at(if numbers { 8 * needed } else { needed }));
        }
        let first = self.makes(Error::PlacesOfFirst);
        let meshes = read.meshes.iter();
        let places = meshes.map(|mesh| {
            if first {
                read.meshes[0].places
            } else {
                mesh.places
            }
        });
        let bytes = places.flatten().flat_map(|number| number.to_le_bytes());
        put(numbers, &bytes.collect::<Vec<u8>>());
        Ok(needed)
    }

    fn all_boxed(self, file: &[u8], floats: &mut [u8]) -> Result<usize, Refusal> {
        let read = read(self, file)?;
        let needed = read.meshes.len();
        let part = if self.makes(Error::BoxesRoomOfPart) {
            35
        } else {
            0
        };
        if (floats.len() + part) / 36 < needed {
            let numbers = self.makes(Error::BoxesRoomInNumbers);
            return Err(Number::NoRoom.at(if numbers { 9 * needed } else { needed }));
        }
        for (slot, mesh) in floats.as_chunks_mut::<36>().0.iter_mut().zip(&read.meshes) {
            let mesh = match self.makes(Error::BoxesOfFirst) {
                true => &read.meshes[0],
                false => mesh,
            };
            match self.boxed(mesh) {
                Err(_) if self.makes(Error::BoxesOfEmptyKept) => (),
                nine => {
                    let numbers = nine.unwrap_or([0; 9]).map(u32::to_le_bytes);
                    put(slot, numbers.as_flattened());
                }
            }
        }
        Ok(needed)
    }

    fn hung(self, file: &[u8], numbers: &mut [u8]) -> Result<usize, Refusal> {
        let mut parts = read(self, file)?.parts;
        let needed = parts.len();
        let part = if self.makes(Error::PartsRoomOfPart) {
            7
        } else {
            0
        };
        if (numbers.len() + part) / 8 < needed {
            let numbers = self.makes(Error::PartsRoomInNumbers);
            return Err(Number::NoRoom.at(if numbers { 2 * needed } else { needed }));
        }
        if self.makes(Error::PartsRootIsNone) {
            let roots = parts.iter_mut().filter(|part| part[0] == 65_535);
            roots.for_each(|part| part[0] = u32::MAX);
        }
        let bytes = parts
            .as_flattened()
            .iter()
            .flat_map(|number| number.to_le_bytes());
        put(numbers, &bytes.collect::<Vec<u8>>());
        Ok(needed)
    }

    fn mapped(self, file: &[u8], mesh: u32, numbers: &mut [u8]) -> Result<usize, Refusal> {
        let (read, mesh) = self.find(file, mesh)?;
        let pairs = match self.makes(Error::PairsOfFirst) {
            true => &read.meshes[0].mapping,
            false => &read.meshes[mesh].mapping,
        };
        let needed = pairs.len() / 4;
        let part = if self.makes(Error::PairsRoomOfPart) {
            3
        } else {
            0
        };
        if (numbers.len() + part) / 4 < needed {
            let half = self.makes(Error::PairsRoomInVertices);
            return Err(Number::NoRoom.at(if half { needed / 2 } else { needed }));
        }
        put(numbers, pairs);
        Ok(needed)
    }

    /// Fills a few numbers, whose room is judged last.
    fn few<const N: usize>(
        self,
        numbers: Result<[u32; N], Refusal>,
        slice: &mut [u8],
    ) -> Result<usize, Refusal> {
        let small = match self.makes(Error::FewRoomOfPart) {
            true => slice.len().div_ceil(4) < N,
            false => slice.len() / 4 < N,
        };
        let early = self.makes(Error::RoomBeforeMesh);
        if small && early && numbers.is_err_and(|refusal| refusal.number >= 16) {
            return Err(Number::NoRoom.at(N));
        }
        let numbers = numbers?;
        if small {
            return Err(Number::NoRoom.at(N));
        }
        put(slice, &numbers.map(u32::to_le_bytes).concat());
        Ok(N)
    }

    /// The nine numbers of a box.
    fn boxed(self, mesh: &Mesh) -> Result<[u32; 9], Refusal> {
        if mesh.vertices.is_empty() && !self.makes(Error::EmptyBoxIsZero) {
            return Err(Number::Empty.at(0));
        }
        let floats = mesh.vertices.as_chunks::<4>().0.iter();
        let floats: Vec<f32> = floats.map(|float| f32::from_le_bytes(*float)).collect();
        let mut nine = [0; 9];
        for axis in 0..3 {
            let row: Vec<f32> = floats.iter().skip(axis).step_by(3).copied().collect();
            let low = self.least(&row, false);
            let high = self.least(&row, true);
            let centre = match self.error {
                Some(Error::CentreOfSum) => (low + high) * 0.5,
                Some(Error::CentreFromDifference) => low + (high - low) * 0.5,
                _ => low * 0.5 + high * 0.5,
            };
            nine[axis] = low.to_bits();
            nine[axis + 3] = high.to_bits();
            nine[axis + 6] = centre.to_bits();
        }
        Ok(nine)
    }

    /// The first of the least in a row, or of the greatest.
    fn least(self, row: &[f32], greatest: bool) -> f32 {
        let before = |a: &f32, b: &f32| match self.error {
            Some(Error::LastOfEquals) => a <= b,
            Some(Error::MinusZeroLess) => a.total_cmp(b).is_lt(),
            Some(Error::BoxByBits) => a.to_bits() < b.to_bits(),
            _ => a < b,
        };
        let mut so_far = row.first().copied().unwrap_or_default();
        if greatest && self.makes(Error::HighStartsAtZero) {
            so_far = 0.0;
        }
        for float in row.iter().skip(1) {
            let better = match greatest {
                true => before(&-float, &-so_far),
                false => before(float, &so_far),
            };
            if better {
                so_far = *float;
            }
        }
        so_far
    }
}
