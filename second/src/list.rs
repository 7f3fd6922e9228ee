//! The list of known chunks, seven numbers a record, into a lent row. The
//! first pass judges and counts, the second fills and judges nothing.

use crate::bytes::{first_word, header, name_length};
use crate::judge::{check, Counts};
use crate::table::{row, Own};
use crate::{Number, Refusal, HEADER, RECORD};

/// Fills a lent row with the records of a file; its room is counted in whole
/// records. A refusal leaves it untouched, and beyond the records it stays.
pub fn list(file: &[u8], row: &mut [u32]) -> Result<Counts, Refusal> {
    let counts = check(file)?;
    let fits = counts.records <= row.len() / RECORD;
    Number::NoRoom.unless(fits, counts.records)?;
    let mut filling = Filling {
        file,
        row: row.as_chunks_mut().0,
        number: 0,
    };
    filling.run(0, file.len(), 0, 0);
    Ok(counts)
}

/// The second pass, over a file that met the rules.
struct Filling<'a> {
    file: &'a [u8],
    row: &'a mut [[u32; RECORD]],
    /// The number of the next record.
    number: usize,
}

impl Filling<'_> {
    /// Notes the known chunks of one run and all inside them: identifier, offset,
    /// length, depth, parent, own data, and the number of the next record that is
    /// not inside it.
    fn run(&mut self, mut at: usize, end: usize, parent: usize, depth: u32) {
        while let Some((identifier, length)) = header(&self.file[at..end]) {
            if let Some(row) = row(identifier) {
                let body = &self.file[at + HEADER..at + length];
                let own = match row.holds {
                    0 => body.len(),
                    _ => own_before_children(row.own, body),
                };
                let number = self.number;
                self.number += 1;
                if own < body.len() {
                    self.run(at + HEADER + own, at + length, number, depth + 1);
                }
                self.row[number] = [
                    u32::from(identifier),
                    at as u32,
                    length as u32,
                    depth,
                    parent as u32,
                    own as u32,
                    self.number as u32,
                ];
            }
            at += length;
        }
    }
}

/// The own data of a chunk that children may follow, already judged.
fn own_before_children(own: Own, body: &[u8]) -> usize {
    match own {
        Own::Bytes(bytes) => usize::from(bytes),
        Own::Name => name_length(body).unwrap_or(body.len()),
        _ => first_word(body).map_or(body.len(), |count| 2 + 8 * count),
    }
}
