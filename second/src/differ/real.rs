//! Both sides over the figures people really have: all .3ds files in some
//! folders, in a table.

use super::compare::Pair;
use super::facts;
use super::lent::Difference;
use super::random::Random;
use crate::boundary::{refusal, Boundary};
use std::path::{Path, PathBuf};
use std::{fs, io};

/// All .3ds files in a folder and those inside it, in order of their names.
pub fn files(folder: &Path) -> io::Result<Vec<PathBuf>> {
    let mut found = Vec::new();
    for entry in fs::read_dir(folder)? {
        let path = entry?.path();
        if path.is_dir() {
            found.extend(files(&path)?);
        } else if path
            .extension()
            .is_some_and(|end| end.eq_ignore_ascii_case("3ds"))
        {
            found.push(path);
        }
    }
    found.sort();
    Ok(found)
}

/// The head of the table.
pub const HEAD: &str = "      size  verdict          meshes  vertices     faces  file";

/// The row of one file, if both sides agree on it with every mesh.
pub fn line<L: Boundary, R: Boundary>(
    file: &[u8],
    pair: &mut Pair<L, R>,
) -> Result<String, Difference> {
    let mut random = Random::of_case(file.len() as u64, 0, 0);
    let answer = pair.whole(file, &mut random)?;
    let size = file.len();
    if let Some((number, place)) = refusal(answer) {
        let verdict = format!("refused {number} {place}");
        return Ok(format!(
            "{size:>10}  {verdict:<16}{:>7}{:>10}{:>10}",
            "-", "-", "-"
        ));
    }
    let meshes = facts::meshes(&pair.right, file);
    for mesh in 0..meshes {
        pair.mesh(file, mesh as u32, &mut random)?;
    }
    let rooms = facts::rooms(&pair.right, file);
    let said = facts::ask(&pair.right, file, &rooms).unwrap_or_default();
    let vertices: usize = said
        .meshes
        .iter()
        .map(|mesh| mesh.vertices.len() / 12)
        .sum();
    let faces: usize = said.meshes.iter().map(|mesh| mesh.corners.len() / 6).sum();
    Ok(format!(
        "{size:>10}  {:<16}{meshes:>7}{vertices:>10}{faces:>10}",
        "accepted"
    ))
}
