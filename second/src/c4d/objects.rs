//! The objects of an OBJ5: where each one stands, which of the nine
//! combinations it is, and the materials of its textures.

use super::{piece, C4d, Piece};
use crate::{Number, Refusal};

const END: u32 = 0;
const OBJECT: u32 = 1;
const TEXTURE: u32 = 23;

/// The bytes of a texture; the last four are its material.
const TEXTURE_BYTES: usize = 64;

/// Kinds of sub-chunk as bits, by their identifiers from 16 on.
const fn bit(identifier: u32) -> u32 {
    1 << (identifier - 16)
}

const POINTS: u32 = bit(16);
const TRIANGLES: u32 = bit(17);
const QUADRANGLES: u32 = bit(18);
const EDGES: u32 = bit(19);
const POLYGON: u32 = bit(20);
const LIGHT: u32 = bit(21);
const CAMERA: u32 = bit(22);
const GROUND: u32 = bit(25);
const SKY: u32 = bit(26);
const SPHERE: u32 = bit(27);
const ENVIRONMENT: u32 = bit(29);
const HERMITE: u32 = bit(30);

/// Those that any object may have: texture, phong, display, kinematic, root.
const ANY: u32 = bit(TEXTURE) | bit(24) | bit(28) | bit(31) | bit(32);

/// An object that has not ended yet.
struct Open {
    at: usize,
    /// The kinds of sub-chunk met in it.
    met: u32,
    repeated: bool,
    textures: u32,
}

/// Walks an OBJ5, in a file whose materials go up to a highest one, if any.
pub fn read(
    file: &[u8],
    chunk: &Piece,
    highest: Option<u32>,
    c4d: &mut C4d,
) -> Result<(), Refusal> {
    let (mut at, mut open) = (chunk.start, None);
    while at < chunk.end {
        let inside = piece(file, at, chunk.end, |[a, b, c, d]| {
            (u32::from(a), u32::from_be_bytes([0, b, c, d]))
        })?;
        let length = inside.end - inside.start;
        let texture = inside.identifier == TEXTURE;
        Number::Length.unless(!texture || length == TEXTURE_BYTES, at)?;
        open = match (inside.identifier, open) {
            (OBJECT, None) => Some(Open::new(at)),
            (END, Some(open)) => {
                c4d.objects.push(open.end(at)?);
                None
            }
            (16..=32, Some(open)) => Some(open.with(&inside)),
            (END | OBJECT | 16..=32, _) => return Err(Number::Order.at(at)),
            (_, open) => open,
        };
        if texture {
            c4d.materials
                .push(material(&file[..inside.end], highest).ok_or(Number::Material.at(at))?);
        }
        at = inside.end;
    }
    Number::Order.unless(open.is_none(), chunk.at)
}

/// The material of the texture that some bytes end with, if there is one of
/// its number, or it is none.
fn material(bytes: &[u8], highest: Option<u32>) -> Option<u32> {
    let material = u32::from_be_bytes(*bytes.last_chunk()?);
    let known = highest.is_some_and(|highest| material <= highest);
    (known || material == u32::MAX).then_some(material)
}

impl Open {
    fn new(at: usize) -> Open {
        Open {
            at,
            met: 0,
            repeated: false,
            textures: 0,
        }
    }

    /// The object with one more sub-chunk of those from 16 to 32.
    fn with(mut self, inside: &Piece) -> Open {
        let kind = bit(inside.identifier);
        let texture = inside.identifier == TEXTURE;
        self.repeated |= self.met & kind != 0 && !texture;
        self.textures += u32::from(texture);
        self.met |= kind;
        self
    }

    /// Its numbers, if it is one of the combinations and repeats nothing.
    fn end(&self, at: usize) -> Result<[u32; 3], Refusal> {
        let combination = combination(self.met & !ANY).filter(|_| !self.repeated);
        let combination = combination.ok_or(Number::Combination.at(at))?;
        Ok([self.at as u32, combination, self.textures])
    }
}

/// The combination that some kinds of sub-chunk are, each there or not.
fn combination(met: u32) -> Option<u32> {
    let only = |kinds: u32| met & !kinds == 0;
    let has = |kinds: u32| met & kinds != 0;
    let faces = has(TRIANGLES | QUADRANGLES);
    let meshed = only(POINTS | TRIANGLES | QUADRANGLES | EDGES) && has(POINTS);
    match met {
        _ if meshed && (!faces || has(EDGES)) => Some(1),
        _ if only(POLYGON | POINTS | HERMITE) && has(POLYGON) => Some(2),
        LIGHT => Some(3),
        CAMERA => Some(4),
        GROUND => Some(5),
        SKY => Some(6),
        _ if met == SPHERE | POINTS => Some(7),
        ENVIRONMENT => Some(8),
        0 => Some(9),
        _ => None,
    }
}
