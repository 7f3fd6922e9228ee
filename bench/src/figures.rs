//! The figures that are timed: each of an exact size, and each with as much
//! as there can be of one thing that costs time.

/// A figure, and what it is full of.
pub struct Figure {
    pub what: &'static str,
    pub bytes: Vec<u8>,
    /// The mesh whose tables and box are asked for: the last one.
    pub mesh: u32,
}

/// All kinds at one size.
pub fn all(size: usize) -> Vec<Figure> {
    let known = |size| vec![chunk(0x1470, &[]); size / 6];
    let small = |size| vec![object(b"a\0", 1, 1); size / 80];
    let large = |size| vec![object(b"large\0", size / 2 / 20, size / 2 / 20); 2];
    let names = |size| vec![object(&name(63), 1, 1); size / 112];
    let short = |size| vec![object(&name(40), 1, 1); size / 89];
    let cubes = |size| vec![object(b"cube\0", 28, 16); size / 400];
    vec![
        unlisted(size),
        figure("mixed unlisted chunks", size, &mixed),
        figure("smallest known chunks", size, &known),
        figure("many small meshes", size, &small),
        figure("cubes of 24 vertices", size, &cubes),
        figure("two large meshes", size, &large),
        figure("longest names", size, &names),
        figure("names of 40 bytes", size, &short),
        figure("materials", size, &materials),
        figure("faces and groups", size, &groups),
    ]
}

/// Unlisted chunks of 6 bytes.
pub fn unlisted(size: usize) -> Figure {
    figure("smallest unlisted chunks", size, &|size| {
        vec![chunk(0x8123, &[]); size / 6]
    })
}

/// Small meshes, of which every second has a coordinate that is no number.
pub fn broken(size: usize) -> Figure {
    let good = object(b"a\0", 1, 1);
    let mut bad = good.clone();
    let first = good.len() - 16 - 12;
    bad[first..first + 4].fill(0xFF);
    figure("every second mesh broken", size, &|size| {
        vec![[good.clone(), bad.clone()]; size / 100].concat()
    })
}

/// Unlisted chunks of 6 to 69 bytes, hardly two of one identifier.
fn mixed(size: usize) -> Vec<Vec<u8>> {
    let numbers = (0..size as u32 / 37).map(|number| number.wrapping_mul(2_654_435_761));
    let numbers = numbers.filter(|number| second::row((number >> 16) as u16).is_none());
    let chunks =
        numbers.map(|number| chunk((number >> 16) as u16, &[7; 63][..number as usize % 64]));
    chunks.collect()
}

/// Materials with a name and three colours.
fn materials(size: usize) -> Vec<Vec<u8>> {
    let shades = [0xA010, 0xA020, 0xA030].map(|shade| chunk(shade, &chunk(0x0011, &[1, 2, 3])));
    let body = [chunk(0xA000, b"beech\0"), shades.concat()].concat();
    vec![chunk(0xAFFF, &body); size / 63]
}

/// Objects of faces with groups and smoothing words.
fn groups(size: usize) -> Vec<Vec<u8>> {
    let (n, f) = (9, 30_u16);
    let count = f.to_le_bytes();
    let faces = corners(n, 30)
        .chunks_exact(3)
        .flat_map(|face| [face, &[7]].concat())
        .flat_map(u16::to_le_bytes)
        .collect::<Vec<u8>>();
    let numbers = (0..f).flat_map(u16::to_le_bytes).collect::<Vec<u8>>();
    let group = chunk(0x4130, &[b"oak\0", &count[..], &numbers].concat());
    let faces = chunk(
        0x4120,
        &[
            &count[..],
            &faces,
            &group,
            &group,
            &chunk(0x4150, &[0; 120]),
        ]
        .concat(),
    );
    let floats: Vec<u8> = vertices(n).into_iter().flat_map(f32::to_le_bytes).collect();
    let points = chunk(0x4110, &[&[9, 0][..], &floats].concat());
    vec![
        chunk(
            0x4000,
            &[&b"g\0"[..], &chunk(0x4100, &[points, faces].concat())].concat()
        );
        size / 600
    ]
}

/// A figure of one kind of children, as many as fit, and one mesh more; a
/// private chunk fills it up.
fn figure(what: &'static str, size: usize, kind: &dyn Fn(usize) -> Vec<Vec<u8>>) -> Figure {
    let last = object(b"last\0", 3, 1);
    let room = size - 12 - 6 - last.len();
    let mut children = kind(room);
    let mut filled: usize = children.iter().map(Vec::len).sum();
    while filled > room {
        filled -= children.pop().map_or(filled, |child| child.len());
    }
    let is_mesh = |child: &&Vec<u8>| child.starts_with(&[0x00, 0x40]);
    let meshes = children.iter().filter(is_mesh).count();
    let mesh = if meshes == 0 { 0 } else { meshes as u32 - 1 };
    children.push(last);
    children.push(chunk(0x7FFF, &vec![0; room - filled]));
    let bytes = chunk(0x4D4D, &chunk(0x3D3D, &children.concat()));
    Figure { what, bytes, mesh }
}

/// A whole chunk.
fn chunk(identifier: u16, body: &[u8]) -> Vec<u8> {
    let length = 6 + body.len() as u32;
    [&identifier.to_le_bytes()[..], &length.to_le_bytes(), body].concat()
}

/// A name of so many bytes, and its zero.
fn name(size: usize) -> Vec<u8> {
    let mut name = vec![b'n'; size];
    name.push(0);
    name
}

/// An object with a mesh of so many vertices and faces, 20 bytes for both.
fn object(name: &[u8], n: usize, f: usize) -> Vec<u8> {
    let (n, f) = (n.saturating_sub(4).max(1), f.saturating_sub(4).max(1));
    let floats = vertices(n).into_iter().flat_map(f32::to_le_bytes);
    let floats: Vec<u8> = floats.collect();
    let faces = corners(n, f);
    let faces = faces.chunks_exact(3).flat_map(|face| [face, &[7]].concat());
    let faces: Vec<u8> = faces.flat_map(u16::to_le_bytes).collect();
    let count = |count: usize| (count as u16).to_le_bytes();
    let points = chunk(0x4110, &[&count(n)[..], &floats].concat());
    let faces = chunk(0x4120, &[&count(f)[..], &faces].concat());
    let mesh = chunk(0x4100, &[points, faces].concat());
    chunk(0x4000, &[name, &mesh].concat())
}

/// The numbers of so many vertices, in no order.
pub fn vertices(n: usize) -> Vec<f32> {
    let numbers = 0..3 * n as u32;
    let mixed = numbers.map(|number| number.wrapping_mul(2_654_435_761) >> 8);
    mixed.map(|number| number as f32 - 8e6).collect()
}

/// The corners of so many faces.
pub fn corners(n: usize, f: usize) -> Vec<u16> {
    (0..3 * f).map(|corner| (corner % n) as u16).collect()
}
