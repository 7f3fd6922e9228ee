//! Names that a label takes: at most 63 bytes, each from 32 to 126.

/// The most bytes that a label takes.
const MOST: usize = 63;

fn printable(byte: &u8) -> bool {
    (32..=126).contains(byte)
}

/// Whether a name is one that a label takes.
#[inline(always)]
pub fn fits_label(name: &[u8]) -> bool {
    name.len() <= MOST && name.iter().fold(true, |all, byte| all & printable(byte))
}

/// The first byte of a name that a label does not take.
pub fn label_fault(name: &[u8]) -> Option<usize> {
    let bad = name.iter().position(|byte| !printable(byte));
    let long = (name.len() > MOST).then_some(MOST);
    bad.into_iter().chain(long).min()
}
