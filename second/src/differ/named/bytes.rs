//! Named files that are no trees: their first bytes, their end, and those at
//! the limit of length.

use super::Case;
use crate::boundary::refused;
use crate::differ::build::{figure, meshed, points};
use crate::differ::families::Subject;
use crate::differ::node::Node;
use crate::LIMIT;

/// A file that is refused.
fn case(name: &str, file: Vec<u8>, number: u32, place: usize) -> Case {
    Case {
        name: name.to_string(),
        subject: Subject::File(file),
        expected: refused(number, place),
        facts: None,
        rescue: None,
    }
}

pub fn cases() -> Vec<Case> {
    [beginnings(), ends(), limits()].concat()
}

/// Fewer bytes than a header, and other first bytes.
fn beginnings() -> Vec<Case> {
    let whole = figure(vec![]).bytes();
    let mut cases: Vec<Case> = (0..6)
        .map(|count| {
            let name = format!("the first {count} bytes");
            case(&name, whole[..count].to_vec(), 2, 0)
        })
        .collect();
    for (name, bytes) in [
        ("4D4E", b"MN"),
        ("4E4D", b"NM"),
        ("3D3D", b"=="),
        ("0000", b"\0\0"),
    ] {
        let file = [bytes, &whole[2..]].concat();
        cases.push(case(&format!("begins {name}"), file, 2, 0));
    }
    cases
}

/// A 4D4D whose length is not the file's.
#[rustfmt::skip]
fn ends() -> Vec<Case> {
    let whole = figure(vec![meshed("a", vec![points(&[1.0; 3])])]).bytes();
    let size = whole.len();
    let stated = |length: u32| {
        let mut file = whole.clone();
        file[2..6].copy_from_slice(&length.to_le_bytes());
        file
    };
    let short = |length| case(&format!("the figure's length {length}"), stated(length), 4, 0);
    let over = |more| case(&format!("the figure's length {more} more"), stated(size as u32 + more), 5, 0);
    let trailing = |count| case(&format!("{count} bytes behind"), [&whole[..], &vec![0; count]].concat(), 3, size);
    vec![
        short(0),
        short(5),
        over(1),
        over(65_536),
        over(u32::MAX - size as u32),
        trailing(1),
        trailing(6),
        case("a figure that ends behind its 3D3D's header", stated(12), 3, 12),
        case("3 against 14", stated(6), 3, 6),
    ]
}

/// As long as a file may be, and a byte more.
fn limits() -> Vec<Case> {
    let filled = |size: usize| {
        let mut root = figure(vec![meshed("a", vec![points(&[1.0; 3])])]);
        let body = size - root.size() - 6;
        root.children[0]
            .children
            .push(Node::leaf(0x7FFF, vec![0x4D; body]));
        root.bytes()
    };
    let known = Case {
        name: "a file at the limit".into(),
        subject: Subject::File(filled(LIMIT)),
        expected: 5,
        facts: None,
        rescue: None,
    };
    let mut other = filled(LIMIT + 1);
    other[0] = 0;
    let mut trailing = filled(LIMIT);
    trailing.push(0);
    let mut not_a_figure = filled(LIMIT);
    not_a_figure[1] = 0;
    vec![
        known,
        case("a byte more than the limit", filled(LIMIT + 1), 1, 0),
        case("2 against 1", other, 1, 0),
        case("3 against 1", trailing, 1, 0),
        case("2 at the limit", not_a_figure, 2, 0),
        case("zeros at the limit", vec![0; LIMIT], 2, 0),
        case("zeros beyond the limit", vec![0; LIMIT + 1], 1, 0),
    ]
}
