//! The table against the paper's own words: the rows are read out of its
//! text, and every identifier is compared.

use second::{place, row, Own};

/// The paper's table, as it stands there.
const PAPER: &str = "\
| 4D4D | the file | 0 + |
| 0002 | 4D4D | 4 |
| 3D3D | 4D4D | 0 + |
| 3D3E, 1400, 1450, 1460 | 3D3D | 4 |
| 1420 / 1470 | 3D3D | 2 / 0 |
| 2100 | 3D3D | 0 + |
| AFFF | 3D3D | 0 + |
| A000 | AFFF | name |
| A010, A020, A030, A040 | AFFF | 0 + |
| 0010, 0013 | 2100, A010, A020, A030, 4600 | 12 |
| 0011, 0012 | 2100, A010, A020, A030, 4600 | 3 |
| 0030 / 0031 | A040 | 2 / 4 |
| 4000 | 3D3D | name + |
| 4010, 4012, 4013, 4015, 4017 | 4000 | 0 |
| 4100 | 4000 | 0 + |
| 4110 | 4100 | 2 + 12n: word n, then n times three floats |
| 4120 | 4100 | 2 + 8f: word f, then f times three corner words and a flag word, + |
| 4130 | 4120 | name, word k, k words that are face numbers |
| 4150 | 4120 | 4f |
| 4140 | 4100 | 2 + 8m: word m, then m times two floats |
| 4160 / 4165 | 4100 | 48 / 1 |
| 4600 | 4000 | 12 + |
| 4610 | 4600 | 20 + |
| 4620 | 4600 | 0 |
| 4651 / 4653 / 4656 | 4610 | 0 / name / 4 |
| 4700 | 4000 | 32 + |";

/// What the paper adds to it for the keyframer.
const KEYFRAMER: &str = "\
| B000 | 4D4D | 0 + |
| B008 | B000 | 8 |
| B002 | B000 | 0 + |
| B010 | B002 | name, two words, and a word that is the father |";

/// A row of the paper: identifier, parents, own data, whether "+".
type Line = (u16, Vec<u16>, Own, bool);

fn number(text: &str) -> u16 {
    u16::from_str_radix(text, 16).unwrap()
}

fn own(text: &str) -> Own {
    match text {
        "name" => Own::Name,
        "4f" => Own::Smoothing,
        _ if text.starts_with("2 + 12n") => Own::Vertices,
        _ if text.starts_with("2 + 8f") => Own::Faces,
        _ if text.starts_with("2 + 8m") => Own::Mapping,
        _ if text.starts_with("name, word k") => Own::Group,
        _ if text.starts_with("name, two words") => Own::Part,
        _ => Own::Bytes(text.parse().unwrap()),
    }
}

fn lines() -> Vec<Line> {
    let mut lines = Vec::new();
    for line in PAPER.lines().chain(KEYFRAMER.lines()) {
        let cells: Vec<&str> = line.trim_matches(['|', ' ']).split(" | ").collect();
        let parents = match cells[1] {
            "the file" => vec![],
            text => text.split(", ").map(number).collect(),
        };
        let identifiers: Vec<&str> = cells[0].split([',', '/']).map(str::trim).collect();
        let each = cells[0].contains('/');
        let data: Vec<&str> = cells[2].split(" / ").collect();
        for (at, identifier) in identifiers.iter().enumerate() {
            let text = if each { data[at] } else { cells[2] };
            let plus = text.ends_with('+');
            let text = text.trim_end_matches(['+', ' ', ',']);
            lines.push((number(identifier), parents.clone(), own(text), plus));
        }
    }
    lines
}

#[test]
fn every_identifier_has_the_papers_row() {
    let lines = lines();
    assert_eq!(lines.len(), 47);
    let holds = |identifier: u16| row(identifier).map_or(0, |row| row.holds);
    for identifier in 0..=u16::MAX {
        let line = lines.iter().find(|line| line.0 == identifier);
        let Some((_, parents, own, plus)) = line else {
            assert_eq!(row(identifier), None);
            continue;
        };
        let row = row(identifier).unwrap();
        let under = match parents[..] {
            [] => place::FILE,
            _ => parents.iter().fold(0, |bits, parent| bits | holds(*parent)),
        };
        assert_eq!((row.under, row.own, row.holds != 0), (under, *own, *plus));
        assert!(row.holds.count_ones() <= 1);
    }
    let all = lines.iter().map(|line| holds(line.0));
    let plus = lines.iter().filter(|line| line.3).count();
    assert_eq!(
        all.fold(0, |bits, bit| bits | bit).count_ones() as usize,
        plus
    );
}

#[test]
fn at_most_one_and_at_least_one() {
    let once = [
        0x0002, 0x3D3D, 0xA000, 0x4100, 0x4600, 0x4700, 0x4110, 0x4120, 0x4140, 0x4160, 0x4165,
        0x4150, 0x4610, 0xB000, 0xB008, 0xB010,
    ];
    let together = [0x4100, 0x4600, 0x4700];
    for a in 0..=u16::MAX {
        let Some(row_a) = row(a) else { continue };
        assert_eq!(row_a.once != 0, once.contains(&a));
        assert!(row_a.once.count_ones() <= 1);
        for &b in &once {
            let row_b = row(b).unwrap();
            let same = row_a.once == row_b.once && row_a.under == row_b.under;
            let taken_together = together.contains(&a) && together.contains(&b);
            assert!(row_a.once == 0 || same == (a == b || taken_together));
        }
        let needed = match a {
            0x4D4D => row(0x3D3D).unwrap().once,
            0xAFFF => row(0xA000).unwrap().once,
            0xB002 => row(0xB010).unwrap().once,
            _ => 0,
        };
        assert_eq!(row_a.needs, needed);
    }
}
