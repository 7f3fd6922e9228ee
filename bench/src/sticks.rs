//! The judge of a stick, timed: as many files as a slip may have, in one
//! folder, or each in a folder of its own.

use crate::measure::{both, Times};
use second::boundary::{Right, Second, Sticks};
use second::{write_slip, Entry, Sums, MOST_ENTRIES};
use std::hint::black_box;

/// What is handed to the judge.
#[derive(Default)]
struct Stick {
    slip: Vec<u8>,
    paths: Vec<u8>,
    items: Vec<u8>,
}

/// The sticks with their names.
const FOLDERS: [(&str, fn(usize) -> String); 2] = [
    ("1,000 files in a folder", one_folder),
    ("1,000 files in 1,000", own_folder),
];

/// For each stick: what it is, how many bytes its items have, and the times.
pub fn times(turns: usize) -> Vec<(&'static str, usize, Times)> {
    let sticks = FOLDERS.map(|(what, folder)| (what, good(MOST_ENTRIES, folder)));
    let timed = sticks.map(|(what, stick)| {
        let times = both(
            turns,
            || passes(&Second::default(), &stick),
            || passes(&Right::default(), &stick),
        );
        (what, stick.items.len(), times)
    });
    timed.into()
}

fn passes(side: &impl Sticks, stick: &Stick) {
    let Stick { slip, paths, items } = black_box(stick);
    assert_eq!(side.stick_judge(slip, paths, items), 1);
}

fn one_folder(_: usize) -> String {
    "figures of hand tools".to_string()
}

fn own_folder(k: usize) -> String {
    format!("figures of hand tools {k:04}")
}

/// A good stick of so many files, of one byte each.
fn good(files: usize, folder: fn(usize) -> String) -> Stick {
    let sum = Sums::of(b"x").state();
    let mut stick = Stick::default();
    let mut folders: Vec<String> = (0..files).map(folder).collect();
    let names = folders.iter().enumerate();
    let names: Vec<String> = names
        .map(|(k, in_it)| format!("{in_it}/adze {k:04}.3ds"))
        .collect();
    let all: Vec<u8> = names.iter().flat_map(|name| name.bytes()).collect();
    let mut name_offset = 0;
    let entries = names.iter().map(|name| {
        let name_length = name.len() as u32;
        name_offset += name_length;
        Entry {
            name_offset: name_offset - name_length,
            name_length,
            length: 1,
            sums: (sum % 65_536) as u32,
        }
    });
    let entries: Vec<Entry> = entries.collect();
    stick.slip = write_slip(&all, &entries).unwrap();
    folders.dedup();
    let in_each = files / folders.len();
    stick.item("", [2, 2 + folders.len() as u64, 0, 0, 0]);
    for folder in &folders {
        stick.item(folder, [2, 1 + in_each as u64, 0, 0, 0]);
    }
    for name in names.iter().rev() {
        stick.item(name, [1, 1, sum, 1, 7]);
    }
    let (length, sum) = (stick.slip.len() as u64, Sums::of(&stick.slip).state());
    stick.item("stick.slip", [1, length, sum, 0, 0]);
    stick
}

impl Stick {
    /// One item more: its path, and the five numbers behind those of its name.
    fn item(&mut self, path: &str, numbers: [u64; 5]) {
        let name = [self.paths.len() as u64, path.len() as u64];
        let numbers = name.into_iter().chain(numbers);
        self.items.extend(numbers.flat_map(u64::to_le_bytes));
        self.paths.extend(path.bytes());
    }
}
