//! A good stick: each sentence of that section of docs/FORMAT.md, asked of both
//! sides; the order of problems, and the evidence for a file.

mod common;
use common::triangle;
use second::boundary::{refused, Boundary, Right, Second, Slips, Sticks};
use second::{Sums, ITEM_BYTES};

/// Answers of the judge.
const GOOD: u64 = 1;
const UNCHECKED: u32 = 31;
const REFUSED: u32 = 32;
const UNEXPECTED: u32 = 33;
const ABSENT: u32 = 34;
const INCOMPLETE: u32 = 35;
const NO_FIGURE: u32 = 36;
const DIFFERS: u32 = 37;

/// The numbers of an item behind its path.
const KIND: usize = 2;
const SIZE: usize = 3;
const SUM: usize = 4;
const READER: usize = 5;
const ANSWER: usize = 6;

type Row = [u64; 7];

/// What both sides say, which is the same.
fn both<T: PartialEq + std::fmt::Debug>(call: impl Fn(&dyn Sticks) -> T) -> T {
    let [left, right] = [&Second as &dyn Sticks, &Right::default()].map(call);
    assert_eq!(right, left, "right, left");
    left
}

/// What the judge is given.
#[derive(Clone)]
struct Stick {
    slip: Vec<u8>,
    paths: Vec<u8>,
    rows: Vec<Row>,
}

impl Stick {
    /// The stick of some files, as a walk gathers it: its own folder, the other
    /// folders, the files in their order, the slip.
    fn of(files: &[(&str, &[u8])], folders: &[(&str, u64)]) -> Stick {
        let mut stick = Stick {
            slip: slip(files),
            paths: vec![],
            rows: vec![],
        };
        for (path, listed) in folders {
            stick.add(path, [0, 0, 2, 1 + listed, 0, 0, 0]);
        }
        for (path, bytes) in files {
            stick.add(path, file(path, bytes));
        }
        stick.add("stick.slip", file("stick.slip", &stick.slip));
        stick
    }

    fn add(&mut self, path: &str, row: Row) {
        let [_, _, kind, size, sum, reader, answer] = row;
        let (at, length) = (self.paths.len() as u64, path.len() as u64);
        self.paths.extend(path.bytes());
        self.rows
            .push([at, length, kind, size, sum, reader, answer]);
    }

    /// One item more, at the end, in the stick's own folder, which lists it.
    fn with(mut self, path: &str, row: Row) -> Stick {
        self.add(path, row);
        self.rows[0][SIZE] += 1;
        self
    }

    /// One number of an item changed.
    fn but(mut self, item: usize, number: usize, value: u64) -> Stick {
        self.rows[item][number] = value;
        self
    }

    /// Another path for an item.
    fn named(mut self, item: usize, path: &str) -> Stick {
        self.rows[item][0] = self.paths.len() as u64;
        self.rows[item][1] = path.len() as u64;
        self.paths.extend(path.bytes());
        self
    }

    /// An item lost, which its folder does not list either.
    fn without(mut self, item: usize) -> Stick {
        self.rows.remove(item);
        self.rows[0][SIZE] -= 1;
        self
    }

    fn items(&self) -> Vec<u8> {
        let numbers = self.rows.as_flattened().iter();
        numbers.flat_map(|number| number.to_le_bytes()).collect()
    }

    fn judged(&self) -> u64 {
        both(|side| side.stick_judge(&self.slip, &self.paths, &self.items()))
    }
}

/// The slip of some files.
fn slip(files: &[(&str, &[u8])]) -> Vec<u8> {
    let names: String = files.iter().map(|(name, _)| *name).collect();
    let mut at = 0;
    let mut entries = Vec::new();
    for (name, bytes) in files {
        let (length, sums) = (bytes.len() as u32, Sums::of(bytes).number());
        let numbers = [at, name.len() as u32, length, sums];
        entries.extend(numbers.iter().flat_map(|number| number.to_le_bytes()));
        at += name.len() as u32;
    }
    let mut slip = vec![0; 70_007];
    let size = Second.slip_write(names.as_bytes(), &entries, &mut slip);
    slip.truncate(usize::try_from(size).expect("a slip"));
    slip
}

/// The evidence for a file.
fn file(path: &str, bytes: &[u8]) -> Row {
    numbers(&both(|side| {
        let mut item = [0; ITEM_BYTES];
        assert_eq!(
            side.stick_file(path.as_bytes(), bytes.len() as u64, bytes, &mut item),
            0
        );
        item
    }))
}

fn numbers(item: &[u8]) -> Row {
    let mut row = [0; 7];
    for (number, bytes) in row.iter_mut().zip(item.as_chunks().0) {
        *number = u64::from_le_bytes(*bytes);
    }
    row
}

/// A figure and a text in a folder: items 0 the stick's own folder, 1 b, 2
/// a.3ds, 3 b/c.txt, 4 the slip; lines 0 the slip, 1 a.3ds, 2 b/c.txt.
fn stick() -> Stick {
    Stick::of(
        &[("a.3ds", &triangle()), ("b/c.txt", b"hello")],
        &[("", 3), ("b", 1)],
    )
}

#[test]
fn a_stick_as_it_left_the_house() {
    assert_eq!(stick().judged(), GOOD);
    // In any order but for the first.
    let mut stick = stick();
    stick.rows[1..].reverse();
    assert_eq!(stick.judged(), GOOD);
}

#[test]
fn zeros_are_never_good() {
    for item in 0..5 {
        let mut zeroed = stick();
        zeroed.rows[item] = [0; 7];
        assert_eq!(zeroed.judged(), refused(UNCHECKED, item), "item {item}");
        let mut unseen = stick();
        unseen.rows[item][KIND..].fill(0);
        assert_eq!(unseen.judged(), refused(UNCHECKED, item), "item {item}");
    }
    assert_eq!(both(|side| side.stick_judge(&[], &[], &[])), refused(18, 0));
    let slip = slip(&[]);
    let judged = |items: &[u8]| both(|side| side.stick_judge(&slip, &[], items));
    assert_eq!(judged(&[0; 56]), refused(UNCHECKED, 0));
    assert_eq!(judged(&[]), refused(INCOMPLETE, 0));
}

#[test]
fn line_0_is_the_slips_own_file() {
    assert_eq!(stick().without(4).judged(), refused(ABSENT, 0));
    assert_eq!(
        stick().named(4, "rtick.slip").judged(),
        refused(UNEXPECTED, 4)
    );
    assert_eq!(
        stick().named(4, "b/stick.slip").judged(),
        refused(UNEXPECTED, 4)
    );
    assert_eq!(stick().named(4, "STICK.slip").judged(), GOOD);
    // Of the very bytes that are judged.
    let mut other = stick();
    let length = other.slip.len();
    other.slip[length - 1] ^= 1;
    assert_eq!(other.judged(), refused(DIFFERS, 3), "the text's sum");
    let mut other = stick();
    other.rows.swap(1, 4);
    let row = other.rows[1];
    assert_eq!(
        other.clone().but(1, SUM, row[SUM] ^ 1).judged(),
        refused(DIFFERS, 1)
    );
    let longer = other.but(1, SIZE, row[SIZE] + 1);
    assert_eq!(
        longer.but(1, SUM, row[SUM] + 65_536).judged(),
        refused(DIFFERS, 1)
    );
}

#[test]
fn the_other_lines_are_the_entries() {
    assert_eq!(stick().without(2).judged(), refused(ABSENT, 1));
    let mut stick = stick().without(3);
    stick.rows[0][SIZE] += 1;
    stick.rows[1][SIZE] -= 1;
    assert_eq!(stick.judged(), refused(ABSENT, 2));
}

#[test]
fn letters_of_either_case_are_alike_and_nothing_else() {
    assert_eq!(stick().named(2, "A.3dS").judged(), GOOD);
    assert_eq!(stick().named(1, "B").named(3, "b/C.TXT").judged(), GOOD);
    let pairs = [
        ("z", "Z", true),
        ("@", "`", false),
        ("[", "{", false),
        ("0", "P", false),
    ];
    for (name, path, same) in pairs {
        let stick = Stick::of(&[("a.3ds", &triangle()), (name, b"")], &[("", 3)]);
        let answer = if same { GOOD } else { refused(UNEXPECTED, 2) };
        assert_eq!(stick.named(2, path).judged(), answer, "{name} {path}");
    }
}

#[test]
fn the_line_of_a_file_is_the_first_of_its_name() {
    // Of a slip with such names no stick is good.
    let files = [("a.3ds", &triangle()[..]), ("A.3ds", b"hello")];
    let mut stick = Stick::of(&files, &[("", 3)]);
    assert_eq!(stick.judged(), refused(UNEXPECTED, 2));
    stick.rows.remove(2);
    stick.rows[0][SIZE] -= 1;
    assert_eq!(stick.judged(), refused(ABSENT, 2));
    for name in ["stick.slip", "Stick.Slip"] {
        let mut stick = Stick::of(&[("a.3ds", &triangle()), (name, b"hello")], &[("", 3)]);
        assert_eq!(stick.judged(), refused(DIFFERS, 2));
        stick.rows.remove(2);
        stick.rows[0][SIZE] -= 1;
        assert_eq!(stick.judged(), refused(ABSENT, 2));
    }
}

#[test]
fn folders_lead_to_a_line() {
    assert_eq!(stick().named(1, "c").judged(), refused(UNEXPECTED, 1));
    // A name that begins so is not yet inside.
    let files = [("bc/c.3ds", &triangle()[..]), ("b", b"")];
    let deep = |first, second| Stick::of(&files, &[("", 3), (first, 1), (second, 0)]);
    assert_eq!(deep("bc", "c").judged(), refused(UNEXPECTED, 2));
    assert_eq!(deep("b", "bc").judged(), refused(UNEXPECTED, 1));
    assert_eq!(stick().named(1, "b/").judged(), refused(UNEXPECTED, 1));
    assert_eq!(stick().named(1, "/b").judged(), refused(UNEXPECTED, 1));
    // Each folder on the way.
    let files = [("a/b/c/d.3ds", &triangle()[..])];
    let all = [("", 2), ("a", 1), ("A/b", 1), ("a/B/c", 1)];
    assert_eq!(Stick::of(&files, &all).judged(), GOOD);
    let empty = stick().with("b/d", [0, 0, 2, 1, 0, 0, 0]);
    assert_eq!(empty.judged(), refused(UNEXPECTED, 5));
    let long = "d".repeat(64);
    assert_eq!(stick().named(1, &long).judged(), refused(UNEXPECTED, 1));
}

#[test]
fn a_folder_has_no_lines_name() {
    let files = [("d/a.3ds", &triangle()[..]), ("d", b"hello")];
    let stick = Stick::of(&files, &[("", 3), ("D", 1)]);
    assert_eq!(stick.judged(), refused(UNEXPECTED, 1));
    let slip = ("stick.slip/a.3ds", &triangle()[..]);
    let stick = Stick::of(&[slip], &[("", 2), ("stick.slip", 1)]);
    assert_eq!(stick.judged(), refused(UNEXPECTED, 1));
}

#[test]
fn nothing_is_met_twice() {
    let of = stick();
    let [folder, figure, slip] = [1, 2, 4].map(|item: usize| of.rows[item]);
    assert_eq!(stick().with("B", folder).judged(), refused(UNEXPECTED, 5));
    assert_eq!(
        stick().with("A.3ds", figure).judged(),
        refused(UNEXPECTED, 5)
    );
    assert_eq!(
        stick().with("stick.slip", slip).judged(),
        refused(UNEXPECTED, 5)
    );
    assert_eq!(
        stick().with("", of.rows[0]).judged(),
        refused(UNEXPECTED, 5)
    );
    assert_eq!(stick().with("", figure).judged(), refused(UNEXPECTED, 5));
}

#[test]
fn a_path_stands_in_the_row_whole() {
    let all = stick().paths.len() as u64;
    let spans = [
        (all - 4, 5),
        (all, 1),
        (all + 1, 0),
        (u64::MAX, 1),
        (1, u64::MAX),
        (u64::MAX, u64::MAX),
        (1 << 32, 0),
    ];
    for item in 0..5 {
        for (at, length) in spans {
            let stick = stick().but(item, 0, at).but(item, 1, length);
            assert_eq!(stick.judged(), refused(UNCHECKED, item), "{at} {length}");
        }
    }
    // The empty path may stand at the very end.
    assert_eq!(stick().but(0, 0, all).judged(), GOOD);
}

#[test]
fn a_file_or_a_folder_and_nothing_else() {
    for item in 0..5 {
        let own = stick().rows[item][KIND];
        for kind in [
            0,
            3,
            4,
            own + (1 << 8),
            own + (1 << 32),
            own + (1 << 63),
            u64::MAX,
        ] {
            let stick = stick().but(item, KIND, kind);
            assert_eq!(stick.judged(), refused(UNCHECKED, item), "{item} {kind:X}");
        }
    }
    // A file for a folder, and the other way round.
    assert_eq!(stick().but(1, KIND, 1).judged(), refused(UNEXPECTED, 1));
    assert_eq!(stick().but(2, KIND, 2).judged(), refused(UNEXPECTED, 2));
}

#[test]
fn the_first_item_is_the_sticks_own_folder() {
    let mut spoilt = stick().named(0, "b").but(0, KIND, 1).but(0, SIZE, 0);
    assert_eq!(spoilt.judged(), refused(UNCHECKED, 0), "no folder");
    spoilt.rows[0][KIND] = 2;
    assert_eq!(spoilt.judged(), refused(UNEXPECTED, 0), "a path");
    spoilt.rows[0][1] = 0;
    assert_eq!(spoilt.judged(), refused(UNCHECKED, 0), "not listed");
    let mut late = stick();
    late.rows.swap(0, 1);
    assert_eq!(late.judged(), refused(UNEXPECTED, 0));
}

/// All rules of a file broken, and kept again one after another.
#[test]
fn the_order_of_a_files_problems() {
    let good = stick();
    let [size, sum] = [SIZE, SUM].map(|number| good.rows[2][number]);
    let mut spoilt = stick().named(2, "x").but(2, SIZE, size + 1).but(2, SUM, 0);
    spoilt = spoilt.but(2, READER, 9).but(2, ANSWER, 1 << 32);
    assert_eq!(spoilt.judged(), refused(UNEXPECTED, 2), "no line");
    spoilt = spoilt.named(2, "");
    assert_eq!(spoilt.judged(), refused(UNEXPECTED, 2), "no path");
    spoilt = spoilt.named(2, "a.3ds");
    assert_eq!(spoilt.judged(), refused(DIFFERS, 2), "size");
    spoilt = spoilt.but(2, SIZE, size);
    assert_eq!(spoilt.judged(), refused(UNCHECKED, 2), "not read");
    spoilt = spoilt.but(2, SUM, sum ^ 1);
    assert_eq!(spoilt.judged(), refused(UNCHECKED, 2), "reader");
    spoilt = spoilt.but(2, READER, 1);
    assert_eq!(spoilt.judged(), refused(DIFFERS, 2), "sums");
    spoilt = spoilt.but(2, SUM, sum);
    assert_eq!(spoilt.judged(), refused(REFUSED, 2), "refused");
    spoilt = spoilt.but(2, ANSWER, (1 << 32) - 1);
    assert_eq!(spoilt.judged(), GOOD);
    // A file of an earlier one's line, before all that.
    let twice = stick().with("a.3ds", [0, 0, 1, 0, 0, 0, 0]);
    assert_eq!(twice.judged(), refused(UNEXPECTED, 5));
}

/// Likewise of a folder.
#[test]
fn the_order_of_a_folders_problems() {
    let mut spoilt = stick().named(1, "x").but(1, KIND, 3).but(1, SIZE, 0);
    assert_eq!(spoilt.judged(), refused(UNCHECKED, 1), "no folder");
    spoilt = spoilt.but(1, KIND, 2);
    assert_eq!(spoilt.judged(), refused(UNEXPECTED, 1), "leads nowhere");
    spoilt = spoilt.named(1, "b");
    assert_eq!(spoilt.judged(), refused(UNCHECKED, 1), "not listed");
    assert_eq!(spoilt.but(1, SIZE, 2).judged(), GOOD);
    let twice = stick().with("b", [0, 0, 2, 0, 0, 0, 0]);
    assert_eq!(twice.judged(), refused(UNEXPECTED, 5));
}

#[test]
fn length_and_sums_are_those_of_the_line() {
    let [size, sum] = [SIZE, SUM].map(|number| stick().rows[3][number]);
    for more in [1, 1 << 16, 1 << 32, 1 << 48, 1 << 63] {
        let stick = stick().but(3, SIZE, size + more);
        assert_eq!(stick.judged(), refused(DIFFERS, 3), "size {more:X}");
    }
    for read in [size - 1, size + 1, 0, size + (1 << 47)] {
        let stick = stick().but(3, SUM, 65_536 * read + sum % 65_536);
        assert_eq!(stick.judged(), refused(UNCHECKED, 3), "{read} read");
    }
    for bit in 0..16 {
        let stick = stick().but(3, SUM, sum ^ 1 << bit);
        assert_eq!(stick.judged(), refused(DIFFERS, 3), "bit {bit}");
    }
    // 255 is no remainder, and not taken for 0.
    let empty = || Stick::of(&[("a.3ds", &triangle()), ("b", b"")], &[("", 3)]);
    assert_eq!(empty().judged(), GOOD);
    for sum in [0xFF, 0xFF00, 0xFFFF] {
        assert_eq!(empty().but(2, SUM, sum).judged(), refused(DIFFERS, 2));
    }
    // A sparse file in the place of an empty one.
    assert_eq!(empty().but(2, SIZE, 1 << 48).judged(), refused(DIFFERS, 2));
}

#[test]
fn each_file_has_its_own_reader() {
    let cob = b"Caligari V00.01BLH             \nEND \x01\0\0\0\0\0\0\0\0\0\0\0\xFF\xFF\xFF\xFF";
    let cinema = b"FORM\0\0\0\x04MC4D";
    let files: [(&str, &[u8], u64); 10] = [
        ("x.3ds", &triangle(), 1),
        ("X.3DS", &triangle(), 1),
        ("x/.3dS", &triangle(), 1),
        (".3ds", &triangle(), 1),
        ("x.CoB", cob, 2),
        ("x.c4D", cinema, 3),
        ("3ds", b"", 0),
        ("x.3ds.txt", b"", 0),
        ("x.3d", b"", 0),
        ("x3ds", b"", 0),
    ];
    for (path, bytes, own) in files {
        assert_eq!(file(path, bytes)[READER], own, "{path}");
        for reader in [0, 1, 2, 3, 4, own + (1 << 32)] {
            let folders: &[(&str, u64)] = match path.contains('/') {
                true => &[("", 3), ("x", 1)],
                false => &[("", 3)],
            };
            let stick = Stick::of(&[(path, bytes), ("z.3ds", &triangle())], folders);
            let item = folders.len();
            let answer = if reader == own {
                GOOD
            } else {
                refused(UNCHECKED, item)
            };
            assert_eq!(
                stick.but(item, READER, reader).judged(),
                answer,
                "{path} {reader}"
            );
        }
    }
}

#[test]
fn a_refusal_of_any_reader_is_one() {
    for answer in [1 << 32, (1 << 32) + 1, 24 << 32, u64::MAX] {
        assert_eq!(stick().but(2, ANSWER, answer).judged(), refused(REFUSED, 2));
        // Of a file without a reader there is none.
        assert_eq!(stick().but(3, ANSWER, answer).judged(), refused(REFUSED, 3));
    }
    for answer in [0, 1, (1 << 32) - 1] {
        assert_eq!(stick().but(2, ANSWER, answer).judged(), GOOD);
        assert_eq!(stick().but(3, ANSWER, answer).judged(), GOOD);
    }
}

#[test]
fn the_walk_is_whole() {
    let [top, folder] = [0, 1].map(|item: usize| stick().rows[item][SIZE]);
    for listed in [top - 1, top + 1, u64::MAX, top + (1 << 32)] {
        assert_eq!(
            stick().but(0, SIZE, listed).judged(),
            refused(INCOMPLETE, 0)
        );
    }
    // It does not matter which folder lists how many, but their sum does not run over.
    assert_eq!(
        stick()
            .but(0, SIZE, top + 1)
            .but(1, SIZE, folder - 1)
            .judged(),
        GOOD
    );
    let over = stick()
        .but(0, SIZE, top + (1 << 63))
        .but(1, SIZE, folder + (1 << 63));
    assert_eq!(over.judged(), refused(INCOMPLETE, 0));
    // The size of a file counts nothing.
    let mut lost = stick();
    lost.rows.remove(3);
    assert_eq!(lost.judged(), refused(INCOMPLETE, 0), "before 34");
    lost.rows.truncate(1);
    assert_eq!(lost.judged(), refused(INCOMPLETE, 0));
}

#[test]
fn there_is_a_figure() {
    let texts = Stick::of(&[("a.txt", b"x"), ("b", b"")], &[("", 3)]);
    assert_eq!(texts.judged(), refused(NO_FIGURE, 0));
    assert_eq!(texts.without(2).judged(), refused(ABSENT, 2), "before 36");
    assert_eq!(Stick::of(&[], &[("", 1)]).judged(), refused(NO_FIGURE, 0));
}

#[test]
fn the_slip_first_then_whole_items() {
    let Stick { slip, paths, .. } = stick();
    let items = stick().items();
    let judged = |slip: &[u8], items: &[u8]| both(|side| side.stick_judge(slip, &paths, items));
    for part in 1..56 {
        assert_eq!(judged(&slip, &items[..56 + part]), refused(UNCHECKED, 1));
    }
    let more = [&items[..], &[0]].concat();
    assert_eq!(judged(&slip, &more), refused(UNCHECKED, 5));
    assert_eq!(judged(&slip[1..], &more), refused(18, 0));
    let mut second = slip.clone();
    second[7 + 12] = 0;
    assert_eq!(
        judged(&second, &more),
        refused(18, 19),
        "the second name is empty"
    );
    let mut text = slip;
    text[8] = 127;
    assert_eq!(judged(&text, &more), refused(24, 7));
}

#[test]
fn a_thousand_entries() {
    let figure = triangle();
    let names: Vec<String> = (0..1_000).map(|number| format!("{number}.3ds")).collect();
    let files: Vec<(&str, &[u8])> = names.iter().map(|name| (&name[..], &figure[..])).collect();
    let stick = Stick::of(&files, &[("", 1_001)]);
    assert_eq!(stick.judged(), GOOD);
    assert_eq!(
        stick.clone().without(1_000).judged(),
        refused(ABSENT, 1_000)
    );
    assert_eq!(stick.but(1_001, SUM, 0).judged(), refused(UNCHECKED, 1_001));
}

#[test]
fn files_in_folders() {
    let figure = triangle();
    let names: Vec<String> = (0..999)
        .map(|number| format!("{number}/{number}.3ds"))
        .collect();
    let inside: Vec<String> = (0..999).map(|number| number.to_string()).collect();
    let files: Vec<(&str, &[u8])> = names.iter().map(|name| (&name[..], &figure[..])).collect();
    let mut folders = vec![("", 1_000)];
    folders.extend(inside.iter().map(|path| (&path[..], 1)));
    let stick = Stick::of(&files, &folders);
    assert_eq!(stick.judged(), GOOD);
    assert_eq!(
        stick.clone().named(999, "997").judged(),
        refused(UNEXPECTED, 999)
    );
    assert_eq!(
        stick.named(1_998, "0/998.3ds").judged(),
        refused(UNEXPECTED, 1_998)
    );
}

/// Names of one number for whoever tells most names apart by the number that
/// the library makes of them: each is another name all the same.
#[test]
fn names_that_are_alike() {
    const PARTS: [&str; 2] = ["uqnn37g", "6c3u1mn"];
    let digest = |part: &str| {
        let mix = |sum: u32, byte: u8| sum.wrapping_mul(251).wrapping_add(byte.into());
        part.bytes().fold(0, mix) % (1 << 24)
    };
    assert_eq!(digest(PARTS[0]), digest(PARTS[1]));
    let name = |number: usize| {
        let parts: String = (0..8).map(|bit| PARTS[number >> bit & 1]).collect();
        parts + ".3ds"
    };
    let figure = triangle();
    let names: Vec<String> = (0..255).map(name).collect();
    let files: Vec<(&str, &[u8])> = names.iter().map(|name| (&name[..], &figure[..])).collect();
    let stick = Stick::of(&files, &[("", 256)]);
    assert_eq!(stick.judged(), GOOD);
    let another = stick.clone().named(255, &name(255));
    assert_eq!(another.judged(), refused(UNEXPECTED, 255));
    let twice = stick.clone().named(255, &name(0).to_uppercase());
    assert_eq!(twice.judged(), refused(UNEXPECTED, 255));
    let capitals = stick.named(255, &name(254).to_uppercase());
    assert_eq!(capitals.judged(), GOOD);
}

/// Fills an item that had something else in it; what it then has.
fn filled(before: &[u8], call: impl Fn(&dyn Sticks, &mut [u8]) -> u64) -> (u64, Vec<u8>) {
    both(|side| {
        let mut item = before.to_vec();
        (call(side, &mut item), item)
    })
}

#[test]
fn the_evidence_for_a_file() {
    let bytes = triangle();
    let (answer, item) = filled(&[0xA5; 56], |side, item| {
        side.stick_file(b"d/a.3ds", 7, &bytes, item)
    });
    let sum = u64::from(Sums::of(&bytes).number()) + 65_536 * 86;
    let path = 0xA5A5_A5A5_A5A5_A5A5;
    assert_eq!(answer, 0);
    assert_eq!(numbers(&item), [path, path, 1, 7, sum, 1, 6]);
    assert_eq!(file("a.txt", &[]), [0, 0, 1, 0, 0, 0, 0]);
    // What the reader of its ending says, of these very bytes.
    assert_eq!(
        file("a.3ds", &bytes[..85])[ANSWER],
        Second.check(&bytes[..85])
    );
    assert_eq!(file("a.cob", &bytes)[ANSWER], refused(20, 0));
    assert_eq!(file("a.c4d", &bytes)[ANSWER], refused(25, 0));
    assert_eq!(file("a.3ds", &vec![0; 1_048_577])[ANSWER], refused(1, 0));
    assert_eq!(file("a", &vec![0; 1_048_577])[SUM], 1_048_577 << 16);
}

#[test]
fn further_parts() {
    let bytes: Vec<u8> = (0..=255).collect();
    let first = |path: &str| {
        let mut item = vec![0xA5; 56];
        Second.stick_file(path.as_bytes(), 256, &bytes[..100], &mut item);
        item
    };
    let more = |item: &[u8], part: &[u8]| {
        let (answer, item) = filled(item, |side, item| side.stick_more(part, item));
        assert_eq!(answer, 0);
        item
    };
    // The sum goes on, and all else stays.
    let text = more(&more(&first("a"), &bytes[100..101]), &bytes[101..]);
    let mut known = numbers(&first("a"));
    known[SUM] = u64::from(Sums::of(&bytes).number()) + 65_536 * 256;
    assert_eq!(numbers(&text), known);
    // A figure is given in one part.
    let mut known = numbers(&first("a.cob"));
    assert_eq!(numbers(&more(&first("a.cob"), &[])), known);
    known[SUM] = u64::from(Sums::of(&bytes[..101]).number()) + 65_536 * 101;
    known[ANSWER] = 1 << 32;
    assert_eq!(numbers(&more(&first("a.cob"), &bytes[100..101])), known);
}

#[test]
fn an_item_has_56_bytes() {
    for length in [0, 1, 55, 57, 112] {
        let before = vec![0xA5; length];
        for call in [
            |side: &dyn Sticks, item: &mut [u8]| side.stick_file(b"a.3ds", 1, &[0], item),
            |side: &dyn Sticks, item: &mut [u8]| side.stick_more(&[1], item),
        ] {
            let (answer, after) = filled(&before, call);
            assert_eq!(answer, refused(15, 56), "{length}");
            assert_eq!(after, before, "{length}");
        }
    }
}
