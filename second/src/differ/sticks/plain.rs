//! A third, plain judge of sticks: each rule looks through all lines and all
//! items again, and one of them may be wrong on purpose.

use super::erring::{Erring, Error};
use crate::boundary::numbers_of;
use crate::{read_slip, Number, Refusal, Sums, ITEM_BYTES};

/// A line of the manifest: name, length, sums.
type Line = (Vec<u8>, u64, u64);

/// An item: its path with the first line of that name, and its numbers.
struct Item {
    path: Vec<u8>,
    line: Option<usize>,
    kind: u64,
    size: u64,
    sum: u64,
    reader: u64,
    answer: u64,
}

impl Erring {
    /// `Ok` of a good stick, else its first problem.
    pub(super) fn judge(&self, slip: &[u8], paths: &[u8], items: &[u8]) -> Result<(), Refusal> {
        let (whole, part) = items.as_chunks::<ITEM_BYTES>();
        let whole_items = part.is_empty() || self.is(Error::PartOfItemLost);
        let cut = Number::Unchecked.unless(whole_items, whole.len());
        if self.is(Error::PartBeforeSlip) {
            cut?;
        }
        let lines = self.manifest(slip)?;
        cut?;
        let item = |item| self.item(item, paths, &lines);
        let items: Vec<Item> = whole.iter().map(item).collect();
        self.top(&items)?;
        for number in 1..items.len() {
            let (before, item) = (&items[1..number], &items[number]);
            let place = number - usize::from(self.is(Error::ItemsFromOne));
            match item.kind {
                1 => self.file(place, &lines, before, item)?,
                _ => self.folder(place, &lines, before, item)?,
            }
        }
        self.rest(&lines, &items)
    }

    fn manifest(&self, slip: &[u8]) -> Result<Vec<Line>, Refusal> {
        let own = Sums::of(slip);
        let mut lines = vec![(b"stick.slip".to_vec(), own.length, u64::from(own.number()))];
        for entry in read_slip(slip)? {
            let name = &slip[entry.name_offset as usize..][..entry.name_length as usize];
            let forgiven = self.is(Error::SlipOnSlipForgiven) && self.same(name, b"stick.slip");
            if !forgiven {
                lines.push((name.to_vec(), entry.length.into(), entry.sums.into()));
            }
        }
        Ok(lines)
    }

    fn item(&self, bytes: &[u8; ITEM_BYTES], paths: &[u8], lines: &[Line]) -> Item {
        let [at, length, kind, size, sum, reader, answer] = numbers_of(bytes);
        let end = u128::from(at) + u128::from(length);
        let within = match self.error {
            Some(Error::PathBeyondCut) => true,
            Some(Error::PathWraps) => end as u64 <= paths.len() as u64,
            _ => end <= paths.len() as u128,
        };
        let kind = match self.error {
            _ if !within => 0,
            Some(Error::KindOf32Bits) => kind & 0xFFFF_FFFF,
            _ => kind,
        };
        let path = paths.iter().skip(at as usize).take(length as usize);
        let path: Vec<u8> = path.copied().collect();
        let mut names = lines.iter().map(|(name, ..)| name);
        Item {
            line: names.position(|name| self.same(name, &path)),
            path,
            kind,
            size,
            sum,
            reader,
            answer,
        }
    }

    fn top(&self, items: &[Item]) -> Result<(), Refusal> {
        let Some(top) = items.first() else {
            return Ok(());
        };
        Number::Unchecked.unless(self.is_folder(top) || self.is(Error::TopOfAnyKind), 0)?;
        Number::Unexpected.unless(top.path.is_empty() || self.is(Error::TopWithPath), 0)?;
        Number::Unchecked.unless(top.size > 0 || self.is(Error::TopNotListed), 0)
    }

    fn is_folder(&self, item: &Item) -> bool {
        item.kind == 2 || item.kind != 1 && self.is(Error::OtherKindsAreFolders)
    }

    fn file(
        &self,
        number: usize,
        lines: &[Line],
        before: &[Item],
        item: &Item,
    ) -> Result<(), Refusal> {
        let line = item.line;
        let earlier = |other: &Item| other.kind == 1 && other.line == line;
        let (_, length, sums) = line.map(|line| lines[line].clone()).unwrap_or_default();
        let slip = line == Some(0) && self.is(Error::SlipOfAnyBytes);
        let mut conditions = [
            (Number::Unexpected, line.is_some()),
            (
                Number::Unexpected,
                !before.iter().any(earlier) || self.is(Error::FileTwice),
            ),
            (Number::Changed, self.has_length(item, length) || slip),
            (Number::Unchecked, self.is_read(item)),
            (Number::Unchecked, self.has_own_reader(item)),
            (Number::Changed, self.has_sums(item, sums) || slip),
            (Number::BadFigure, self.is_accepted(item)),
        ];
        match self.error {
            Some(Error::MetAfterSize) => conditions.swap(1, 2),
            Some(Error::ReadBeforeSize) => conditions.swap(2, 3),
            Some(Error::SumsBeforeRead) => conditions.swap(3, 5),
            Some(Error::SumsBeforeReader) => conditions.swap(4, 5),
            Some(Error::RefusedBeforeSums) => conditions.swap(5, 6),
            _ => (),
        }
        first(&conditions, number)
    }

    fn has_length(&self, item: &Item, length: u64) -> bool {
        match self.error {
            Some(Error::SizeFree) => true,
            Some(Error::SizeOf32Bits) => item.size as u32 == length as u32,
            Some(Error::SizeOf48Bits) => item.size << 16 == length << 16,
            _ => item.size == length,
        }
    }

    fn is_read(&self, item: &Item) -> bool {
        match self.error {
            Some(Error::NotReadWhole) => true,
            Some(Error::SizeOf48Bits) => item.sum >> 16 << 16 == item.size << 16,
            _ => item.sum >> 16 == item.size,
        }
    }

    fn has_sums(&self, item: &Item, sums: u64) -> bool {
        match self.error {
            Some(Error::SumsFree) => true,
            Some(Error::FirstSumOnly) => item.sum & 0xFF == sums & 0xFF,
            Some(Error::SumOf255) => u64::from(Sums::of_state(item.sum).number()) == sums,
            _ => item.sum & 0xFFFF == sums,
        }
    }

    fn has_own_reader(&self, item: &Item) -> bool {
        let ends = |ending: &[u8]| {
            let end = item.path.len().checked_sub(4).map(|at| &item.path[at..]);
            match self.is(Error::EndingsOfSmallLetters) {
                true => end == Some(ending),
                false => end.is_some_and(|end| end.eq_ignore_ascii_case(ending)),
            }
        };
        let readers = [(1, &b".3ds"[..]), (2, b".cob"), (3, b".c4d")];
        let own = readers.iter().find(|(_, ending)| ends(ending));
        let right = item.reader == own.map_or(0, |(reader, _)| *reader);
        let none = item.reader == 0 && self.is(Error::FigureWithoutReader);
        right || none || self.is(Error::ReaderFree)
    }

    fn is_accepted(&self, item: &Item) -> bool {
        match self.error {
            Some(Error::RefusedPasses) => true,
            Some(Error::TooLongPasses) => item.answer <= 1 << 32,
            Some(Error::OthersAnswerFree) => item.reader == 0 || item.answer < 1 << 32,
            _ => item.answer < 1 << 32,
        }
    }

    fn folder(
        &self,
        number: usize,
        lines: &[Line],
        before: &[Item],
        item: &Item,
    ) -> Result<(), Refusal> {
        let path = &item.path;
        let is_below = (1..64).contains(&path.len()) || path.is_empty() && self.is(Error::TopTwice);
        let is_free = item.line.is_none() || self.is(Error::FolderIsFile);
        let leads = path.is_empty() || lines.iter().any(|(name, ..)| self.is_inside(name, path));
        let earlier = |other: &Item| other.kind == 2 && self.same(&other.path, path);
        let mut conditions = [
            (Number::Unchecked, self.is_folder(item)),
            (Number::Unexpected, is_below && is_free),
            (Number::Unexpected, leads || self.is(Error::AnyFolder)),
            (
                Number::Unexpected,
                !before.iter().any(earlier) || self.is(Error::FolderTwice),
            ),
            (
                Number::Unchecked,
                item.size > 0 || self.is(Error::FolderNotListed),
            ),
        ];
        if self.is(Error::ListedBeforeMet) {
            conditions.swap(3, 4);
        }
        first(&conditions, number)
    }

    fn rest(&self, lines: &[Line], items: &[Item]) -> Result<(), Refusal> {
        let whole = Number::Incomplete.unless(self.is_whole(items), 0);
        let figure = |item: &Item| item.kind == 1 && item.reader != 0;
        let figures = items.iter().any(figure) || self.is(Error::NoFigurePasses);
        let figures = Number::NoFigure.unless(figures, 0);
        let absent = self
            .absent(lines, items)
            .map_or(Ok(()), |line| Err(Number::Absent.at(line)));
        match self.error {
            Some(Error::AbsentBeforeWhole) => absent.and(whole).and(figures),
            Some(Error::FigureBeforeAbsent) => whole.and(figures).and(absent),
            _ => whole.and(absent).and(figures),
        }
    }

    fn is_whole(&self, items: &[Item]) -> bool {
        let folders = items.iter().filter(|item| item.kind == 2);
        let listed: u128 = folders
            .map(|folder| u128::from(folder.size.saturating_sub(1)))
            .sum();
        let (met, listed) = (items.len() as u128, 1 + listed);
        match self.error {
            Some(Error::NoItemsPass) if met == 0 => true,
            Some(Error::FewerItemsPass) => met <= listed,
            Some(Error::MoreItemsPass) => met >= listed,
            Some(Error::WalkWraps) => met == u128::from(listed as u64),
            _ => met == listed,
        }
    }

    /// The first line that has no file.
    fn absent(&self, lines: &[Line], items: &[Item]) -> Option<usize> {
        let has_file = |line: usize| {
            let is_file = |item: &Item| item.kind == 1 && item.line == Some(line);
            items.iter().any(is_file)
        };
        let last = lines.len() - usize::from(self.is(Error::LastLineAbsent));
        let from = usize::from(self.is(Error::SlipNotNeeded));
        let line = (from..last).find(|line| !has_file(*line))?;
        let line = line.saturating_sub(self.is(Error::LinesFromEntries).into());
        (!self.is(Error::AbsentPasses)).then_some(line)
    }

    /// Whether two names are the same.
    fn same(&self, one: &[u8], other: &[u8]) -> bool {
        match self.error {
            Some(Error::LettersMatter) => one == other,
            Some(Error::SignsAreLetters) => {
                let alike = |(a, b): (&u8, &u8)| a == b || a ^ b == 0x20 && a & 0x40 != 0;
                one.len() == other.len() && one.iter().zip(other).all(alike)
            }
            _ => one.eq_ignore_ascii_case(other),
        }
    }

    /// Whether a name begins with a path and a slash.
    fn is_inside(&self, name: &[u8], path: &[u8]) -> bool {
        let slash = name.get(path.len()) == Some(&b'/') || self.is(Error::NoSlashNeeded);
        slash && name.len() > path.len() && self.same(&name[..path.len()], path)
    }
}

/// The first of some conditions that does not hold, as a refusal.
fn first(conditions: &[(Number, bool)], place: usize) -> Result<(), Refusal> {
    let broken = conditions.iter().find(|(_, holds)| !holds);
    broken.map_or(Ok(()), |(number, _)| Err(number.at(place)))
}
