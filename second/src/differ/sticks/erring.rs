//! The errors that a judge of sticks can make, and this library's evidence for
//! files with one in it, to see that the comparison finds it; without an error
//! it is this library's.

use crate::boundary::{answer, numbers_of, refused, set, Second, Sticks};
use crate::{Sums, ITEM_BYTES};

listed! {
    /// The errors that can be made.
    Error, ERRORS:
    PartOfItemLost PartBeforeSlip
    SlipOfAnyBytes SlipNotNeeded SlipOnSlipForgiven LettersMatter SignsAreLetters
    TopOfAnyKind TopWithPath TopNotListed NoItemsPass
    KindOf32Bits OtherKindsAreFolders PathBeyondCut PathWraps
    FileTwice SizeFree SizeOf32Bits SizeOf48Bits NotReadWhole ReaderFree FigureWithoutReader
    EndingsOfSmallLetters SumsFree FirstSumOnly SumOf255 RefusedPasses TooLongPasses OthersAnswerFree
    ReadBeforeSize SumsBeforeRead SumsBeforeReader RefusedBeforeSums MetAfterSize
    TopTwice FolderIsFile AnyFolder NoSlashNeeded FolderTwice FolderNotListed ListedBeforeMet
    FewerItemsPass MoreItemsPass WalkWraps AbsentPasses LastLineAbsent LinesFromEntries
    NoFigurePasses AbsentBeforeWhole FigureBeforeAbsent ItemsFromOne
    SizeOfBytes SumGoesOn SumBeginsAnew PathWrittenOver MorePasses EmptyPartRefuses AnyFileInOnePart
    RoomAtLeast FillsBeforeRefusing EndingIsStudio
}

/// The plain judge, with an error or without.
#[derive(Clone, Copy, Debug, Default)]
pub struct Erring {
    pub error: Option<Error>,
}

impl Sticks for Erring {
    fn stick_judge(&self, slip: &[u8], paths: &[u8], items: &[u8]) -> u64 {
        answer(self.judge(slip, paths, items).map(|()| 1))
    }

    fn stick_file(&self, path: &[u8], size: u64, bytes: &[u8], item: &mut [u8]) -> u64 {
        let Some(before) = self.own_item(item) else {
            return refused(15, ITEM_BYTES);
        };
        let mut filled = before;
        let path = if self.is(Error::EndingIsStudio) && path.ends_with(b".cob") {
            b".3ds"
        } else {
            path
        };
        Second.stick_file(path, size, bytes, &mut filled);
        let [.., sum, _, _] = numbers_of(&before);
        match self.error {
            Some(Error::SizeOfBytes) => set(&mut filled, 3, &[bytes.len() as u64]),
            Some(Error::SumGoesOn) => {
                set(
                    &mut filled,
                    4,
                    &[Sums::of_state(sum).followed_by(bytes).state()],
                );
            }
            Some(Error::PathWrittenOver) => set(&mut filled, 0, &[0]),
            _ => (),
        }
        item[..ITEM_BYTES].copy_from_slice(&filled);
        0
    }

    fn stick_more(&self, part: &[u8], item: &mut [u8]) -> u64 {
        let Some(before) = self.own_item(item) else {
            return refused(15, ITEM_BYTES);
        };
        let mut filled = before;
        Second.stick_more(part, &mut filled);
        let [.., reader, answered] = numbers_of(&before);
        match self.error {
            Some(Error::SumBeginsAnew) => set(&mut filled, 4, &[Sums::of(part).state()]),
            Some(Error::MorePasses) => set(&mut filled, 6, &[answered]),
            Some(Error::EmptyPartRefuses) if reader != 0 => set(&mut filled, 6, &[1 << 32]),
            Some(Error::AnyFileInOnePart) if !part.is_empty() => set(&mut filled, 6, &[1 << 32]),
            _ => (),
        }
        item[..ITEM_BYTES].copy_from_slice(&filled);
        0
    }
}

impl Erring {
    pub(super) fn is(&self, error: Error) -> bool {
        self.error == Some(error)
    }

    /// An item as it stands, if its length is taken for right.
    fn own_item(&self, item: &mut [u8]) -> Option<[u8; ITEM_BYTES]> {
        let right = item.len() == ITEM_BYTES;
        if self.is(Error::FillsBeforeRefusing) && !right {
            item.iter_mut().take(1).for_each(|byte| *byte ^= 1);
        }
        let taken = right || self.is(Error::RoomAtLeast);
        item.first_chunk().copied().filter(|_| taken)
    }
}
