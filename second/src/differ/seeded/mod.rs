//! A third, plain reader that can be told to make one error, to see that the
//! comparison finds it; without one it has to agree.

mod calls;
mod misread;
mod own;
mod parts;
mod places;
mod reader;
mod rescue;
mod text;
mod version;
mod writer;

pub use misread::{errors as misread_rows, Misread};

use crate::{row, Row};

/// Names the errors once, and lists them all.
macro_rules! errors {
    ($($name:ident)*) => {
        /// The errors it can make: some were made by others, all are easily made.
        #[derive(Clone, Copy, Debug, PartialEq, Eq)]
        pub enum Error {
            $($name,)*
            /// A row of the table read wrongly.
            Row(u16, Misread),
        }

        /// All of them but the misread rows.
        pub const ERRORS: &[Error] = &[$(Error::$name,)*];
    };
}

errors! {
    CornerAtCount EntryAtCount CornersOfFirstMeshOnly CornersWhenMet CornersBeforeGroups
    CountBeforeIndex CountNotJudged NumberAtMeshEnd
    StrayPlace StrayInLeafAllowed LengthBeforeName LengthBeforeTwice
    MisplacedBeforeOverrun MissingBeforeStray MissingNotJudged
    TwiceEachAlone TwiceAcrossParents UnlistedStepsTwo UnlistedUnjudged
    FigureInsideSkipped MappingFloatsUnjudged MatrixFloatsJudged
    SmoothingFree CountBelieved PlusTooLong NameBeyondChunk LengthWraps
    LimitOff LimitNotJudged LimitAfterFigure TrailingAllowed TrailingPlace TrailingBeforeShort
    NoVerticesNoJudging MappingAloneUnjudged TwiceBeforeOverrun IndexBeforeLength
    ParentOff DepthOff LengthWithoutHeader OwnOfGroupWithoutName SkippedInvented HeadersOfAll
    RoomOffByOne RoomOfPart RoomPlace RoomBeforeFault WritesBeforeRefusing RestCleared
    RecordsRoomOfRow RecordsRoomOfTable RecordsRowBeforeRoom RecordsOneFewer RecordsExchanged
    FlagWordInCorners MinusZeroLost RoomOfCornersFirst RoomInVertices VerticesBeforeCornersRoom
    MeshesAreObjects NoSuchMeshPlace RoomBeforeMesh NameWithZero NameOfFirst
    LastOfEquals MinusZeroLess BoxByBits CentreOfSum HighStartsAtZero EmptyBoxIsZero
    WriterFlags WriterCornersFirst WriterIndexBeforeNumber WriterIndexAtCount WriterZeroPlace
    WriterCountBeforeName WriterNumberBeforeCount WriterLimitBeforeIndex
    WriterMost WriterRoomBeforeLimit WriterClearsRest WriterMinusZeroLost
    ShortFigureRead LengthExcludesHeader UnlistedOpened EmptyNameRefused
    ParentIsDepthLess ParentIsPrevious DepthFromOne OffsetOfBody OwnIsBody
    NotANumberAllowed InfinityAllowed MinusInfinityAllowed FirstFloatOnly NumberBeforeLength
    SmoothingHalf EntriesBelowVertices FirstEntryOnly CornersBelowFaces FlagWordJudged
    FirstCornerOnly FirstFaceOnly MappingAtMost MappingAtLeast
    PlaceWithoutSkipped StrayAtParent TwiceAtParent MissingAtEnd IndexAtMesh CountAtMesh
    TablesOfFirst BoxOfFirst MeshesReversed FewRoomOfPart TablesRoomOfPart
    SkippedWithoutHeaders CentreFromDifference
    WriterRoomOff WriterInfinityAllowed WriterMinusInfinityAllowed WriterCountPlace
    WriterNumberPlace WriterIndexPlace WriterLimitOff WriterLimitNotJudged

    NextWithoutOne NextIsCount NextOfUnlistedToo NextOfChildrenOnly

    TextNotJudged TextOf64 TextOf62 TextSpaceRefused TextTildeRefused Text127Allowed Text128Allowed
    Text31Allowed TextBeforeName TextAfterLength TextBeforeTwice TextLongBeforeName
    TextOfGroupsUnjudged TextOfSpotsUnjudged TextOfPartsUnjudged TextOfMaterialsUnjudged TextOfObjectsUnjudged
    TextPlace TextFirst63Only WriterTextNotJudged WriterTextBeforeName WriterTextAfterCount
    WriterTextAtFirstBad WriterTextAt63 WriterTextOf64

    VersionAbsentIsNew Version3IsOld Version2IsNew VersionSigned VersionIsAByte VersionOfLast
    VersionOfAnyLength VersionStopsAtOther VersionBeforeEditOnly VersionInside VersionLostAtBadHeader
    PairsWithoutList PairsNotCompleted PairsOfOnes PairsOfFirst PairsRoomInVertices PairsRoomOfPart

    FatherUnjudged FatherIsOwn FatherFromOne FatherOfAllBlocks FatherIsAByte
    FatherIsPrevious FatherIsFirstWord FatherSigned Father65534IsRoot FatherAtPart FatherBeforeLength
    PartDepthOfRootIsOne PartDepthOfPrevious PartDepthIsFather PartDepthIsAByte PartDepthIsFathers
    PartsRoomOfPart PartsRoomInNumbers PartsRootIsNone

    PlacesOfChunk PlacesOfCount PlacesOfFewNone PlacesOfNameEnd PlacesTurned
    PlacesOfAbsent PlacesInNumbers PlacesRoomOfPart PlacesRoomInNumbers PlacesOfFirst PlacesOfPairsLast

    BoxesOfFirst BoxesOfEmptyKept BoxesRoomOfPart BoxesRoomInNumbers

    CutFirstOnly CutBytesOfBody CutFigureLengthKept CutEditLengthKept CutInsideFirst
    CutBehindUnjudged CutOutsidePlace CutOfHeaderOnly CutUnlisted CutAtInner CutOfDeepHeader CutNumber
    CutRoomOfPart CutRoomOfOutputFirst CutWritesBeforeRefusing CutRestCleared CutWithoutVersion
}

/// The plain reader, with an error or without.
#[derive(Clone, Copy, Debug, Default)]
pub struct Seeded {
    pub error: Option<Error>,
}

impl Seeded {
    /// Whether this is the error to make.
    fn makes(self, error: Error) -> bool {
        self.error == Some(error)
    }

    /// The row of an identifier, misread if that is the error.
    fn row(self, identifier: u16) -> Option<Row> {
        let row = row(identifier).copied();
        match self.error {
            Some(Error::Row(which, misread)) if which == identifier => misread.of(row?),
            _ => row,
        }
    }
}
