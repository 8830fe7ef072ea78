//! What the library refuses: an error with the paper's number and the header's words.

use std::error::Error;
use std::fmt;

macro_rules! refusals {
    ($($number:literal $name:ident $words:literal)*) => {
        /// Why a call was refused. The first test that was not met is the one that is told.
        #[derive(Clone, Copy, Debug, PartialEq, Eq, Hash)]
        #[non_exhaustive]
        pub enum Refusal {
            $(#[doc = $words] $name,)*
            /// A number that this crate does not know: the library is of another version.
            Other(u32),
        }

        impl Refusal {
            /// Each of them that has words.
            pub const ALL: &[Refusal] = &[$(Refusal::$name,)*];

            /// The number by which the library refuses.
            pub fn number(self) -> u32 {
                match self {
                    $(Refusal::$name => $number,)*
                    Refusal::Other(number) => number,
                }
            }

            /// The words of jivaszte.h.
            pub fn words(self) -> &'static str {
                match self {
                    $(Refusal::$name => $words,)*
                    Refusal::Other(_) => "no number of a refusal",
                }
            }

            /// What a number of the library says: done where it is 0, else why not.
            pub fn of(number: u32) -> Result<(), Refusal> {
                match number {
                    0 => Ok(()),
                    $($number => Err(Refusal::$name),)*
                    _ => Err(Refusal::Other(number)),
                }
            }
        }
    };
}

refusals! {
    1 Order "the order is not 1, 2 or 3"
    2 Length "the length is outside 1 to 2048"
    3 Delay "the delay is outside the order's range: 2049 to 6144 in order 1, 6145 to 10240 in order 2, 10241 to 14336 in order 3"
    4 Loss "the loss is above 65535"
    5 Advance "the advance is above 64"
    6 ChangeWaits "a change waits"
    7 Amplitude "the amplitude is above 255"
    8 Count "the count is outside 1 to 2048"
    9 BlockLengths "input and output differ in length"
    10 Sample "an input is outside -8388607 to 8388607"
    11 Rate "the rate is outside 8000 to 192000"
    12 Note "the note is above 127"
    13 NoteLength "the note's length is outside 1 to 2048"
    14 CutShort "the bytes end early"
    15 BitMap "bit 5 or 6 stands without 4, or bit 7 without 1 or 2"
    16 OutputFull "the wait does not fit the output that is left"
    17 RecordingRate "the recording's rate is outside 8000 to 192000"
    18 Room "there are more than 1000000 samples, or the lent slice is too short"
    19 FileForm "the bytes are no WAV file of one channel and 24 bits in the form that is written"
    20 CommitEarly "the asked change has taken fewer samples than the advance"
    21 NothingAsked "no asked change waits"
    22 StoredLength "the stored bytes are too few or too many"
    23 StoredPart "a part of the stored voice is outside its limits"
    24 String "the string number is above 5"
    25 Area "an area is outside 1 to 65535"
    26 NotFinite "the float is not a number, or it is infinite"
    27 FloatRange "a sample is outside -1 to 1, or a loss outside 0 to 1"
    28 Headers "the first 8 bytes of the scores differ"
    29 Alone "one of the scores does not play to its end alone"
    30 Merge "the merge does not play to its end, or does not fit the lent slice"
    31 ListForm "the words are no list of calls, or need more room than is lent"
    32 NoAdvance "no advance from 0 to 64 keeps a change within the wanted distance"
}

impl fmt::Display for Refusal {
    fn fmt(&self, f: &mut fmt::Formatter) -> fmt::Result {
        f.write_str(self.words())
    }
}

impl Error for Refusal {}
