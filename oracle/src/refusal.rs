//! The refusals of document 01, section "What each call turns down", and those of document 02.

/// A refusal; its number is the one that the paper gives it.
#[derive(Clone, Copy, Debug, PartialEq, Eq)]
pub enum Refusal {
    /// "1 order ... outside the limits"
    Order = 1,
    /// "2 L ... outside the limits"
    Length = 2,
    /// "3 d ... outside the limits"
    Delay = 3,
    /// "4 G ... outside the limits"
    Loss = 4,
    /// "5 Na outside the limits"
    Advance = 5,
    /// "6 a change waits"
    ChangeWaits = 6,
    /// "7 amplitude above 255"
    Amplitude = 7,
    /// "8 count 0 or above 2,048"
    Count = 8,
    /// "9 input and output differ in length"
    BlockLengths = 9,
    /// "10 an input outside −M to M"
    Input = 10,
    /// "11 rate outside 8,000 to 192,000"
    Rate = 11,
    /// "12 note above 127"
    Note = 12,
    /// "13 L outside 1 to 2,048"
    NoteLength = 13,
    /// "14 the bytes end early"
    BytesEnd = 14,
    /// "15 bit 5 or 6 without 4, or bit 7 without 1 or 2"
    BitMap = 15,
    /// "16 the wait doesn't fit the output left"
    Wait = 16,
    /// Document 02: "17 rate outside 8,000 to 192,000"
    RecordingRate = 17,
    /// Document 02: "18 more than 1,000,000 samples, or a lent slice too short"
    Room = 18,
    /// Document 02: "19 a file with other header values ..."
    FileForm = 19,
    /// Document 02: "20 commit before Na samples were taken"
    CommitEarly = 20,
    /// Document 02: "21 commit or withdraw with nothing asked"
    NothingAsked = 21,
    /// Document 02: "22 bytes missing or left over"
    StoredLength = 22,
    /// Document 02: "23 a part outside its limits or not in this form"
    StoredPart = 23,
    /// Document 02: "24 string number above 5"
    String = 24,
    /// Document 02: "25 an area outside its limits"
    Area = 25,
    /// Document 02: "26 not a number or infinite"
    NotFinite = 26,
    /// Document 02: "27 a sample outside −1 to 1 or a loss outside 0 to 1"
    FloatRange = 27,
    /// Document 02: "28 the first 8 bytes differ"
    Headers = 28,
    /// Document 02: "29 a score that does not end alone"
    Alone = 29,
    /// Document 02: "30 a merge that ... does not play to its end, or that is longer than the lent bytes"
    Merge = 30,
    /// The least advance: "where none does, it says so by a number of its own"
    NoAdvance = 32,
}

/// What a call answers besides its values.
pub type Answer = Result<(), Refusal>;

/// "it gives a number (0 for success)".
pub fn number<T>(answer: &Result<T, Refusal>) -> u32 {
    match answer {
        Ok(_) => 0,
        Err(refusal) => *refusal as u32,
    }
}

/// `Ok` where the condition holds, the refusal where it does not.
pub fn require(condition: bool, refusal: Refusal) -> Answer {
    if condition {
        Ok(())
    } else {
        Err(refusal)
    }
}
