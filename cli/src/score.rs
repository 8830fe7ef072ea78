//! Scores: the header and the records. `bytes` has the bytes that they are.

use crate::tuning::Tuning;

#[derive(Clone, Copy, Debug, Default, PartialEq, Eq)]
pub struct Header {
    pub order: u8,
    pub advance: u8,
    pub tuning: Tuning,
    pub loss: u16,
}

/// A change of the tuning; at least one of length and delay is there.
#[derive(Clone, Copy, Debug, Default, PartialEq, Eq)]
pub struct Change {
    pub length: Option<u16>,
    pub delay: Option<u16>,
    pub instant: bool,
}

#[derive(Clone, Copy, Debug, Default, PartialEq, Eq)]
pub struct Pluck {
    pub amplitude: u16,
    pub count: Option<u16>,
    pub seed: Option<u16>,
}

#[derive(Clone, Copy, Debug, Default, PartialEq, Eq)]
pub struct Record {
    pub wait: Option<u16>,
    pub loss: Option<u16>,
    pub change: Option<Change>,
    pub pluck: Option<Pluck>,
}

#[derive(Clone, Debug, Default, PartialEq, Eq)]
pub struct Score {
    pub header: Header,
    pub records: Vec<Record>,
}
