//! The table "When it says no".

/// Why a call is refused. The order of the cases is the order of the checks.
#[derive(Clone, Copy, PartialEq, Eq, PartialOrd, Ord, Debug, Hash)]
pub enum Refusal {
    /// 1: a lent buffer has the wrong length.
    WrongLength,
    /// 2: image not good.
    ImageNotGood,
    /// 3: a message block's check is wrong.
    WrongCheck,
    /// 4: message ill-formed.
    IllFormed,
    /// 5: an argument outside its range; a job not held here or not by the sender.
    OutOfRange,
    /// 6: sender or asked party not another peer, or addressee not us.
    NotAnotherPeer,
    /// 7: value over 24 bytes.
    ValueTooLong,
    /// 8: given context above the present reading's in any entry.
    ContextAhead,
    /// 9: message names an own counter above our base: our history is lost.
    HistoryLost,
    /// 10: a version's dot is stored here with other contents, or stored or listed here for another point.
    DotClash,
    /// 11: after the step a row would need a counter above base + 64.
    RowTooWide,
    /// 12: more than 8 versions.
    TooManyVersions,
    /// 13: more than 64 stored points.
    TooManyPoints,
    /// 14: 60 own dots listed already.
    OwnListFull,
    /// 15: own base is 4,294,967,295.
    CountersUsedUp,
}

impl Refusal {
    /// All of them, in the order of the checks.
    pub const ALL: [Refusal; 15] = [
        Refusal::WrongLength,
        Refusal::ImageNotGood,
        Refusal::WrongCheck,
        Refusal::IllFormed,
        Refusal::OutOfRange,
        Refusal::NotAnotherPeer,
        Refusal::ValueTooLong,
        Refusal::ContextAhead,
        Refusal::HistoryLost,
        Refusal::DotClash,
        Refusal::RowTooWide,
        Refusal::TooManyVersions,
        Refusal::TooManyPoints,
        Refusal::OwnListFull,
        Refusal::CountersUsedUp,
    ];

    /// The table's number, 1..15.
    pub fn number(self) -> u32 {
        self as u32 + 1
    }
}

/// A check of the table: refuse unless the condition holds.
pub fn demand(holds: bool, otherwise: Refusal) -> Result<(), Refusal> {
    if holds {
        Ok(())
    } else {
        Err(otherwise)
    }
}
