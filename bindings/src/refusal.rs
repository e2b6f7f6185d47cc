//! The table "When it says no" of document 01.

use core::error::Error;
use core::fmt;

/// Why a call was refused: the first row of document 01's table that applied. A refused call has changed nothing.
///
/// It prints as its number and the document's words:
///
/// ```
/// use sqimrutta::Refusal;
///
/// assert_eq!(Refusal::ValueTooLong.to_string(), "refusal 7: value over 24 bytes");
/// ```
///
/// Requests that land later bring further rows, so a `match` needs an arm for those.
#[derive(Clone, Copy, PartialEq, Eq, PartialOrd, Ord, Hash, Debug)]
#[non_exhaustive]
pub enum Refusal {
    /// 1: a lent buffer has the wrong length.
    WrongLength,
    /// 2: the image is not one that the library left: damaged, or of something else.
    ImageNotGood,
    /// 3: a message block's check is wrong: damaged on its way.
    WrongCheck,
    /// 4: the message is not laid out as it should be, or names what there is not.
    IllFormed,
    /// 5: an argument outside its range, or a job not held here or not by the sender.
    OutOfRange,
    /// 6: the sender or the asked party is not another peer, or the message is for another.
    NotPeer,
    /// 7: a value over 24 bytes.
    ValueTooLong,
    /// 8: the given context is above the present reading's in some entry.
    ContextAhead,
    /// 9: the message knows of own writes that this image does not: the image is an old copy of itself, and must not go on.
    HistoryLost,
    /// 10: a write in the message is stored here with other contents, or for another point.
    DotClash,
    /// 11: too many writes are missing before the one that came: ask its sender.
    RowTooFar,
    /// 12: a point would have more than 8 versions. Let the user see the present reading, whose context covers all of them.
    TooManyVersions,
    /// 13: more than 64 stored points. Delete some that are not needed.
    TooManyPoints,
    /// 14: 60 own writes are not known to all peers yet: repair first.
    OwnListFull,
    /// 15: the own counter is at its end, 4,294,967,295.
    CountersUsedUp,
    /// An answer that the table does not have. The library is proved to give none, so another library was linked: one with more rows than this crate
    /// knows. The call was refused.
    Unknown(u32),
}

impl Refusal {
    /// The rows of the table, in its order, which is also the order of the checks.
    ///
    /// ```
    /// use sqimrutta::Refusal;
    ///
    /// assert_eq!(Refusal::ALL.len(), 15);
    /// assert!(Refusal::ALL.is_sorted());
    /// ```
    pub const ALL: [Refusal; 15] = [
        Refusal::WrongLength,
        Refusal::ImageNotGood,
        Refusal::WrongCheck,
        Refusal::IllFormed,
        Refusal::OutOfRange,
        Refusal::NotPeer,
        Refusal::ValueTooLong,
        Refusal::ContextAhead,
        Refusal::HistoryLost,
        Refusal::DotClash,
        Refusal::RowTooFar,
        Refusal::TooManyVersions,
        Refusal::TooManyPoints,
        Refusal::OwnListFull,
        Refusal::CountersUsedUp,
    ];

    /// The refusal of this number; none where the table has no such row, so for 0, too, which is "accepted".
    ///
    /// ```
    /// use sqimrutta::Refusal;
    ///
    /// assert_eq!(Refusal::from_number(14), Some(Refusal::OwnListFull));
    /// assert_eq!(Refusal::from_number(0), None);
    /// assert_eq!(Refusal::from_number(16), None);
    /// ```
    pub fn from_number(number: u32) -> Option<Refusal> {
        Refusal::ALL.into_iter().find(|refusal| refusal.number() == number)
    }

    /// The table's number.
    ///
    /// ```
    /// use sqimrutta::Refusal;
    ///
    /// assert_eq!(Refusal::WrongLength.number(), 1);
    /// assert_eq!(Refusal::CountersUsedUp.number(), 15);
    /// ```
    pub fn number(self) -> u32 {
        match self {
            Refusal::WrongLength => 1,
            Refusal::ImageNotGood => 2,
            Refusal::WrongCheck => 3,
            Refusal::IllFormed => 4,
            Refusal::OutOfRange => 5,
            Refusal::NotPeer => 6,
            Refusal::ValueTooLong => 7,
            Refusal::ContextAhead => 8,
            Refusal::HistoryLost => 9,
            Refusal::DotClash => 10,
            Refusal::RowTooFar => 11,
            Refusal::TooManyVersions => 12,
            Refusal::TooManyPoints => 13,
            Refusal::OwnListFull => 14,
            Refusal::CountersUsedUp => 15,
            Refusal::Unknown(number) => number,
        }
    }

    /// The words of document 01's table.
    ///
    /// ```
    /// use sqimrutta::Refusal;
    ///
    /// assert_eq!(Refusal::OwnListFull.words(), "60 own dots listed already");
    /// ```
    pub fn words(self) -> &'static str {
        match self {
            Refusal::WrongLength => "a lent buffer has the wrong length",
            Refusal::ImageNotGood => "image not good",
            Refusal::WrongCheck => "a message block's check is wrong",
            Refusal::IllFormed => {
                "message ill-formed: kind, format, position, order, ranges, padding, number of points against length, a dot twice, \
                 a non-holder named in a dot or context, a row for a controller in no job, a sender's own row with bits, \
                 a version not covered by its (filled) context"
            }
            Refusal::OutOfRange => {
                "an argument outside its range; a job (argument's or message's) not held here or not by the sender"
            }
            Refusal::NotPeer => "sender or asked party not another peer, or addressee not us",
            Refusal::ValueTooLong => "value over 24 bytes",
            Refusal::ContextAhead => "given context above the present reading's in any entry",
            Refusal::HistoryLost => {
                "message names, in a dot, context or clock row, an own counter above our base: our history is lost"
            }
            Refusal::DotClash => {
                "a version's dot in the message is stored here with other contents, or stored or listed here for another point"
            }
            Refusal::RowTooFar => "after the step a row would need a counter above base + 64",
            Refusal::TooManyVersions => "more than 8 versions",
            Refusal::TooManyPoints => "more than 64 stored points",
            Refusal::OwnListFull => "60 own dots listed already",
            Refusal::CountersUsedUp => "own base is 4,294,967,295",
            Refusal::Unknown(_) => "not in the table that this crate knows",
        }
    }
}

impl fmt::Display for Refusal {
    fn fmt(&self, f: &mut fmt::Formatter<'_>) -> fmt::Result {
        write!(f, "refusal {}: {}", self.number(), self.words())
    }
}

impl Error for Refusal {}

#[cfg(test)]
mod tests {
    use super::*;

    #[test]
    fn every_number_comes_back() {
        for (number, refusal) in (1..).zip(Refusal::ALL) {
            assert_eq!(refusal.number(), number);
            assert_eq!(Refusal::from_number(number), Some(refusal));
        }
    }

    #[test]
    fn no_other_number_is_in_the_table() {
        for number in [0, 16, 17, 255, 256, u32::MAX] {
            assert_eq!(Refusal::from_number(number), None);
            assert_eq!(Refusal::Unknown(number).number(), number);
        }
    }

    #[test]
    fn it_can_be_handed_on_as_an_error() {
        let error: std::boxed::Box<dyn std::error::Error> = Refusal::WrongCheck.into();
        assert_eq!(std::format!("{error}"), "refusal 3: a message block's check is wrong");
    }
}
