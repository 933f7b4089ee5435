//! The refusals, by name and by number.

use core::fmt;

/// Why a call was refused. What was lent to it is as it was before.
#[derive(Clone, Copy, Debug, PartialEq, Eq, Hash)]
#[repr(u32)]
pub enum Refusal {
    /// 1: the key is not of 16 bytes.
    BadKeyLength = 1,
    /// 2: a block, take buffer or tag is not of 16 bytes, or a nonce not of 12; many blocks: the input's length is not a multiple of 16. In GIFT-64, 8 for 16.
    BadBlockLength = 2,
    /// 3: the output is not as long as the input.
    BadOutputLength = 3,
    /// 4: the round words, or the numbers of pairs, are not 80.
    BadWordCount = 4,
    /// 5: a lane number above 15.
    BadLane = 5,
    /// 6: opening a lane that is not idle.
    LaneNotIdle = 6,
    /// 7: taking from a lane that is not finished.
    LaneNotFinished = 7,
    /// 8: more than 1,024 turns asked.
    TooManyTurns = 8,
    /// 9: a direction that is neither 0 nor 1.
    BadDirection = 9,
    /// 10: not sixteen records, last served above 15, or a record that is not sound; or a [`crate::MacState`] that claims more than 16 held bytes, or a [`crate::Stream`] more than 15 unused ones.
    BadBench = 10,
    /// 11: opening with owner 0; taking from or closing a busy lane with another number than its owner's.
    NotTheOwner = 11,
    /// 12: a piece needs more counters than the stream has left.
    TooFewCounters = 12,
    /// 13: an order that is neither 0 nor 1.
    BadOrder = 13,
    /// 20: a bundle under 24 bytes, over 65,536, or with a total length that is not the buffer's.
    BadBundleLength = 20,
    /// 21: a bundle's tag is not the CMAC of all before it.
    BadTag = 21,
    /// 22: a bundle breaks the layout.
    Malformed = 22,
    /// 23: a bundle has a setting that must be known, of a kind that the reader does not know.
    MustKnow = 23,
    /// 24: rows and pool are no list of settings of the writer's edition that one bundle can hold.
    BadList = 24,
    /// 25: the output is shorter than the bundle.
    ShortOutput = 25,
}

impl Refusal {
    /// All of them, in the order of their numbers.
    pub const ALL: [Refusal; 19] = [
        Refusal::BadKeyLength,
        Refusal::BadBlockLength,
        Refusal::BadOutputLength,
        Refusal::BadWordCount,
        Refusal::BadLane,
        Refusal::LaneNotIdle,
        Refusal::LaneNotFinished,
        Refusal::TooManyTurns,
        Refusal::BadDirection,
        Refusal::BadBench,
        Refusal::NotTheOwner,
        Refusal::TooFewCounters,
        Refusal::BadOrder,
        Refusal::BadBundleLength,
        Refusal::BadTag,
        Refusal::Malformed,
        Refusal::MustKnow,
        Refusal::BadList,
        Refusal::ShortOutput,
    ];

    /// Its number, 1 to 13 or 20 to 25.
    pub const fn number(self) -> u32 {
        self as u32
    }
}

impl From<Refusal> for u32 {
    fn from(refusal: Refusal) -> u32 {
        refusal.number()
    }
}

/// Of a number that is no refusal's, the number itself is given back.
impl TryFrom<u32> for Refusal {
    type Error = u32;

    fn try_from(number: u32) -> Result<Refusal, u32> {
        Refusal::ALL
            .into_iter()
            .find(|r| r.number() == number)
            .ok_or(number)
    }
}

impl fmt::Display for Refusal {
    fn fmt(&self, f: &mut fmt::Formatter<'_>) -> fmt::Result {
        f.write_str(match self {
            Refusal::BadKeyLength => "the key is not of 16 bytes",
            Refusal::BadBlockLength => "a block is not of 16 bytes",
            Refusal::BadOutputLength => "the output is not as long as the input",
            Refusal::BadWordCount => "the round words, or the numbers of pairs, are not 80",
            Refusal::BadLane => "there is no lane of this number",
            Refusal::LaneNotIdle => "the lane is not idle",
            Refusal::LaneNotFinished => "the lane is not finished",
            Refusal::TooManyTurns => "more than 1,024 turns are asked",
            Refusal::BadDirection => "the direction is neither 0 nor 1",
            Refusal::BadBench => "the bench is not sound",
            Refusal::NotTheOwner => "the lane is another's",
            Refusal::TooFewCounters => "the stream has too few counters left",
            Refusal::BadOrder => "the order is neither 0 nor 1",
            Refusal::BadBundleLength => "the bundle has another length than it says, or than a bundle has",
            Refusal::BadTag => "the bundle's tag is not right",
            Refusal::Malformed => "the bundle breaks the layout",
            Refusal::MustKnow => "the bundle has a setting that must be known and is not",
            Refusal::BadList => "these settings are no list that a bundle can hold",
            Refusal::ShortOutput => "the output is shorter than the bundle",
        })
    }
}

impl core::error::Error for Refusal {}
