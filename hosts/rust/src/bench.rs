//! The bench: lanes that take turns, a few rounds at a time.

use core::fmt;
use core::mem::offset_of;
use core::num::NonZeroU16;

use crate::{calls, wipe::wipe, Refusal};

/// How many lanes a bench has.
const LANES: usize = 16;

/// What a lane is opened for.
#[derive(Clone, Copy, Debug, PartialEq, Eq, Hash)]
#[repr(u8)]
pub enum Direction {
    /// 0
    Encrypt = 0,
    /// 1
    Decrypt = 1,
}

/// How the sixteen bytes of a block are seen as its 128 bits, and these as bytes again. The rounds and the key are the same in both.
#[derive(Clone, Copy, Debug, Default, PartialEq, Eq, Hash)]
#[repr(u8)]
pub enum Order {
    /// 0: one number, the first byte the most significant, as in the GIFT paper. It is what every call does that names no order.
    #[default]
    Number = 0,
    /// 1: four words, word j of bytes 4j to 4j+3, the most significant first, as in GIFT-COFB.
    Words = 1,
}

/// A guest's number, from 1 to 65535: the lanes that are opened with it are that guest's.
#[derive(Clone, Copy, Debug, PartialEq, Eq, PartialOrd, Ord, Hash)]
pub struct Owner(NonZeroU16);

impl Owner {
    /// The guest of this number; 0 is nobody's.
    pub const fn new(number: u16) -> Option<Owner> {
        match NonZeroU16::new(number) {
            Some(number) => Some(Owner(number)),
            None => None,
        }
    }

    /// Its number.
    pub const fn number(self) -> u16 {
        self.0.get()
    }
}

/// A block's four words: bit i of word j is bit 4i+j of the block.
#[derive(Clone, Copy, Default, PartialEq, Eq)]
#[repr(C)]
#[allow(missing_docs)]
pub struct State {
    pub s0: u32,
    pub s1: u32,
    pub s2: u32,
    pub s3: u32,
}

/// One lane's record. It is sound if it is all zero, which is idle, or if its owner is not 0, its direction and its order are 0 or 1 and it is running with
/// count 0 to 7 or finished with count 8.
#[derive(Clone, Copy, PartialEq, Eq)]
#[repr(C)]
pub struct Lane {
    /// [`Lane::IDLE`], [`Lane::RUNNING`] or [`Lane::FINISHED`].
    pub phase: u8,
    /// 0 encrypts, 1 decrypts.
    pub direction: u8,
    /// The number of the guest that opened it; 0 while it is idle.
    pub owner: u16,
    /// Its own turns since it was opened, and in its upper half the number of its order, which is 0 in a lane of [`Order::Number`]: [`Lane::turns`] and
    /// [`Lane::order`] tell the two apart. (In C they are two members of 16 bits.)
    pub count: u32,
    /// Its round words. They are zero after a take or a close.
    pub words: [u32; 80],
    /// Its block, as far as it has come.
    pub state: State,
}

// As include/gift_host.h has it.
const _: () = assert!(size_of::<State>() == 16);
const _: () = assert!(size_of::<Lane>() == 344 && align_of::<Lane>() == 4);
const _: () = assert!(
    offset_of!(Lane, phase) == 0
        && offset_of!(Lane, direction) == 1
        && offset_of!(Lane, owner) == 2
        && offset_of!(Lane, count) == 4
);
const _: () = assert!(offset_of!(Lane, words) == 8 && offset_of!(Lane, state) == 328);
// The turns are the lower half of a lane's count, and lie before the order.
const _: () = assert!(cfg!(target_endian = "little"));

impl Lane {
    /// The phase of a lane that can be opened.
    pub const IDLE: u8 = 0;
    /// The phase of a lane that takes turns.
    pub const RUNNING: u8 = 1;
    /// The phase of a lane whose block can be taken.
    pub const FINISHED: u8 = 2;

    /// A lane of a fresh bench: idle, and all zero.
    pub const FRESH: Lane = Lane {
        phase: Lane::IDLE,
        direction: 0,
        owner: 0,
        count: 0,
        words: [0; 80],
        state: State {
            s0: 0,
            s1: 0,
            s2: 0,
            s3: 0,
        },
    };

    /// Its own turns since it was opened.
    pub const fn turns(&self) -> u16 {
        self.count as u16
    }

    /// The number of its order, by which a take writes its block: 0 or 1 in a sound record.
    pub const fn order(&self) -> u16 {
        (self.count >> 16) as u16
    }
}

/// Tells neither round words nor state.
impl fmt::Debug for Lane {
    fn fmt(&self, f: &mut fmt::Formatter<'_>) -> fmt::Result {
        let mut told = f.debug_struct("Lane");
        told.field("phase", &self.phase)
            .field("direction", &self.direction)
            .field("owner", &self.owner)
            .field("count", &self.turns());
        if self.order() != 0 {
            told.field("order", &self.order());
        }
        told.finish_non_exhaustive()
    }
}

/// [`Bench::LANES`] lanes, and the number of the one last served.
///
/// A lane belongs to the guest that opened it: any other's take or close of it is refused with 11 until it is idle again, and a guest learns no byte of
/// another's key or block. (That a guest passes its own number is the host's affair.) An opened lane that its owner does not close is finished no later than
/// the 128th turn made after its opening, whatever the other lanes do. On a refusal the bench is as it was.
#[derive(Clone, Debug, PartialEq, Eq)]
pub struct Bench {
    lanes: [Lane; LANES],
    last: u32,
}

impl Default for Bench {
    fn default() -> Bench {
        Bench::new()
    }
}

impl Bench {
    /// How many lanes a bench has.
    pub const LANES: u32 = LANES as u32;
    /// The most turns that one call may ask for.
    pub const MOST_TURNS: u32 = 1024;
    /// A lane's own turns from its opening until it is finished, each of five rounds.
    pub const TURNS_OF_A_LANE: u32 = 8;

    /// A fresh bench: every lane is idle, and the first turn looks at lane 0 first.
    pub const fn new() -> Bench {
        Bench {
            lanes: [Lane::FRESH; LANES],
            last: Bench::LANES - 1,
        }
    }

    /// A bench of records from elsewhere. Sound ones are served with the words that they hold; where one is not sound, or `last` is no lane's number, every
    /// call answers [`Refusal::BadBench`].
    pub const fn from_records(lanes: [Lane; LANES], last: u32) -> Bench {
        Bench { lanes, last }
    }

    /// The records.
    pub const fn records(&self) -> &[Lane; LANES] {
        &self.lanes
    }

    /// The number of the lane last served.
    pub const fn last_served(&self) -> u32 {
        self.last
    }

    /// Opens an idle lane for a guest on a key and a block, which are not needed afterwards. Refusals: 10, 5, 6, 1, 2.
    pub fn open(
        &mut self,
        lane: u32,
        owner: Owner,
        direction: Direction,
        key: &[u8],
        block: &[u8],
    ) -> Result<(), Refusal> {
        self.open_in(Order::Number, lane, owner, direction, key, block)
    }

    /// The same, the block read in an order, in which a take writes it too.
    pub fn open_in(
        &mut self,
        order: Order,
        lane: u32,
        owner: Owner,
        direction: Direction,
        key: &[u8],
        block: &[u8],
    ) -> Result<(), Refusal> {
        calls::open_lane_in(
            order as u32,
            &mut self.lanes,
            self.last,
            lane,
            owner.number(),
            direction as u32,
            key,
            block,
        )
    }

    /// Makes as many turns as are asked for, or fewer if no lane runs any more, and tells how many were made. Each serves the first running lane
    /// after the last served one, in cyclic order. Refusals: 10, 8.
    pub fn turn(&mut self, asked: u32) -> Result<u32, Refusal> {
        let turns = calls::turn(&mut self.lanes, self.last, asked)?;
        self.last = turns.last;
        Ok(turns.made)
    }

    /// Takes the block of its owner's finished lane, whose record is all zero afterwards. Refusals: 10, 5, 11, 7.
    pub fn take(&mut self, lane: u32, owner: Owner) -> Result<[u8; 16], Refusal> {
        let mut block = [0; 16];
        self.take_into(lane, owner, &mut block)?;
        Ok(block)
    }

    /// The same into a buffer of the caller's. Refusals: 10, 5, 11, 7, 2.
    pub fn take_into(&mut self, lane: u32, owner: Owner, out: &mut [u8]) -> Result<(), Refusal> {
        calls::take(&mut self.lanes, self.last, lane, owner.number(), out)
    }

    /// Makes its owner's lane idle, all zero, however far it has come; an idle lane may be closed by anyone. Refusals: 10, 5, 11.
    pub fn close(&mut self, lane: u32, owner: Owner) -> Result<(), Refusal> {
        calls::close(&mut self.lanes, self.last, lane, owner.number())
    }
}

/// Every lane's record is wiped, as a close leaves it.
impl Drop for Bench {
    fn drop(&mut self) {
        for lane in &mut self.lanes {
            wipe(lane, Lane::FRESH);
        }
    }
}
