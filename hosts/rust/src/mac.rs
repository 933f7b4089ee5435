//! CMAC of NIST SP 800-38B over GIFT-128, whole or fed in pieces.

use core::fmt;
use core::mem::offset_of;

use crate::{calls, wipe::wipe, Refusal, BY_TYPE};

/// What is kept between pieces, as include/gift_host.h has it.
#[derive(Clone, Copy, PartialEq, Eq)]
#[repr(C)]
pub struct MacState {
    /// The round words.
    pub words: [u32; 80],
    /// The chaining block.
    pub chain: [u8; 16],
    /// Bytes held back, a full block too until more comes.
    pub held: [u8; 16],
    /// How many are held, 0 to 16; bytes past them do not count. More is refused with 10.
    pub count: u32,
}

const _: () = assert!(size_of::<MacState>() == 356 && align_of::<MacState>() == 4);
const _: () = assert!(offset_of!(MacState, words) == 0 && offset_of!(MacState, chain) == 320);
const _: () = assert!(offset_of!(MacState, held) == 336 && offset_of!(MacState, count) == 352);

impl MacState {
    /// All zero.
    const BLANK: MacState = MacState {
        words: [0; 80],
        chain: [0; 16],
        held: [0; 16],
        count: 0,
    };
}

/// Does not tell the round words.
impl fmt::Debug for MacState {
    fn fmt(&self, f: &mut fmt::Formatter<'_>) -> fmt::Result {
        f.write_str("MacState { ... }")
    }
}

/// A message authenticated as it comes.
#[derive(Clone)]
pub struct Mac {
    state: MacState,
}

impl Mac {
    /// Bytes of a tag.
    pub const TAG_SIZE: usize = 16;

    /// A message by a key, empty so far.
    pub fn new(key: &[u8; 16]) -> Mac {
        Mac::new_from_slice(key).expect(BY_TYPE)
    }

    /// The same by a key whose length is still to be seen. Refusal: 1.
    pub fn new_from_slice(key: &[u8]) -> Result<Mac, Refusal> {
        Ok(Mac {
            state: calls::mac_start(key)?,
        })
    }

    /// More of the message, of any length.
    pub fn update(&mut self, piece: &[u8]) {
        calls::mac_piece(&mut self.state, piece).expect(BY_TYPE)
    }

    /// The tag of the message so far. It ends nothing.
    pub fn finish(&self) -> [u8; 16] {
        let mut tag = [0; 16];
        calls::mac_tag(&self.state, &mut tag).expect(BY_TYPE);
        tag
    }

    /// Whether a tag is that of the message so far, all 16 bytes of it. Refusal: 2. (The comparison is this crate's; that of a whole message,
    /// [`calls::mac_check`], is the library's.)
    pub fn verify(&self, tag: &[u8]) -> Result<bool, Refusal> {
        if tag.len() != Mac::TAG_SIZE {
            return Err(Refusal::BadBlockLength);
        }
        let own = self.finish();
        Ok(own.iter().zip(tag).fold(0, |bits, (a, b)| bits | (a ^ b)) == 0)
    }
}

/// Does not tell the state.
impl fmt::Debug for Mac {
    fn fmt(&self, f: &mut fmt::Formatter<'_>) -> fmt::Result {
        f.write_str("Mac { ... }")
    }
}

/// The whole state is wiped.
impl Drop for Mac {
    fn drop(&mut self) {
        wipe(&mut self.state, MacState::BLANK);
    }
}
