//! Counter mode of NIST SP 800-38A over GIFT-128, fed in pieces.

use core::fmt;
use core::mem::offset_of;

use crate::{calls, wipe::wipe, Refusal, BY_TYPE};

/// What is kept between pieces, as include/gift_host.h has it. Each position of a stream has one such state.
#[derive(Clone, Copy, PartialEq, Eq)]
#[repr(C)]
pub struct Stream {
    /// The round words.
    pub words: [u32; 80],
    /// The caller's 12 bytes, which stay.
    pub nonce: [u8; 12],
    /// The next counter; 0 once the last one is used.
    pub counter: u32,
    /// The block of the key stream that was made last; zero if it is used up.
    pub block: [u8; 16],
    /// How many of its bytes, the last ones, are not used yet: 0 to 15. More is refused with 10.
    pub unused: u32,
    /// 0 while there is a counter left.
    pub spent: u32,
}

const _: () = assert!(size_of::<Stream>() == 360 && align_of::<Stream>() == 4);
const _: () = assert!(offset_of!(Stream, words) == 0 && offset_of!(Stream, nonce) == 320);
const _: () = assert!(offset_of!(Stream, counter) == 332 && offset_of!(Stream, block) == 336);
const _: () = assert!(offset_of!(Stream, unused) == 352 && offset_of!(Stream, spent) == 356);

impl Stream {
    /// All zero.
    const BLANK: Stream = Stream {
        words: [0; 80],
        nonce: [0; 12],
        counter: 0,
        block: [0; 16],
        unused: 0,
        spent: 0,
    };
}

/// Tells neither round words nor key stream.
impl fmt::Debug for Stream {
    fn fmt(&self, f: &mut fmt::Formatter<'_>) -> fmt::Result {
        f.write_str("Stream { ... }")
    }
}

/// A message encrypted, or decrypted, as it comes. The same key and the same 12 bytes must not meet the same counter twice.
#[derive(Clone, PartialEq, Eq)]
pub struct Counter {
    stream: Stream,
}

impl Counter {
    /// Bytes of the caller's in a counter block.
    pub const NONCE_SIZE: usize = 12;

    /// A message by a key, from the first counter on.
    pub fn new(key: &[u8; 16], nonce: &[u8; 12], first: u32) -> Counter {
        Counter::new_from_slices(key, nonce, first).expect(BY_TYPE)
    }

    /// The same where lengths are still to be seen. Refusals: 1, 2.
    pub fn new_from_slices(key: &[u8], nonce: &[u8], first: u32) -> Result<Counter, Refusal> {
        Ok(Counter {
            stream: calls::stream_start(key, nonce, first)?,
        })
    }

    /// More of the message, of any length, to an output of the same length. Refusals: 3, 12, and then nothing has changed.
    pub fn apply(&mut self, input: &[u8], output: &mut [u8]) -> Result<(), Refusal> {
        calls::stream_piece(&mut self.stream, input, output)
    }

    /// Whether the last counter is used. What is unused of its block is still served.
    pub fn is_spent(&self) -> bool {
        self.stream.spent != 0
    }
}

/// Does not tell the stream.
impl fmt::Debug for Counter {
    fn fmt(&self, f: &mut fmt::Formatter<'_>) -> fmt::Result {
        f.write_str("Counter { ... }")
    }
}

/// The whole stream is wiped: round words, key stream and all.
impl Drop for Counter {
    fn drop(&mut self) {
        wipe(&mut self.stream, Stream::BLANK);
    }
}
