//! The library's functions, each over slices and plain numbers: all that can be refused is. The only unsafe code of the crate.
//!
//! What include/gift_host.h asks of a host is what references already are: not null, aligned, as long as they say, everything in them given a
//! value, and a `&mut` alone in reaching what it reaches. So each call is safe.
#![allow(unsafe_code)]

pub mod bundles;

use core::sync::atomic::{AtomicBool, Ordering};

use crate::bench::{Lane, Order};
use crate::counter::Stream;
use crate::mac::MacState;
use crate::Refusal;

/// What a call for turns tells.
#[derive(Clone, Copy, Debug, PartialEq, Eq)]
pub struct Turns {
    /// How many turns were made.
    pub made: u32,
    /// The last served number from now on; the one passed, if no turn was made.
    pub last: u32,
}

#[repr(C)]
struct Told {
    code: u32,
    made: u32,
    last: u32,
}

#[repr(C)]
struct MacTold {
    code: u32,
    state: MacState,
}

#[repr(C)]
struct MacChecked {
    code: u32,
    yes: u8,
}

#[repr(C)]
struct StreamStarted {
    code: u32,
    stream: Stream,
}

const _: () = assert!(size_of::<Told>() == 12);
const _: () = assert!(size_of::<MacTold>() == 360 && size_of::<MacChecked>() == 8);
const _: () = assert!(size_of::<StreamStarted>() == 364);

extern "C" {
    fn gift_host_edition() -> u32;
    fn gift_encrypt_by_key(
        order: u32,
        key: *const u8,
        key_len: usize,
        block: *mut u8,
        block_len: usize,
    ) -> u32;
    fn gift_decrypt_by_key(
        order: u32,
        key: *const u8,
        key_len: usize,
        block: *mut u8,
        block_len: usize,
    ) -> u32;
    fn gift_plain_encrypt_by_key(
        key: *const u8,
        key_len: usize,
        block: *mut u8,
        block_len: usize,
    ) -> u32;
    fn gift_plain_decrypt_by_key(
        key: *const u8,
        key_len: usize,
        block: *mut u8,
        block_len: usize,
    ) -> u32;
    fn gift_encrypt_by_words(
        order: u32,
        words: *const u32,
        words_len: usize,
        block: *mut u8,
        block_len: usize,
    ) -> u32;
    fn gift_decrypt_by_words(
        order: u32,
        words: *const u32,
        words_len: usize,
        block: *mut u8,
        block_len: usize,
    ) -> u32;
    fn gift_expand(key: *const u8, key_len: usize, words: *mut u32, words_len: usize) -> u32;
    fn gift_pairs(words: *const u32, words_len: usize, pairs: *mut u32, pairs_len: usize) -> u32;
    fn gift_words(pairs: *const u32, pairs_len: usize, words: *mut u32, words_len: usize) -> u32;
    fn gift_encrypt_blocks(
        order: u32,
        key: *const u8,
        key_len: usize,
        input: *const u8,
        input_len: usize,
        output: *mut u8,
        output_len: usize,
    ) -> u32;
    fn gift_decrypt_blocks(
        order: u32,
        key: *const u8,
        key_len: usize,
        input: *const u8,
        input_len: usize,
        output: *mut u8,
        output_len: usize,
    ) -> u32;
    fn gift_encrypt_blocks_by_words(
        order: u32,
        words: *const u32,
        words_len: usize,
        input: *const u8,
        input_len: usize,
        output: *mut u8,
        output_len: usize,
    ) -> u32;
    fn gift_decrypt_blocks_by_words(
        order: u32,
        words: *const u32,
        words_len: usize,
        input: *const u8,
        input_len: usize,
        output: *mut u8,
        output_len: usize,
    ) -> u32;
    fn gift_open_lane(
        lanes: *mut Lane,
        lanes_len: usize,
        last: u32,
        lane: u32,
        owner: u16,
        direction: u32,
        order: u32,
        key: *const u8,
        key_len: usize,
        block: *const u8,
        block_len: usize,
    ) -> u32;
    fn gift_turn(lanes: *mut Lane, lanes_len: usize, last: u32, asked: u32) -> Told;
    fn gift_take(
        lanes: *mut Lane,
        lanes_len: usize,
        last: u32,
        lane: u32,
        owner: u16,
        out: *mut u8,
        out_len: usize,
    ) -> u32;
    fn gift_close(lanes: *mut Lane, lanes_len: usize, last: u32, lane: u32, owner: u16) -> u32;
    fn gift_mac(
        key: *const u8,
        key_len: usize,
        message: *const u8,
        message_len: usize,
        tag: *mut u8,
        tag_len: usize,
    ) -> u32;
    fn gift_mac_check(
        key: *const u8,
        key_len: usize,
        message: *const u8,
        message_len: usize,
        tag: *const u8,
        tag_len: usize,
    ) -> MacChecked;
    fn gift_mac_start(key: *const u8, key_len: usize) -> MacTold;
    fn gift_mac_piece(state: MacState, piece: *const u8, piece_len: usize) -> MacTold;
    fn gift_mac_tag(state: MacState, tag: *mut u8, tag_len: usize) -> u32;
    fn gift_stream_start(
        key: *const u8,
        key_len: usize,
        nonce: *const u8,
        nonce_len: usize,
        counter: u32,
    ) -> StreamStarted;
    fn gift_stream_piece(
        stream: *mut Stream,
        input: *const u8,
        input_len: usize,
        output: *mut u8,
        output_len: usize,
    ) -> u32;
    fn gift64_encrypt_by_key(
        key: *const u8,
        key_len: usize,
        block: *mut u8,
        block_len: usize,
    ) -> u32;
    fn gift64_decrypt_by_key(
        key: *const u8,
        key_len: usize,
        block: *mut u8,
        block_len: usize,
    ) -> u32;
    fn gift64_plain_encrypt_by_key(
        key: *const u8,
        key_len: usize,
        block: *mut u8,
        block_len: usize,
    ) -> u32;
    fn gift64_plain_decrypt_by_key(
        key: *const u8,
        key_len: usize,
        block: *mut u8,
        block_len: usize,
    ) -> u32;
    fn gift64_encrypt_blocks(
        key: *const u8,
        key_len: usize,
        input: *const u8,
        input_len: usize,
        output: *mut u8,
        output_len: usize,
    ) -> u32;
    fn gift64_decrypt_blocks(
        key: *const u8,
        key_len: usize,
        input: *const u8,
        input_len: usize,
        output: *mut u8,
        output_len: usize,
    ) -> u32;
}

/// The order of every call that names none.
const NUMBER: u32 = Order::Number as u32;

/// The edition of the library that this crate declares, as GIFT_HOST_EDITION of include/gift_host.h.
pub const EDITION: u32 = 5;

/// The edition of the library that is linked.
pub fn edition() -> u32 {
    unsafe { gift_host_edition() }
}

/// Looks at the edition before the first call: records and arguments of another one would be misread.
fn linked() {
    static SEEN: AtomicBool = AtomicBool::new(false);
    if !SEEN.load(Ordering::Relaxed) {
        assert_eq!(
            edition(),
            EDITION,
            "libgift_host.a is of another edition than this crate"
        );
        SEEN.store(true, Ordering::Relaxed);
    }
}

fn answer(number: u32) -> Result<(), Refusal> {
    if number == 0 {
        return Ok(());
    }
    Err(Refusal::try_from(number).unwrap_or_else(|n| {
        panic!("{n} is no answer of gift_host: another library is linked under its names")
    }))
}

/// Encrypts one block by a key, in place, in order 0. Refusals: 1, 2.
pub fn encrypt_by_key(key: &[u8], block: &mut [u8]) -> Result<(), Refusal> {
    encrypt_by_key_in(NUMBER, key, block)
}

/// The same in an order. Refusals: 13, 1, 2.
pub fn encrypt_by_key_in(order: u32, key: &[u8], block: &mut [u8]) -> Result<(), Refusal> {
    linked();
    answer(unsafe {
        gift_encrypt_by_key(
            order,
            key.as_ptr(),
            key.len(),
            block.as_mut_ptr(),
            block.len(),
        )
    })
}

/// Decrypts one block by a key, in place, in order 0. Refusals: 1, 2.
pub fn decrypt_by_key(key: &[u8], block: &mut [u8]) -> Result<(), Refusal> {
    decrypt_by_key_in(NUMBER, key, block)
}

/// The same in an order. Refusals: 13, 1, 2.
pub fn decrypt_by_key_in(order: u32, key: &[u8], block: &mut [u8]) -> Result<(), Refusal> {
    linked();
    answer(unsafe {
        gift_decrypt_by_key(
            order,
            key.as_ptr(),
            key.len(),
            block.as_mut_ptr(),
            block.len(),
        )
    })
}

/// Encrypts one block by a key, in place, by the plain engine: slow, and proved to answer as [`encrypt_by_key`]. Refusals: 1, 2.
pub fn plain_encrypt_by_key(key: &[u8], block: &mut [u8]) -> Result<(), Refusal> {
    linked();
    answer(unsafe {
        gift_plain_encrypt_by_key(key.as_ptr(), key.len(), block.as_mut_ptr(), block.len())
    })
}

/// Decrypts one block by a key, in place, by the plain engine: slow, and proved to answer as [`decrypt_by_key`]. Refusals: 1, 2.
pub fn plain_decrypt_by_key(key: &[u8], block: &mut [u8]) -> Result<(), Refusal> {
    linked();
    answer(unsafe {
        gift_plain_decrypt_by_key(key.as_ptr(), key.len(), block.as_mut_ptr(), block.len())
    })
}

/// Encrypts one block by 80 round words, in place, in order 0: those of [`expand`], or any others. Refusals: 4, 2.
pub fn encrypt_by_words(words: &[u32], block: &mut [u8]) -> Result<(), Refusal> {
    encrypt_by_words_in(NUMBER, words, block)
}

/// The same in an order. Refusals: 13, 4, 2.
pub fn encrypt_by_words_in(order: u32, words: &[u32], block: &mut [u8]) -> Result<(), Refusal> {
    linked();
    answer(unsafe {
        gift_encrypt_by_words(
            order,
            words.as_ptr(),
            words.len(),
            block.as_mut_ptr(),
            block.len(),
        )
    })
}

/// Decrypts one block by 80 round words, in place, in order 0. Refusals: 4, 2.
pub fn decrypt_by_words(words: &[u32], block: &mut [u8]) -> Result<(), Refusal> {
    decrypt_by_words_in(NUMBER, words, block)
}

/// The same in an order. Refusals: 13, 4, 2.
pub fn decrypt_by_words_in(order: u32, words: &[u32], block: &mut [u8]) -> Result<(), Refusal> {
    linked();
    answer(unsafe {
        gift_decrypt_by_words(
            order,
            words.as_ptr(),
            words.len(),
            block.as_mut_ptr(),
            block.len(),
        )
    })
}

/// Fills `words` with the 80 round words of a key. Refusals: 1, 4.
pub fn expand(key: &[u8], words: &mut [u32]) -> Result<(), Refusal> {
    linked();
    answer(unsafe { gift_expand(key.as_ptr(), key.len(), words.as_mut_ptr(), words.len()) })
}

/// Fills `pairs` with V and then U of each round, as 80 round words stand for them. Refusals: 4, 3.
pub fn pairs(words: &[u32], pairs: &mut [u32]) -> Result<(), Refusal> {
    linked();
    answer(unsafe { gift_pairs(words.as_ptr(), words.len(), pairs.as_mut_ptr(), pairs.len()) })
}

/// Fills `words` with the 80 round words that stand for 80 such numbers, V and then U of each round. Refusals: 4, 3.
pub fn words(pairs: &[u32], words: &mut [u32]) -> Result<(), Refusal> {
    linked();
    answer(unsafe { gift_words(pairs.as_ptr(), pairs.len(), words.as_mut_ptr(), words.len()) })
}

/// Encrypts many blocks by a key, in order 0: block n of the output from block n of the input, each by itself. Refusals: 1, 2, 3.
pub fn encrypt_blocks(key: &[u8], input: &[u8], output: &mut [u8]) -> Result<(), Refusal> {
    encrypt_blocks_in(NUMBER, key, input, output)
}

/// The same in an order. Refusals: 13, 1, 2, 3.
pub fn encrypt_blocks_in(
    order: u32,
    key: &[u8],
    input: &[u8],
    output: &mut [u8],
) -> Result<(), Refusal> {
    linked();
    answer(unsafe {
        gift_encrypt_blocks(
            order,
            key.as_ptr(),
            key.len(),
            input.as_ptr(),
            input.len(),
            output.as_mut_ptr(),
            output.len(),
        )
    })
}

/// Decrypts many blocks by a key, in order 0. Refusals: 1, 2, 3.
pub fn decrypt_blocks(key: &[u8], input: &[u8], output: &mut [u8]) -> Result<(), Refusal> {
    decrypt_blocks_in(NUMBER, key, input, output)
}

/// The same in an order. Refusals: 13, 1, 2, 3.
pub fn decrypt_blocks_in(
    order: u32,
    key: &[u8],
    input: &[u8],
    output: &mut [u8],
) -> Result<(), Refusal> {
    linked();
    answer(unsafe {
        gift_decrypt_blocks(
            order,
            key.as_ptr(),
            key.len(),
            input.as_ptr(),
            input.len(),
            output.as_mut_ptr(),
            output.len(),
        )
    })
}

/// Encrypts many blocks by 80 round words, in order 0: those of [`expand`], or any others. Refusals: 4, 2, 3.
pub fn encrypt_blocks_by_words(
    words: &[u32],
    input: &[u8],
    output: &mut [u8],
) -> Result<(), Refusal> {
    encrypt_blocks_by_words_in(NUMBER, words, input, output)
}

/// The same in an order. Refusals: 13, 4, 2, 3.
pub fn encrypt_blocks_by_words_in(
    order: u32,
    words: &[u32],
    input: &[u8],
    output: &mut [u8],
) -> Result<(), Refusal> {
    linked();
    answer(unsafe {
        gift_encrypt_blocks_by_words(
            order,
            words.as_ptr(),
            words.len(),
            input.as_ptr(),
            input.len(),
            output.as_mut_ptr(),
            output.len(),
        )
    })
}

/// Decrypts many blocks by 80 round words, in order 0: those of [`expand`], or any others. Refusals: 4, 2, 3.
pub fn decrypt_blocks_by_words(
    words: &[u32],
    input: &[u8],
    output: &mut [u8],
) -> Result<(), Refusal> {
    decrypt_blocks_by_words_in(NUMBER, words, input, output)
}

/// The same in an order. Refusals: 13, 4, 2, 3.
pub fn decrypt_blocks_by_words_in(
    order: u32,
    words: &[u32],
    input: &[u8],
    output: &mut [u8],
) -> Result<(), Refusal> {
    linked();
    answer(unsafe {
        gift_decrypt_blocks_by_words(
            order,
            words.as_ptr(),
            words.len(),
            input.as_ptr(),
            input.len(),
            output.as_mut_ptr(),
            output.len(),
        )
    })
}

/// Opens an idle lane of a lent bench for a guest on a key and a block in order 0, to encrypt (0) or decrypt (1). Refusals: 10, 5, 6, 11, 9, 1, 2.
pub fn open_lane(
    lanes: &mut [Lane],
    last: u32,
    lane: u32,
    owner: u16,
    direction: u32,
    key: &[u8],
    block: &[u8],
) -> Result<(), Refusal> {
    open_lane_in(NUMBER, lanes, last, lane, owner, direction, key, block)
}

/// The same in an order. Refusals: 10, 5, 6, 11, 9, 13, 1, 2.
#[allow(clippy::too_many_arguments)]
pub fn open_lane_in(
    order: u32,
    lanes: &mut [Lane],
    last: u32,
    lane: u32,
    owner: u16,
    direction: u32,
    key: &[u8],
    block: &[u8],
) -> Result<(), Refusal> {
    linked();
    answer(unsafe {
        gift_open_lane(
            lanes.as_mut_ptr(),
            lanes.len(),
            last,
            lane,
            owner,
            direction,
            order,
            key.as_ptr(),
            key.len(),
            block.as_ptr(),
            block.len(),
        )
    })
}

/// Makes as many turns as are asked for, or fewer if no lane runs any more. Refusals: 10, 8; then no turn was made.
pub fn turn(lanes: &mut [Lane], last: u32, asked: u32) -> Result<Turns, Refusal> {
    linked();
    let told = unsafe { gift_turn(lanes.as_mut_ptr(), lanes.len(), last, asked) };
    answer(told.code)?;
    Ok(Turns {
        made: told.made,
        last: told.last,
    })
}

/// Writes the 16 bytes of its owner's finished lane, which is idle afterwards. Refusals: 10, 5, 11, 7, 2.
pub fn take(
    lanes: &mut [Lane],
    last: u32,
    lane: u32,
    owner: u16,
    out: &mut [u8],
) -> Result<(), Refusal> {
    linked();
    answer(unsafe {
        gift_take(
            lanes.as_mut_ptr(),
            lanes.len(),
            last,
            lane,
            owner,
            out.as_mut_ptr(),
            out.len(),
        )
    })
}

/// Makes its owner's lane idle as after a take, however far it has come. Refusals: 10, 5, 11.
pub fn close(lanes: &mut [Lane], last: u32, lane: u32, owner: u16) -> Result<(), Refusal> {
    linked();
    answer(unsafe { gift_close(lanes.as_mut_ptr(), lanes.len(), last, lane, owner) })
}

/// Writes the CMAC tag of a whole message. Refusals: 1, 2.
pub fn mac(key: &[u8], message: &[u8], tag: &mut [u8]) -> Result<(), Refusal> {
    linked();
    answer(unsafe {
        gift_mac(
            key.as_ptr(),
            key.len(),
            message.as_ptr(),
            message.len(),
            tag.as_mut_ptr(),
            tag.len(),
        )
    })
}

/// Whether a tag is the message's, all 16 bytes of it. Refusals: 1, 2.
pub fn mac_check(key: &[u8], message: &[u8], tag: &[u8]) -> Result<bool, Refusal> {
    linked();
    let told = unsafe {
        gift_mac_check(
            key.as_ptr(),
            key.len(),
            message.as_ptr(),
            message.len(),
            tag.as_ptr(),
            tag.len(),
        )
    };
    answer(told.code)?;
    Ok(told.yes == 1)
}

/// A state that nothing was fed to. Refusal: 1.
pub fn mac_start(key: &[u8]) -> Result<MacState, Refusal> {
    linked();
    let told = unsafe { gift_mac_start(key.as_ptr(), key.len()) };
    answer(told.code)?;
    Ok(told.state)
}

/// Feeds a piece to a state. Refusal: 10, and then the state is as it was.
pub fn mac_piece(state: &mut MacState, piece: &[u8]) -> Result<(), Refusal> {
    linked();
    let told = unsafe { gift_mac_piece(*state, piece.as_ptr(), piece.len()) };
    *state = told.state;
    answer(told.code)
}

/// Writes the tag of what was fed to a state. Refusals: 10, 2.
pub fn mac_tag(state: &MacState, tag: &mut [u8]) -> Result<(), Refusal> {
    linked();
    answer(unsafe { gift_mac_tag(*state, tag.as_mut_ptr(), tag.len()) })
}

/// A stream at its first counter. Refusals: 1, 2.
pub fn stream_start(key: &[u8], nonce: &[u8], counter: u32) -> Result<Stream, Refusal> {
    linked();
    let told = unsafe {
        gift_stream_start(
            key.as_ptr(),
            key.len(),
            nonce.as_ptr(),
            nonce.len(),
            counter,
        )
    };
    answer(told.code)?;
    Ok(told.stream)
}

/// A piece, from one buffer to another of the same length. Refusals: 10, 3, 12, and then stream and output are as they were.
pub fn stream_piece(stream: &mut Stream, input: &[u8], output: &mut [u8]) -> Result<(), Refusal> {
    linked();
    answer(unsafe {
        gift_stream_piece(
            stream,
            input.as_ptr(),
            input.len(),
            output.as_mut_ptr(),
            output.len(),
        )
    })
}

/// Encrypts one block of GIFT-64 by a key, in place. Refusals: 1, 2.
pub fn encrypt_by_key_64(key: &[u8], block: &mut [u8]) -> Result<(), Refusal> {
    linked();
    answer(unsafe {
        gift64_encrypt_by_key(key.as_ptr(), key.len(), block.as_mut_ptr(), block.len())
    })
}

/// Decrypts one block of GIFT-64 by a key, in place. Refusals: 1, 2.
pub fn decrypt_by_key_64(key: &[u8], block: &mut [u8]) -> Result<(), Refusal> {
    linked();
    answer(unsafe {
        gift64_decrypt_by_key(key.as_ptr(), key.len(), block.as_mut_ptr(), block.len())
    })
}

/// The same by the plain engine: slow, and proved to answer as [`encrypt_by_key_64`]. Refusals: 1, 2.
pub fn plain_encrypt_by_key_64(key: &[u8], block: &mut [u8]) -> Result<(), Refusal> {
    linked();
    answer(unsafe {
        gift64_plain_encrypt_by_key(key.as_ptr(), key.len(), block.as_mut_ptr(), block.len())
    })
}

/// The same by the plain engine: slow, and proved to answer as [`decrypt_by_key_64`]. Refusals: 1, 2.
pub fn plain_decrypt_by_key_64(key: &[u8], block: &mut [u8]) -> Result<(), Refusal> {
    linked();
    answer(unsafe {
        gift64_plain_decrypt_by_key(key.as_ptr(), key.len(), block.as_mut_ptr(), block.len())
    })
}

/// Encrypts many blocks of GIFT-64 by a key: block n of the output from block n of the input, each by itself. Refusals: 1, 2, 3.
pub fn encrypt_blocks_64(key: &[u8], input: &[u8], output: &mut [u8]) -> Result<(), Refusal> {
    linked();
    answer(unsafe {
        gift64_encrypt_blocks(
            key.as_ptr(),
            key.len(),
            input.as_ptr(),
            input.len(),
            output.as_mut_ptr(),
            output.len(),
        )
    })
}

/// Decrypts many blocks of GIFT-64 by a key. Refusals: 1, 2, 3.
pub fn decrypt_blocks_64(key: &[u8], input: &[u8], output: &mut [u8]) -> Result<(), Refusal> {
    linked();
    answer(unsafe {
        gift64_decrypt_blocks(
            key.as_ptr(),
            key.len(),
            input.as_ptr(),
            input.len(),
            output.as_mut_ptr(),
            output.len(),
        )
    })
}
