// The crate's root, and Gift128. What is told of the crate as a whole is README.md.
#![doc = include_str!("../README.md")]
#![no_std]
#![deny(unsafe_code)]
#![warn(missing_docs)]

mod bench;
mod bundle;
pub mod calls;
mod counter;
mod gift64;
mod mac;
mod refusal;
mod wipe;
mod words;

use core::fmt;

pub use bench::{Bench, Direction, Lane, Order, Owner, State};
pub use counter::{Counter, Stream};
pub use gift64::Gift64;
pub use bundle::{Answer, Bundle, Differences, Edition, Iter, Row, Value, Writer};
pub use mac::{Mac, MacState};
pub use refusal::Refusal;
pub use words::{Pair, RoundWords};

use wipe::wipe;

/// A cipher instance: the 80 round words of its key.
#[derive(Clone)]
pub struct Gift128 {
    k: [u32; 80],
}

/// What the types have made sure of, the library is proved to accept.
const BY_TYPE: &str = "no length is wrong";

impl Gift128 {
    /// Bytes of a block.
    pub const BLOCK_SIZE: usize = 16;
    /// Bytes of a key.
    pub const KEY_SIZE: usize = 16;
    /// Rounds of a block.
    pub const ROUNDS: usize = 40;

    /// The instance of a key.
    pub fn new(key: &[u8; 16]) -> Gift128 {
        Gift128::new_from_slice(key).expect(BY_TYPE)
    }

    /// The instance of a key whose length is still to be seen. Refusal: 1.
    pub fn new_from_slice(key: &[u8]) -> Result<Gift128, Refusal> {
        let mut k = [0; 80];
        calls::expand(key, &mut k)?;
        Ok(Gift128 { k })
    }

    /// Encrypts one block in place.
    pub fn encrypt_block(&self, block: &mut [u8; 16]) {
        self.encrypt_slice(block).expect(BY_TYPE)
    }

    /// Decrypts one block in place.
    pub fn decrypt_block(&self, block: &mut [u8; 16]) {
        self.decrypt_slice(block).expect(BY_TYPE)
    }

    /// Encrypts one block whose length is still to be seen. Refusal: 2.
    pub fn encrypt_slice(&self, block: &mut [u8]) -> Result<(), Refusal> {
        calls::encrypt_by_words(&self.k, block)
    }

    /// Decrypts one block whose length is still to be seen. Refusal: 2.
    pub fn decrypt_slice(&self, block: &mut [u8]) -> Result<(), Refusal> {
        calls::decrypt_by_words(&self.k, block)
    }

    /// Encrypts one block in place, in an order.
    pub fn encrypt_block_in(&self, order: Order, block: &mut [u8; 16]) {
        calls::encrypt_by_words_in(order as u32, &self.k, block).expect(BY_TYPE)
    }

    /// Decrypts one block in place, in an order.
    pub fn decrypt_block_in(&self, order: Order, block: &mut [u8; 16]) {
        calls::decrypt_by_words_in(order as u32, &self.k, block).expect(BY_TYPE)
    }

    /// Encrypts each block by itself, in place.
    pub fn encrypt_blocks(&self, blocks: &mut [[u8; 16]]) {
        self.encrypt_blocks_in(Order::Number, blocks)
    }

    /// Decrypts each block by itself, in place.
    pub fn decrypt_blocks(&self, blocks: &mut [[u8; 16]]) {
        self.decrypt_blocks_in(Order::Number, blocks)
    }

    /// Encrypts each block by itself, in place, in an order.
    pub fn encrypt_blocks_in(&self, order: Order, blocks: &mut [[u8; 16]]) {
        self.in_pieces(order, blocks, calls::encrypt_blocks_by_words_in)
    }

    /// Decrypts each block by itself, in place, in an order.
    pub fn decrypt_blocks_in(&self, order: Order, blocks: &mut [[u8; 16]]) {
        self.in_pieces(order, blocks, calls::decrypt_blocks_by_words_in)
    }

    /// Encrypts each block by itself, block n of the output from block n of the input, in one call of the library. Refusal: 3.
    pub fn encrypt_blocks_to(&self, input: &[[u8; 16]], output: &mut [[u8; 16]]) -> Result<(), Refusal> {
        calls::encrypt_blocks_by_words(&self.k, input.as_flattened(), output.as_flattened_mut())
    }

    /// Decrypts each block by itself, block n of the output from block n of the input, in one call of the library. Refusal: 3.
    pub fn decrypt_blocks_to(&self, input: &[[u8; 16]], output: &mut [[u8; 16]]) -> Result<(), Refusal> {
        calls::decrypt_blocks_by_words(&self.k, input.as_flattened(), output.as_flattened_mut())
    }

    /// The call on many blocks goes from one buffer to another: up to 64 blocks at a time are copied out, and come back by it.
    fn in_pieces(&self, order: Order, blocks: &mut [[u8; 16]], call: Many) {
        let mut input = [[0; 16]; 64];
        for piece in blocks.chunks_mut(64) {
            let input = &mut input[..piece.len()];
            input.copy_from_slice(piece);
            call(
                order as u32,
                &self.k,
                input.as_flattened(),
                piece.as_flattened_mut(),
            )
            .expect(BY_TYPE);
        }
    }
}

/// A call on many blocks by round words.
type Many = fn(u32, &[u32], &[u8], &mut [u8]) -> Result<(), Refusal>;

/// Does not tell the round words.
impl fmt::Debug for Gift128 {
    fn fmt(&self, f: &mut fmt::Formatter<'_>) -> fmt::Result {
        f.write_str("Gift128 { ... }")
    }
}

/// The round words are wiped.
impl Drop for Gift128 {
    fn drop(&mut self) {
        wipe(&mut self.k, [0; 80]);
    }
}
