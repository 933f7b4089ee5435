//! GIFT-64, the smaller member: blocks of 8 bytes.

use core::fmt;

use crate::{calls, wipe::wipe, Refusal, BY_TYPE};

/// A cipher instance: its key, which each call expands, and many blocks once for all of them.
#[derive(Clone)]
pub struct Gift64 {
    key: [u8; 16],
}

impl Gift64 {
    /// Bytes of a block.
    pub const BLOCK_SIZE: usize = 8;
    /// Bytes of a key.
    pub const KEY_SIZE: usize = 16;
    /// Rounds of a block.
    pub const ROUNDS: usize = 28;

    /// The instance of a key.
    pub fn new(key: &[u8; 16]) -> Gift64 {
        Gift64 { key: *key }
    }

    /// The instance of a key whose length is still to be seen. Refusal: 1.
    pub fn new_from_slice(key: &[u8]) -> Result<Gift64, Refusal> {
        match key.try_into() {
            Ok(key) => Ok(Gift64 { key }),
            Err(_) => Err(Refusal::BadKeyLength),
        }
    }

    /// Encrypts one block in place.
    pub fn encrypt_block(&self, block: &mut [u8; 8]) {
        self.encrypt_slice(block).expect(BY_TYPE)
    }

    /// Decrypts one block in place.
    pub fn decrypt_block(&self, block: &mut [u8; 8]) {
        self.decrypt_slice(block).expect(BY_TYPE)
    }

    /// Encrypts one block whose length is still to be seen. Refusal: 2.
    pub fn encrypt_slice(&self, block: &mut [u8]) -> Result<(), Refusal> {
        calls::encrypt_by_key_64(&self.key, block)
    }

    /// Decrypts one block whose length is still to be seen. Refusal: 2.
    pub fn decrypt_slice(&self, block: &mut [u8]) -> Result<(), Refusal> {
        calls::decrypt_by_key_64(&self.key, block)
    }

    /// Encrypts each block of the input by itself, into the output. Refusal: 3, if there are not as many.
    pub fn encrypt_blocks(
        &self,
        input: &[[u8; 8]],
        output: &mut [[u8; 8]],
    ) -> Result<(), Refusal> {
        calls::encrypt_blocks_64(&self.key, input.as_flattened(), output.as_flattened_mut())
    }

    /// Decrypts each block of the input by itself, into the output. Refusal: 3, if there are not as many.
    pub fn decrypt_blocks(
        &self,
        input: &[[u8; 8]],
        output: &mut [[u8; 8]],
    ) -> Result<(), Refusal> {
        calls::decrypt_blocks_64(&self.key, input.as_flattened(), output.as_flattened_mut())
    }
}

/// Does not tell the key.
impl fmt::Debug for Gift64 {
    fn fmt(&self, f: &mut fmt::Formatter<'_>) -> fmt::Result {
        f.write_str("Gift64 { ... }")
    }
}

/// The key is wiped.
impl Drop for Gift64 {
    fn drop(&mut self) {
        wipe(&mut self.key, [0; 16]);
    }
}
