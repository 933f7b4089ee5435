//! Round words of anyone's making, and the pairs U, V that they stand for.

use core::fmt;

use crate::bench::Order;
use crate::{calls, wipe::wipe, Gift128, Refusal, BY_TYPE};

/// What one round takes, in the letters of the GIFT paper.
#[derive(Clone, Copy, Debug, Default, PartialEq, Eq, Hash)]
pub struct Pair {
    /// U, whose bit i is xored to bit 4i+2.
    pub u: u32,
    /// V, whose bit i is xored to bit 4i+1.
    pub v: u32,
}

/// Eighty round words, whoever made them. They stand for exactly one pair U, V in each of the forty rounds.
#[derive(Clone, PartialEq, Eq)]
pub struct RoundWords {
    words: [u32; 80],
}

impl RoundWords {
    /// Words as they are. All are good.
    pub fn new(words: &[u32; 80]) -> RoundWords {
        RoundWords { words: *words }
    }

    /// Words whose number is still to be seen. Refusal: 4.
    pub fn from_slice(words: &[u32]) -> Result<RoundWords, Refusal> {
        match words.try_into() {
            Ok(words) => Ok(RoundWords { words }),
            Err(_) => Err(Refusal::BadWordCount),
        }
    }

    /// The words of a key.
    pub fn of_key(key: &[u8; 16]) -> RoundWords {
        let mut words = [0; 80];
        calls::expand(key, &mut words).expect(BY_TYPE);
        RoundWords { words }
    }

    /// The words that stand for these pairs, round 1 first: there are no others.
    pub fn of_pairs(pairs: &[Pair; 40]) -> RoundWords {
        let (mut row, mut words) = ([0; 80], [0; 80]);
        for (two, pair) in row.chunks_exact_mut(2).zip(pairs) {
            two.copy_from_slice(&[pair.v, pair.u]);
        }
        calls::words(&row, &mut words).expect(BY_TYPE);
        RoundWords { words }
    }

    /// The pairs that these words stand for, round 1 first.
    pub fn pairs(&self) -> [Pair; 40] {
        let mut row = [0; 80];
        calls::pairs(&self.words, &mut row).expect(BY_TYPE);
        core::array::from_fn(|round| Pair {
            v: row[2 * round],
            u: row[2 * round + 1],
        })
    }

    /// The words themselves, as a lane's record keeps them.
    pub fn words(&self) -> &[u32; 80] {
        &self.words
    }

    /// Encrypts one block in place: the published rounds with these pairs, on the block that the order sees.
    pub fn encrypt_block(&self, order: Order, block: &mut [u8; Gift128::BLOCK_SIZE]) {
        calls::encrypt_by_words_in(order as u32, &self.words, block).expect(BY_TYPE)
    }

    /// Decrypts one block in place: the same rounds undone.
    pub fn decrypt_block(&self, order: Order, block: &mut [u8; Gift128::BLOCK_SIZE]) {
        calls::decrypt_by_words_in(order as u32, &self.words, block).expect(BY_TYPE)
    }
}

/// Does not tell the round words.
impl fmt::Debug for RoundWords {
    fn fmt(&self, f: &mut fmt::Formatter<'_>) -> fmt::Result {
        f.write_str("RoundWords { ... }")
    }
}

/// The words are wiped.
impl Drop for RoundWords {
    fn drop(&mut self) {
        wipe(&mut self.words, [0; 80]);
    }
}
