//! Many blocks of the library for hosts against the Rust crate gift-cipher 0.1.0, by keys and by any eighty words, each way: every length up to three groups of
//! sixty-four blocks, and lengths round 64 KiB. `oracle/run` builds and runs it, and puts the crate's files beside it. The crate has order 0 alone.

mod blocks;
mod cipher;
mod consts;
mod key_schedule;
mod primitives;

use cipher::{Gift128, InOut};

type ByKey = unsafe extern "C" fn(u32, *const u8, usize, *const u8, usize, *mut u8, usize) -> u32;
type ByWords = unsafe extern "C" fn(u32, *const u32, usize, *const u8, usize, *mut u8, usize) -> u32;

extern "C" {
    fn gift_encrypt_blocks(order: u32, key: *const u8, key_len: usize, input: *const u8, input_len: usize, output: *mut u8, output_len: usize) -> u32;
    fn gift_decrypt_blocks(order: u32, key: *const u8, key_len: usize, input: *const u8, input_len: usize, output: *mut u8, output_len: usize) -> u32;
    fn gift_encrypt_blocks_by_words(order: u32, words: *const u32, words_len: usize, input: *const u8, input_len: usize, output: *mut u8, output_len: usize) -> u32;
    fn gift_decrypt_blocks_by_words(order: u32, words: *const u32, words_len: usize, input: *const u8, input_len: usize, output: *mut u8, output_len: usize) -> u32;
}

/// Block by block, as the crate has no call on many.
fn crate_blocks(back: bool, k: [u32; 80], input: &[u8]) -> Vec<u8> {
    let (cipher, mut output) = (Gift128 { k }, vec![0; input.len()]);
    for (read, written) in input.chunks_exact(16).zip(output.chunks_exact_mut(16)) {
        let one = InOut { read: read.try_into().unwrap(), written: written.try_into().unwrap() };
        if back {
            cipher.decrypt_block(one)
        } else {
            cipher.encrypt_block(one)
        }
    }
    output
}

struct Numbers(u64);

impl Numbers {
    fn next(&mut self) -> u64 {
        self.0 = self.0.wrapping_mul(6364136223846793005).wrapping_add(1442695040888963407);
        self.0 >> 32
    }

    fn bytes(&mut self, n: usize) -> Vec<u8> {
        (0..n).map(|_| self.next() as u8).collect()
    }
}

fn main() {
    let mut numbers = Numbers(64);
    let (mut cases, mut different) = (0, 0);
    for count in (0..=200).chain(4089..=4104) {
        let n = 16 * count;
        for back in [false, true] {
            let (by_key, by_words): (ByKey, ByWords) =
                if back { (gift_decrypt_blocks, gift_decrypt_blocks_by_words) } else { (gift_encrypt_blocks, gift_encrypt_blocks_by_words) };
            let (key, input) = (numbers.bytes(16), numbers.bytes(n));
            let expanded = key_schedule::precompute_rkeys(key[..].try_into().unwrap());
            let any: [u32; 80] = core::array::from_fn(|_| numbers.next() as u32);
            for words in [None, Some(expanded), Some(any)] {
                let mut output = numbers.bytes(n);
                let code = unsafe {
                    match &words {
                        None => by_key(0, key.as_ptr(), 16, input.as_ptr(), n, output.as_mut_ptr(), n),
                        Some(words) => by_words(0, words.as_ptr(), 80, input.as_ptr(), n, output.as_mut_ptr(), n),
                    }
                };
                cases += 1;
                if code != 0 || output != crate_blocks(back, words.unwrap_or(expanded), &input) {
                    different += 1;
                    println!("{n} bytes, {}: number {code}, DIFFERENT", if back { "decrypting" } else { "encrypting" });
                }
            }
        }
    }
    println!("long inputs: {cases} calls, {different} different");
    std::process::exit(i32::from(different > 0));
}
