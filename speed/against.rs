//! Ours and the Rust crate gift-cipher 0.1.0 in one process: for each thing that both do, its least time by either, the calls taken by turns, and the ratio.
//! `speed/run` builds and runs it, and puts the crate's files beside it, as `oracle/copy.sh` says. Every answer is compared with the crate's.
//!
//! A time is read from the processor's time stamp counter, which goes on at one rate whatever the processor does. A sample is as many calls as take some
//! thousands of its ticks; the samples of the two sides alternate, and the least of each counts: what else the machine does can only add to a sample.

mod blocks;
mod cipher;
mod consts;
mod key_schedule;
mod primitives;

use cipher::{Gift128, InOut};
use std::arch::x86_64::{_mm_lfence, _rdtsc};
use std::env;
use std::io::{self, Write};

type Call = unsafe extern "C" fn(u32, *const u8, usize, *const u8, usize, *mut u8, usize) -> u32;
type CallByWords = unsafe extern "C" fn(u32, *const u32, usize, *const u8, usize, *mut u8, usize) -> u32;

#[repr(C)]
#[derive(Clone, Copy)]
struct Stream {
    words: [u32; 80],
    nonce: [u8; 12],
    counter: u32,
    block: [u8; 16],
    unused: u32,
    spent: u32,
}

#[repr(C)]
struct Started {
    code: u32,
    stream: Stream,
}

extern "C" {
    fn gift_expand(key: *const u8, key_len: usize, words: *mut u32, words_len: usize) -> u32;
    fn gift_encrypt_by_key(order: u32, key: *const u8, key_len: usize, block: *mut u8, block_len: usize) -> u32;
    fn gift_decrypt_by_key(order: u32, key: *const u8, key_len: usize, block: *mut u8, block_len: usize) -> u32;
    fn gift_encrypt_by_words(order: u32, words: *const u32, words_len: usize, block: *mut u8, block_len: usize) -> u32;
    fn gift_decrypt_by_words(order: u32, words: *const u32, words_len: usize, block: *mut u8, block_len: usize) -> u32;
    fn gift_encrypt_blocks(order: u32, key: *const u8, key_len: usize, input: *const u8, input_len: usize, output: *mut u8, output_len: usize) -> u32;
    fn gift_decrypt_blocks(order: u32, key: *const u8, key_len: usize, input: *const u8, input_len: usize, output: *mut u8, output_len: usize) -> u32;
    fn gift_encrypt_blocks_by_words(order: u32, words: *const u32, words_len: usize, input: *const u8, input_len: usize, output: *mut u8, output_len: usize) -> u32;
    fn gift_decrypt_blocks_by_words(order: u32, words: *const u32, words_len: usize, input: *const u8, input_len: usize, output: *mut u8, output_len: usize) -> u32;
    fn gift_stream_start(key: *const u8, key_len: usize, nonce: *const u8, nonce_len: usize, counter: u32) -> Started;
    fn gift_stream_piece(stream: *mut Stream, input: *const u8, input_len: usize, output: *mut u8, output_len: usize) -> u32;
}

// ---- the crate's side

fn crate_words(key: &[u8; 16]) -> [u32; 80] {
    key_schedule::precompute_rkeys(key)
}

/// Block by block, as the crate has no call on many.
fn crate_blocks(back: bool, cipher: &Gift128, input: &[u8], output: &mut [u8]) {
    for (read, written) in input.chunks_exact(16).zip(output.chunks_exact_mut(16)) {
        let one = InOut { read: read.try_into().unwrap(), written: written.try_into().unwrap() };
        if back {
            cipher.decrypt_block(one)
        } else {
            cipher.encrypt_block(one)
        }
    }
}

// ---- times

/// Hides from the compiler what a value is. (`std::hint` has one, and Debian's rustc does not.)
fn black_box<T>(x: T) -> T {
    unsafe {
        let y = std::ptr::read_volatile(&x);
        std::mem::forget(x);
        y
    }
}

fn now() -> u64 {
    unsafe {
        _mm_lfence();
        let t = _rdtsc();
        _mm_lfence();
        t
    }
}

/// The ticks of so many calls.
fn sample(calls: u32, f: &mut dyn FnMut()) -> f64 {
    let from = now();
    for _ in 0..calls {
        f();
    }
    (now() - from) as f64 / f64::from(calls)
}

/// The least ticks of a call, of each side.
fn least(passes: u32, calls: u32, ours: &mut dyn FnMut(), theirs: &mut dyn FnMut()) -> (f64, f64) {
    let (mut a, mut b) = (f64::MAX, f64::MAX);
    for _ in 0..passes {
        a = a.min(sample(calls, ours));
        b = b.min(sample(calls, theirs));
    }
    (a, b)
}

fn told(what: &str, (ours, theirs): (f64, f64), wanted: f64) -> bool {
    let ratio = ours / theirs;
    println!("{what:44} {ours:12.1} {theirs:12.1} {ratio:8.3}   at most {wanted:.2}{}", if ratio <= wanted { "" } else { "   NOT MET" });
    io::stdout().flush().unwrap();
    ratio <= wanted
}

struct Held {
    key: [u8; 16],
    words: [u32; 80],
    input: Vec<u8>,
}

impl Held {
    /// Many blocks by a key, each way, of so many bytes.
    fn many(&self, back: bool, n: usize, passes: u32) -> (f64, f64) {
        let call: Call = if back { gift_decrypt_blocks } else { gift_encrypt_blocks };
        let (mut ours, mut theirs) = (vec![0; n], vec![0; n]);
        let (key, input) = (black_box(self.key), &self.input[..n]);
        let times = least(
            passes,
            (4096 / n as u32).max(1),
            &mut || assert_eq!(unsafe { call(0, key.as_ptr(), 16, input.as_ptr(), n, ours.as_mut_ptr(), n) }, 0),
            &mut || crate_blocks(back, &Gift128 { k: crate_words(black_box(&key)) }, input, &mut theirs),
        );
        assert_eq!(ours, theirs);
        times
    }

    fn many_by_words(&self, back: bool, n: usize, passes: u32) -> (f64, f64) {
        let call: CallByWords = if back { gift_decrypt_blocks_by_words } else { gift_encrypt_blocks_by_words };
        let (mut ours, mut theirs) = (vec![0; n], vec![0; n]);
        let (words, input) = (black_box(self.words), &self.input[..n]);
        let cipher = Gift128 { k: words };
        let times = least(
            passes,
            (4096 / n as u32).max(1),
            &mut || assert_eq!(unsafe { call(0, words.as_ptr(), 80, input.as_ptr(), n, ours.as_mut_ptr(), n) }, 0),
            &mut || crate_blocks(back, black_box(&cipher), input, &mut theirs),
        );
        assert_eq!(ours, theirs);
        times
    }

    fn one(&self, back: bool, by_key: bool, passes: u32) -> (f64, f64) {
        let (mut ours, mut theirs) = ([7u8; 16], [7u8; 16]);
        let (key, words) = (self.key, self.words);
        let cipher = Gift128 { k: words };
        let times = least(
            passes,
            64,
            &mut || {
                let block = black_box(&mut ours);
                let (k, w) = (black_box(&key), black_box(&words));
                let code = unsafe {
                    match (by_key, back) {
                        (true, false) => gift_encrypt_by_key(0, k.as_ptr(), 16, block.as_mut_ptr(), 16),
                        (true, true) => gift_decrypt_by_key(0, k.as_ptr(), 16, block.as_mut_ptr(), 16),
                        (false, false) => gift_encrypt_by_words(0, w.as_ptr(), 80, block.as_mut_ptr(), 16),
                        (false, true) => gift_decrypt_by_words(0, w.as_ptr(), 80, block.as_mut_ptr(), 16),
                    }
                };
                assert_eq!(code, 0);
            },
            &mut || {
                let block = black_box(&mut theirs);
                let read = *block;
                if by_key {
                    crate_blocks(back, &Gift128 { k: crate_words(black_box(&key)) }, &read, block);
                } else {
                    crate_blocks(back, black_box(&cipher), &read, block);
                }
            },
        );
        assert_eq!(ours, theirs);
        times
    }

    fn expansion(&self, passes: u32) -> (f64, f64) {
        let (mut ours, mut theirs) = ([0u32; 80], [0u32; 80]);
        let key = self.key;
        let times = least(
            passes,
            64,
            &mut || assert_eq!(unsafe { gift_expand(black_box(&key).as_ptr(), 16, black_box(&mut ours).as_mut_ptr(), 80) }, 0),
            &mut || *black_box(&mut theirs) = crate_words(black_box(&key)),
        );
        assert_eq!(ours, theirs);
        times
    }

    /// A piece in counter mode, from the stream's start, and many blocks by a key, both ours: both have the key to expand.
    fn piece(&self, n: usize, passes: u32) -> (f64, f64) {
        let (mut streamed, mut blocks) = (vec![0; n], vec![0; n]);
        let (key, input, nonce) = (self.key, &self.input[..n], [5u8; 12]);
        let times = least(
            passes,
            1,
            &mut || unsafe {
                let mut started = gift_stream_start(key.as_ptr(), 16, nonce.as_ptr(), 12, 0);
                assert_eq!(started.code, 0);
                assert_eq!(gift_stream_piece(&mut started.stream, input.as_ptr(), n, streamed.as_mut_ptr(), n), 0);
            },
            &mut || assert_eq!(unsafe { gift_encrypt_blocks(0, key.as_ptr(), 16, input.as_ptr(), n, blocks.as_mut_ptr(), n) }, 0),
        );
        // the last block of the key stream, by the crate
        let mut last = [0; 16];
        let mut counter = [5u8; 16];
        counter[12..].copy_from_slice(&((n / 16 - 1) as u32).to_be_bytes());
        crate_blocks(false, &Gift128 { k: crate_words(&key) }, &counter, &mut last);
        assert!((0..16).all(|i| streamed[n - 16 + i] == input[n - 16 + i] ^ last[i]));
        times
    }
}

fn main() {
    let passes: u32 = env::args().nth(1).map_or(4000, |n| n.parse().expect("a number of passes"));
    let key = core::array::from_fn(|i| (i * 17 + 3) as u8);
    let mut seed = 128u64;
    let input = (0..65536)
        .map(|_| {
            seed = seed.wrapping_mul(6364136223846793005).wrapping_add(1442695040888963407);
            (seed >> 56) as u8
        })
        .collect();
    let held = Held { key, words: crate_words(&key), input };
    println!("{:44} {:>12} {:>12} {:>8}   wanted", "least ticks of the time stamp counter", "ours", "the crate", "ratio");
    let mut all = true;
    for (way, back) in [("encrypt", false), ("decrypt", true)] {
        all &= told(&format!("64 KiB by a key, {way}"), held.many(back, 65536, passes / 10), 0.22);
        all &= told(&format!("64 KiB by words, {way}"), held.many_by_words(back, 65536, passes / 10), 0.22);
    }
    for (way, back) in [("encrypt", false), ("decrypt", true)] {
        for (n, wanted) in [(128, 0.45), (256, 0.45), (1008, 0.45), (1024, 0.45), (4096, 0.25)] {
            all &= told(&format!("{n} bytes by a key, {way}"), held.many(back, n, passes), wanted);
        }
        // of every length between two groups and a bit, the worst
        let worst = (8..=33).map(|blocks| (16 * blocks, held.many(back, 16 * blocks, passes / 4))).max_by(|a, b| (a.1 .0 / a.1 .1).total_cmp(&(b.1 .0 / b.1 .1))).unwrap();
        all &= told(&format!("128 to 528 bytes, {way}, worst at {}", worst.0), worst.1, 0.45);
    }
    for (way, back) in [("encrypt", false), ("decrypt", true)] {
        all &= told(&format!("one block by a key, {way}"), held.one(back, true, passes), 1.0);
        all &= told(&format!("one block by words, {way}"), held.one(back, false, passes), 1.0);
    }
    all &= told("key expansion", held.expansion(passes), 0.75);
    println!("{:44} {:>12} {:>12} {:>8}", "", "the piece", "the blocks", "ratio");
    all &= told("64 KiB in counter mode, beside 64 KiB of blocks", held.piece(65536, passes / 10), 1.15);
    println!("{}", if all { "every line is met" } else { "not every line is met" });
}
