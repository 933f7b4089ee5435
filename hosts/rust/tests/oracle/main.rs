//! The crate that this one replaces, as the judge of its answers. hosts/rust/run puts its own files into target/hosts/oracle: three as they are, and in
//! blocks.rs the two block functions of lib.rs, word for word; cipher.rs, beside them, stands in for the types that these name.

#[path = "../../../../target/hosts/oracle/blocks.rs"]
mod blocks;
#[path = "../../../../target/hosts/oracle/cipher.rs"]
mod cipher;
#[path = "../../../../target/hosts/oracle/consts.rs"]
mod consts;
#[path = "../../../../target/hosts/oracle/key_schedule.rs"]
mod key_schedule;
#[path = "../../../../target/hosts/oracle/primitives.rs"]
mod primitives;

mod compare;

use cipher::{Gift128, InOut};
use gift_host::{Direction, State};

fn round_words(key: &[u8; 16]) -> [u32; 80] {
    key_schedule::precompute_rkeys(key)
}

fn by_words(direction: Direction, k: &[u32; 80], block: &[u8; 16]) -> [u8; 16] {
    let mut answer = [0; 16];
    let io = InOut {
        read: block,
        written: &mut answer,
    };
    match direction {
        Direction::Encrypt => Gift128 { k: *k }.encrypt_block(io),
        Direction::Decrypt => Gift128 { k: *k }.decrypt_block(io),
    }
    answer
}

fn by_key(direction: Direction, key: &[u8; 16], block: &[u8; 16]) -> [u8; 16] {
    by_words(direction, &round_words(key), block)
}

/// A block after so many turns of a lane, each a quintuple round.
fn after_turns(direction: Direction, key: &[u8; 16], block: &[u8; 16], turns: u32) -> State {
    let words = round_words(key);
    let mut s = [0; 4];
    primitives::packing(&mut s, block);
    for i in (0..turns as usize).map(|turn| 5 * turn) {
        match direction {
            Direction::Encrypt => {
                primitives::quintuple_round(&mut s, &words[2 * i..], &consts::GIFT_RC[i..])
            }
            Direction::Decrypt => primitives::inv_quintuple_round(
                &mut s,
                &words[2 * (35 - i)..],
                &consts::GIFT_RC[35 - i..],
            ),
        }
    }
    let [s0, s1, s2, s3] = s;
    State { s0, s1, s2, s3 }
}
