//! CMAC: stored tags, which oracle/cmac_model.py makes, every cutting of short messages, checks, and each refusal.

use gift_host::Refusal::*;
use gift_host::{calls, Mac};

/// `0, 1, 2, ..`, so many of them.
fn message(n: usize) -> Vec<u8> {
    (0..n).map(|i| i as u8).collect()
}

const KEY: [u8; 16] = [0, 1, 2, 3, 4, 5, 6, 7, 8, 9, 10, 11, 12, 13, 14, 15];

/// Of the first n bytes of `0, 1, 2, ..`, by [`KEY`].
const TAGS: [(usize, &str); 8] = [
    (0, "08421a6b566beb7d6e82143a568935b1"),
    (1, "0b8e080dddfd5b311cbbc43291ff1df9"),
    (15, "fea0b5e36c093b60a5616419a8c8adb0"),
    (16, "041ad8b796412d03e154a3f0a98333d3"),
    (17, "d51187e628cc404973493c260f3e8b24"),
    (32, "96a005a4ecb2c87ebb4472fd86de9bb5"),
    (64, "cdfe380c6c061552b04a1dd1eec70f7d"),
    (200, "0d2e1918cfb6011f85a54176ec9bcac3"),
];

fn hex(bytes: &[u8]) -> String {
    bytes.iter().map(|b| format!("{b:02x}")).collect()
}

fn tag_of(key: &[u8; 16], message: &[u8]) -> [u8; 16] {
    let mut tag = [0; 16];
    calls::mac(key, message, &mut tag).unwrap();
    tag
}

#[test]
fn stored_tags() {
    for (n, tag) in TAGS {
        assert_eq!(hex(&tag_of(&KEY, &message(n))), tag, "{n} bytes");
    }
}

#[test]
fn every_cutting_in_three() {
    for n in 0..50 {
        let whole = message(n);
        let tag = tag_of(&KEY, &whole);
        for a in 0..=n {
            for b in a..=n {
                let mut mac = Mac::new(&KEY);
                for piece in [&whole[..a], &whole[a..b], &whole[b..]] {
                    mac.update(piece);
                    mac.finish();
                }
                assert_eq!(mac.finish(), tag);
                assert_eq!(mac.verify(&tag), Ok(true));
            }
        }
    }
}

#[test]
fn a_check_looks_at_every_bit() {
    for n in [0, 1, 15, 16, 17, 40] {
        let message = message(n);
        let mut mac = Mac::new(&KEY);
        mac.update(&message);
        let tag = tag_of(&KEY, &message);
        assert_eq!(calls::mac_check(&KEY, &message, &tag), Ok(true));
        for bit in 0..128 {
            let mut other = tag;
            other[bit / 8] ^= 1 << (bit % 8);
            assert_eq!(calls::mac_check(&KEY, &message, &other), Ok(false));
            assert_eq!(mac.verify(&other), Ok(false));
        }
    }
}

#[test]
fn refusals() {
    for key in [0, 1, 15, 17, 32] {
        let key = vec![7; key];
        assert_eq!(Mac::new_from_slice(&key).err(), Some(BadKeyLength));
        for n in [0, 15, 16, 17] {
            let mut tag = vec![9; n];
            assert_eq!(calls::mac(&key, &[1, 2], &mut tag), Err(BadKeyLength));
            assert_eq!(tag, vec![9; n]);
            assert_eq!(calls::mac_check(&key, &[1, 2], &tag), Err(BadKeyLength));
        }
    }
    for n in [0, 1, 15, 17, 32] {
        let mut tag = vec![9; n];
        assert_eq!(calls::mac(&KEY, &[1, 2], &mut tag), Err(BadBlockLength));
        assert_eq!(calls::mac_check(&KEY, &[1, 2], &tag), Err(BadBlockLength));
        let mut state = calls::mac_start(&KEY).unwrap();
        assert_eq!(calls::mac_tag(&state, &mut tag), Err(BadBlockLength));
        assert_eq!(Mac::new(&KEY).verify(&tag), Err(BadBlockLength));
        for count in [17, 256, u32::MAX] {
            state.count = count;
            let before = state;
            assert_eq!(calls::mac_piece(&mut state, &[1, 2]), Err(BadBench));
            assert_eq!(state, before);
            assert_eq!(calls::mac_tag(&state, &mut tag), Err(BadBench));
        }
        assert_eq!(tag, vec![9; n]);
    }
}
