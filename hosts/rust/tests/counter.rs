//! Counter mode: stored bytes, which oracle/counter_model.py makes, every cutting of short messages, the last counters, and each refusal.

use gift_host::Refusal::*;
use gift_host::{calls, Counter, Gift128};

const KEY: [u8; 16] = [0, 1, 2, 3, 4, 5, 6, 7, 8, 9, 10, 11, 12, 13, 14, 15];
const NONCE: [u8; 12] = [0, 1, 2, 3, 4, 5, 6, 7, 8, 9, 10, 11];

/// Of the bytes `0, 1, .. 31`, by [`KEY`] and [`NONCE`], from these first counters on.
const STORED: [(u32, &str); 3] = [
    (
        0,
        "523fd9b25f08186f2aae1f21d7925db7877c47d2d93dbb43ab5f01b5bc549083",
    ),
    (
        1,
        "976c57c2c92dab53bb4f11a5ac44809324a08a2d7c53049b5ad5d596557fc044",
    ),
    (
        u32::MAX - 1,
        "704d928f6d1b077900587500c893758b73f86a10f0adc4189215e8d7ed054864",
    ),
];

fn message(n: usize) -> Vec<u8> {
    (0..n).map(|i| i as u8).collect()
}

fn hex(bytes: &[u8]) -> String {
    bytes.iter().map(|b| format!("{b:02x}")).collect()
}

fn applied(counter: &mut Counter, piece: &[u8]) -> Vec<u8> {
    let mut output = vec![0xA5; piece.len()];
    counter.apply(piece, &mut output).unwrap();
    output
}

#[test]
fn stored_bytes() {
    for (first, secret) in STORED {
        let mut c = Counter::new(&KEY, &NONCE, first);
        assert_eq!(hex(&applied(&mut c, &message(32))), secret);
        assert_eq!(c.is_spent(), first == u32::MAX - 1);
    }
}

/// The key stream is the encryption of the counter blocks.
#[test]
fn counter_blocks() {
    let cipher = Gift128::new(&KEY);
    let mut c = Counter::new(&KEY, &NONCE, 0xFF);
    for n in 0xFFu32..0x103 {
        let mut block = [0; 16];
        block[..12].copy_from_slice(&NONCE);
        block[12..].copy_from_slice(&n.to_be_bytes());
        cipher.encrypt_block(&mut block);
        assert_eq!(applied(&mut c, &[0; 16]), block);
    }
}

#[test]
fn every_cutting_in_three() {
    for n in 0..50usize {
        for first in [5, (n.div_ceil(16).max(1) as u32).wrapping_neg()] {
            let whole = message(n);
            let mut c = Counter::new(&KEY, &NONCE, first);
            let secret = applied(&mut c, &whole);
            for a in 0..=n {
                for b in a..=n {
                    let mut d = Counter::new(&KEY, &NONCE, first);
                    let pieces = [&whole[..a], &whole[a..b], &whole[b..]];
                    let cut: Vec<u8> = pieces.iter().flat_map(|p| applied(&mut d, p)).collect();
                    assert!(cut == secret && d == c);
                }
            }
            assert_eq!(
                applied(&mut Counter::new(&KEY, &NONCE, first), &secret),
                whole
            );
        }
    }
}

#[test]
fn refusals() {
    for (key, nonce, refusal) in [
        (15, 12, BadKeyLength),
        (17, 11, BadKeyLength),
        (16, 11, BadBlockLength),
        (16, 13, BadBlockLength),
    ] {
        let made = Counter::new_from_slices(&vec![7; key], &vec![7; nonce], 1);
        assert_eq!(made.err(), Some(refusal));
    }
    let mut c = Counter::new(&KEY, &NONCE, u32::MAX);
    let before = c.clone();
    for n in [17, 32, 1000] {
        let mut output = vec![9; n];
        assert_eq!(c.apply(&message(n), &mut output), Err(TooFewCounters));
        assert!(output == vec![9; n] && c == before);
        assert_eq!(c.apply(&message(n), &mut output[1..]), Err(BadOutputLength));
    }
    applied(&mut c, &message(3));
    assert!(c.is_spent());
    assert_eq!(c.apply(&message(14), &mut [0; 14]), Err(TooFewCounters));
    applied(&mut c, &message(13));
    applied(&mut c, &[]);
    assert_eq!(c.apply(&[1], &mut [0]), Err(TooFewCounters));
    let good = calls::stream_start(&KEY, &NONCE, 3).unwrap();
    for unused in [16, 17, 256, u32::MAX] {
        let mut bad = good;
        bad.unused = unused;
        let before = bad;
        let mut output = [9; 4];
        assert_eq!(
            calls::stream_piece(&mut bad, &[1, 2, 3], &mut output),
            Err(BadBench)
        );
        assert!(output == [9; 4] && bad == before);
    }
}
