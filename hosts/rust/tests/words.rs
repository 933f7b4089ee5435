//! Any round words and the pairs that they stand for: document 01's facts, each way the other's inverse, the refusals, and rounds by pairs written out here.

use gift_host::Refusal::*;
use gift_host::{calls, Bench, Direction, Gift128, Lane, Order, Owner, Pair, RoundWords};

const KEY: [u8; 16] = 0x00010203_04050607_08090a0b_0c0d0e0f_u128.to_be_bytes();

/// splitmix64
struct Numbers(u64);

impl Numbers {
    fn next(&mut self) -> u32 {
        self.0 = self.0.wrapping_add(0x9e3779b97f4a7c15);
        let z = (self.0 ^ self.0 >> 30).wrapping_mul(0xbf58476d1ce4e5b9);
        let z = (z ^ z >> 27).wrapping_mul(0x94d049bb133111eb);
        (z ^ z >> 31) as u32
    }
}

fn moved(i: u32) -> u32 {
    4 * (i / 16) + 32 * ((3 * (i % 16 / 4) + i % 4) % 4) + i % 4
}

/// The published rounds with these pairs, on the block's number.
fn rounds(pairs: &[Pair], mut x: u128) -> u128 {
    const TABLE: [u128; 16] = [1, 0xa, 4, 0xc, 6, 0xf, 3, 9, 2, 0xd, 0xb, 7, 5, 0, 8, 0xe];
    let mut c = 0u32;
    for pair in pairs {
        let boxed = (0..32).fold(0, |y, n| y | TABLE[(x >> (4 * n) & 15) as usize] << (4 * n));
        x = (0..128).fold(1 << 127, |y, i| y ^ (boxed >> i & 1) << moved(i));
        c = c << 1 & 0x3f | (c >> 5 ^ c >> 4 ^ 1) & 1;
        for i in 0..32 {
            x ^= u128::from(pair.u >> i & 1) << (4 * i + 2)
                ^ u128::from(pair.v >> i & 1) << (4 * i + 1);
        }
        for i in 0..6 {
            x ^= u128::from(c >> i & 1) << (4 * i + 3);
        }
    }
    x
}

#[test]
fn facts_of_document_01() {
    let pairs = RoundWords::of_key(&KEY).pairs();
    for (round, v, u) in [
        (1, 0x0c0d0e0f, 0x04050607),
        (2, 0x08090a0b, 0x00010203),
        (3, 0x04050607, 0x4303e0f0),
        (5, 0x4303e0f0, 0x41016070),
    ] {
        assert_eq!(pairs[round - 1], Pair { u, v });
    }
    assert_eq!(RoundWords::of_pairs(&pairs), RoundWords::of_key(&KEY));
    assert_eq!(
        format!("{:?}", RoundWords::of_key(&KEY)),
        "RoundWords { ... }"
    );
}

#[test]
fn each_way_undoes_the_other() {
    let mut numbers = Numbers(12);
    for _ in 0..500 {
        let words: [u32; 80] = core::array::from_fn(|_| numbers.next());
        let pairs = RoundWords::new(&words).pairs();
        assert_eq!(RoundWords::of_pairs(&pairs).words(), &words);
        // a fifth round's words are kept as they are, and the row is V first
        assert_eq!((pairs[4].v, pairs[4].u), (words[8], words[9]));
        assert_eq!((pairs[39].v, pairs[39].u), (words[78], words[79]));
        let pairs: [Pair; 40] = core::array::from_fn(|_| Pair {
            u: numbers.next(),
            v: numbers.next(),
        });
        assert_eq!(RoundWords::of_pairs(&pairs).pairs(), pairs);
    }
}

#[test]
fn rounds_by_the_pairs() {
    let mut numbers = Numbers(2026);
    for n in 0..200 {
        let pairs: [Pair; 40] = core::array::from_fn(|_| Pair {
            u: numbers.next(),
            v: numbers.next(),
        });
        let words = RoundWords::of_pairs(&pairs);
        let before: [u8; 16] = core::array::from_fn(|_| numbers.next() as u8);
        let mut block = before;
        words.encrypt_block(Order::Number, &mut block);
        assert_eq!(
            block,
            rounds(&pairs, u128::from_be_bytes(before)).to_be_bytes()
        );

        // and by a record of the host's own making, in either order and direction
        let order = [Order::Number, Order::Words][n % 2];
        let direction = [Direction::Encrypt, Direction::Decrypt][n / 2 % 2];
        let (one, mut bench) = (Owner::new(9).unwrap(), Bench::new());
        bench
            .open_in(order, 11, one, direction, &KEY, &before)
            .unwrap();
        let mut records: [Lane; 16] = *bench.records();
        records[11].words = *words.words();
        let mut bench = Bench::from_records(records, bench.last_served());
        assert_eq!(bench.turn(8), Ok(8));
        let mut block = before;
        match direction {
            Direction::Encrypt => words.encrypt_block(order, &mut block),
            Direction::Decrypt => words.decrypt_block(order, &mut block),
        }
        assert_eq!(bench.take(11, one), Ok(block));
        match direction {
            Direction::Encrypt => words.decrypt_block(order, &mut block),
            Direction::Decrypt => words.encrypt_block(order, &mut block),
        }
        assert_eq!(block, before);
    }
}

#[test]
fn a_key_is_its_words() {
    let mut block = [9; 16];
    RoundWords::of_key(&KEY).encrypt_block(Order::Number, &mut block);
    let mut same = [9; 16];
    Gift128::new(&KEY).encrypt_block(&mut same);
    assert_eq!(block, same);
}

#[test]
fn refusals() {
    for given in [0, 1, 40, 79, 80, 81, 160] {
        for out in [0, 79, 80, 81] {
            let must = match (given, out) {
                (80, 80) => Ok(()),
                (80, _) => Err(BadOutputLength),
                _ => Err(BadWordCount),
            };
            let (words, mut row) = (vec![7; given], vec![3; out]);
            assert_eq!(calls::pairs(&words, &mut row), must);
            assert_eq!(row == vec![3; out], must.is_err() || out == 0);
            let mut row = vec![3; out];
            assert_eq!(calls::words(&words, &mut row), must);
            assert_eq!(row == vec![3; out], must.is_err() || out == 0);
        }
    }
    assert_eq!(RoundWords::from_slice(&[0; 79]), Err(BadWordCount));
    assert_eq!(
        RoundWords::from_slice(&[0; 80]),
        Ok(RoundWords::of_key(&[0; 16]))
    );
}
