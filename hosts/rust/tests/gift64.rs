//! GIFT-64: its designers' vectors, both engines, many blocks, and each refusal.

use gift_host::Refusal::{self, *};
use gift_host::{calls, Gift64};

/// Key, block, and what it is encrypted to.
const VECTORS: [(u128, u64, u64); 3] = [
    (0xfedcba9876543210_fedcba9876543210, 0xfedcba9876543210, 0xc1b71f66160ff587),
    (0, 0, 0xf62bc3ef34f775ac),
    (0xbd91731eb6bc2713_a1f9f6ffc75044e7, 0xc450c7727a9b8a7d, 0xe3272885fa94ba8b),
];

#[test]
fn the_designers_vectors() {
    for (key, plain, crypt) in VECTORS {
        let cipher = Gift64::new(&key.to_be_bytes());
        let mut block = plain.to_be_bytes();
        cipher.encrypt_block(&mut block);
        assert_eq!(block, crypt.to_be_bytes());
        cipher.decrypt_block(&mut block);
        assert_eq!(block, plain.to_be_bytes());
    }
}

/// Numbers by chance, the same on each run.
fn chance(seed: &mut u64) -> u64 {
    *seed = seed.wrapping_add(0x9e3779b97f4a7c15);
    let mut z = *seed;
    z = (z ^ z >> 30).wrapping_mul(0xbf58476d1ce4e5b9);
    z = (z ^ z >> 27).wrapping_mul(0x94d049bb133111eb);
    z ^ z >> 31
}

#[test]
fn both_engines_there_and_back() {
    let mut seed = 64;
    for _ in 0..300 {
        let key = ((chance(&mut seed) as u128) << 64 | chance(&mut seed) as u128).to_be_bytes();
        let plain = chance(&mut seed).to_be_bytes();
        let (mut one, mut other) = (plain, plain);
        assert_eq!(calls::encrypt_by_key_64(&key, &mut one), Ok(()));
        assert_eq!(calls::plain_encrypt_by_key_64(&key, &mut other), Ok(()));
        assert_eq!(one, other);
        assert_eq!(calls::decrypt_by_key_64(&key, &mut one), Ok(()));
        assert_eq!(calls::plain_decrypt_by_key_64(&key, &mut other), Ok(()));
        assert_eq!((one, other), (plain, plain));
    }
}

#[test]
fn many_blocks_are_each_by_itself() {
    let mut seed = 65;
    let cipher = Gift64::new(&(chance(&mut seed) as u128).to_be_bytes());
    for n in 0..20 {
        let input: Vec<[u8; 8]> = (0..n).map(|_| chance(&mut seed).to_be_bytes()).collect();
        let mut output = vec![[0xaa; 8]; n];
        assert_eq!(cipher.encrypt_blocks(&input, &mut output), Ok(()));
        for (given, made) in input.iter().zip(&output) {
            let mut block = *given;
            cipher.encrypt_block(&mut block);
            assert_eq!(block, *made);
        }
        let mut back = vec![[0; 8]; n];
        assert_eq!(cipher.decrypt_blocks(&output, &mut back), Ok(()));
        assert_eq!(back, input);
    }
}

/// A call of one block by a key, and one of many.
type One = fn(&[u8], &mut [u8]) -> Result<(), Refusal>;
type Many = fn(&[u8], &[u8], &mut [u8]) -> Result<(), Refusal>;

#[test]
fn refusals_in_their_order_and_nothing_changed() {
    let ones: [One; 4] = [
        calls::encrypt_by_key_64,
        calls::decrypt_by_key_64,
        calls::plain_encrypt_by_key_64,
        calls::plain_decrypt_by_key_64,
    ];
    let manys: [Many; 2] = [calls::encrypt_blocks_64, calls::decrypt_blocks_64];
    for key in 0..34 {
        for block in 0..34 {
            let told = match (key, block) {
                (16, 8) => continue,
                (16, _) => BadBlockLength,
                _ => BadKeyLength,
            };
            for call in ones {
                let mut lent = vec![0x5a; block];
                assert_eq!(call(&vec![1; key], &mut lent), Err(told));
                assert_eq!(lent, vec![0x5a; block]);
            }
        }
        for (input, output) in [(24, 24), (8, 16), (12, 12), (12, 8), (0, 8), (7, 7)] {
            let told = match (key, input % 8, input == output) {
                (16, 0, true) => Ok(()),
                (16, 0, false) => Err(BadOutputLength),
                (16, _, _) => Err(BadBlockLength),
                _ => Err(BadKeyLength),
            };
            for call in manys {
                let mut lent = vec![0x5a; output];
                assert_eq!(call(&vec![1; key], &vec![2; input], &mut lent), told);
                assert_eq!(lent == vec![0x5a; output], told.is_err());
            }
        }
    }
    assert_eq!(Gift64::new_from_slice(&[0; 15]).err(), Some(BadKeyLength));
    assert_eq!(Gift64::new(&[0; 16]).encrypt_slice(&mut [0; 16]), Err(BadBlockLength));
    assert_eq!(
        Gift64::new(&[0; 16]).encrypt_blocks(&[[0; 8]; 2], &mut [[0; 8]; 3]),
        Err(BadOutputLength)
    );
}
