//! Every answer with a block in it, held to the crate's, on random and on structured keys and blocks.

use gift_host::{calls, Bench, Direction, Gift128, Lane, Owner, Refusal};

use crate::{after_turns, by_key, by_words, round_words};

const WAYS: [Direction; 2] = [Direction::Encrypt, Direction::Decrypt];

/// Numbers by splitmix64.
struct Numbers(u64);

impl Numbers {
    fn next(&mut self) -> u64 {
        self.0 = self.0.wrapping_add(0x9e3779b97f4a7c15);
        let z = (self.0 ^ (self.0 >> 30)).wrapping_mul(0xbf58476d1ce4e5b9);
        let z = (z ^ (z >> 27)).wrapping_mul(0x94d049bb133111eb);
        z ^ (z >> 31)
    }

    fn below(&mut self, n: u32) -> u32 {
        (self.next() % u64::from(n)) as u32
    }

    fn block(&mut self) -> [u8; 16] {
        [(); 16].map(|_| self.next() as u8)
    }

    fn words(&mut self) -> [u32; 80] {
        [(); 80].map(|_| self.next() as u32)
    }
}

/// One key and one block, each way, by an instance and by the key, and by the key with the plain engine.
fn compare(key: &[u8; 16], block: &[u8; 16]) {
    let cipher = Gift128::new(key);
    for way in WAYS {
        let (mut by_instance, mut in_one_call, mut plainly) = (*block, *block, *block);
        match way {
            Direction::Encrypt => cipher.encrypt_block(&mut by_instance),
            Direction::Decrypt => cipher.decrypt_block(&mut by_instance),
        }
        match way {
            Direction::Encrypt => calls::encrypt_by_key(key, &mut in_one_call),
            Direction::Decrypt => calls::decrypt_by_key(key, &mut in_one_call),
        }
        .unwrap();
        match way {
            Direction::Encrypt => calls::plain_encrypt_by_key(key, &mut plainly),
            Direction::Decrypt => calls::plain_decrypt_by_key(key, &mut plainly),
        }
        .unwrap();
        let must = by_key(way, key, block);
        assert_eq!(by_instance, must, "{way:?} {block:02x?} by {key:02x?}");
        assert_eq!(in_one_call, must, "{way:?} {block:02x?} by {key:02x?}");
        assert_eq!(plainly, must, "{way:?} {block:02x?} by {key:02x?}, plainly");
    }
}

#[test]
fn random_keys_and_blocks() {
    let mut numbers = Numbers(1);
    for _ in 0..50_000 {
        compare(&numbers.block(), &numbers.block());
    }
}

#[test]
fn one_bit_set_or_missing() {
    let bits = || (0..128).flat_map(|n| [1u128 << n, !(1 << n)]);
    for key in bits() {
        for block in bits() {
            compare(&key.to_be_bytes(), &block.to_be_bytes());
        }
    }
}

#[test]
fn all_bytes_equal() {
    for key in 0..=255 {
        for block in 0..=255 {
            compare(&[key; 16], &[block; 16]);
        }
    }
}

#[test]
fn round_words_of_a_key() {
    let mut numbers = Numbers(2);
    for _ in 0..20_000 {
        let (key, mut words) = (numbers.block(), numbers.words());
        calls::expand(&key, &mut words).unwrap();
        assert_eq!(words, round_words(&key), "of {key:02x?}");
    }
}

#[test]
fn any_round_words() {
    let mut numbers = Numbers(3);
    for _ in 0..20_000 {
        let (words, block) = (numbers.words(), numbers.block());
        let (mut encrypted, mut decrypted) = (block, block);
        calls::encrypt_by_words(&words, &mut encrypted).unwrap();
        calls::decrypt_by_words(&words, &mut decrypted).unwrap();
        assert_eq!(encrypted, by_words(Direction::Encrypt, &words, &block));
        assert_eq!(decrypted, by_words(Direction::Decrypt, &words, &block));
    }
}

#[test]
fn many_blocks() {
    let mut numbers = Numbers(4);
    for count in (0..200).chain(4094..4098) {
        let key = numbers.block();
        let cipher = Gift128::new(&key);
        let input: Vec<[u8; 16]> = (0..count).map(|_| numbers.block()).collect();
        for way in WAYS {
            let must: Vec<[u8; 16]> = input.iter().map(|block| by_key(way, &key, block)).collect();
            let (mut in_place, mut output) = (input.clone(), vec![0; 16 * count]);
            match way {
                Direction::Encrypt => cipher.encrypt_blocks(&mut in_place),
                Direction::Decrypt => cipher.decrypt_blocks(&mut in_place),
            }
            match way {
                Direction::Encrypt => calls::encrypt_blocks(&key, &input.concat(), &mut output),
                Direction::Decrypt => calls::decrypt_blocks(&key, &input.concat(), &mut output),
            }
            .unwrap();
            assert_eq!(in_place, must);
            assert_eq!(output, must.concat());
        }
    }
}

/// A lane's opening: by whom, and what it asked for.
type Opening = Option<(Owner, Direction, [u8; 16], [u8; 16])>;

fn guest(number: u16) -> Owner {
    Owner::new(number).unwrap()
}

/// Who takes or closes: mostly the lane's owner, and else some guest.
fn caller(opening: &Opening, numbers: &mut Numbers) -> Owner {
    match opening {
        Some((owner, ..)) if numbers.below(4) != 0 => *owner,
        _ => guest(1 + 257 * numbers.below(3) as u16),
    }
}

/// A walk over one bench: a lane stands where the crate's quintuple rounds stand after its own turns, and yields the crate's block.
#[test]
fn lanes_of_a_bench() {
    let mut numbers = Numbers(5);
    let mut bench = Bench::new();
    let mut openings: [Opening; Bench::LANES as usize] = [None; Bench::LANES as usize];
    let (mut taken, mut stolen) = (0, 0);
    for _ in 0..30_000 {
        let lane = numbers.below(Bench::LANES);
        let opening = &mut openings[lane as usize];
        match numbers.below(12) {
            0..=3 => {
                let (way, key, block) = (
                    WAYS[numbers.below(2) as usize],
                    numbers.block(),
                    numbers.block(),
                );
                let owner = guest(1 + 257 * numbers.below(3) as u16);
                match bench.open(lane, owner, way, &key, &block) {
                    Ok(()) => assert_eq!(opening.replace((owner, way, key, block)), None),
                    Err(refusal) => assert!(refusal == Refusal::LaneNotIdle && opening.is_some()),
                }
            }
            4..=7 => {
                let asked = numbers.below(9);
                let before: u32 = bench.records().iter().map(|lane| lane.count).sum();
                let lacking: u32 = bench
                    .records()
                    .iter()
                    .filter(|lane| lane.phase == Lane::RUNNING)
                    .map(|lane| 8 - lane.count)
                    .sum();
                let made = bench.turn(asked).unwrap();
                assert_eq!(made, asked.min(lacking));
                assert_eq!(
                    bench.records().iter().map(|lane| lane.count).sum::<u32>(),
                    before + made
                );
            }
            8..=10 => match bench.take(lane, caller(opening, &mut numbers)) {
                Ok(block) => {
                    let (_, way, key, from) = opening.take().unwrap();
                    assert_eq!(block, by_key(way, &key, &from));
                    taken += 1;
                }
                Err(Refusal::NotTheOwner) => {
                    assert!(opening.is_some());
                    stolen += 1;
                }
                Err(refusal) => {
                    assert_eq!(refusal, Refusal::LaneNotFinished);
                    assert!(bench.records()[lane as usize].count < 8);
                }
            },
            _ => match bench.close(lane, caller(opening, &mut numbers)) {
                Ok(()) => *opening = None,
                Err(refusal) => assert!(refusal == Refusal::NotTheOwner && opening.is_some()),
            },
        }
        for (record, opening) in bench.records().iter().zip(&openings) {
            match opening {
                None => assert_eq!(
                    (
                        record.phase,
                        record.direction,
                        record.owner,
                        record.count,
                        record.state == Lane::FRESH.state
                    ),
                    (Lane::IDLE, 0, 0, 0, true)
                ),
                Some((owner, way, key, block)) => {
                    assert_eq!(record.owner, owner.number());
                    assert_eq!(
                        record.phase,
                        if record.count == 8 {
                            Lane::FINISHED
                        } else {
                            Lane::RUNNING
                        }
                    );
                    assert_eq!(record.direction, *way as u8);
                    assert!(record.words == round_words(key));
                    assert!(record.state == after_turns(*way, key, block, record.count));
                }
            }
        }
    }
    assert!(taken > 2_000, "only {taken} lanes were taken from");
    assert!(stolen > 500, "only {stolen} takes were another's");
}
