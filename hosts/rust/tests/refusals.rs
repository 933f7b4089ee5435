//! Each refusal, in each call's order, and that nothing lent has changed after one.

use gift_host::Refusal::*;
use gift_host::{calls, Bench, Direction, Gift128, Lane, Owner, Refusal};

const LENGTHS: [usize; 8] = [0, 1, 15, 16, 17, 32, 79, 80];
const WORD_COUNTS: [usize; 7] = [0, 1, 16, 79, 80, 81, 160];

#[test]
fn numbers_and_names() {
    for (n, refusal) in (1..=13).chain(20..=25).zip(Refusal::ALL) {
        assert_eq!(
            (refusal.number(), u32::from(refusal), Refusal::try_from(n)),
            (n, n, Ok(refusal))
        );
    }
    for n in [0, 14, 255, 256, 257, u32::MAX] {
        assert_eq!(Refusal::try_from(n), Err(n));
    }
    let told: std::collections::HashSet<String> =
        Refusal::ALL.iter().map(|r| r.to_string()).collect();
    assert_eq!(told.len(), Refusal::ALL.len());
}

#[test]
fn the_edition_that_is_linked() {
    assert_eq!(calls::edition(), calls::EDITION);
}

/// What a call on a copy of the lent buffer must answer, and that it leaves the buffer as it is exactly if it is refused.
fn hold<T>(
    lent: &[T],
    must: Result<(), Refusal>,
    call: impl FnOnce(&mut [T]) -> Result<(), Refusal>,
) where
    T: Clone + PartialEq,
{
    let mut buffer = lent.to_vec();
    assert_eq!(call(&mut buffer), must);
    assert_eq!(buffer == lent, must.is_err() || lent.is_empty());
}

#[test]
fn lengths_of_one_block() {
    for block in LENGTHS.map(|n| vec![9; n]) {
        for key in LENGTHS.map(|n| vec![7; n]) {
            let must = match (key.len(), block.len()) {
                (16, 16) => Ok(()),
                (16, _) => Err(BadBlockLength),
                _ => Err(BadKeyLength),
            };
            hold(&block, must, |b| calls::encrypt_by_key(&key, b));
            hold(&block, must, |b| calls::decrypt_by_key(&key, b));
            hold(&block, must, |b| calls::plain_encrypt_by_key(&key, b));
            hold(&block, must, |b| calls::plain_decrypt_by_key(&key, b));
        }
        for words in WORD_COUNTS.map(|n| vec![7; n]) {
            let must = match (words.len(), block.len()) {
                (80, 16) => Ok(()),
                (80, _) => Err(BadBlockLength),
                _ => Err(BadWordCount),
            };
            hold(&block, must, |b| calls::encrypt_by_words(&words, b));
            hold(&block, must, |b| calls::decrypt_by_words(&words, b));
        }
        let cipher = Gift128::new(&[7; 16]);
        let must = if block.len() == 16 {
            Ok(())
        } else {
            Err(BadBlockLength)
        };
        hold(&block, must, |b| cipher.encrypt_slice(b));
        hold(&block, must, |b| cipher.decrypt_slice(b));
    }
}

#[test]
fn lengths_of_an_expansion() {
    for key in LENGTHS.map(|n| vec![7; n]) {
        let instance = Gift128::new_from_slice(&key);
        assert_eq!(instance.err(), (key.len() != 16).then_some(BadKeyLength));
        for words in WORD_COUNTS.map(|n| vec![9; n]) {
            let must = match (key.len(), words.len()) {
                (16, 80) => Ok(()),
                (16, _) => Err(BadWordCount),
                _ => Err(BadKeyLength),
            };
            hold(&words, must, |w| calls::expand(&key, w));
        }
    }
}

#[test]
fn lengths_of_many_blocks() {
    for key in LENGTHS.map(|n| vec![7; n]) {
        for input in LENGTHS.map(|n| vec![8; n]) {
            for output in LENGTHS.map(|n| vec![9; n]) {
                let must = match (key.len(), input.len() % 16, output.len() == input.len()) {
                    (16, 0, true) => Ok(()),
                    (16, 0, false) => Err(BadOutputLength),
                    (16, ..) => Err(BadBlockLength),
                    _ => Err(BadKeyLength),
                };
                hold(&output, must, |o| calls::encrypt_blocks(&key, &input, o));
                hold(&output, must, |o| calls::decrypt_blocks(&key, &input, o));
            }
        }
    }
}

#[test]
fn lengths_of_many_blocks_by_words() {
    for words in [0, 1, 79, 80, 81, 160].map(|n| vec![7; n]) {
        for input in LENGTHS.map(|n| vec![8; n]) {
            for output in LENGTHS.map(|n| vec![9; n]) {
                let must = match (words.len(), input.len() % 16, output.len() == input.len()) {
                    (80, 0, true) => Ok(()),
                    (80, 0, false) => Err(BadOutputLength),
                    (80, ..) => Err(BadBlockLength),
                    _ => Err(BadWordCount),
                };
                hold(&output, must, |o| {
                    calls::encrypt_blocks_by_words(&words, &input, o)
                });
                hold(&output, must, |o| {
                    calls::decrypt_blocks_by_words(&words, &input, o)
                });
            }
        }
    }
}

fn guest(number: u16) -> Owner {
    Owner::new(number).unwrap()
}

/// Lane 0 finished for guest 1, lane 1 running for guest 257, the others idle.
fn some_bench() -> Bench {
    let mut bench = Bench::new();
    bench
        .open(0, guest(1), Direction::Encrypt, &[1; 16], &[2; 16])
        .unwrap();
    assert_eq!(bench.turn(1024), Ok(8));
    bench
        .open(1, guest(257), Direction::Decrypt, &[3; 16], &[4; 16])
        .unwrap();
    assert_eq!(bench.turn(3), Ok(3));
    bench
}

/// What the call answers on a copy of the bench, which it must leave as it is.
fn refused<T: std::fmt::Debug>(
    bench: &Bench,
    call: impl FnOnce(&mut Bench) -> Result<T, Refusal>,
) -> Refusal {
    let mut lent = bench.clone();
    let refusal = call(&mut lent).unwrap_err();
    assert_eq!(&lent, bench);
    refusal
}

const KEY: &[u8] = &[5; 16];
const BLOCK: &[u8] = &[6; 16];
const SHORT: &[u8] = &[5; 15];
const LONG: &[u8] = &[6; 17];

#[test]
fn bench_refusals_in_order() {
    let bench = some_bench();
    for lane in [
        Bench::LANES,
        Bench::LANES + 1,
        255,
        256,
        257,
        1 << 16,
        1 << 31,
        u32::MAX,
    ] {
        assert_eq!(
            refused(&bench, |b| b.open(
                lane,
                guest(1),
                Direction::Encrypt,
                SHORT,
                LONG
            )),
            BadLane
        );
        assert_eq!(
            refused(&bench, |b| b.take_into(lane, guest(257), &mut [0; 17])),
            BadLane
        );
        assert_eq!(refused(&bench, |b| b.close(lane, guest(1))), BadLane);
    }
    for lane in [0, 1] {
        assert_eq!(
            refused(&bench, |b| b.open(
                lane,
                guest(1),
                Direction::Encrypt,
                SHORT,
                LONG
            )),
            LaneNotIdle
        );
    }
    assert_eq!(
        refused(&bench, |b| b.open(
            2,
            guest(1),
            Direction::Encrypt,
            SHORT,
            LONG
        )),
        BadKeyLength
    );
    assert_eq!(
        refused(&bench, |b| b.open(
            2,
            guest(1),
            Direction::Encrypt,
            KEY,
            LONG
        )),
        BadBlockLength
    );
    for lane in [1, 2] {
        assert_eq!(
            refused(&bench, |b| b.take(lane, guest(257))),
            LaneNotFinished
        );
        assert_eq!(
            refused(&bench, |b| b.take_into(lane, guest(257), &mut [0; 17])),
            LaneNotFinished
        );
    }
    for length in [0, 15, 17, 32] {
        let mut out = vec![9; length];
        assert_eq!(
            refused(&bench, |b| b.take_into(0, guest(1), &mut out)),
            BadBlockLength
        );
        assert_eq!(out, vec![9; length]);
    }
    for asked in [1025, 1026, 1 << 16, 1 << 31, u32::MAX] {
        assert_eq!(refused(&bench, |b| b.turn(asked)), TooManyTurns);
    }
}

/// Directions and slices that the types of a `Bench` do not let through.
#[test]
fn refusals_of_lent_records() {
    let bench = some_bench();
    for direction in [2, 3, 255, 256, 257, 1 << 31, u32::MAX] {
        let mut lanes = *bench.records();
        assert_eq!(
            calls::open_lane(&mut lanes, 3, Bench::LANES, 0, direction, SHORT, LONG),
            Err(BadLane)
        );
        assert_eq!(
            calls::open_lane(&mut lanes, 3, 0, 0, direction, SHORT, LONG),
            Err(LaneNotIdle)
        );
        assert_eq!(
            calls::open_lane(&mut lanes, 3, 2, 0, direction, SHORT, LONG),
            Err(NotTheOwner)
        );
        assert_eq!(
            calls::open_lane(&mut lanes, 3, 2, 256, direction, SHORT, LONG),
            Err(BadDirection)
        );
        assert_eq!(lanes, *bench.records());
    }
    for count in [0, 1, 4, 15, 17, 32] {
        let lent = vec![Lane::FRESH; count];
        let mut lanes = lent.clone();
        assert_eq!(
            calls::open_lane(&mut lanes, 3, Bench::LANES, 0, 9, SHORT, LONG),
            Err(BadBench)
        );
        assert_eq!(calls::turn(&mut lanes, 3, 5000), Err(BadBench));
        assert_eq!(
            calls::take(&mut lanes, 3, Bench::LANES, 0, &mut [0; 17]),
            Err(BadBench)
        );
        assert_eq!(calls::close(&mut lanes, 3, Bench::LANES, 0), Err(BadBench));
        assert_eq!(lanes, lent);
    }
}

#[test]
fn unsound_benches() {
    let unsound = |lane: Lane| {
        lane != Lane::FRESH
            && (lane.owner == 0
                || lane.direction > 1
                || !matches!((lane.phase, lane.count), (1, 0..=7) | (2, 8)))
    };
    let mut refusals = 0;
    for phase in [0, 1, 2, 3, 255] {
        for (direction, owner) in [(0, 1), (1, 65535), (2, 1), (255, 1), (0, 0), (1, 256)] {
            for count in [0, 1, 7, 8, 9, 255, 256, 263, 264, 131080, u32::MAX] {
                for place in 0..Bench::LANES as usize {
                    let mut lanes = *some_bench().records();
                    lanes[place] = Lane {
                        phase,
                        direction,
                        owner,
                        count,
                        ..lanes[place]
                    };
                    let bench = Bench::from_records(lanes, 1);
                    if unsound(lanes[place]) {
                        refusals += 1;
                        assert_eq!(
                            refused(&bench, |b| b.open(
                                Bench::LANES,
                                guest(1),
                                Direction::Encrypt,
                                SHORT,
                                LONG
                            )),
                            BadBench
                        );
                        assert_eq!(refused(&bench, |b| b.turn(5000)), BadBench);
                        assert_eq!(
                            refused(&bench, |b| b.take(Bench::LANES, guest(1))),
                            BadBench
                        );
                        assert_eq!(
                            refused(&bench, |b| b.close(Bench::LANES, guest(1))),
                            BadBench
                        );
                    } else {
                        assert!(
                            bench.clone().turn(0) == Ok(0)
                                && calls::close(
                                    &mut lanes.clone(),
                                    1,
                                    place as u32,
                                    lanes[place].owner
                                ) == Ok(())
                        );
                    }
                }
            }
        }
    }
    assert!(refusals > 300 * Bench::LANES / 4);
    for last in [Bench::LANES, Bench::LANES + 1, 255, 256, 1 << 31, u32::MAX] {
        let bench = Bench::from_records(*some_bench().records(), last);
        assert_eq!(
            refused(&bench, |b| b.open(
                2,
                guest(1),
                Direction::Encrypt,
                KEY,
                BLOCK
            )),
            BadBench
        );
        assert_eq!(refused(&bench, |b| b.turn(0)), BadBench);
        assert_eq!(refused(&bench, |b| b.take(0, guest(1))), BadBench);
        assert_eq!(refused(&bench, |b| b.close(3, guest(1))), BadBench);
    }
}

/// An idle record with one bit set, in any field and any of the 84 words, makes every call answer 10.
#[test]
fn idle_records_are_all_zero() {
    let bits = |set: &dyn Fn(&mut Lane)| {
        let mut lanes = *some_bench().records();
        set(&mut lanes[2]);
        let bench = Bench::from_records(lanes, 1);
        assert_eq!(
            refused(&bench, |b| b.open(
                2,
                guest(1),
                Direction::Encrypt,
                KEY,
                BLOCK
            )),
            BadBench
        );
        assert_eq!(refused(&bench, |b| b.turn(1)), BadBench);
        assert_eq!(refused(&bench, |b| b.take(0, guest(1))), BadBench);
        assert_eq!(refused(&bench, |b| b.close(2, guest(1))), BadBench);
    };
    bits(&|l| l.direction = 1);
    (0..16).for_each(|bit| bits(&|l| l.owner = 1 << bit));
    for bit in 0..32 {
        bits(&|l| l.count = 1 << bit);
        (0..80).for_each(|word| bits(&|l| l.words[word] = 1 << bit));
        bits(&|l| l.state.s0 = 1 << bit);
        bits(&|l| l.state.s1 = 1 << bit);
        bits(&|l| l.state.s2 = 1 << bit);
        bits(&|l| l.state.s3 = 1 << bit);
    }
}

#[test]
fn small_facts() {
    let open_all = || {
        let mut bench = Bench::new();
        (0..Bench::LANES).for_each(|lane| {
            bench
                .open(lane, guest(1), Direction::Encrypt, KEY, BLOCK)
                .unwrap()
        });
        bench
    };
    let phases = |bench: &Bench| bench.records().map(|lane| lane.phase);
    let mut one_runs = [2; 16];
    one_runs[15] = 1;
    let mut bench = open_all();
    assert_eq!(
        (bench.turn(127), phases(&bench), bench.last_served()),
        (Ok(127), one_runs, 14)
    );
    let mut bench = open_all();
    assert_eq!(
        (bench.turn(128), phases(&bench), bench.last_served()),
        (Ok(128), [2; 16], 15)
    );
    assert_eq!(
        (bench.turn(1), bench.turn(1024), bench.turn(0)),
        (Ok(0), Ok(0), Ok(0))
    );

    let mut step_by_step = open_all();
    for turns in 0..=128 {
        let mut at_once = open_all();
        assert_eq!(at_once.turn(turns), Ok(turns));
        assert_eq!(at_once, step_by_step);
        step_by_step.turn(1).unwrap();
    }

    let mut bench = Bench::new();
    bench
        .open(2, guest(1), Direction::Encrypt, KEY, BLOCK)
        .unwrap();
    assert_eq!((bench.turn(100), bench.last_served()), (Ok(8), 2));
    assert!(bench.take(2, guest(1)).is_ok() && bench.records()[2] == Lane::FRESH);
    assert_eq!((bench.last_served(), bench.close(2, guest(2))), (2, Ok(())));
    assert_eq!(bench, Bench::from_records(*Bench::new().records(), 2));
}

/// A lane is its owner's, by all sixteen bits of its number: another's take or close of it gives 11, of a finished lane too and whatever the buffer. An idle lane
/// is anyone's to close.
#[test]
fn lanes_belong_to_a_guest() {
    assert_eq!(Owner::new(0), None);
    let bench = some_bench();
    for (lane, owner) in [(0, 1), (1, 257)] {
        for other in (0..16)
            .map(|bit| owner ^ 1 << bit)
            .chain([0, 2, 255, 256, 512, 65535])
        {
            let mut lanes = *bench.records();
            for length in [0, 15, 16, 17] {
                let mut out = vec![9; length];
                assert_eq!(
                    calls::take(&mut lanes, 1, lane, other, &mut out),
                    Err(NotTheOwner)
                );
                assert_eq!(out, vec![9; length]);
            }
            assert_eq!(calls::close(&mut lanes, 1, lane, other), Err(NotTheOwner));
            assert_eq!(lanes, *bench.records());
        }
    }
    assert_eq!(refused(&bench, |b| b.take(1, guest(257))), LaneNotFinished);
    assert!(bench.clone().take(0, guest(1)).is_ok() && bench.clone().close(1, guest(257)).is_ok());
    for anyone in [1, 2, 256, 65535].map(guest) {
        let mut lent = bench.clone();
        assert_eq!(
            (lent.take(2, anyone), lent.close(2, anyone)),
            (Err(LaneNotFinished), Ok(()))
        );
        assert_eq!(lent, bench);
    }
}

#[test]
fn round_words_are_not_told() {
    let mut bench = Bench::new();
    bench
        .open(0, guest(1), Direction::Encrypt, KEY, BLOCK)
        .unwrap();
    assert_eq!(format!("{:?}", Gift128::new(&[5; 16])), "Gift128 { ... }");
    assert_eq!(
        format!("{:?}", bench.records()[0]),
        "Lane { phase: 1, direction: 0, owner: 1, count: 0, .. }"
    );
}
