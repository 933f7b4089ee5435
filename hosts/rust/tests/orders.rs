//! The two orders: known answers of order 1, and that every call that names no order is order 0's.

use gift_host::Refusal::*;
use gift_host::{calls, Bench, Direction, Gift128, Lane, Order, Owner, Refusal};

/// The two blocks that GIFT-COFB encrypts in its first test vector, whose key and nonce are 00 01 .. 0f; the second becomes its tag.
const KNOWN: [[[u8; 16]; 2]; 2] = [
    [
        hex(0x00010203_04050607_08090a0b_0c0d0e0f),
        hex(0xa94af7f9_ba181df9_b2b00eb7_dbfa93df),
    ],
    [
        hex(0x0f5586d5_c0635158_5295eff3_74303bf3),
        hex(0x36896583_6d36614d_e2fc24d0_f801b9af),
    ],
];

const fn hex(number: u128) -> [u8; 16] {
    number.to_be_bytes()
}

const KEY: [u8; 16] = hex(0x00010203_04050607_08090a0b_0c0d0e0f);

/// Numbers that are no order's; some are one in their low byte or half.
const OTHERS: [u32; 7] = [2, 3, 256, 257, 65536, 65537, u32::MAX];

fn guest() -> Owner {
    Owner::new(7).unwrap()
}

#[test]
fn known_answers() {
    let cipher = Gift128::new(&KEY);
    for [plain, secret] in KNOWN {
        let mut block = plain;
        cipher.encrypt_block_in(Order::Words, &mut block);
        assert_eq!(block, secret);
        cipher.decrypt_block_in(Order::Words, &mut block);
        assert_eq!(block, plain);
        calls::encrypt_by_key_in(1, &KEY, &mut block).unwrap();
        assert_eq!(block, secret);
        calls::decrypt_by_key_in(1, &KEY, &mut block).unwrap();
        assert_eq!(block, plain);
        calls::encrypt_blocks_in(1, &KEY, &plain, &mut block).unwrap();
        assert_eq!(block, secret);
        calls::decrypt_blocks_in(1, &KEY, &secret, &mut block).unwrap();
        assert_eq!(block, plain);
        for (direction, from, to) in [
            (Direction::Encrypt, plain, secret),
            (Direction::Decrypt, secret, plain),
        ] {
            let mut bench = Bench::new();
            bench
                .open_in(Order::Words, 3, guest(), direction, &KEY, &from)
                .unwrap();
            let lane = bench.records()[3];
            assert_eq!((lane.turns(), lane.order()), (0, 1));
            assert!(format!("{lane:?}").ends_with("count: 0, order: 1, .. }"));
            bench.turn(8).unwrap();
            assert_eq!(bench.take(3, guest()), Ok(to));
            assert_eq!(bench.records()[3], Lane::FRESH);
        }
    }
}

#[test]
fn order_0_is_what_names_no_order() {
    let (cipher, mut words) = (Gift128::new(&KEY), [0; 80]);
    calls::expand(&KEY, &mut words).unwrap();
    let mut block = KEY;
    for _ in 0..1000 {
        let before = block;
        let made = |call: &dyn Fn(&mut [u8; 16])| {
            let mut b = before;
            call(&mut b);
            b
        };
        cipher.encrypt_block(&mut block);
        assert_eq!(block, made(&|b| cipher.encrypt_block_in(Order::Number, b)));
        assert_eq!(
            block,
            made(&|b| cipher.encrypt_block_in(Order::default(), b))
        );
        assert_eq!(
            block,
            made(&|b| calls::encrypt_by_key_in(0, &KEY, b).unwrap())
        );
        assert_eq!(block, made(&|b| calls::encrypt_by_key(&KEY, b).unwrap()));
        assert_eq!(
            block,
            made(&|b| calls::encrypt_by_words_in(0, &words, b).unwrap())
        );
        assert_eq!(
            block,
            made(&|b| calls::encrypt_blocks_in(0, &KEY, &before, b).unwrap())
        );
        let mut benches = [Bench::new(), Bench::new()];
        benches[0]
            .open(5, guest(), Direction::Encrypt, &KEY, &before)
            .unwrap();
        benches[1]
            .open_in(Order::Number, 5, guest(), Direction::Encrypt, &KEY, &before)
            .unwrap();
        assert_eq!(benches[0], benches[1]);
        benches[1].turn(8).unwrap();
        assert_eq!(benches[1].take(5, guest()), Ok(block));
        assert_ne!(block, made(&|b| cipher.encrypt_block_in(Order::Words, b)));
    }
}

#[test]
fn the_order_is_refused_first() {
    let good = |order: u32, own: Result<(), Refusal>| {
        if order > 1 {
            Err(BadOrder)
        } else {
            own
        }
    };
    for order in OTHERS.into_iter().chain([0, 1]) {
        for (key, own) in [(16, Err(BadBlockLength)), (15, Err(BadKeyLength))] {
            let (key, mut block) = (vec![7; key], [9; 17]);
            let must = good(order, own);
            assert_eq!(calls::encrypt_by_key_in(order, &key, &mut block), must);
            assert_eq!(calls::decrypt_by_key_in(order, &key, &mut block), must);
            assert_eq!(
                calls::encrypt_blocks_in(order, &key, &[1; 17], &mut block),
                must
            );
            assert_eq!(
                calls::decrypt_blocks_in(order, &key, &[1; 17], &mut block),
                must
            );
            assert_eq!(block, [9; 17]);
        }
        for (words, own) in [(80, Err(BadBlockLength)), (79, Err(BadWordCount))] {
            let (words, mut block) = (vec![7; words], [9; 15]);
            let must = good(order, own);
            assert_eq!(calls::encrypt_by_words_in(order, &words, &mut block), must);
            assert_eq!(calls::decrypt_by_words_in(order, &words, &mut block), must);
            assert_eq!(
                calls::encrypt_blocks_by_words_in(order, &words, &[1; 15], &mut block),
                must
            );
            assert_eq!(
                calls::decrypt_blocks_by_words_in(order, &words, &[1; 15], &mut block),
                must
            );
            assert_eq!(block, [9; 15]);
        }
        let mut lanes = [Lane::FRESH; 16];
        let mut open = |direction, key: &[u8], block: &[u8]| {
            calls::open_lane_in(order, &mut lanes, 15, 0, 7, direction, key, block)
        };
        assert_eq!(open(2, &[7; 15], &[9; 15]), Err(BadDirection));
        assert_eq!(open(1, &[7; 15], &[9; 15]), good(order, Err(BadKeyLength)));
        assert_eq!(
            open(1, &[7; 16], &[9; 15]),
            good(order, Err(BadBlockLength))
        );
        assert_eq!(lanes, [Lane::FRESH; 16]);
    }
}

/// Every number in a record that is no order's, where the record is else sound; and in an idle one, where order 1 is none.
#[test]
fn records_of_no_order() {
    let mut bench = Bench::new();
    bench
        .open_in(Order::Words, 2, guest(), Direction::Encrypt, &KEY, &KEY)
        .unwrap();
    bench.turn(3).unwrap();
    for (lane, last) in [(2, 1), (5, 0)] {
        for order in 0..=u16::MAX {
            let mut records = *bench.records();
            records[lane].count = u32::from(records[lane].turns()) | u32::from(order) << 16;
            let asked = Bench::from_records(records, bench.last_served()).turn(0);
            assert_eq!(asked.is_ok(), order <= last, "lane {lane}, order {order}");
        }
    }
}

#[test]
fn many_blocks_are_each_by_itself_in_either_order() {
    let cipher = Gift128::new(&KEY);
    for order in [Order::Number, Order::Words] {
        // every length up to a group of sixty-four and some more, and lengths round two groups and 64 KiB
        for n in (0..80).chain(126..138).chain(4094..4098) {
            let plain: Vec<[u8; 16]> = (0..n).map(|i: u128| (i.wrapping_mul(0x30000_00000000_00000000_00000005) + 1).to_be_bytes()).collect();
            let mut singly = plain.clone();
            for block in &mut singly {
                cipher.encrypt_block_in(order, block);
            }
            let mut blocks = plain.clone();
            cipher.encrypt_blocks_in(order, &mut blocks);
            assert_eq!(blocks, singly);
            cipher.decrypt_blocks_in(order, &mut blocks);
            assert_eq!(blocks, plain);
        }
    }
}

/// From one buffer to another, in place and block by block: the same bytes; an output of another length is refused, and stays.
#[test]
fn many_blocks_to_another_buffer() {
    let cipher = gift_host::Gift128::new(&[7; 16]);
    for n in 0..40 {
        let input: Vec<[u8; 16]> = (0..n).map(|i| [i as u8; 16]).collect();
        let (mut there, mut in_place, mut singly) = (vec![[9; 16]; n], input.clone(), input.clone());
        cipher.encrypt_blocks_to(&input, &mut there).unwrap();
        cipher.encrypt_blocks(&mut in_place);
        singly.iter_mut().for_each(|block| cipher.encrypt_block(block));
        assert_eq!(there, in_place);
        assert_eq!(there, singly);
        let mut back = vec![[9; 16]; n];
        cipher.decrypt_blocks_to(&there, &mut back).unwrap();
        assert_eq!(back, input);
        let mut longer = vec![[9; 16]; n + 1];
        assert_eq!(cipher.encrypt_blocks_to(&input, &mut longer), Err(gift_host::Refusal::BadOutputLength));
        assert_eq!(cipher.decrypt_blocks_to(&input, &mut longer), Err(gift_host::Refusal::BadOutputLength));
        assert_eq!(longer, vec![[9; 16]; n + 1]);
    }
}
