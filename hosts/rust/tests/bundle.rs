//! Settings bundles: stored bytes, what an old and a new reader see, every refusal, and sizes at their limits.

use gift_host::calls::bundles;
use gift_host::Refusal::*;
use gift_host::{calls, Answer, Bundle, Differences, Edition, Row, Value, Writer};

const KEY: [u8; 16] = [0, 1, 2, 3, 4, 5, 6, 7, 8, 9, 10, 11, 12, 13, 14, 15];

/// As oracle/bundle_model.py writes it, and hosts/c/settings.c: a flag, a number and a text that need not be known.
const STORED: &str = "000200030000004a000000010000002c00010001000000070000002d00080101\
                      0000001400000035000502000100000000000003e868656c6c6f8732cf2f6bb9ba84bc0799e3330f928a";

fn row(id: u32, kind: u32, must_know: u32, length: u32) -> Row {
    Row {
        id,
        kind,
        must_know,
        length,
    }
}

fn rows() -> [Row; 3] {
    [row(1, 0, 1, 1), row(7, 1, 1, 8), row(20, 2, 0, 5)]
}

const POOL: &[u8] = b"\x01\0\0\0\0\0\0\x03\xe8hello";

fn bytes(hex: &str) -> Vec<u8> {
    (0..hex.len() / 2)
        .map(|i| u8::from_str_radix(&hex[2 * i..2 * i + 2], 16).unwrap())
        .collect()
}

/// With the tag of what stands before it.
fn tagged(mut message: Vec<u8>) -> Vec<u8> {
    let mut tag = [0; 16];
    calls::mac(&KEY, &message, &mut tag).unwrap();
    message.extend(tag);
    message
}

#[test]
fn stored_bytes() {
    let mut out = [0xaa; 100];
    let bundle = Writer::new(Edition::Two)
        .write(&KEY, &rows(), POOL, &mut out)
        .unwrap();
    assert_eq!(bundle, &bytes(STORED)[..]);
    assert_eq!(out[74..], [0xaa; 26]);
}

#[test]
fn an_old_and_a_new_node() {
    let bytes = bytes(STORED);
    let new = Bundle::open(&KEY, &bytes).unwrap();
    let old = Bundle::open_by(Edition::One, &KEY, &bytes).unwrap();
    assert_eq!((new.len(), old.len()), (3, 3));
    for node in [new, old] {
        assert_eq!(node.get(1), Answer::Value(Value::Flag(true)));
        assert_eq!(node.get(7), Answer::Value(Value::Number(1000)));
        assert_eq!(node.get(2), Answer::Absent);
    }
    assert_eq!(new.get(20), Answer::Value(Value::Text(b"hello")));
    assert_eq!(old.get(20), Answer::Unknown);
    let ids = |b: &Bundle| b.iter().map(|(id, _)| id).collect::<Vec<_>>();
    assert_eq!((ids(&new), ids(&old)), (vec![1, 7, 20], vec![1, 7, 20]));
    assert_eq!(old.iter().last(), Some((20, Answer::Unknown)));
    for (id, answer) in &new {
        assert_eq!(new.get(id), answer);
    }

    let mut strict = rows();
    strict[2].must_know = 1;
    let mut out = [0; 74];
    let bytes = Writer::new(Edition::Two)
        .write(&KEY, &strict, POOL, &mut out)
        .unwrap();
    assert!(Bundle::open(&KEY, bytes).is_ok());
    assert_eq!(
        Bundle::open_by(Edition::One, &KEY, bytes).unwrap_err(),
        MustKnow
    );
}

#[test]
fn refusals_of_a_reader() {
    let good = bytes(STORED);
    for reader in [Edition::One, Edition::Two] {
        let open =
            |key: &[u8], bytes: &[u8]| Bundle::open_by(reader, key, bytes).map(|_| ()).unwrap_err();
        for n in [0, 15, 17] {
            assert_eq!(open(&vec![0; n], &[]), BadKeyLength);
        }
        for n in [0, 23, 73] {
            assert_eq!(open(&KEY, &good[..n]), BadBundleLength);
        }
        assert_eq!(open(&KEY, &[0; 65537]), BadBundleLength);
        for i in 0..good.len() {
            let mut changed = good.clone();
            changed[i] ^= 1;
            let wanted = if (4..8).contains(&i) {
                BadBundleLength
            } else {
                BadTag
            };
            assert_eq!(open(&KEY, &changed), wanted, "byte {i}");
            assert_eq!(bundles::ask(reader, &KEY, &changed, 1), Err(wanted));
        }
        // edition 0, 257 entries, an offset off by one, a must-know of 2, a flag of 2, and a gap before the tag, with good tags
        for (i, x) in [(1, 0), (2, 1), (15, 45), (19, 2), (44, 2)] {
            let mut changed = good[..58].to_vec();
            changed[i] = x;
            assert_eq!(open(&KEY, &tagged(changed)), Malformed, "byte {i}");
        }
        let mut gap = good[..58].to_vec();
        gap.push(0);
        gap[7] += 1;
        assert_eq!(open(&KEY, &tagged(gap)), Malformed);
    }
    // text in a bundle of edition 1 is malformed for both
    let mut first = good[..58].to_vec();
    first[1] = 1;
    let first = tagged(first);
    assert_eq!(Bundle::open(&KEY, &first).unwrap_err(), Malformed);
    assert_eq!(
        Bundle::open_by(Edition::One, &KEY, &first).unwrap_err(),
        Malformed
    );
}

#[test]
fn refusals_of_a_writer() {
    let mut out = [0x55; 100];
    let two = Writer::new(Edition::Two);
    let mut refused = |writer: &Writer, rows: &[Row], pool: &[u8], room: usize| {
        let refusal = writer
            .write(&KEY, rows, pool, &mut out[..room])
            .unwrap_err();
        assert_eq!(out, [0x55; 100]);
        refusal
    };
    assert_eq!(
        refused(&Writer::new(Edition::One), &rows(), POOL, 100),
        BadList
    );
    assert_eq!(refused(&two, &rows(), POOL, 73), ShortOutput);
    assert_eq!(refused(&two, &rows(), &POOL[1..], 100), BadList);
    for (i, wrong) in [
        (1, row(1, 1, 1, 8)),
        (1, row(7, 3, 1, 8)),
        (1, row(7, 1, 2, 8)),
        (1, row(7, 0, 1, 8)),
    ] {
        let mut rows = rows();
        rows[i] = wrong;
        assert_eq!(refused(&two, &rows, POOL, 100), BadList);
        assert_eq!(refused(&two, &rows, POOL, 10), BadList);
    }
    assert_eq!(
        bundles::write(Edition::Two, &KEY, &[1, 0, 1], &[], &mut out),
        Err(BadList)
    );
    assert_eq!(
        bundles::write(Edition::Two, &[0; 15], &[1, 0, 1], &[], &mut out),
        Err(BadKeyLength)
    );
}

#[test]
fn sizes() {
    let mut out = vec![0; 70_000];
    let mut number = |edition, count: u32| {
        let rows: Vec<Row> = (0..count).map(|i| row(i, 1, 0, 8)).collect();
        Writer::new(edition)
            .write(&KEY, &rows, &vec![7; 8 * count as usize], &mut out)
            .map(|b| b.len())
    };
    for edition in [Edition::One, Edition::Two] {
        assert_eq!(number(edition, 0), Ok(24));
        assert_eq!(number(edition, 256), Ok(5144));
        assert_eq!(number(edition, 257), Err(BadList));
    }
    for more in 0..=1 {
        let rows: Vec<Row> = (0..256)
            .map(|i| row(i, 2, 0, if i < 232 + more { 244 } else { 243 }))
            .collect();
        let pool = vec![9; 62_440 + more as usize];
        let written = Writer::new(Edition::Two).write(&KEY, &rows, &pool, &mut out);
        if more == 1 {
            assert_eq!(written.unwrap_err(), BadList);
            continue;
        }
        let bundle = written.unwrap();
        assert_eq!(bundle.len(), Bundle::MOST);
        let bundle = Bundle::open(&KEY, bundle).unwrap();
        assert_eq!(bundle.get(255), Answer::Value(Value::Text(&[9; 243])));
        assert_eq!(bundle.get(256), Answer::Absent);
        assert_eq!(bundle.iter().count(), 256);
    }
}

fn written(rows: &[Row], pool: &[u8]) -> Vec<u8> {
    let mut out = vec![0; Bundle::MOST];
    Writer::new(Edition::Two)
        .write(&KEY, rows, pool, &mut out)
        .unwrap()
        .to_vec()
}

#[test]
fn where_two_differ() {
    let first = written(
        &[row(17, 1, 1, 8), row(18, 0, 1, 1), row(19, 2, 0, 6), row(u32::MAX, 0, 0, 1)],
        b"\0\0\0\0\0\0\x04\xe2\x01Pier 4\x01",
    );
    let second = written(
        &[row(17, 1, 0, 8), row(18, 2, 1, 1), row(20, 2, 0, 6), row(u32::MAX, 0, 0, 1)],
        b"\0\0\0\0\0\0\x04\xe2\x01Pier 4\0",
    );
    let pier = Answer::Value(Value::Text(b"Pier 4"));
    let flag = |on| Answer::Value(Value::Flag(on));
    let expected = [
        // must-know is no part of a value, and a kind is
        (18, flag(true), Answer::Value(Value::Text(b"\x01"))),
        (19, pier, Answer::Absent),
        (20, Answer::Absent, pier),
        (u32::MAX, flag(true), flag(false)),
    ];
    let found: Vec<_> = Differences::between(&KEY, &first, &second).unwrap().collect();
    assert_eq!(found, expected);
    let turned: Vec<_> = Differences::between(&KEY, &second, &first).unwrap().collect();
    assert_eq!(turned, expected.map(|(id, a, b)| (id, b, a)));
    assert_eq!(Differences::between(&KEY, &first, &first).unwrap().count(), 0);
    // each one's number, the first's first, and nothing listed
    let mut damaged = second.clone();
    damaged[20] ^= 1;
    let refused = |key: &[u8], a: &[u8], b: &[u8]| Differences::between(key, a, b).unwrap_err();
    assert_eq!(refused(&KEY, &first, &damaged), (None, Some(BadTag)));
    assert_eq!(refused(&KEY, &damaged, &[]), (Some(BadTag), Some(BadBundleLength)));
    assert_eq!(refused(&KEY[..15], &first, &[]), (Some(BadKeyLength), Some(BadKeyLength)));
    // rows that are too few: the count is told, and nothing written
    let mut rows = [bundles::Difference::default(); 3];
    let told = bundles::differ(&KEY, &first, &second, &mut rows);
    assert_eq!((told.code, told.first, told.second, told.count), (25, 0, 0, 4));
    assert_eq!(rows, [bundles::Difference::default(); 3]);
}
