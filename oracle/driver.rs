//! Makes cases and the answers that the crate gives to them, as lines that the program `replay` reads.
//!
//! consts, primitives and key_schedule are the crate's own files, and blocks has the two block functions of its lib.rs, word for word;
//! `oracle/run` puts them beside this file, and cipher, which stands in for the types that the two functions name. What the crate cannot be asked comes from document 01, or is
//! the port's stated answer: the refusals, since the crate takes arrays of the right length alone, and round 1 by itself, which it never stops after. The two kinds of
//! answers are counted apart.

mod blocks;
mod cipher;
mod consts;
mod key_schedule;
mod primitives;

use cipher::{Gift128, InOut};
use std::io::{self, BufWriter, Write};

// ---- the crate's answers

type Bytes16 = [u8; 16];
type Words = [u32; 80];
type State = [u32; 4];

#[derive(Clone, Copy, PartialEq)]
enum Way {
    Encrypt,
    Decrypt,
}

use Way::{Decrypt, Encrypt};

impl Way {
    /// `encrypt_by_key` or `decrypt_by_key`, and so on.
    fn name(self, rest: &str) -> String {
        format!("{}_{rest}", if self == Encrypt { "encrypt" } else { "decrypt" })
    }
}

fn by_words(way: Way, k: &Words, block: &Bytes16) -> Bytes16 {
    let cipher = Gift128 { k: *k };
    let mut out = [0; 16];
    let io = InOut { read: block, written: &mut out };
    match way {
        Encrypt => cipher.encrypt_block(io),
        Decrypt => cipher.decrypt_block(io),
    }
    out
}

fn by_key(way: Way, key: &Bytes16, block: &Bytes16) -> Bytes16 {
    by_words(way, &key_schedule::precompute_rkeys(key), block)
}

fn quintuple(way: Way, s: &State, words: &[u32], i: usize) -> State {
    let mut t = *s;
    match way {
        Encrypt => primitives::quintuple_round(&mut t, words, &consts::GIFT_RC[i..]),
        Decrypt => primitives::inv_quintuple_round(&mut t, words, &consts::GIFT_RC[i..]),
    }
    t
}

fn packed(block: &Bytes16) -> State {
    let mut s = [0; 4];
    primitives::packing(&mut s, block);
    s
}

fn unpacked(s: &State) -> Bytes16 {
    let mut b = [0; 16];
    primitives::unpacking(s, &mut b);
    b
}

// ---- document 01's rounds, plainly: the judge of round 1 alone, and itself judged by the crate over all forty rounds

const BOX: [u128; 16] = [0x1, 0xa, 0x4, 0xc, 0x6, 0xf, 0x3, 0x9, 0x2, 0xd, 0xb, 0x7, 0x5, 0x0, 0x8, 0xe];

fn plain_rounds(key: &Bytes16, block: &Bytes16, rounds: usize) -> Bytes16 {
    let mut b = u128::from_be_bytes(*block);
    let mut k: Vec<u16> = (0..8).map(|i| (u128::from_be_bytes(*key) >> (16 * i)) as u16).collect();
    let mut c = 0u128;
    for _ in 0..rounds {
        let mut boxed = 0;
        for i in 0..32 {
            boxed |= BOX[(b >> (4 * i)) as usize % 16] << (4 * i);
        }
        b = 0;
        for i in 0..128 {
            let p = 4 * (i / 16) + 32 * ((3 * ((i % 16) / 4) + i % 4) % 4) + i % 4;
            b |= ((boxed >> i) & 1) << p;
        }
        let u = (k[5] as u128) << 16 | k[4] as u128;
        let v = (k[1] as u128) << 16 | k[0] as u128;
        for i in 0..32 {
            b ^= ((u >> i) & 1) << (4 * i + 2);
            b ^= ((v >> i) & 1) << (4 * i + 1);
        }
        c = ((c << 1) & 0x3f) | ((c >> 5) ^ (c >> 4) ^ 1) & 1;
        b ^= 1 << 127;
        for i in 0..6 {
            b ^= ((c >> i) & 1) << (4 * i + 3);
        }
        k = vec![k[2], k[3], k[4], k[5], k[6], k[7], k[0].rotate_right(12), k[1].rotate_right(2)];
    }
    b.to_be_bytes()
}

// ---- document 01's refusals

fn array<const N: usize, T: Copy>(s: &[T]) -> Option<[T; N]> {
    s.try_into().ok()
}

/// One block by a key: 1, 2.
fn key_code(key: &[u8], block: &[u8]) -> u32 {
    if key.len() != 16 {
        1
    } else if block.len() != 16 {
        2
    } else {
        0
    }
}

/// Many blocks by a key: 1, 2, 3.
fn many_code(key: &[u8], input: &[u8], output: &[u8]) -> u32 {
    if key.len() != 16 {
        1
    } else if input.len() % 16 != 0 {
        2
    } else if output.len() != input.len() {
        3
    } else {
        0
    }
}

// ---- cases as lines

fn hex(bytes: &[u8]) -> String {
    if bytes.is_empty() {
        return "-".into();
    }
    bytes.iter().map(|b| format!("{b:02x}")).collect()
}

fn words(ws: &[u32]) -> String {
    if ws.is_empty() {
        return "-".into();
    }
    ws.iter().map(|w| format!("{w:08x}")).collect()
}

/// A number of one word, and one of two.
fn number(n: u32) -> String {
    format!("{n:x}")
}

fn wide(n: usize) -> String {
    format!("{n:016x}")
}

/// Who gives a case's answer: the crate; the plain rounds below; or document 01, or this port, that says of a refusal what comes of it.
#[derive(Clone, Copy)]
enum Judge {
    Crate,
    Plain,
    Stated,
}

impl Judge {
    /// The crate where it can be asked.
    fn crate_if(asked: bool) -> Judge {
        if asked { Judge::Crate } else { Judge::Stated }
    }
}

struct Cases {
    out: BufWriter<io::Stdout>,
    full: bool,
    seed: u64,
    /// How many answers came from each judge.
    judged: [usize; 3],
}

impl Cases {
    /// How many of a kind: in a full run, and in the stored sample.
    fn some(&self, full: usize, sample: usize) -> usize {
        if self.full { full } else { sample }
    }

    /// The numbers below n: all in a full run, and in the sample a few that are spread over them.
    fn spread(&self, n: usize, sample: usize) -> Vec<usize> {
        if self.full { (0..n).collect() } else { (0..sample).map(|i| i * (n - 1) / (sample - 1).max(1)).collect() }
    }

    /// These lengths in the sample; in a full run also all up to the highest.
    fn lengths(&self, full: usize, sample: &[usize]) -> Vec<usize> {
        if self.full { (0..=full).collect() } else { sample.to_vec() }
    }

    fn heading(&mut self, text: &str) {
        writeln!(self.out, "## {text}").unwrap();
    }

    /// A call with its fields.
    fn case(&mut self, judge: Judge, name: &str, fields: &[(&str, String)]) {
        write!(self.out, "{name}").unwrap();
        for (field, digits) in fields {
            write!(self.out, " {field}={digits}").unwrap();
        }
        writeln!(self.out).unwrap();
        self.judged[judge as usize] += 1;
    }

    // numbers by splitmix64
    fn next(&mut self) -> u64 {
        self.seed = self.seed.wrapping_add(0x9e3779b97f4a7c15);
        let z = (self.seed ^ (self.seed >> 30)).wrapping_mul(0xbf58476d1ce4e5b9);
        let z = (z ^ (z >> 27)).wrapping_mul(0x94d049bb133111eb);
        z ^ (z >> 31)
    }

    fn bytes(&mut self, n: usize) -> Vec<u8> {
        (0..n).map(|_| self.next() as u8).collect()
    }

    fn block(&mut self) -> Bytes16 {
        self.bytes(16).try_into().unwrap()
    }

    fn words(&mut self, n: usize) -> Vec<u32> {
        (0..n).map(|_| self.next() as u32).collect()
    }

    fn eighty(&mut self) -> Words {
        self.words(80).try_into().unwrap()
    }

    fn state(&mut self) -> State {
        self.words(4).try_into().unwrap()
    }

    // ---- one call each, of whatever lengths

    fn key_case(&mut self, way: Way, key: &[u8], block: &[u8]) {
        let code = key_code(key, block);
        let after = match (array(key), array(block)) {
            (Some(k), Some(b)) => by_key(way, &k, &b).to_vec(),
            _ => block.to_vec(),
        };
        let fields = [("key", hex(key)), ("lent", hex(block)), ("number", number(code)), ("left", hex(&after))];
        self.case(Judge::crate_if(code == 0), &way.name("by_key"), &fields);
    }

    fn one_round_case(&mut self, key: &[u8], block: &[u8]) {
        let code = key_code(key, block);
        let after = match (array(key), array(block)) {
            (Some(k), Some(b)) => plain_rounds(&k, &b, 1).to_vec(),
            _ => block.to_vec(),
        };
        let fields = [("key", hex(key)), ("lent", hex(block)), ("number", number(code)), ("left", hex(&after))];
        self.case(if code == 0 { Judge::Plain } else { Judge::Stated }, "one_round", &fields);
    }

    /// A `Gift128` made from a refused key has eighty zero words (document 01).
    fn instance_case(&mut self, way: Way, key: &[u8], block: &[u8]) {
        let k = array(key).map_or([0; 80], |k| key_schedule::precompute_rkeys(&k));
        let (code, after) = match array(block) {
            Some(b) => (0, by_words(way, &k, &b).to_vec()),
            None => (2, block.to_vec()),
        };
        let fields = [("key", hex(key)), ("lent", hex(block)), ("number", number(code)), ("left", hex(&after))];
        self.case(Judge::crate_if(key.len() == 16 && code == 0), &way.name("block"), &fields);
    }

    fn new_case(&mut self, key: &[u8]) {
        let (code, k) = match array(key) {
            Some(k) => (0, key_schedule::precompute_rkeys(&k)),
            None => (1, [0; 80]),
        };
        self.case(Judge::crate_if(code == 0), "new", &[("key", hex(key)), ("number", number(code)), ("gives", words(&k))]);
    }

    fn words_case(&mut self, way: Way, ws: &[u32], block: &[u8]) {
        let (code, after) = match (array(ws), array(block)) {
            (None, _) => (4, block.to_vec()),
            (_, None) => (2, block.to_vec()),
            (Some(k), Some(b)) => (0, by_words(way, &k, &b).to_vec()),
        };
        let fields = [("words", words(ws)), ("lent", hex(block)), ("number", number(code)), ("left", hex(&after))];
        self.case(Judge::crate_if(code == 0), &way.name("by_words"), &fields);
    }

    fn many_case(&mut self, way: Way, key: &[u8], input: &[u8], output: &[u8]) {
        let code = many_code(key, input, output);
        let after = if code == 0 {
            let key = array(key).unwrap();
            input.chunks(16).flat_map(|b| by_key(way, &key, &array(b).unwrap())).collect()
        } else {
            output.to_vec()
        };
        let fields = [("key", hex(key)), ("input", hex(input)), ("lent", hex(output)), ("number", number(code)), ("left", hex(&after))];
        self.case(Judge::crate_if(code == 0 && !input.is_empty()), &way.name("blocks"), &fields);
    }

    fn expand_case(&mut self, key: &[u8], ws: &[u32]) {
        let (code, after) = match array(key) {
            None => (1, ws.to_vec()),
            Some(_) if ws.len() != 80 => (4, ws.to_vec()),
            Some(k) => (0, key_schedule::precompute_rkeys(&k).to_vec()),
        };
        let fields = [("key", hex(key)), ("lent", words(ws)), ("number", number(code)), ("left", words(&after))];
        self.case(Judge::crate_if(code == 0), "precompute_rkeys", &fields);
    }

    /// Fewer than ten words, or an offset that is none of 0, 5, .. 35, leave the state as it is: the stated answer of the port, since
    /// the crate's function would end the program or go by constants of no quintuple.
    fn quintuple_case(&mut self, way: Way, s: &State, ws: &[u32], i: usize) -> State {
        let good = ws.len() >= 10 && i <= 35 && i % 5 == 0;
        let t = if good { quintuple(way, s, ws, i) } else { *s };
        let name = if way == Encrypt { "quintuple_round" } else { "inv_quintuple_round" };
        let fields = [("args", words(s)), ("words", words(ws)), ("offset", wide(i)), ("gives", words(&t))];
        self.case(Judge::crate_if(good), name, &fields);
        t
    }

    fn packing_case(&mut self, block: &[u8]) {
        let s = array(block).map_or([0; 4], |b| packed(&b));
        self.case(Judge::crate_if(block.len() == 16), "packing", &[("input", hex(block)), ("gives", words(&s))]);
    }

    fn unpacking_case(&mut self, s: &State, block: &[u8]) {
        let after = if block.len() == 16 { unpacked(s).to_vec() } else { block.to_vec() };
        let fields = [("args", words(s)), ("lent", hex(block)), ("number", number(0)), ("left", hex(&after))];
        self.case(Judge::crate_if(block.len() == 16), "unpacking", &fields);
    }
}

fn one_bit(n: usize) -> Bytes16 {
    (1u128 << n).to_be_bytes()
}

fn without_bit(n: usize) -> Bytes16 {
    (!(1u128 << n)).to_be_bytes()
}

// ---- the kinds

fn blocks_by_key(c: &mut Cases) {
    for way in [Encrypt, Decrypt] {
        let call = way.name("by_key");
        c.heading(&format!("{call}, random keys and blocks"));
        for _ in 0..c.some(30_000, 12) {
            let (k, b) = (c.block(), c.block());
            c.key_case(way, &k, &b);
        }
        c.heading(&format!("{call}, one bit set or one bit missing, in the key or in the block"));
        for n in c.spread(128, 5) {
            for one in [one_bit(n), without_bit(n)] {
                for rest in [[0; 16], [0xff; 16]] {
                    c.key_case(way, &one, &rest);
                    c.key_case(way, &rest, &one);
                }
            }
        }
        c.heading(&format!("{call}, one bit set in the key and one in the block"));
        for n in c.spread(128, 4) {
            for m in c.spread(128, 3) {
                c.key_case(way, &one_bit(n), &one_bit(m));
            }
        }
        c.heading(&format!("{call}, all bytes of the key equal, and all of the block"));
        for k in c.spread(256, 4) {
            for b in c.spread(256, 4) {
                c.key_case(way, &[k as u8; 16], &[b as u8; 16]);
            }
        }
        c.heading(&format!("{call}, bytes that count up and down"));
        for s in c.spread(256, 4) {
            let up: Vec<u8> = (0..16).map(|i| (s + i) as u8).collect();
            let down: Vec<u8> = up.iter().rev().copied().collect();
            for (k, b) in [(&up, &up), (&up, &down), (&down, &up), (&down, &down)] {
                c.key_case(way, k, b);
            }
        }
    }
}

fn by_an_instance(c: &mut Cases) {
    for way in [Encrypt, Decrypt] {
        c.heading(&format!("{}, by the Gift128 of a random key", way.name("block")));
        for _ in 0..c.some(6_000, 6) {
            let (k, b) = (c.block(), c.block());
            c.instance_case(way, &k, &b);
        }
    }
}

fn expansion(c: &mut Cases) {
    c.heading("precompute_rkeys, the eighty words: random keys");
    for _ in 0..c.some(8_000, 6) {
        let (k, w) = (c.block(), c.words(80));
        c.expand_case(&k, &w);
    }
    c.heading("precompute_rkeys, one bit set or one bit missing in the key");
    for n in c.spread(128, 4) {
        for k in [one_bit(n), without_bit(n)] {
            let w = c.words(80);
            c.expand_case(&k, &w);
        }
    }
    c.heading("precompute_rkeys, all bytes of the key equal");
    for k in c.spread(256, 3) {
        let w = c.words(80);
        c.expand_case(&[k as u8; 16], &w);
    }
    c.heading("new, the eighty words of a Gift128");
    for _ in 0..c.some(2_000, 3) {
        let k = c.block();
        c.new_case(&k);
    }
}

fn blocks_by_words(c: &mut Cases) {
    for way in [Encrypt, Decrypt] {
        let call = way.name("by_words");
        c.heading(&format!("{call}, random words"));
        for _ in 0..c.some(8_000, 5) {
            let (w, b) = (c.eighty(), c.block());
            c.words_case(way, &w, &b);
        }
        c.heading(&format!("{call}, the words of a random key"));
        for _ in 0..c.some(2_000, 2) {
            let (k, b) = (c.block(), c.block());
            c.words_case(way, &key_schedule::precompute_rkeys(&k), &b);
        }
        c.heading(&format!("{call}, one bit set in one word"));
        for n in c.spread(80 * 32, 3) {
            let mut w = [0; 80];
            w[n / 32] = 1 << (n % 32);
            c.words_case(way, &w, &[0; 16]);
        }
        c.heading(&format!("{call}, all words equal"));
        for n in c.spread(256, 2) {
            let b = c.block();
            c.words_case(way, &[n as u32 * 0x01010101; 80], &b);
        }
    }
}

fn quintuples(c: &mut Cases) {
    c.heading("quintuple_round, the eight states of a block by a key");
    for _ in 0..c.some(2_500, 2) {
        let (k, b) = (c.block(), c.block());
        let w = key_schedule::precompute_rkeys(&k);
        let mut s = packed(&b);
        for i in (0..40).step_by(5) {
            // as the crate lends them: all words from twice the offset on; the sample has the ten that are read
            let end = c.some(80, 2 * i + 10);
            s = c.quintuple_case(Encrypt, &s, &w[2 * i..end], i);
        }
        assert_eq!(unpacked(&s), by_key(Encrypt, &k, &b));
    }
    c.heading("inv_quintuple_round, the eight states of a block by a key");
    for _ in 0..c.some(2_500, 2) {
        let (k, b) = (c.block(), c.block());
        let w = key_schedule::precompute_rkeys(&k);
        let mut s = packed(&b);
        for i in (0..40).step_by(5).rev() {
            let end = c.some(80, 2 * i + 10);
            s = c.quintuple_case(Decrypt, &s, &w[2 * i..end], i);
        }
        assert_eq!(unpacked(&s), by_key(Decrypt, &k, &b));
    }
    for way in [Encrypt, Decrypt] {
        let name = if way == Encrypt { "quintuple_round" } else { "inv_quintuple_round" };
        c.heading(&format!("{name}, any words on any state"));
        for _ in 0..c.some(600, 1) {
            for i in (0..40).step_by(5) {
                let s = c.state();
                let n = 10 + c.next() as usize % c.some(80, 1);
                let w = c.words(n);
                c.quintuple_case(way, &s, &w, i);
            }
        }
    }
}

fn first_rounds(c: &mut Cases) {
    c.heading("one_round, by document 01's round");
    for _ in 0..c.some(5_000, 8) {
        let (k, b) = (c.block(), c.block());
        c.one_round_case(&k, &b);
    }
    for n in c.spread(128, 3) {
        c.one_round_case(&one_bit(n), &[0; 16]);
        c.one_round_case(&[0; 16], &one_bit(n));
    }
    c.heading("first_round, by document 01's round");
    for _ in 0..c.some(2_000, 4) {
        let (k, b) = (c.block(), c.block());
        let w = key_schedule::precompute_rkeys(&k);
        let n = 2 + c.next() as usize % c.some(79, 3);
        let after = packed(&plain_rounds(&k, &b, 1));
        let fields = [("args", words(&packed(&b))), ("words", words(&w[..n])), ("gives", words(&after))];
        c.case(Judge::Plain, "first_round", &fields);
    }
}

fn packings(c: &mut Cases) {
    c.heading("packing");
    for _ in 0..c.some(5_000, 6) {
        let b = c.block();
        c.packing_case(&b);
    }
    for n in c.spread(128, 6) {
        c.packing_case(&one_bit(n));
    }
    c.heading("unpacking");
    for _ in 0..c.some(5_000, 6) {
        let (s, b) = (c.state(), c.block());
        c.unpacking_case(&s, &b);
    }
    for n in c.spread(128, 6) {
        let b = c.block();
        c.unpacking_case(&packed(&one_bit(n)), &b);
    }
}

fn many_blocks(c: &mut Cases) {
    for way in [Encrypt, Decrypt] {
        c.heading(&format!("{}, 0 to 9 blocks", way.name("blocks")));
        for n in 0..10 {
            for _ in 0..c.some(200, 1) {
                let (k, input, output) = (c.block(), c.bytes(16 * n), c.bytes(16 * n));
                c.many_case(way, &k, &input, &output);
            }
        }
    }
}

fn small_parts(c: &mut Cases) {
    c.heading("round_constant, the table");
    for (i, w) in consts::GIFT_RC.iter().enumerate() {
        c.case(Judge::Crate, "round_constant", &[("args", wide(i)), ("gives", number(*w))]);
    }
    c.heading("sbox, inv_sbox");
    for _ in 0..c.some(2_000, 4) {
        let s = c.state();
        let [mut s0, mut s1, mut s2, mut s3] = s;
        primitives::sbox(&mut s0, &mut s1, &mut s2, &mut s3);
        c.case(Judge::Crate, "sbox", &[("args", words(&s)), ("gives", words(&[s0, s1, s2, s3]))]);
        let [mut s0, mut s1, mut s2, mut s3] = s;
        primitives::inv_sbox(&mut s0, &mut s1, &mut s2, &mut s3);
        c.case(Judge::Crate, "inv_sbox", &[("args", words(&s)), ("gives", words(&[s0, s1, s2, s3]))]);
    }
    c.heading("u32big");
    for _ in 0..c.some(1_000, 3) {
        let b = c.bytes(4);
        let four: Vec<u32> = b.iter().map(|b| *b as u32).collect();
        c.case(Judge::Crate, "u32big", &[("args", words(&four)), ("gives", number(primitives::u32big(&b)))]);
    }
    let rotations: [(&str, fn(&u32) -> u32); 9] = [
        ("byte_ror_2", primitives::byte_ror_2),
        ("byte_ror_4", primitives::byte_ror_4),
        ("byte_ror_6", primitives::byte_ror_6),
        ("half_ror_4", primitives::half_ror_4),
        ("half_ror_8", primitives::half_ror_8),
        ("half_ror_12", primitives::half_ror_12),
        ("nibble_ror_1", primitives::nibble_ror_1),
        ("nibble_ror_2", primitives::nibble_ror_2),
        ("nibble_ror_3", primitives::nibble_ror_3),
    ];
    c.heading("the nine rotations inside bytes, halves and nibbles");
    for (name, f) in rotations {
        for n in c.spread(32, 2) {
            c.case(Judge::Crate, name, &[("args", number(1 << n)), ("gives", number(f(&(1 << n))))]);
        }
        for _ in 0..c.some(500, 1) {
            let x = c.next() as u32;
            c.case(Judge::Crate, name, &[("args", number(x)), ("gives", number(f(&x)))]);
        }
    }
    c.heading("ror, by 0 to 99 places");
    for y in c.spread(100, 6) {
        for _ in 0..c.some(20, 1) {
            let x = c.next() as u32;
            let y = y as u32;
            c.case(Judge::Crate, "ror", &[("args", words(&[x, y])), ("gives", number(primitives::ror(&x, &y)))]);
        }
    }
    // a shift by 32 or more goes by its last five bits in an optimised build, as this one is
    c.heading("swapmove, swapmovesingle, by 0 to 255 places");
    for n in c.spread(256, 6) {
        for _ in 0..c.some(8, 1) {
            let [a, b, mask, _] = c.state();
            let (mut p, mut q) = (a, b);
            primitives::swapmove(&mut p, &mut q, mask, n as u8);
            c.case(Judge::Crate, "swapmove", &[("args", words(&[a, b, mask, n as u32])), ("gives", words(&[p, q, 0, 0]))]);
            let mut p = a;
            primitives::swapmovesingle(&mut p, mask, n as u8);
            c.case(Judge::Crate, "swapmovesingle", &[("args", words(&[a, mask, n as u32])), ("gives", number(p))]);
        }
    }
}

// what is not 16 or 80 long: document 01's numbers, and nothing lent has changed
fn refusals(c: &mut Cases) {
    let edges = [0, 15, 16, 17, 32];
    for way in [Encrypt, Decrypt] {
        c.heading(&format!("{}, keys and blocks of any length", way.name("by_key")));
        for k in c.lengths(33, &edges) {
            for b in c.lengths(33, &[0, 15, 16, 17]) {
                let (k, b) = (c.bytes(k), c.bytes(b));
                c.key_case(way, &k, &b);
            }
        }
        c.heading(&format!("{}, keys and blocks of any length", way.name("block")));
        for k in c.lengths(33, &[0, 15, 16]) {
            for b in c.lengths(33, &[0, 15, 16, 17]) {
                let (k, b) = (c.bytes(k), c.bytes(b));
                c.instance_case(way, &k, &b);
            }
        }
        c.heading(&format!("{}, any number of words, blocks of any length", way.name("by_words")));
        for w in c.lengths(96, &[0, 79, 80, 81]) {
            for b in c.lengths(33, &[15, 16]) {
                let (w, b) = (c.words(w), c.bytes(b));
                c.words_case(way, &w, &b);
            }
        }
        c.heading(&format!("{}, inputs and outputs of any length", way.name("blocks")));
        for k in [0, 15, 16, 17] {
            for i in c.lengths(160, &[0, 15, 16, 33]) {
                for o in [i, 0, i.saturating_sub(1), i + 1, i.saturating_sub(16), i + 16] {
                    if c.full || k == 16 || o == i {
                        let (k, i, o) = (c.bytes(k), c.bytes(i), c.bytes(o));
                        c.many_case(way, &k, &i, &o);
                    }
                }
            }
        }
        let name = if way == Encrypt { "quintuple_round" } else { "inv_quintuple_round" };
        c.heading(&format!("{name}, too few words, or no such offset"));
        for w in c.lengths(20, &[0, 9, 10]) {
            for i in c.lengths(45, &[0, 1, 35, 36, 40]).into_iter().chain([usize::MAX]) {
                let (s, w) = (c.state(), c.words(w));
                c.quintuple_case(way, &s, &w, i);
            }
        }
    }
    c.heading("one_round, keys and blocks of any length");
    for k in c.lengths(33, &[0, 15, 16]) {
        for b in c.lengths(33, &[0, 15, 16, 17]) {
            let (k, b) = (c.bytes(k), c.bytes(b));
            c.one_round_case(&k, &b);
        }
    }
    c.heading("precompute_rkeys, new, keys of any length, any number of words");
    for k in c.lengths(33, &edges) {
        let key = c.bytes(k);
        c.new_case(&key);
        for w in [0, 1, 79, 80, 81, 96] {
            if c.full || w == 0 || k == 16 {
                let w = c.words(w);
                c.expand_case(&key, &w);
            }
        }
    }
    c.heading("first_round, too few words");
    for w in 0..2 {
        let (s, w) = (c.state(), c.words(w));
        c.case(Judge::Stated, "first_round", &[("args", words(&s)), ("words", words(&w)), ("gives", words(&s))]);
    }
    c.heading("packing, unpacking, of any length");
    for b in c.lengths(33, &edges) {
        let (s, b) = (c.state(), c.bytes(b));
        c.packing_case(&b);
        c.unpacking_case(&s, &b);
    }
    c.heading("round_constant, past the table");
    for r in (40..60).chain([usize::MAX]) {
        c.case(Judge::Stated, "round_constant", &[("args", wide(r)), ("gives", number(0))]);
    }
}

/// The plain rounds judge round 1, so the crate judges them.
fn check_the_plain_rounds(c: &mut Cases) {
    for _ in 0..2_000 {
        let (k, b) = (c.block(), c.block());
        assert_eq!(plain_rounds(&k, &b, 40), by_key(Encrypt, &k, &b), "document 01's rounds and the crate differ");
    }
    eprintln!("document 01's forty rounds, as this driver has them, and the crate: 2000 random blocks equal");
}

fn main() {
    let full = match std::env::args().nth(1).as_deref() {
        Some("full") => true,
        Some("sample") => false,
        _ => panic!("usage: driver full|sample"),
    };
    let mut c = Cases { out: BufWriter::new(io::stdout()), full, seed: 128, judged: [0; 3] };
    check_the_plain_rounds(&mut c);
    blocks_by_key(&mut c);
    by_an_instance(&mut c);
    expansion(&mut c);
    blocks_by_words(&mut c);
    quintuples(&mut c);
    first_rounds(&mut c);
    packings(&mut c);
    many_blocks(&mut c);
    small_parts(&mut c);
    refusals(&mut c);
    c.out.flush().unwrap();
    let [by_crate, by_rounds, stated] = c.judged;
    eprintln!("{by_crate} cases answered by the crate, {by_rounds} by plain rounds of document 01, {stated} stated by document 01 or this port");
}
