//! A hardware partner's host: round words of its own making, held to the letters of the GIFT paper.

use gift_host::{Bench, Direction, Order, Owner, Pair, Refusal, RoundWords};

// [readme:
/// The first round in which words that hardware made are not those of the paper's letters, if there is one.
fn first_wrong(made: &[u32], letters: &[Pair; 40]) -> Result<Option<usize>, Refusal> {
    let pairs = RoundWords::from_slice(made)?.pairs();
    Ok((0..40).find(|&round| pairs[round] != letters[round]))
}
// :readme]

fn main() -> Result<(), Refusal> {
    // a key's words in the paper's letters
    let key: [u8; 16] = core::array::from_fn(|i| i as u8);
    let of_key = RoundWords::of_key(&key).pairs();
    for (round, pair) in (1..).zip(&of_key[..3]) {
        println!("round {round}: V {:08x}  U {:08x}", pair.v, pair.u);
    }
    assert_eq!((of_key[0].v, of_key[0].u), (0x0c0d0e0f, 0x04050607));

    // letters that are no key's, the words for them, and words with one bit wrong
    let letters = core::array::from_fn(|round| Pair {
        u: 0x0101_0101 * round as u32,
        v: !0 - round as u32,
    });
    let words = RoundWords::of_pairs(&letters);
    assert_eq!(first_wrong(words.words(), &letters), Ok(None));
    let mut wrong = *words.words();
    wrong[8] ^= 1;
    println!(
        "one bit of word 8 wrong: round {}",
        first_wrong(&wrong, &letters)?.unwrap() + 1
    );
    assert_eq!(
        first_wrong(&wrong[1..], &letters),
        Err(Refusal::BadWordCount)
    );

    // a block by the words, and by a lane whose record the host fills itself
    let mut block = *b"a setting's text";
    words.encrypt_block(Order::Words, &mut block);
    let one = Owner::new(1).unwrap();
    let mut bench = Bench::new();
    bench.open_in(
        Order::Words,
        3,
        one,
        Direction::Encrypt,
        &key,
        b"a setting's text",
    )?;
    let mut records = *bench.records();
    records[3].words = *words.words();
    let mut bench = Bench::from_records(records, bench.last_served());
    bench.turn(8)?;
    assert_eq!(bench.take(3, one), Ok(block));
    words.decrypt_block(Order::Words, &mut block);
    println!("undone: {}", String::from_utf8_lossy(&block));
    assert_eq!(&block, b"a setting's text");
    Ok(())
}
