//! Where do two nodes differ? The settings of two bundles that are not the same, each with both answers.

use gift_host::{Bundle, Differences, Edition, Refusal, Row, Writer};

const KEY: [u8; 16] = [0, 1, 2, 3, 4, 5, 6, 7, 8, 9, 10, 11, 12, 13, 14, 15];

fn main() -> Result<(), Refusal> {
    let row = |id, kind, must_know, length| Row {
        id,
        kind,
        must_know,
        length,
    };
    let (mut one, mut two) = ([0; Bundle::MOST], [0; Bundle::MOST]);
    let writer = Writer::new(Edition::Two);
    let first = writer.write(
        &KEY,
        &[row(17, 1, 1, 8), row(18, 0, 1, 1), row(19, 2, 0, 6)],
        b"\0\0\0\0\0\0\x04\xe2\x01Pier 4",
        &mut one,
    )?;
    let second = writer.write(
        &KEY,
        &[row(17, 1, 1, 8), row(19, 2, 0, 6), row(23, 2, 0, 8)],
        b"\0\0\0\0\0\0\x05\x14Pier 5Gate \"B\"",
        &mut two,
    )?;
    match Differences::between(&KEY, first, second) {
        Ok(differences) => {
            for (id, a, b) in differences {
                println!("{id}: {a:?} | {b:?}");
            }
        }
        Err((a, b)) => println!("refused: {a:?}, {b:?}"),
    }
    Ok(())
}
