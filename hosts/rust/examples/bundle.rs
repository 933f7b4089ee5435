//! Two nodes and one bundle: settings of edition 2 are written, and a node that still has edition 1 reads the same bytes.

use gift_host::{Answer, Bundle, Edition, Refusal, Row, Writer};

const KEY: [u8; 16] = [0, 1, 2, 3, 4, 5, 6, 7, 8, 9, 10, 11, 12, 13, 14, 15];

fn node(name: &str, reader: Edition, bytes: &[u8]) {
    match Bundle::open_by(reader, &KEY, bytes) {
        Err(refusal) => println!("{name}: {}, {refusal}", refusal.number()),
        Ok(bundle) => {
            for id in [1, 2, 7, 20] {
                match bundle.get(id) {
                    Answer::Value(value) => println!("{name}: {id} is {value:?}"),
                    Answer::Absent => println!("{name}: {id} is absent"),
                    Answer::Unknown => println!("{name}: {id} is unknown"),
                }
            }
        }
    }
}

fn main() -> Result<(), Refusal> {
    let mut buffer = [0; Bundle::MOST];
    // the text, of a kind that edition 1 does not have, need not be known, and then must be
    for must_know in 0..=1 {
        let row = |id, kind, must_know, length| Row {
            id,
            kind,
            must_know,
            length,
        };
        let rows = [row(1, 0, 1, 1), row(7, 1, 1, 8), row(20, 2, must_know, 5)];
        let bytes = Writer::new(Edition::Two).write(
            &KEY,
            &rows,
            b"\x01\0\0\0\0\0\0\x03\xe8hello",
            &mut buffer,
        )?;
        println!("a text with must-know {must_know}, {} bytes", bytes.len());
        node("  edition 1", Edition::One, bytes);
        node("  edition 2", Edition::Two, bytes);
    }
    Ok(())
}
