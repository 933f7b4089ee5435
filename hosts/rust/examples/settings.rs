//! A metered host: it decrypts settings that came as blocks, one for each guest, between its guests' slices of work, three turns at a time.

use gift_host::{Bench, Direction, Gift128, Owner, Refusal};

// [readme:
/// Between two slices of work: a few turns, each of them five rounds in one lane, and what is finished.
fn between_slices(
    bench: &mut Bench,
    guests: &[Owner],
    mut apply: impl FnMut(Owner, [u8; 16]),
) -> Result<(), Refusal> {
    bench.turn(3)?;
    for (lane, guest) in (0..).zip(guests) {
        match bench.take(lane, *guest) {
            Ok(setting) => apply(*guest, setting),
            Err(Refusal::LaneNotFinished) => (),
            Err(refusal) => return Err(refusal),
        }
    }
    Ok(())
}
// :readme]

fn main() -> Result<(), Refusal> {
    let key = *b"sixteen byte key";
    // one setting for each lane
    let settings: [[u8; 16]; Bench::LANES as usize] = core::array::from_fn(|guest| {
        let text = format!("pier {guest:02} fare {:03}", 150 + guest * 35 % 200);
        text.into_bytes().try_into().unwrap()
    });
    let mut blocks = settings;
    Gift128::new(&key).encrypt_blocks(&mut blocks);

    // guest n has lane n, and the number n + 1
    let guests: Vec<Owner> = (1..).map_while(Owner::new).take(settings.len()).collect();
    let mut bench = Bench::new();
    for ((lane, guest), block) in (0..).zip(&guests).zip(&blocks) {
        bench.open(lane, *guest, Direction::Decrypt, &key, block)?;
    }
    let mut taken = 0;
    for slice in 1.. {
        if slice == 5 {
            bench.close(2, guests[2])?;
        }
        // guest 5 meddles with guest 4's lane, which is not its own
        if slice == 6 {
            assert_eq!(bench.take(4, guests[5]), Err(Refusal::NotTheOwner));
            assert_eq!(bench.close(4, guests[5]), Err(Refusal::NotTheOwner));
        }
        between_slices(&mut bench, &guests, |guest, setting| {
            println!("after slice {slice}: {}", String::from_utf8_lossy(&setting));
            assert_eq!(setting, settings[usize::from(guest.number()) - 1]);
            taken += 1;
        })?;
        if taken == settings.len() - 1 {
            break;
        }
    }
    // every lane was taken from or closed: nothing of the key or of a setting is left in a record
    assert_eq!(bench.records(), Bench::new().records());
    Ok(())
}
