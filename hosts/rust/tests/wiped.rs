//! What a dropped instance leaves in its place: nothing of its key.

use core::mem::{size_of, MaybeUninit};
use gift_host::{Bench, Counter, Direction, Gift128, Gift64, Mac, Owner, RoundWords};

const KEY: [u8; 16] = *b"sixteen bytes ..";

/// Puts a value somewhere, drops it there, and gives the bytes of the place before and after. Only for types without padding.
fn bytes<T>(value: T) -> (Vec<u8>, Vec<u8>) {
    let mut place = MaybeUninit::<T>::uninit();
    let at = place.as_mut_ptr();
    // SAFETY: the place is as large as a T and aligned for it; after it is dropped its bytes alone are looked at.
    unsafe {
        at.write(value);
        let look = || (0..size_of::<T>()).map(|i| at.cast::<u8>().add(i).read_volatile()).collect();
        let before = look();
        at.drop_in_place();
        (before, look())
    }
}

fn is_wiped<T>(value: T) {
    let (before, after) = bytes(value);
    assert!(before.iter().any(|&b| b != 0), "there was nothing to wipe");
    assert!(after.iter().all(|&b| b == 0), "{} of {} bytes are left", after.iter().filter(|&&b| b != 0).count(), after.len());
}

#[test]
fn instances() {
    is_wiped(Gift128::new(&KEY));
    is_wiped(Gift64::new(&KEY));
    is_wiped(RoundWords::of_key(&KEY));
}

#[test]
fn a_stream_with_unused_bytes() {
    let mut stream = Counter::new(&KEY, b"twelve bytes", 7);
    stream.apply(b"setting", &mut [0; 7]).unwrap();
    is_wiped(stream);
}

#[test]
fn a_message_with_held_bytes() {
    let mut mac = Mac::new(&KEY);
    mac.update(b"a setting of more than a block");
    is_wiped(mac);
}

/// Of a bench the records are wiped; the last served number is no secret, and stays.
#[test]
fn a_bench_with_running_lanes() {
    let mut bench = Bench::new();
    for lane in 0..16 {
        bench.open(lane, Owner::new(1).unwrap(), Direction::Encrypt, &KEY, &KEY).unwrap();
    }
    bench.turn(20).unwrap();
    let (before, after) = bytes(bench);
    assert!(before.iter().filter(|&&b| b != 0).count() > 16 * 300);
    assert!(after.iter().filter(|&&b| b != 0).count() <= 4);
}
