//! The calls on settings bundles, by the edition of the reader or writer.

use super::{answer, linked};
use crate::bundle::{Edition, Row};
use crate::Refusal;

/// How a setting stands: no answer, since the bundle is refused; not in the bundle; of a kind that the reader does not know; a value.
#[allow(missing_docs)]
pub mod state {
    pub const REFUSED: u32 = 0;
    pub const ABSENT: u32 = 1;
    pub const UNKNOWN: u32 = 2;
    pub const VALUE: u32 = 3;
}

/// What is told of a setting, as include/gift_host.h has it. What does not apply is 0.
#[derive(Clone, Copy, Debug, Default, PartialEq, Eq)]
#[repr(C)]
pub struct Told {
    /// How it stands.
    pub state: u32,
    /// The id of the entry that is told of.
    pub id: u32,
    /// Of a value: its kind.
    pub kind: u32,
    /// Of a value: where its body lies in the bundle.
    pub at: u32,
    /// Of a value: how many bytes that is.
    pub length: u32,
}

/// A bundle that was looked through, as include/gift_host.h has it.
#[derive(Clone, Copy, Debug, PartialEq, Eq)]
#[repr(C)]
pub struct Seen {
    /// 0, or the refusal.
    pub code: u32,
    /// By which edition's reader.
    pub reader: u32,
    /// Its settings; 0 on a refusal.
    pub count: u32,
    /// Its bytes; 0 on a refusal.
    pub size: u32,
}

#[repr(C)]
struct Asked {
    code: u32,
    told: Told,
}

#[repr(C)]
struct Written {
    code: u32,
    total: u32,
}

/// How a setting stands in one of two bundles that are compared: [`Told`] without the id.
#[derive(Clone, Copy, Debug, Default, PartialEq, Eq)]
#[repr(C)]
pub struct Side {
    /// How it stands.
    pub state: u32,
    /// Of a value: its kind.
    pub kind: u32,
    /// Of a value: where its body lies in its own bundle.
    pub at: u32,
    /// Of a value: how many bytes that is.
    pub length: u32,
}

/// A setting that two bundles answer differently, as include/gift_host.h has it.
#[derive(Clone, Copy, Debug, Default, PartialEq, Eq)]
#[repr(C)]
pub struct Difference {
    /// The id.
    pub id: u32,
    /// How it stands in the first bundle.
    pub first: Side,
    /// And in the second.
    pub second: Side,
}

/// What comparing tells, as include/gift_host.h has it.
#[derive(Clone, Copy, Debug, PartialEq, Eq)]
#[repr(C)]
pub struct Compared {
    /// 0, or the first refusal that applies.
    pub code: u32,
    /// The first bundle's number.
    pub first: u32,
    /// The second's.
    pub second: u32,
    /// How many ids differ; 0 if a bundle is refused.
    pub count: u32,
}

const _: () = assert!(size_of::<Difference>() == 36 && align_of::<Difference>() == 4);
const _: () = assert!(size_of::<Compared>() == 16);
const _: () = assert!(size_of::<Told>() == 20 && size_of::<Seen>() == 16);
const _: () = assert!(size_of::<Asked>() == 24 && size_of::<Written>() == 8);
const _: () = assert!(size_of::<Row>() == 16 && align_of::<Row>() == 4);

type Ask = unsafe extern "C" fn(*const u8, usize, *const u8, usize, u32) -> Asked;
type Open = unsafe extern "C" fn(*const u8, usize, *const u8, usize) -> Seen;
type Write = unsafe extern "C" fn(
    *const u8,
    usize,
    *const u32,
    usize,
    *const u8,
    usize,
    *mut u8,
    usize,
) -> Written;

extern "C" {
    fn gift_bundle_ask_1(
        key: *const u8,
        key_len: usize,
        bundle: *const u8,
        bundle_len: usize,
        id: u32,
    ) -> Asked;
    fn gift_bundle_ask_2(
        key: *const u8,
        key_len: usize,
        bundle: *const u8,
        bundle_len: usize,
        id: u32,
    ) -> Asked;
    fn gift_bundle_open_1(
        key: *const u8,
        key_len: usize,
        bundle: *const u8,
        bundle_len: usize,
    ) -> Seen;
    fn gift_bundle_open_2(
        key: *const u8,
        key_len: usize,
        bundle: *const u8,
        bundle_len: usize,
    ) -> Seen;
    fn gift_bundle_look(seen: Seen, bundle: *const u8, bundle_len: usize, id: u32) -> Told;
    fn gift_bundle_entry(seen: Seen, bundle: *const u8, bundle_len: usize, i: u32) -> Told;
    fn gift_bundle_differ(
        key: *const u8,
        key_len: usize,
        first: *const u8,
        first_len: usize,
        second: *const u8,
        second_len: usize,
        rows: *mut u32,
        rows_len: usize,
    ) -> Compared;
    fn gift_bundle_write_1(
        key: *const u8,
        key_len: usize,
        rows: *const u32,
        rows_len: usize,
        pool: *const u8,
        pool_len: usize,
        out: *mut u8,
        out_len: usize,
    ) -> Written;
    fn gift_bundle_write_2(
        key: *const u8,
        key_len: usize,
        rows: *const u32,
        rows_len: usize,
        pool: *const u8,
        pool_len: usize,
        out: *mut u8,
        out_len: usize,
    ) -> Written;
}

/// One id of a bundle, tag and layout tested whole. Refusals: 1, 20, 21, 22, 23.
pub fn ask(reader: Edition, key: &[u8], bundle: &[u8], id: u32) -> Result<Told, Refusal> {
    linked();
    let call: Ask = match reader {
        Edition::One => gift_bundle_ask_1,
        Edition::Two => gift_bundle_ask_2,
    };
    let asked = unsafe { call(key.as_ptr(), key.len(), bundle.as_ptr(), bundle.len(), id) };
    answer(asked.code)?;
    Ok(asked.told)
}

/// A bundle looked through once. Refusals: 1, 20, 21, 22, 23.
pub fn open(reader: Edition, key: &[u8], bundle: &[u8]) -> Result<Seen, Refusal> {
    linked();
    let call: Open = match reader {
        Edition::One => gift_bundle_open_1,
        Edition::Two => gift_bundle_open_2,
    };
    let seen = unsafe { call(key.as_ptr(), key.len(), bundle.as_ptr(), bundle.len()) };
    answer(seen.code)?;
    Ok(seen)
}

/// One id of a bundle that was looked through. Of a refused one, or of other bytes than were looked through as far as their number tells, the state is
/// [`state::REFUSED`].
pub fn look(seen: Seen, bundle: &[u8], id: u32) -> Told {
    linked();
    unsafe { gift_bundle_look(seen, bundle.as_ptr(), bundle.len(), id) }
}

/// The entry at a place of the table, ids rising; past the last one the state is [`state::ABSENT`].
pub fn entry(seen: Seen, bundle: &[u8], i: u32) -> Told {
    linked();
    unsafe { gift_bundle_entry(seen, bundle.as_ptr(), bundle.len(), i) }
}

/// Writes a list of settings, four numbers a row, as a bundle; how many bytes it has. Refusals: 1, 24, 25.
pub fn write(
    edition: Edition,
    key: &[u8],
    rows: &[u32],
    pool: &[u8],
    out: &mut [u8],
) -> Result<usize, Refusal> {
    linked();
    let call: Write = match edition {
        Edition::One => gift_bundle_write_1,
        Edition::Two => gift_bundle_write_2,
    };
    let written = unsafe {
        call(
            key.as_ptr(),
            key.len(),
            rows.as_ptr(),
            rows.len(),
            pool.as_ptr(),
            pool.len(),
            out.as_mut_ptr(),
            out.len(),
        )
    };
    answer(written.code)?;
    Ok(written.total as usize)
}

/// The rows as the numbers that they are.
pub fn numbers(rows: &[Row]) -> &[u32] {
    // A row is four u32, none of it padding: the assertion above.
    unsafe { core::slice::from_raw_parts(rows.as_ptr().cast(), 4 * rows.len()) }
}

/// Two bundles compared by the reader of edition 2: a row for each id that differs, ids rising. What is told has each bundle's own number; `code` is the first that
/// applies, or 25 if the rows are fewer than `count`, and then no row is written.
pub fn differ(key: &[u8], first: &[u8], second: &[u8], rows: &mut [Difference]) -> Compared {
    linked();
    unsafe {
        gift_bundle_differ(
            key.as_ptr(),
            key.len(),
            first.as_ptr(),
            first.len(),
            second.as_ptr(),
            second.len(),
            // A row is nine u32, none of it padding: the assertion above.
            rows.as_mut_ptr().cast(),
            9 * rows.len(),
        )
    }
}
