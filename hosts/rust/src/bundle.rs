//! The settings bundle: a reader and a writer of each edition.

use crate::calls::bundles::{self, state, Seen, Side, Told};
use crate::{Refusal, BY_TYPE};

/// The edition of a reader or a writer.
#[derive(Clone, Copy, Debug, PartialEq, Eq)]
pub enum Edition {
    /// Kinds 0 and 1.
    One,
    /// Kinds 0, 1 and 2.
    Two,
}

/// A value: its kind, and its body as the kind has it.
#[derive(Clone, Copy, Debug, PartialEq, Eq)]
pub enum Value<'a> {
    /// Kind 0: one byte, 0 or 1.
    Flag(bool),
    /// Kind 1: a number of 8 bytes.
    Number(u64),
    /// Kind 2: 0 to 255 bytes of any value.
    Text(&'a [u8]),
}

/// What a reader says of a setting. There is no default.
#[derive(Clone, Copy, Debug, PartialEq, Eq)]
pub enum Answer<'a> {
    /// The bundle does not have it.
    Absent,
    /// The bundle has it, and the reader does not know its kind.
    Unknown,
    /// Its value.
    Value(Value<'a>),
}

/// A bundle that a reader has accepted, tag and all: a refused one is no `Bundle`, and so answers nothing.
#[derive(Clone, Copy, Debug)]
pub struct Bundle<'a> {
    seen: Seen,
    bytes: &'a [u8],
}

impl<'a> Bundle<'a> {
    /// Bytes of a bundle, at most.
    pub const MOST: usize = 65_536;

    /// Looks a bundle through, as a reader of edition 2. Refusals: 20, 21, 22, 23.
    pub fn open(key: &[u8; 16], bytes: &'a [u8]) -> Result<Bundle<'a>, Refusal> {
        Bundle::open_by(Edition::Two, key, bytes)
    }

    /// The same by a reader of some edition, and by a key whose length is still to be seen. Refusals: 1, 20, 21, 22, 23.
    pub fn open_by(reader: Edition, key: &[u8], bytes: &'a [u8]) -> Result<Bundle<'a>, Refusal> {
        let seen = bundles::open(reader, key, bytes)?;
        Ok(Bundle { seen, bytes })
    }

    /// How many settings it has, those of unknown kinds too.
    pub fn len(&self) -> usize {
        self.seen.count as usize
    }

    /// Whether it has none.
    pub fn is_empty(&self) -> bool {
        self.len() == 0
    }

    /// What it says of an id: a pass over its table, and no tag.
    pub fn get(&self, id: u32) -> Answer<'a> {
        self.meant(bundles::look(self.seen, self.bytes, id))
    }

    /// All its settings, ids rising: of each the id, and the value or [`Answer::Unknown`].
    pub fn iter(&self) -> Iter<'a> {
        Iter {
            bundle: *self,
            next: 0,
        }
    }

    fn meant(&self, told: Told) -> Answer<'a> {
        meant(
            self.bytes,
            Side {
                state: told.state,
                kind: told.kind,
                at: told.at,
                length: told.length,
            },
        )
    }
}

/// The library is proved to tell of a bundle that it accepted only what is here.
fn meant(bytes: &[u8], side: Side) -> Answer<'_> {
    match side.state {
        state::ABSENT => Answer::Absent,
        state::UNKNOWN => Answer::Unknown,
        _ => {
            let body = &bytes[side.at as usize..][..side.length as usize];
            Answer::Value(match side.kind {
                0 => Value::Flag(body == [1]),
                1 => Value::Number(u64::from_be_bytes(body.try_into().expect(BY_TYPE))),
                _ => Value::Text(body),
            })
        }
    }
}

/// Where two bundles differ, by the reader of edition 2: the ids whose answers are not the same, rising, each with the first bundle's answer and the second's.
#[derive(Clone, Debug)]
pub struct Differences<'a> {
    rows: [bundles::Difference; Differences::MOST],
    count: usize,
    next: usize,
    first: &'a [u8],
    second: &'a [u8],
}

impl<'a> Differences<'a> {
    /// Ids that differ, at most.
    pub const MOST: usize = 512;

    /// Compares two bundles. If either is refused, each one's number, the first first, and nothing is listed.
    pub fn between(
        key: &[u8],
        first: &'a [u8],
        second: &'a [u8],
    ) -> Result<Differences<'a>, (Option<Refusal>, Option<Refusal>)> {
        let mut rows = [bundles::Difference::default(); Differences::MOST];
        let told = bundles::differ(key, first, second, &mut rows);
        if told.first != 0 || told.second != 0 {
            return Err((
                Refusal::try_from(told.first).ok(),
                Refusal::try_from(told.second).ok(),
            ));
        }
        Ok(Differences {
            rows,
            count: told.count as usize,
            next: 0,
            first,
            second,
        })
    }
}

impl<'a> Iterator for Differences<'a> {
    type Item = (u32, Answer<'a>, Answer<'a>);

    fn next(&mut self) -> Option<(u32, Answer<'a>, Answer<'a>)> {
        let row = self.rows[..self.count].get(self.next)?;
        self.next += 1;
        Some((
            row.id,
            meant(self.first, row.first),
            meant(self.second, row.second),
        ))
    }
}

impl<'a> IntoIterator for &Bundle<'a> {
    type Item = (u32, Answer<'a>);
    type IntoIter = Iter<'a>;

    fn into_iter(self) -> Iter<'a> {
        self.iter()
    }
}

/// The settings of a bundle, ids rising.
#[derive(Clone, Debug)]
pub struct Iter<'a> {
    bundle: Bundle<'a>,
    next: u32,
}

impl<'a> Iterator for Iter<'a> {
    type Item = (u32, Answer<'a>);

    fn next(&mut self) -> Option<(u32, Answer<'a>)> {
        if self.next >= self.bundle.seen.count {
            return None;
        }
        let told = bundles::entry(self.bundle.seen, self.bundle.bytes, self.next);
        self.next += 1;
        Some((told.id, self.bundle.meant(told)))
    }
}

/// A setting for the writer; its body is the next `length` bytes of the pool.
#[derive(Clone, Copy, Debug, PartialEq, Eq)]
#[repr(C)]
pub struct Row {
    /// Ids rise strictly from row to row.
    pub id: u32,
    /// 0, 1 or, from edition 2 on, 2.
    pub kind: u32,
    /// 0 or 1.
    pub must_know: u32,
    /// Bytes of the body.
    pub length: u32,
}

/// A writer of an edition.
#[derive(Clone, Copy, Debug, PartialEq, Eq)]
pub struct Writer {
    edition: Edition,
}

impl Writer {
    /// The writer of an edition.
    pub fn new(edition: Edition) -> Writer {
        Writer { edition }
    }

    /// Writes a list of settings, whose bodies stand one after the other in the pool: the bundle is what the output then begins with. Bytes past it stay.
    /// Refusals: 24, 25, and then nothing is written.
    pub fn write<'o>(
        &self,
        key: &[u8; 16],
        rows: &[Row],
        pool: &[u8],
        out: &'o mut [u8],
    ) -> Result<&'o mut [u8], Refusal> {
        let total = bundles::write(self.edition, key, bundles::numbers(rows), pool, out)?;
        Ok(&mut out[..total])
    }
}
