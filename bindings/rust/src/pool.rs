//! Writes a pool of sources in the library's layout.
//!
//! A pool has at most [`POOL_MAX`] bytes, numbers little-endian: a `u16` N, then N pairs of `u16` (offset and length of each
//! entry), then the entries end to end. An entry is a list of fields: tag byte, `u16` length, bytes.

use alloc::vec::Vec;

use crate::POOL_MAX;

/// A source. A field that is given and empty is not the same as one that is missing.
#[derive(Clone, Copy, Debug, Default, PartialEq, Eq)]
pub struct Entry<'a> {
    /// The key that the entry defines; an empty one defines nothing.
    pub id: &'a str,
    /// The authors.
    pub names: &'a [Name<'a>],
    /// The year.
    pub year: Option<i64>,
    /// The date as written, used where there is no year.
    pub date: Option<&'a str>,
    /// The title.
    pub title: Option<&'a str>,
}

/// A name. A literal, even an empty one, is used instead of family and given name.
#[derive(Clone, Copy, Debug, Default, PartialEq, Eq)]
pub struct Name<'a> {
    /// The family name.
    pub family: Option<&'a str>,
    /// The given name.
    pub given: Option<&'a str>,
    /// The whole name.
    pub literal: Option<&'a str>,
}

/// The pool of these entries; none where it would have more than [`POOL_MAX`] bytes.
///
/// No entries make a pool of none, of two bytes. To give no pool at all, lend no bytes.
pub fn encode(entries: &[Entry<'_>]) -> Option<Vec<u8>> {
    let mut pairs = number(entries.len())?.to_vec();
    let mut fields = Vec::new();
    let start = 2 + 4 * entries.len();
    for entry in entries {
        let from = fields.len();
        write_entry(&mut fields, entry)?;
        pairs.extend(number(start + from)?);
        pairs.extend(number(fields.len() - from)?);
    }
    pairs.extend(fields);
    (pairs.len() <= POOL_MAX).then_some(pairs)
}

// The tags of an entry's fields.
const ID: u8 = 1;
const NAME: u8 = 2;
const FAMILY: u8 = 3;
const GIVEN: u8 = 4;
const LITERAL: u8 = 5;
const YEAR: u8 = 6;
const DATE: u8 = 7;
const TITLE: u8 = 8;

fn number(n: usize) -> Option<[u8; 2]> {
    Some(u16::try_from(n).ok()?.to_le_bytes())
}

fn write_entry(out: &mut Vec<u8>, entry: &Entry<'_>) -> Option<()> {
    write_field(out, ID, Some(entry.id.as_bytes()))?;
    for name in entry.names {
        write_field(out, NAME, Some(b""))?;
        write_field(out, FAMILY, name.family.map(str::as_bytes))?;
        write_field(out, GIVEN, name.given.map(str::as_bytes))?;
        write_field(out, LITERAL, name.literal.map(str::as_bytes))?;
    }
    write_field(out, YEAR, entry.year.map(i64::to_le_bytes).as_ref().map(|bytes| &bytes[..]))?;
    write_field(out, DATE, entry.date.map(str::as_bytes))?;
    write_field(out, TITLE, entry.title.map(str::as_bytes))
}

fn write_field(out: &mut Vec<u8>, tag: u8, bytes: Option<&[u8]>) -> Option<()> {
    if let Some(bytes) = bytes {
        out.push(tag);
        out.extend(number(bytes.len())?);
        out.extend(bytes);
    }
    Some(())
}
