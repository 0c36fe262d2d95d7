//! Document 01's pool layout, read by the paper alone; the Rust has no such layout. A pool that breaks it is none (number 7).

use crate::citations::{CslDate, CslEntry, CslName};

/// The entries of a pool of one byte or more; none where it breaks its layout.
pub fn entries(pool: &[u8]) -> Option<Vec<CslEntry>> {
    if pool.len() > 32_768 {
        return None;
    }
    let count = number(pool, 0)?;
    let mut at = 2 + 4 * count;
    let mut out = Vec::new();
    for i in 0..count {
        let offset = number(pool, 2 + 4 * i)?;
        let length = number(pool, 4 + 4 * i)?;
        if offset != at {
            return None;
        }
        out.push(entry(pool.get(at..at + length)?)?);
        at += length;
    }
    (at == pool.len()).then_some(out)
}

fn number(bytes: &[u8], at: usize) -> Option<usize> {
    let two = bytes.get(at..at + 2)?;
    Some(usize::from(two[0]) + 256 * usize::from(two[1]))
}

// A reader of an entry's fields.
struct Fields<'a>(&'a [u8]);

impl<'a> Fields<'a> {
    // The bytes of the next field, where its tag is `tag`; it is then passed over. `None` outside: a field that is cut short.
    fn take(&mut self, tag: u8) -> Option<Option<&'a [u8]>> {
        if self.0.first() != Some(&tag) {
            return Some(None);
        }
        let length = number(self.0, 1)?;
        let bytes = self.0.get(3..3 + length)?;
        self.0 = &self.0[3 + length..];
        Some(Some(bytes))
    }

    // The same for a string, which must be UTF-8.
    fn string(&mut self, tag: u8) -> Option<Option<String>> {
        match self.take(tag)? {
            None => Some(None),
            Some(bytes) => Some(Some(std::str::from_utf8(bytes).ok()?.to_string())),
        }
    }
}

// `1 (2 3? 4? 5?)* 6? 7? 8?`, and nothing after it.
fn entry(bytes: &[u8]) -> Option<CslEntry> {
    let mut fields = Fields(bytes);
    let id = fields.string(1)??;
    let mut names = Vec::new();
    while let Some(mark) = fields.take(2)? {
        if !mark.is_empty() {
            return None;
        }
        let family = fields.string(3)?;
        let given = fields.string(4)?;
        let literal = fields.string(5)?;
        names.push(CslName { family, given, literal });
    }
    let year = match fields.take(6)? {
        None => None,
        Some(bytes) => Some(i64::from_le_bytes(bytes.try_into().ok()?)),
    };
    let literal = fields.string(7)?;
    let title = fields.string(8)?;
    let issued = (year.is_some() || literal.is_some()).then(|| CslDate { date_parts: year.map(|y| vec![vec![y]]), literal });
    let author = (!names.is_empty()).then_some(names);
    fields.0.is_empty().then_some(CslEntry { id, author, issued, title })
}
