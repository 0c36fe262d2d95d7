//! The library's C names (include/citations.h) behind slices, answers and all: a call here lends each area as it is, and reads and writes
//! nothing itself. For those who want the numbers as the library gives them; [`look_up`](crate::look_up) and the others put them into types.
//! [`Ample`] has areas to lend, made once for many calls. All `unsafe` of the crate is here.
//!
//! Why the calls are safe. The library asks of its caller what Rust's slices already promise: each pointer is aligned and not null, even
//! for an empty slice; so many elements from it on are readable and set, and writable where the slice is `&mut`; a `&mut` slice overlaps
//! no other argument. It asks nothing else: no contract of an exported function has a `requires`, so every length and every value will
//! do. On its side the library is proved to read and write nothing outside the slices, and to return; it keeps no pointer and no state,
//! takes no memory and does not unwind. Any bits are a value of `u8`, `u16`, `u32` and `Bracket`, so what it writes is always valid.
//! `Bracket` has the layout of the header's struct: `repr(C)`, four `u16`.
#![allow(unsafe_code)]

#[cfg(feature = "alloc")]
pub use ample::Ample;

/// A bracket record: room in which the library keeps an open bracket while it builds an index.
///
/// The fields may hold any values before a call, and are zero after a build; a caller has no use for them.
#[repr(C)]
#[derive(Clone, Copy, Debug, Default, PartialEq, Eq)]
pub struct Bracket {
    /// The place of the bracket.
    pub place: u16,
    /// First item seen.
    pub seen: u16,
    /// First item good.
    pub good: u16,
    /// Bad-item count.
    pub bad: u16,
}

/// What the first number of an answer is set to before a call. A call with an answer that is too short does nothing, and this stays; no call
/// answers it.
pub const NO_ANSWER: u32 = u32::MAX;

/// The place of the number in every answer: 0 for accepted, or a refusal.
pub const NUMBER: usize = 0;

/// How many numbers the answer of a look-up has.
pub const LOOK_UP: usize = 4;
/// The place of the close in it.
pub const LOOK_UP_CLOSE: usize = 1;
/// The place of the item count in it.
pub const LOOK_UP_ITEMS: usize = 2;
/// The place of the note in it.
pub const LOOK_UP_NOTE: usize = 3;

/// How many numbers the answer of an annotation has.
pub const ANNOTATION: usize = 6;
/// The place of the count of groups in it.
pub const ANNOTATION_GROUPS: usize = 1;
/// The place of the count of items in it.
pub const ANNOTATION_ITEMS: usize = 2;
/// The place of the count of sources in it.
pub const ANNOTATION_SOURCES: usize = 3;
/// The place of the count of label bytes in it.
pub const ANNOTATION_LABEL_BYTES: usize = 4;
/// The place of the note in it.
pub const ANNOTATION_NOTE: usize = 5;

/// How many numbers the answer of a size call has.
pub const SIZE: usize = 2;
/// The place of the count of records in it.
pub const SIZE_RECORDS: usize = 1;

/// How many numbers the answer of a locator call has.
pub const LOCATOR: usize = 6;
/// The place of the label code in it.
pub const LOCATOR_LABEL_CODE: usize = 1;
/// The place of the value in it, a pair: offset, then length.
pub const LOCATOR_VALUE: usize = 2;
/// The place of the suffix in it, a pair.
pub const LOCATOR_SUFFIX: usize = 4;

/// How many numbers the answer of a source text call has.
pub const SOURCE_TEXT: usize = 2;
/// The place of the count of bytes in it.
pub const SOURCE_TEXT_BYTES: usize = 1;

/// What an annotation is lent. A look-up is lent the first three.
pub struct Lent<'a> {
    /// One number for each byte of the text.
    pub index: &'a mut [u16],
    /// One record for each byte of the text.
    pub records: &'a mut [Bracket],
    /// Item records.
    pub items: &'a mut [u16],
    /// Group records.
    pub groups: &'a mut [u16],
    /// One number a source.
    pub references: &'a mut [u16],
    /// Label bytes.
    pub labels: &'a mut [u8],
}

#[cfg(feature = "alloc")]
mod ample {
    use alloc::vec;
    use alloc::vec::Vec;

    use super::{Bracket, Lent};
    use crate::{GROUP_RECORD, ITEM_RECORD, LABELS_MAX};

    /// How many bytes of a text an item has at least: its `@`, a key of one byte, and the `;` or `]` behind it.
    const ITEM_BYTES: usize = 3;

    /// Areas that are long enough for every look-up and annotation of a text of at most so many bytes; labels above
    /// [`LABELS_MAX`](crate::LABELS_MAX) bytes are refused all the same.
    pub struct Ample {
        index: Vec<u16>,
        records: Vec<Bracket>,
        items: Vec<u16>,
        groups: Vec<u16>,
        references: Vec<u16>,
        labels: Vec<u8>,
    }

    impl Ample {
        /// Those for texts of at most `bytes` bytes, with room for as many items as the size call would say.
        #[must_use]
        pub fn new(bytes: usize) -> Ample {
            let most = bytes / ITEM_BYTES;
            Ample {
                index: vec![0; bytes],
                records: vec![Bracket::default(); bytes],
                items: vec![0; ITEM_RECORD * most],
                groups: vec![0; GROUP_RECORD * most],
                references: vec![0; most],
                labels: vec![0; LABELS_MAX],
            }
        }

        /// What a text of `bytes` bytes is lent of them: of the index and the bracket records as many as it has bytes, or all.
        pub fn lent(&mut self, bytes: usize) -> Lent<'_> {
            let bytes = bytes.min(self.index.len());
            Lent {
                index: &mut self.index[..bytes],
                records: &mut self.records[..bytes],
                items: &mut self.items,
                groups: &mut self.groups,
                references: &mut self.references,
                labels: &mut self.labels,
            }
        }
    }
}

extern "C" {
    // CITATIONS_VERSION of the header that this file follows; the archive has the name of its own version alone.
    fn citations_version_2() -> u32;
    fn citations_look_up(
        text: *const u8,
        text_length: usize,
        at: usize,
        note: u8,
        index: *mut u16,
        index_length: usize,
        records: *mut Bracket,
        records_length: usize,
        items: *mut u16,
        items_length: usize,
        answer: *mut u32,
        answer_length: usize,
    );
    fn citations_annotate(
        text: *const u8,
        text_length: usize,
        mode: u8,
        pool: *const u8,
        pool_length: usize,
        note: u8,
        index: *mut u16,
        index_length: usize,
        records: *mut Bracket,
        records_length: usize,
        items: *mut u16,
        items_length: usize,
        groups: *mut u16,
        groups_length: usize,
        references: *mut u16,
        references_length: usize,
        labels: *mut u8,
        labels_length: usize,
        answer: *mut u32,
        answer_length: usize,
    );
    fn citations_size(text: *const u8, text_length: usize, answer: *mut u32, answer_length: usize);
    fn citations_locator(text: *const u8, text_length: usize, answer: *mut u32, answer_length: usize);
    fn citations_source_text(
        pool: *const u8,
        pool_length: usize,
        entry: usize,
        area: *mut u8,
        area_length: usize,
        answer: *mut u32,
        answer_length: usize,
    );
}

// The reference by which a binary and an archive of two versions do not link.
#[used]
static VERSION_NEEDED: unsafe extern "C" fn() -> u32 = citations_version_2;

/// The version of the library's calls and of their records, answers and numbers: `CITATIONS_VERSION` of include/citations.h. What is built with
/// this crate links with an archive of this version alone.
pub fn version() -> u32 {
    // SAFETY: it takes nothing and answers its number.
    unsafe { citations_version_2() }
}

/// The group at the bracket at `at`. With an `answer` shorter than [`LOOK_UP`] nothing is done.
pub fn look_up(text: &[u8], at: usize, note: u8, lent: &mut Lent<'_>, answer: &mut [u32]) {
    // SAFETY: each pointer and length is of one slice, and the slices are as this module's head says.
    unsafe {
        citations_look_up(
            text.as_ptr(),
            text.len(),
            at,
            note,
            lent.index.as_mut_ptr(),
            lent.index.len(),
            lent.records.as_mut_ptr(),
            lent.records.len(),
            lent.items.as_mut_ptr(),
            lent.items.len(),
            answer.as_mut_ptr(),
            answer.len(),
        );
    }
}

/// All groups of the text. With an `answer` shorter than [`ANNOTATION`] nothing is done.
pub fn annotate(text: &[u8], mode: u8, pool: &[u8], note: u8, lent: &mut Lent<'_>, answer: &mut [u32]) {
    // SAFETY: as in `look_up`. `text` and `pool` may overlap: both are only read.
    unsafe {
        citations_annotate(
            text.as_ptr(),
            text.len(),
            mode,
            pool.as_ptr(),
            pool.len(),
            note,
            lent.index.as_mut_ptr(),
            lent.index.len(),
            lent.records.as_mut_ptr(),
            lent.records.len(),
            lent.items.as_mut_ptr(),
            lent.items.len(),
            lent.groups.as_mut_ptr(),
            lent.groups.len(),
            lent.references.as_mut_ptr(),
            lent.references.len(),
            lent.labels.as_mut_ptr(),
            lent.labels.len(),
            answer.as_mut_ptr(),
            answer.len(),
        );
    }
}

/// How many item records the text needs at most. With an `answer` shorter than [`SIZE`] nothing is done.
pub fn size(text: &[u8], answer: &mut [u32]) {
    // SAFETY: as in `look_up`.
    unsafe { citations_size(text.as_ptr(), text.len(), answer.as_mut_ptr(), answer.len()) }
}

/// The locator that the text is. With an `answer` shorter than [`LOCATOR`] nothing is done.
pub fn locator(text: &[u8], answer: &mut [u32]) {
    // SAFETY: as in `look_up`.
    unsafe { citations_locator(text.as_ptr(), text.len(), answer.as_mut_ptr(), answer.len()) }
}

/// The text of an entry of the pool. With an `answer` shorter than [`SOURCE_TEXT`] nothing is done.
pub fn source_text(pool: &[u8], entry: usize, area: &mut [u8], answer: &mut [u32]) {
    // SAFETY: as in `look_up`.
    unsafe {
        citations_source_text(pool.as_ptr(), pool.len(), entry, area.as_mut_ptr(), area.len(), answer.as_mut_ptr(), answer.len());
    }
}
