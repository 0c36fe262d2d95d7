//! Bracketed citations, from text to numbered sources: a binding of the proved library's calls, with no dependency.
//!
//! A text is UTF-8 bytes. A *group* is a bracket such as `[see @ant, p. 3; -@bee]`: items with a key each, parted by `;`. Keys are defined
//! by definition lines of the text, `[@ant]: {author=Ant year=1901} ..`, or by a pool of sources ([`pool`]).
//!
//! # Two layers
//!
//! The **owned layer** is the one to start with. An [`Index`] is a text with the index that its calls keep; [`Index::look_up`] reads the
//! group at a bracket, and [`Index::annotate`] gives an [`Annotated`] with all groups, items, labels and the order of the sources. It is there
//! with the feature `alloc`, which is on by default; the crate needs no more of the standard library than `core` and, with it, `alloc`.
//!
#![cfg_attr(feature = "alloc", doc = "```")]
#![cfg_attr(not(feature = "alloc"), doc = "```ignore")]
//! use citations::{Index, Mode};
//!
//! let text = "See [@a, p. 12; -@b].\n[@a]: {author=Ant year=1901} Ant.\n[@b]: {author=Bee year=1902} Bee.\n";
//! let annotated = Index::new(text)?.annotate(Mode::AuthorYear, &[])?;
//! let labels: Vec<_> = annotated.items().filter_map(|item| annotated.label(item)).collect();
//! assert_eq!(labels, [&b"Ant 1901"[..], b"1902"]);
//! # Ok::<(), citations::Refusal>(())
//! ```
//!
//! The **lent layer** is the library's own: [`look_up`], [`annotate`], [`size`], [`locator`] and [`source_text`] work in slices that the
//! caller lends, and allocate nothing. An answer is a [`Result`]: accepted with its values, or refused.
//!
//! | Area | Elements | Length that always suffices, with `n` from [`size`] |
//! |---|---|---|
//! | `index` | `u16` | the text's bytes (fewer: [`Refusal::IndexTooShort`]) |
//! | `records` | [`Bracket`] | the text's bytes (fewer: [`Refusal::IndexTooShort`]) |
//! | `items` | `u16`, [`ITEM_RECORD`] an item: [`ItemRecord`] | `ITEM_RECORD * n` |
//! | `groups` | `u16`, [`GROUP_RECORD`] a group: [`GroupRecord`] | `GROUP_RECORD * n` |
//! | `references` | `u16`, one a source: its number | `n` |
//! | `labels` | `u8` | [`LABELS_MAX`]; longer labels are refused whatever is lent ([`Refusal::AreaTooShort`]) |
//! | `area` of [`source_text`] | `u8` | the pool's bytes and [`SOURCE_TEXT_MORE`] |
//!
//! Lengths count elements. An accepted call writes its records at the front of its areas and leaves all beyond them as it was. A refused
//! call leaves all areas as they were, except that [`Refusal::NoGroup`] and [`Refusal::AreaTooShort`] keep an index that was built on the
//! way, with its note, and that [`Refusal::AreaTooShort`] from an annotation fills `items`, `groups`, `references` and `labels` with zeros.
//!
//! # The note
//!
//! A look-up or annotation may build an index of the text's brackets in `index`, with `records` as working room. The note says whether it
//! is built: [`BUILT`], or any other value. Begin a text with [`NOT_BUILT`], take the note from each answer, refused ones too, and give it
//! to the next call on the same text with the same `index`. A kept index saves time and changes no answer. An [`Index`] does all this.
//!
//! # Linking
//!
//! The build script looks for `libexports.a` in the repository's `target/staticlib`, where `tests/library` writes it, or in the
//! folder that the environment variable `CITATIONS_LIB_DIR` names; a relative one is seen from the folder in which cargo is started (the
//! shell's `PWD`). The archive is for x86-64 Linux, and has a name that carries its version ([`raw::version`]): with one of another version
//! nothing links.
#![no_std]
#![warn(missing_docs)]
#![deny(unsafe_code)]

#[cfg(feature = "alloc")]
extern crate alloc;

mod calls;
#[cfg(feature = "alloc")]
mod owned;
#[cfg(feature = "alloc")]
pub mod pool;
pub mod raw;
mod records;
mod refusal;

pub use calls::{annotate, locator, look_up, size, source_text, AnnotationCounts, LookedUp};
#[cfg(feature = "alloc")]
pub use owned::{source_text_of, Annotated, Group, Index};
pub use raw::Bracket;
pub use records::{
    group_record, group_records, item_record, item_records, GroupRecord, ItemRecord, Locator, LocatorLabel, Mode, Span, Standing,
    GROUP_RECORD, ITEM_RECORD,
};
pub use refusal::{Refusal, Refused};

/// The most bytes that a text may have; a longer one is refused by [`Refusal::TextTooLong`].
pub const TEXT_MAX: usize = 65_535;
/// The most bytes that a pool may have; a longer one is refused by [`Refusal::BadPool`].
pub const POOL_MAX: usize = 32_768;
/// The most bytes that the labels of a text may have together; more are refused by [`Refusal::AreaTooShort`].
pub const LABELS_MAX: usize = 65_535;
/// By how many bytes a source text may be longer than its pool: the pool of 20 bytes with a year of 20 characters and nothing else has a text of
/// 23, `(-9223372036854775808).`; all that is written between two parts is shorter than the tag and the length of the second.
pub const SOURCE_TEXT_MORE: usize = 3;

/// The note of a text whose index is not built. Any value other than [`BUILT`] means the same.
pub const NOT_BUILT: u8 = 0;
/// The note of a text whose index is built.
pub const BUILT: u8 = 1;
