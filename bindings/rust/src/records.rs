//! Typed views of the records that the calls write into areas of `u16`, and names for their codes and for the mode.

use core::fmt;
use core::ops::Range;

/// How many `u16` an item record has.
pub const ITEM_RECORD: usize = 16;
/// How many `u16` a group record has.
pub const GROUP_RECORD: usize = 5;

// Where the fields of an item record begin; a pair is two: offset, length.
const PREFIX: usize = 0;
const KEY: usize = 2;
const LOCATOR: usize = 4;
const VALUE: usize = 6;
const SUFFIX: usize = 8;
const CODE: usize = 10;
const MARKS: usize = 11;
const NUMBER: usize = 12;
const USE: usize = 13;
const LABEL: usize = 14;

const SUPPRESSED: u16 = 1;

// Where the fields of a group record begin.
const GROUP: usize = 0;
const FIRST_ITEM: usize = 2;
const ITEM_COUNT: usize = 3;
const STANDING: usize = 4;

/// A part of a text or of the label bytes: offset and length in bytes.
#[derive(Clone, Copy, Debug, PartialEq, Eq, Hash)]
pub struct Span {
    /// Where it begins.
    pub offset: u16,
    /// How many bytes it has.
    pub length: u16,
}

impl Span {
    /// The places of its bytes: `&text[span.range()]` for a text of bytes or a `str`.
    pub fn range(self) -> Range<usize> {
        let offset = usize::from(self.offset);
        offset..offset + usize::from(self.length)
    }

    /// Its bytes in the text that it is a part of.
    ///
    /// # Panics
    ///
    /// Where `text` is too short to have it.
    pub fn of(self, text: &[u8]) -> &[u8] {
        &text[self.range()]
    }

    // A pair that may be missing: 0 0. A part that is present is never empty.
    fn present([offset, length]: [u16; 2]) -> Option<Span> {
        (length != 0).then_some(Span { offset, length })
    }
}

/// The label of a locator, as `page` of `p. 3`: the terms of CSL 1.0.1.
#[derive(Clone, Copy, Debug, PartialEq, Eq, Hash)]
#[repr(u16)]
#[allow(missing_docs)] // each is its name
pub enum LocatorLabel {
    SubVerbo = 1,
    Paragraph = 2,
    Section = 3,
    Chapter = 4,
    Volume = 5,
    Figure = 6,
    Column = 7,
    Verse = 8,
    Page = 9,
    Folio = 10,
    Issue = 11,
    Note = 12,
    Opus = 13,
    Part = 14,
    Line = 15,
    Book = 16,
}

impl LocatorLabel {
    /// All of them, in the order of their codes.
    pub const ALL: [LocatorLabel; 16] = [
        LocatorLabel::SubVerbo,
        LocatorLabel::Paragraph,
        LocatorLabel::Section,
        LocatorLabel::Chapter,
        LocatorLabel::Volume,
        LocatorLabel::Figure,
        LocatorLabel::Column,
        LocatorLabel::Verse,
        LocatorLabel::Page,
        LocatorLabel::Folio,
        LocatorLabel::Issue,
        LocatorLabel::Note,
        LocatorLabel::Opus,
        LocatorLabel::Part,
        LocatorLabel::Line,
        LocatorLabel::Book,
    ];

    /// Its code, from 1.
    pub fn code(self) -> u16 {
        self as u16
    }

    /// The label of a code; none for 0, and for a number that is no code.
    pub fn of(code: u16) -> Option<LocatorLabel> {
        Self::ALL.into_iter().find(|label| label.code() == code)
    }
}

/// A locator: nothing, a suffix alone, or a label with a value and a suffix that may each be missing.
///
/// In `p. 3, see` the label is [`LocatorLabel::Page`], the value `3`, the suffix `see`.
#[derive(Clone, Copy, Debug, PartialEq, Eq, Hash)]
pub enum Locator {
    /// No label, no value, no suffix.
    Nothing,
    /// No label: all of it is suffix.
    Plain {
        /// The suffix.
        suffix: Span,
    },
    /// A label.
    Labelled {
        /// The label.
        label: LocatorLabel,
        /// The value, where there is one.
        value: Option<Span>,
        /// The suffix, where there is one.
        suffix: Option<Span>,
    },
}

impl Locator {
    pub(crate) fn of(code: u16, value: [u16; 2], suffix: [u16; 2]) -> Locator {
        let (value, suffix) = (Span::present(value), Span::present(suffix));
        match (LocatorLabel::of(code), suffix) {
            (Some(label), suffix) => Locator::Labelled { label, value, suffix },
            (None, Some(suffix)) => Locator::Plain { suffix },
            (None, None) => Locator::Nothing,
        }
    }

    /// The label, where there is one.
    pub fn label(self) -> Option<LocatorLabel> {
        match self {
            Locator::Labelled { label, .. } => Some(label),
            _ => None,
        }
    }

    /// The value, where there is one.
    pub fn value(self) -> Option<Span> {
        match self {
            Locator::Labelled { value, .. } => value,
            _ => None,
        }
    }

    /// The suffix, where there is one.
    pub fn suffix(self) -> Option<Span> {
        match self {
            Locator::Nothing => None,
            Locator::Plain { suffix } => Some(suffix),
            Locator::Labelled { suffix, .. } => suffix,
        }
    }
}

/// A view of an item record: [`ITEM_RECORD`] numbers of an area `items`.
#[derive(Clone, Copy, PartialEq, Eq)]
pub struct ItemRecord<'a>(&'a [u16; ITEM_RECORD]);

impl<'a> ItemRecord<'a> {
    /// The record's numbers.
    pub fn numbers(self) -> &'a [u16; ITEM_RECORD] {
        self.0
    }

    fn pair(self, at: usize) -> [u16; 2] {
        [self.0[at], self.0[at + 1]]
    }

    /// What stands before the key and its `@`, in the text.
    pub fn prefix(self) -> Option<Span> {
        Span::present(self.pair(PREFIX))
    }

    /// The key in the text, without `@`.
    pub fn key(self) -> Span {
        let [offset, length] = self.pair(KEY);
        Span { offset, length }
    }

    /// What stands after the key and its comma, in the text.
    pub fn locator_span(self) -> Option<Span> {
        Span::present(self.pair(LOCATOR))
    }

    /// The locator's label, value and suffix; value and suffix are places of the text.
    pub fn locator(self) -> Locator {
        Locator::of(self.0[CODE], self.pair(VALUE), self.pair(SUFFIX))
    }

    /// Whether the author is suppressed: `-@key`.
    pub fn suppressed(self) -> bool {
        self.0[MARKS] & SUPPRESSED != 0
    }

    /// The number of the item's source, from 1; none where it is not numbered or was only looked up.
    pub fn number(self) -> Option<u16> {
        (self.0[NUMBER] != 0).then_some(self.0[NUMBER])
    }

    /// Which use of its source the item is, from 1; none where it is not numbered, or where there is no pool.
    pub fn use_index(self) -> Option<u16> {
        (self.0[USE] != 0).then_some(self.0[USE])
    }

    /// Where the item's label stands in the label bytes; it may be empty. None where the item is not numbered.
    pub fn label(self) -> Option<Span> {
        let [offset, length] = self.pair(LABEL);
        self.number().map(|_| Span { offset, length })
    }
}

impl<'a> From<&'a [u16; ITEM_RECORD]> for ItemRecord<'a> {
    fn from(numbers: &'a [u16; ITEM_RECORD]) -> Self {
        ItemRecord(numbers)
    }
}

impl fmt::Debug for ItemRecord<'_> {
    fn fmt(&self, f: &mut fmt::Formatter<'_>) -> fmt::Result {
        f.debug_struct("ItemRecord")
            .field("prefix", &self.prefix())
            .field("key", &self.key())
            .field("locator_span", &self.locator_span())
            .field("locator", &self.locator())
            .field("suppressed", &self.suppressed())
            .field("number", &self.number())
            .field("use_index", &self.use_index())
            .field("label", &self.label())
            .finish()
    }
}

/// How an annotation labels its items and orders the sources.
#[derive(Clone, Copy, Debug, PartialEq, Eq, Hash)]
#[repr(u8)]
pub enum Mode {
    /// By number.
    Number = 0,
    /// By author and year, or the number where there is neither; the sources by author, or by key where no author is given.
    AuthorYear = 1,
}

/// The standing of a group.
#[derive(Clone, Copy, Debug, PartialEq, Eq, Hash)]
#[repr(u16)]
pub enum Standing {
    /// In a definition line: not numbered.
    InDefinition = 0,
    /// A key of the group is not defined: not numbered.
    Undefined = 1,
    /// Numbered.
    Numbered = 2,
}

/// A view of a group record: [`GROUP_RECORD`] numbers of an area `groups`.
#[derive(Clone, Copy, PartialEq, Eq)]
pub struct GroupRecord<'a>(&'a [u16; GROUP_RECORD]);

impl<'a> GroupRecord<'a> {
    /// The record's numbers.
    pub fn numbers(self) -> &'a [u16; GROUP_RECORD] {
        self.0
    }

    /// The group in the text, with both brackets.
    pub fn span(self) -> Span {
        Span { offset: self.0[GROUP], length: self.0[GROUP + 1] }
    }

    /// Which items are its own, counted from 0.
    pub fn items(self) -> Range<usize> {
        let first = usize::from(self.0[FIRST_ITEM]);
        first..first + usize::from(self.0[ITEM_COUNT])
    }

    /// Its standing.
    ///
    /// # Panics
    ///
    /// Where the record's number for it is no standing; a record that a call wrote has one.
    pub fn standing(self) -> Standing {
        match self.0[STANDING] {
            0 => Standing::InDefinition,
            1 => Standing::Undefined,
            2 => Standing::Numbered,
            other => panic!("no standing: {other}"),
        }
    }
}

impl<'a> From<&'a [u16; GROUP_RECORD]> for GroupRecord<'a> {
    fn from(numbers: &'a [u16; GROUP_RECORD]) -> Self {
        GroupRecord(numbers)
    }
}

impl fmt::Debug for GroupRecord<'_> {
    fn fmt(&self, f: &mut fmt::Formatter<'_>) -> fmt::Result {
        f.debug_struct("GroupRecord")
            .field("span", &self.span())
            .field("items", &self.items())
            .field("standing", &self.0[STANDING])
            .finish()
    }
}

/// Views of the item records of an area: those of the first `n` items are `item_records(&items[..ITEM_RECORD * n])`.
pub fn item_records(area: &[u16]) -> impl ExactSizeIterator<Item = ItemRecord<'_>> {
    area.chunks_exact(ITEM_RECORD).map(|numbers| ItemRecord(numbers.try_into().unwrap()))
}

/// A view of the item record number `i` of an area, from 0; none where the area has no more than `i`.
pub fn item_record(area: &[u16], i: usize) -> Option<ItemRecord<'_>> {
    area.chunks_exact(ITEM_RECORD).nth(i).map(|numbers| ItemRecord(numbers.try_into().unwrap()))
}

/// A view of the group record number `i` of an area, from 0; none where the area has no more than `i`.
pub fn group_record(area: &[u16], i: usize) -> Option<GroupRecord<'_>> {
    area.chunks_exact(GROUP_RECORD).nth(i).map(|numbers| GroupRecord(numbers.try_into().unwrap()))
}

/// Views of the group records of an area: those of the first `n` groups are `group_records(&groups[..GROUP_RECORD * n])`.
pub fn group_records(area: &[u16]) -> impl ExactSizeIterator<Item = GroupRecord<'_>> {
    area.chunks_exact(GROUP_RECORD).map(|numbers| GroupRecord(numbers.try_into().unwrap()))
}
