//! The calls over lent slices.

use crate::raw::{self, Lent};
use crate::{Bracket, Locator, Refusal, Refused};

/// What an accepted look-up answers.
#[derive(Clone, Copy, Debug, PartialEq, Eq)]
pub struct LookedUp {
    /// The place of the group's `]`.
    pub close: usize,
    /// How many items the group has; so many records stand at the front of `items`.
    pub items: usize,
    /// The note for the next call on the text.
    pub note: u8,
}

/// What an accepted annotation answers.
#[derive(Clone, Copy, Debug, PartialEq, Eq)]
pub struct AnnotationCounts {
    /// How many groups the text has; so many records stand at the front of `groups`.
    pub groups: usize,
    /// How many items they have; so many records stand at the front of `items`.
    pub items: usize,
    /// How many sources are numbered; so many numbers stand at the front of `references`, in reference order.
    pub sources: usize,
    /// How many bytes the labels have, at the front of `labels`.
    pub label_bytes: usize,
    /// The note for the next call on the text.
    pub note: u8,
}

/// The group at the bracket at `at`: its close and its items, whose records stand at the front of `items`
/// ([`item_records`](crate::item_records)).
///
/// Refusals, in this order: 1, 2, 3, 4, 9, 5, 10.
///
/// ```
/// use citations::{item_record, look_up, Bracket, NOT_BUILT};
///
/// let text = b"[x -@a, p. 3]";
/// let (mut index, mut records, mut items) = ([0; 13], [Bracket::default(); 13], [0; 32]);
/// let found = look_up(text, 0, NOT_BUILT, &mut index, &mut records, &mut items)?;
/// assert_eq!((found.close, found.items), (12, 1));
/// let item = item_record(&items, 0).unwrap();
/// assert_eq!(item.key().of(text), b"a");
/// # Ok::<(), citations::Refused>(())
/// ```
pub fn look_up(
    text: &[u8],
    at: usize,
    note: u8,
    index: &mut [u16],
    records: &mut [Bracket],
    items: &mut [u16],
) -> Result<LookedUp, Refused> {
    let mut answer = [raw::NO_ANSWER; raw::LOOK_UP];
    let mut lent = Lent { index, records, items, groups: &mut [], references: &mut [], labels: &mut [] };
    raw::look_up(text, at, note, &mut lent, &mut answer);
    let note = answer[raw::LOOK_UP_NOTE] as u8;
    match Refusal::of(answer[raw::NUMBER]) {
        None => {
            let (close, items) = (answer[raw::LOOK_UP_CLOSE], answer[raw::LOOK_UP_ITEMS]);
            Ok(LookedUp { close: close as usize, items: items as usize, note })
        }
        Some(refusal) => Err(Refused { refusal, note }),
    }
}

/// All groups of the text, with numbers, uses, labels and the order of the sources, at the front of the last four areas.
///
/// Mode 0 labels by number, mode 1 by author and year ([`Mode`](crate::Mode)). An empty pool is no pool.
///
/// Refusals, in this order: 1, 2, 6, 7, 9, 10; 10 fills the last four areas with zeros.
#[allow(clippy::too_many_arguments)] // the library's own parameters, in its order
pub fn annotate(
    text: &[u8],
    mode: u8,
    pool: &[u8],
    note: u8,
    index: &mut [u16],
    records: &mut [Bracket],
    items: &mut [u16],
    groups: &mut [u16],
    references: &mut [u16],
    labels: &mut [u8],
) -> Result<AnnotationCounts, Refused> {
    let mut answer = [raw::NO_ANSWER; raw::ANNOTATION];
    raw::annotate(text, mode, pool, note, &mut Lent { index, records, items, groups, references, labels }, &mut answer);
    let note = answer[raw::ANNOTATION_NOTE] as u8;
    match Refusal::of(answer[raw::NUMBER]) {
        None => Ok(AnnotationCounts {
            groups: answer[raw::ANNOTATION_GROUPS] as usize,
            items: answer[raw::ANNOTATION_ITEMS] as usize,
            sources: answer[raw::ANNOTATION_SOURCES] as usize,
            label_bytes: answer[raw::ANNOTATION_LABEL_BYTES] as usize,
            note,
        }),
        Some(refusal) => Err(Refused { refusal, note }),
    }
}

/// How many item records any look-up or annotation of the text needs at most; no more groups and no more sources are there either.
///
/// Refusals, in this order: 1, 2.
pub fn size(text: &[u8]) -> Result<usize, Refusal> {
    let mut answer = [raw::NO_ANSWER; raw::SIZE];
    raw::size(text, &mut answer);
    match Refusal::of(answer[raw::NUMBER]) {
        None => Ok(answer[raw::SIZE_RECORDS] as usize),
        Some(refusal) => Err(refusal),
    }
}

/// The locator that the whole text is, as it would stand after a key and its comma.
///
/// Refusals, in this order: 1, 2.
///
/// ```
/// use citations::{locator, LocatorLabel};
///
/// let text = b"PP. 3-5, see";
/// let found = locator(text)?;
/// assert_eq!(found.label(), Some(LocatorLabel::Page));
/// assert_eq!(found.value().unwrap().of(text), b"3-5");
/// assert_eq!(found.suffix().unwrap().of(text), b"see");
/// # Ok::<(), citations::Refusal>(())
/// ```
pub fn locator(text: &[u8]) -> Result<Locator, Refusal> {
    let mut answer = [raw::NO_ANSWER; raw::LOCATOR];
    raw::locator(text, &mut answer);
    // A text's offsets and lengths fit 16 bits.
    let pair = |at: usize| [answer[at] as u16, answer[at + 1] as u16];
    match Refusal::of(answer[raw::NUMBER]) {
        None => Ok(Locator::of(answer[raw::LOCATOR_LABEL_CODE] as u16, pair(raw::LOCATOR_VALUE), pair(raw::LOCATOR_SUFFIX))),
        Some(refusal) => Err(refusal),
    }
}

/// Writes the text of the pool's entry number `entry`, from 0, at the front of `area`, and answers how many bytes it has: at most the pool's and
/// [`SOURCE_TEXT_MORE`](crate::SOURCE_TEXT_MORE).
///
/// Refusals, in this order: 7, 8, 10.
pub fn source_text(pool: &[u8], entry: usize, area: &mut [u8]) -> Result<usize, Refusal> {
    let mut answer = [raw::NO_ANSWER; raw::SOURCE_TEXT];
    raw::source_text(pool, entry, area, &mut answer);
    match Refusal::of(answer[raw::NUMBER]) {
        None => Ok(answer[raw::SOURCE_TEXT_BYTES] as usize),
        Some(refusal) => Err(refusal),
    }
}
