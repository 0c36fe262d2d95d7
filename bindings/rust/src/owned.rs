//! The owned layer: a text with the index that its calls keep, and groups and annotations with areas of their own.

use alloc::vec;
use alloc::vec::Vec;
use core::ops::Range;

use crate::{
    annotate, group_record, group_records, item_record, item_records, look_up, size, source_text, Bracket, GroupRecord, ItemRecord, Mode,
    Refusal, BUILT, GROUP_RECORD, ITEM_RECORD, LABELS_MAX, NOT_BUILT, POOL_MAX, SOURCE_TEXT_MORE,
};

/// A text with its index: the areas and the note that its look-ups and annotations keep from call to call.
///
/// The text is whatever has bytes: borrowed (`&[u8]`, `&str`) or owned (`Vec<u8>`, `String`), which lets an index live as long as it is wanted. The
/// index is built at most once, by the first call that needs it. It changes no answer.
///
/// ```
/// use citations::Index;
///
/// fn opened() -> Result<Index<String>, citations::Refusal> {
///     Index::new(String::from("[@a] and [@b]"))
/// }
///
/// let mut index = opened()?;
/// let (first, second) = (index.look_up(0)?, index.look_up(9)?); // both are held
/// assert_eq!((first.close(), second.close()), (3, 12));
/// # Ok::<(), citations::Refusal>(())
/// ```
#[derive(Clone, Debug)]
pub struct Index<T> {
    text: T,
    note: u8,
    entries: Vec<u16>,
    records: Vec<Bracket>,
    items: Vec<u16>,
    room: usize,
}

impl<T: AsRef<[u8]>> Index<T> {
    /// A text whose index is not built. Refusals, in this order: 1, 2.
    pub fn new(text: T) -> Result<Index<T>, Refusal> {
        let bytes = text.as_ref();
        let (length, room) = (bytes.len(), size(bytes)?);
        Ok(Index {
            text,
            note: NOT_BUILT,
            entries: vec![0; length],
            records: vec![Bracket::default(); length],
            items: vec![0; ITEM_RECORD * room],
            room,
        })
    }

    /// The text's bytes.
    pub fn text(&self) -> &[u8] {
        self.text.as_ref()
    }

    /// The text, as it was given.
    pub fn into_text(self) -> T {
        self.text
    }

    /// The note of the last call.
    pub fn note(&self) -> u8 {
        self.note
    }

    /// The index, one number a text byte, where it is built: at an unescaped `[` that has a close and only good items, the place of that
    /// close; everywhere else 0.
    pub fn entries(&self) -> Option<&[u16]> {
        (self.note == BUILT).then_some(&self.entries)
    }

    /// The group at the bracket at `at`. Refusals, in this order: 3, 4, 5.
    pub fn look_up(&mut self, at: usize) -> Result<Group, Refusal> {
        let answer = look_up(self.text.as_ref(), at, self.note, &mut self.entries, &mut self.records, &mut self.items);
        self.note = match answer {
            Ok(found) => found.note,
            Err(refused) => refused.note,
        };
        let found = answer?;
        Ok(Group { close: found.close, items: self.items[..ITEM_RECORD * found.items].to_vec() })
    }

    /// All groups of the text. An empty pool is no pool. Refusals, in this order: 7, and 10 for labels above
    /// [`LABELS_MAX`](crate::LABELS_MAX) bytes.
    pub fn annotate(&mut self, mode: Mode, pool: &[u8]) -> Result<Annotated, Refusal> {
        let mut items = vec![0; ITEM_RECORD * self.room];
        let mut groups = vec![0; GROUP_RECORD * self.room];
        let mut references = vec![0; self.room];
        let mut labels = vec![0; LABELS_MAX];
        let answer = annotate(
            self.text.as_ref(),
            mode as u8,
            pool,
            self.note,
            &mut self.entries,
            &mut self.records,
            &mut items,
            &mut groups,
            &mut references,
            &mut labels,
        );
        self.note = match answer {
            Ok(counts) => counts.note,
            Err(refused) => refused.note,
        };
        let counts = answer?;
        cut(&mut items, ITEM_RECORD * counts.items);
        cut(&mut groups, GROUP_RECORD * counts.groups);
        cut(&mut references, counts.sources);
        cut(&mut labels, counts.label_bytes);
        Ok(Annotated { items, groups, references, labels })
    }
}

fn cut<T>(area: &mut Vec<T>, length: usize) {
    area.truncate(length);
    area.shrink_to_fit();
}

/// A group that was looked up, with its items.
#[derive(Clone, Debug, PartialEq, Eq)]
pub struct Group {
    close: usize,
    items: Vec<u16>,
}

impl Group {
    /// The place of the group's `]`.
    pub fn close(&self) -> usize {
        self.close
    }

    /// Its items, in the order of the text, without numbers, uses and labels.
    pub fn items(&self) -> impl ExactSizeIterator<Item = ItemRecord<'_>> {
        item_records(&self.items)
    }

    /// Its item number `i`, from 0.
    pub fn item(&self, i: usize) -> Option<ItemRecord<'_>> {
        item_record(&self.items, i)
    }
}

/// The annotation of a text.
#[derive(Clone, Debug, PartialEq, Eq)]
pub struct Annotated {
    items: Vec<u16>,
    groups: Vec<u16>,
    references: Vec<u16>,
    labels: Vec<u8>,
}

impl Annotated {
    /// All groups, in the order of the text.
    pub fn groups(&self) -> impl ExactSizeIterator<Item = GroupRecord<'_>> {
        group_records(&self.groups)
    }

    /// All items, in the order of the text.
    pub fn items(&self) -> impl ExactSizeIterator<Item = ItemRecord<'_>> {
        item_records(&self.items)
    }

    /// The group number `i`, from 0.
    pub fn group(&self, i: usize) -> Option<GroupRecord<'_>> {
        group_record(&self.groups, i)
    }

    /// The item number `i`, from 0.
    pub fn item(&self, i: usize) -> Option<ItemRecord<'_>> {
        item_record(&self.items, i)
    }

    /// The first item of the source of this number, from 1: the one that gave it its number. It is searched for from the first item on.
    pub fn first_item_of(&self, source: u16) -> Option<ItemRecord<'_>> {
        self.items().find(|item| item.number() == Some(source))
    }

    /// The items of a group of this annotation.
    ///
    /// # Panics
    ///
    /// Where the group is of another annotation and names items that are not here.
    pub fn items_of(&self, group: GroupRecord<'_>) -> impl ExactSizeIterator<Item = ItemRecord<'_>> {
        let Range { start, end } = group.items();
        item_records(&self.items[ITEM_RECORD * start..ITEM_RECORD * end])
    }

    /// The numbers of the sources, in reference order. [`first_item_of`](Annotated::first_item_of) has the key of each.
    pub fn references(&self) -> &[u16] {
        &self.references
    }

    /// All labels, one after the other in item order.
    pub fn labels(&self) -> &[u8] {
        &self.labels
    }

    /// The label of an item of this annotation; none where the item is not numbered.
    ///
    /// # Panics
    ///
    /// Where the item is of another annotation and its label is not here.
    pub fn label(&self, item: ItemRecord<'_>) -> Option<&[u8]> {
        item.label().map(|span| span.of(&self.labels))
    }
}

/// The text of the pool's entry number `entry`, from 0. Refusals, in this order: 7, 8.
///
/// ```
/// use citations::{pool, source_text_of};
///
/// let name = pool::Name { family: Some("Ant"), given: Some("A."), ..Default::default() };
/// let entry = pool::Entry { id: "ant", names: &[name], year: Some(1901), title: Some("Hills"), ..Default::default() };
/// let pool = pool::encode(&[entry]).unwrap();
/// assert_eq!(source_text_of(&pool, 0)?, b"Ant, A. (1901). Hills.");
/// # Ok::<(), citations::Refusal>(())
/// ```
pub fn source_text_of(pool: &[u8], entry: usize) -> Result<Vec<u8>, Refusal> {
    let mut area = vec![0; pool.len().min(POOL_MAX) + SOURCE_TEXT_MORE];
    let bytes = source_text(pool, entry, &mut area)?;
    cut(&mut area, bytes);
    Ok(area)
}
