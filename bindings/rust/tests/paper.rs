//! Document 01's examples, its refusals and its listing, and the leading `+` of document 02, W10, through the lent calls.

mod common;

use citations::{
    group_records, item_records, locator, look_up, size, source_text, Bracket, Locator, LocatorLabel, Refusal, Refused, Span, Standing,
    BUILT, NOT_BUILT,
};
use common::{Areas, SET, SET_BYTE};

// The refusal of a look-up at `at`, which must leave all areas as they were.
fn refused_at(text: &[u8], at: usize) -> Refusal {
    let mut areas = Areas::of(text);
    let before = areas.clone();
    let refused = areas.look_up(text, at, 7).unwrap_err();
    assert_eq!(areas, before);
    assert_eq!(refused.note, 7);
    refused.refusal
}

// The one item record of the group at the text's start.
fn only_item(text: &[u8]) -> [u16; 16] {
    let mut areas = Areas::of(text);
    let found = areas.look_up(text, 0, NOT_BUILT).unwrap();
    assert_eq!((found.close, found.items, found.note), (text.len() - 1, 1, NOT_BUILT));
    areas.items[..16].try_into().unwrap()
}

#[test]
fn proved_examples_of_groups() {
    assert_eq!(only_item(b"[@a]"), [0, 0, 2, 1, 0, 0, 0, 0, 0, 0, 0, 0, 0, 0, 0, 0]);
    for text in [&b"[@a;]"[..], b"[;@a]", b"[@a][b]", b"[\\@a]"] {
        assert_eq!(refused_at(text, 0), Refusal::NoGroup);
    }
    let text = b"[x -@a, p. 3]";
    let numbers = only_item(text);
    let item = item_records(&numbers).next().unwrap();
    assert_eq!(item.prefix().unwrap().of(text), b"x");
    assert_eq!(item.key().of(text), b"a");
    assert!(item.suppressed());
    assert_eq!(item.locator_span().unwrap().of(text), b"p. 3");
    let value = Span { offset: 11, length: 1 };
    assert_eq!(item.locator(), Locator::Labelled { label: LocatorLabel::Page, value: Some(value), suffix: None });
    assert_eq!((item.number(), item.use_index(), item.label()), (None, None, None));
}

// A `+` right after the bracket is passed over, once; any other is prefix text. The key has its own place, and no mark is set but 1.
#[test]
fn a_leading_plus() {
    let of = |prefix: [u16; 2], key: u16, marks: u16| [prefix[0], prefix[1], key, 1, 0, 0, 0, 0, 0, 0, 0, marks, 0, 0, 0, 0];
    assert_eq!(only_item(b"[+@a]"), of([0, 0], 3, 0));
    assert_eq!(only_item(b"[+-@a]"), of([0, 0], 4, 1));
    assert_eq!(only_item(b"[+ @a]"), of([0, 0], 4, 0));
    assert_eq!(only_item(b"[++@a]"), of([2, 1], 4, 0));
    assert_eq!(only_item(b"[ +@a]"), of([2, 1], 4, 0));
    for text in [&b"[+]"[..], b"[+b]", b"[+;@a]", b"[+@a;b]"] {
        assert_eq!(refused_at(text, 0), Refusal::NoGroup);
    }
    let text = b"[+@a;+@b]";
    let mut areas = Areas::of(text);
    assert_eq!(areas.look_up(text, 0, NOT_BUILT).unwrap().items, 2);
    assert_eq!(areas.items[..16], of([0, 0], 3, 0));
    assert_eq!(areas.items[16..32], of([5, 1], 7, 0));
}

// Between `[` and `]` every row of up to five of these symbols that begins with no `+`: with a `+` before it it is refused alike, or has the
// same items, one place further.
#[test]
fn a_group_with_a_leading_plus_and_without() {
    const SYMBOLS: [&[u8]; 12] = [b"@a", b"@", b"-", b"\\", b";", b",", b" ", b"\xC2\xA0", b"x", b"+", b"[", b"]"];
    let mut found = 0;
    for length in 0..=5 {
        for number in 0..SYMBOLS.len().pow(length) {
            let row: Vec<u8> = (0..length).flat_map(|i| SYMBOLS[number / SYMBOLS.len().pow(i) % SYMBOLS.len()]).copied().collect();
            if row.first() == Some(&b'+') {
                continue;
            }
            let (plain, plus) = (looked_up(&[b"[", &row[..], b"]"].concat()), looked_up(&[b"[+", &row[..], b"]"].concat()));
            assert_eq!(plain.map(further), plus, "{row:?}");
            found += usize::from(plus.is_ok());
        }
    }
    assert!(found > 1_000, "{found} groups");
}

// The close of the group at the text's start and the records of its items, of which there are at most three here; zeros behind them.
fn looked_up(text: &[u8]) -> Result<(usize, [u16; 48]), Refusal> {
    let (mut index, mut records, mut items) = ([0; 16], [Bracket::default(); 16], [0; 48]);
    let found = look_up(text, 0, NOT_BUILT, &mut index, &mut records, &mut items).map_err(|refused| refused.refusal)?;
    Ok((found.close, items))
}

// The same one place further; a part that is missing stays 0 0.
fn further((close, mut items): (usize, [u16; 48])) -> (usize, [u16; 48]) {
    for record in items.chunks_mut(16) {
        for pair in record[..10].chunks_mut(2).filter(|pair| pair[1] != 0) {
            pair[0] += 1;
        }
    }
    (close + 1, items)
}

#[test]
fn proved_examples_of_locators() {
    let text = "§§3".as_bytes();
    let found = locator(text).unwrap();
    assert_eq!((found.label(), found.suffix()), (Some(LocatorLabel::Section), None));
    assert_eq!(found.value().unwrap().of(text), b"3");

    assert_eq!(locator(b"chapterIV"), Ok(Locator::Plain { suffix: Span { offset: 0, length: 9 } }));

    let text = b"PP. 3-5, see";
    let found = locator(text).unwrap();
    assert_eq!(found.label(), Some(LocatorLabel::Page));
    assert_eq!(found.value().unwrap().of(text), b"3-5");
    assert_eq!(found.suffix().unwrap().of(text), b"see");

    assert_eq!(locator(b""), Ok(Locator::Nothing));
}

// A group whose close stands `after` bytes after its bracket.
fn long_group(after: usize) -> Vec<u8> {
    let mut text = b"[@".to_vec();
    text.resize(after, b'a');
    text.push(b']');
    text
}

#[test]
fn short_look_and_index() {
    let text = long_group(63);
    let mut areas = Areas::of(&text);
    let before = areas.clone();
    let found = areas.look_up(&text, 0, 7).unwrap();
    assert_eq!((found.close, found.items, found.note), (63, 1, 7));
    assert_eq!((&areas.index, &areas.records), (&before.index, &before.records));

    let text = long_group(64);
    let mut areas = Areas::of(&text);
    let before = areas.clone();
    let found = areas.look_up(&text, 0, 7).unwrap();
    assert_eq!((found.close, found.items, found.note), (64, 1, BUILT));
    let mut entries = [0; 65];
    entries[0] = 64;
    let mut expected = before.built(&entries);
    expected.items[..16].copy_from_slice(&[0, 0, 2, 62, 0, 0, 0, 0, 0, 0, 0, 0, 0, 0, 0, 0]);
    assert_eq!(areas, expected);
}

// With the note 1 an index is taken as it is, whatever call left it: a stored place counts where it is after its bracket, in the text and at `]`.

#[test]
fn an_index_that_no_call_left_names_the_close() {
    let text = b"[@a]@b]";
    let mut areas = Areas::of(text);
    areas.index[0] = 6;
    let before = areas.clone();
    let found = areas.look_up(text, 0, BUILT).unwrap();
    assert_eq!((found.close, found.items, found.note), (6, 1, BUILT));
    assert_eq!((&areas.index, &areas.records), (&before.index, &before.records));
    let item = item_records(&areas.items[..16]).next().unwrap();
    assert_eq!((item.prefix().unwrap().of(text), item.key().of(text)), (&b"@a]"[..], &b"b"[..]));
    assert_eq!(item.locator(), Locator::Nothing);
}

#[test]
fn an_index_may_name_an_escaped_close() {
    let text = b"[@a,\\]";
    let mut areas = Areas::of(text);
    areas.index[0] = 5;
    let found = areas.look_up(text, 0, BUILT).unwrap();
    assert_eq!((found.close, found.items, found.note), (5, 1, BUILT));
    let item = item_records(&areas.items[..16]).next().unwrap();
    assert_eq!((item.key().of(text), item.locator_span().unwrap().of(text)), (&b"a"[..], &b"\\"[..]));
}

#[test]
fn an_entry_of_0_is_no_group_and_nothing_is_scanned_or_built() {
    let text = b"[@a]";
    let mut areas = Areas::of(text);
    areas.index[0] = 0;
    let before = areas.clone();
    assert_eq!(areas.look_up(text, 0, BUILT), Err(Refused { refusal: Refusal::NoGroup, note: BUILT }));
    assert_eq!(areas, before);
}

#[test]
fn a_good_index_and_no_bracket_records_are_refused() {
    let text = b"[@a]";
    let mut areas = Areas::of(text);
    areas.index[..4].copy_from_slice(&[3, 0, 0, 0]);
    areas.records.clear();
    let before = areas.clone();
    let refused = Refused { refusal: Refusal::IndexTooShort, note: BUILT };
    assert_eq!(areas.look_up(text, 0, BUILT), Err(refused));
    assert_eq!(areas.annotate(text, 0, b"", BUILT), Err(refused));
    assert_eq!(areas, before);
    // so is the annotation of a text without a bracket
    assert_eq!(areas.annotate(b"a", 0, b"", BUILT), Err(refused));
}

// The refusals, each by the example of document 01's table.

#[test]
fn refusal_1() {
    let text = vec![b'a'; 65_536];
    let mut areas = Areas::of(&text);
    let before = areas.clone();
    let refused = Refused { refusal: Refusal::TextTooLong, note: 7 };
    assert_eq!(areas.look_up(&text, 0, 7), Err(refused));
    assert_eq!(areas.annotate(&text, 0, b"", 7), Err(refused));
    assert_eq!(areas, before);
    assert_eq!(size(&text), Err(Refusal::TextTooLong));
    assert_eq!(locator(&text), Err(Refusal::TextTooLong));
    assert_eq!(size(&text[1..]), Ok(21_845));
}

#[test]
fn refusal_2() {
    let text = b"\xFF";
    let mut areas = Areas::of(text);
    let before = areas.clone();
    let refused = Refused { refusal: Refusal::TextNotUtf8, note: 7 };
    assert_eq!(areas.look_up(text, 0, 7), Err(refused));
    assert_eq!(areas.annotate(text, 0, b"", 7), Err(refused));
    assert_eq!(areas, before);
    assert_eq!(size(text), Err(Refusal::TextNotUtf8));
    assert_eq!(locator(text), Err(Refusal::TextNotUtf8));
}

#[test]
fn refusals_3_to_5() {
    assert_eq!(refused_at(b"a", 0), Refusal::NoBracket);
    assert_eq!(refused_at(b"[@a]", 4), Refusal::NoBracket);
    assert_eq!(refused_at(b"[@a]", usize::MAX), Refusal::NoBracket);
    assert_eq!(refused_at(b"", 0), Refusal::NoBracket);
    assert_eq!(refused_at(b"\\[@a]", 1), Refusal::BracketEscaped);
    assert_eq!(refused_at(b"[a]", 0), Refusal::NoGroup);
}

#[test]
fn refusals_6_and_7() {
    let text = b"[@a]";
    let mut areas = Areas::of(text);
    let before = areas.clone();
    assert_eq!(areas.annotate(text, 2, b"", 7), Err(Refused { refusal: Refusal::BadMode, note: 7 }));
    assert_eq!(areas.annotate(text, 2, b"\0", 7), Err(Refused { refusal: Refusal::BadMode, note: 7 }));
    assert_eq!(areas.annotate(text, 0, b"\0", 7), Err(Refused { refusal: Refusal::BadPool, note: 7 }));
    assert_eq!(areas, before);
    let mut area = [SET_BYTE; 4];
    assert_eq!(source_text(b"\0", 0, &mut area), Err(Refusal::BadPool));
    assert_eq!(area, [SET_BYTE; 4]);
}

#[test]
fn refusal_8() {
    let mut area = [SET_BYTE; 4];
    assert_eq!(source_text(b"", 0, &mut area), Err(Refusal::NoEntry));
    assert_eq!(source_text(b"\0\0", 0, &mut area), Err(Refusal::NoEntry));
    assert_eq!(source_text(b"\0\0", usize::MAX, &mut area), Err(Refusal::NoEntry));
    assert_eq!(area, [SET_BYTE; 4]);
}

#[test]
fn refusal_9() {
    let text = b"[@a]";
    let refused = Refused { refusal: Refusal::IndexTooShort, note: 7 };
    for (index, records) in [(3, 4), (4, 3), (0, 4), (4, 0)] {
        let mut areas = Areas::of(text);
        areas.index.truncate(index);
        areas.records.truncate(records);
        let before = areas.clone();
        assert_eq!(areas.look_up(text, 0, 7), Err(refused));
        assert_eq!(areas.annotate(text, 0, b"", 7), Err(refused));
        assert_eq!(areas, before);
    }
}

#[test]
fn refusal_10() {
    let text = b"[@a]";
    let refused = Refused { refusal: Refusal::AreaTooShort, note: 7 };
    let mut areas = Areas::of(text);
    areas.items.truncate(15);
    let before = areas.clone();
    assert_eq!(areas.look_up(text, 0, 7), Err(refused));
    assert_eq!(areas, before);

    // An annotation fills its four areas with zeros, over their whole length.
    assert_eq!(areas.annotate(text, 0, b"", 7), Err(refused));
    assert_eq!((&areas.index, &areas.records), (&before.index, &before.records));
    assert!(areas.items.iter().chain(&areas.groups).chain(&areas.references).all(|&n| n == 0));
    assert!(areas.labels.iter().all(|&byte| byte == 0));
}

#[test]
fn refusals_5_and_10_keep_a_built_index() {
    // No group at 0, which has no close; one at 70.
    let mut text = b"[".to_vec();
    text.resize(70, b'x');
    text.extend(b"[@a]");
    let mut entries = vec![0; 74];
    entries[70] = 73;

    let mut areas = Areas::of(&text);
    let before = areas.clone();
    assert_eq!(areas.look_up(&text, 0, 7), Err(Refused { refusal: Refusal::NoGroup, note: BUILT }));
    assert_eq!(areas, before.built(&entries));

    let mut areas = Areas::of(&text);
    areas.items.truncate(15);
    let before = areas.clone();
    assert_eq!(areas.annotate(&text, 0, b"", 7), Err(Refused { refusal: Refusal::AreaTooShort, note: BUILT }));
    assert_eq!(areas.index, before.built(&entries).index);
    assert_eq!(areas.records[..74], [Bracket::default(); 74]);

    let text = long_group(64);
    let mut areas = Areas::of(&text);
    areas.items.truncate(15);
    assert_eq!(areas.look_up(&text, 0, 7), Err(Refused { refusal: Refusal::AreaTooShort, note: BUILT }));
    assert_eq!((areas.index[0], areas.items[0]), (64, SET));
}

#[test]
fn numbers_of_refusals() {
    // document 01's table
    let numbers = [
        (1, Refusal::TextTooLong),
        (2, Refusal::TextNotUtf8),
        (3, Refusal::NoBracket),
        (4, Refusal::BracketEscaped),
        (5, Refusal::NoGroup),
        (6, Refusal::BadMode),
        (7, Refusal::BadPool),
        (8, Refusal::NoEntry),
        (9, Refusal::IndexTooShort),
        (10, Refusal::AreaTooShort),
    ];
    assert!(Refusal::ALL.iter().eq(numbers.iter().map(|(_, refusal)| refusal)));
    for (number, refusal) in numbers {
        assert_eq!(refusal.number(), number);
        assert!(!refusal.to_string().is_empty());
    }
}

#[test]
fn areas_beyond_the_records_are_untouched() {
    let text = b"[@a] and [@b; @c]";
    let mut areas = Areas::of(text);
    let before = areas.clone();
    let found = areas.look_up(text, 9, NOT_BUILT).unwrap();
    assert_eq!(found.items, 2);
    let mut after = before.clone();
    after.items[..32].copy_from_slice(&areas.items[..32]);
    assert_eq!(areas, after);

    let pool = b"\0\0"; // a pool of none: no key is defined
    let mut areas = before.clone();
    let counts = areas.annotate(text, 0, pool, NOT_BUILT).unwrap();
    assert_eq!((counts.groups, counts.items, counts.sources, counts.label_bytes), (2, 3, 0, 0));
    let mut after = before.clone();
    after.items[..48].copy_from_slice(&areas.items[..48]);
    after.groups[..10].copy_from_slice(&[0, 4, 0, 1, 1, 9, 8, 1, 2, 1]);
    assert_eq!(areas, after);
}

#[test]
fn listing() {
    let text = b"See [@a, p. 12; -@b].\n[@a]: Ant.\n[@b]: Bee.\n";
    let mut areas = Areas::of(text);
    let counts = areas.annotate(text, 0, b"", NOT_BUILT).unwrap();
    let mut out = format!("groups {} items {} sources {}\n", counts.groups, counts.items, counts.sources);
    let items: Vec<_> = item_records(&areas.items[..16 * counts.items]).collect();
    for group in group_records(&areas.groups[..5 * counts.groups]) {
        for item in &items[group.items()] {
            let key = std::str::from_utf8(item.key().of(text)).unwrap();
            let code = item.locator().label().map_or(0, LocatorLabel::code);
            let Span { offset, length } = group.span();
            let (standing, number) = (group.standing() as u16, item.number().unwrap_or(0));
            out += &format!("{offset} {length} {standing} {key} {code} {number}\n");
        }
    }
    assert_eq!(out, "groups 3 items 4 sources 2\n4 16 2 a 9 1\n4 16 2 b 0 2\n22 4 0 a 0 0\n33 4 0 b 0 0\n");
    assert_eq!(areas.references[..2], [1, 2]);
    assert_eq!(&areas.labels[..counts.label_bytes], b"12");
    assert_eq!(group_records(&areas.groups[..15]).next().unwrap().standing(), Standing::Numbered);
}

#[test]
fn areas_of_no_elements() {
    let mut areas = Areas { index: vec![], records: vec![], items: vec![], groups: vec![], references: vec![], labels: vec![] };
    let counts = areas.annotate(b"", 1, b"", 7).unwrap();
    assert_eq!((counts.groups, counts.items, counts.sources, counts.label_bytes, counts.note), (0, 0, 0, 0, 7));
    assert_eq!(areas.look_up(b"", 0, 7).unwrap_err().refusal, Refusal::NoBracket);
    assert_eq!(areas.look_up(b"[a]", 0, 7).unwrap_err().refusal, Refusal::IndexTooShort);
    assert_eq!(size(b""), Ok(0));
}

// A text that is a pool too: both areas are only read and may be one.
#[test]
fn text_and_pool_in_one_memory() {
    let both = b"\x01\0\x06\0\x0B\0\x01\x01\0a\x08\x04\0[@a]";
    let mut areas = Areas::of(both);
    let counts = areas.annotate(both, 1, both, NOT_BUILT).unwrap();
    assert_eq!((counts.groups, counts.items, counts.sources, counts.label_bytes), (1, 1, 1, 1));
    assert_eq!(areas.items[..16], [0, 0, 15, 1, 0, 0, 0, 0, 0, 0, 0, 0, 1, 1, 0, 1]);
    let mut area = [SET_BYTE; 6];
    assert_eq!(source_text(both, 0, &mut area[..4]), Err(Refusal::AreaTooShort));
    assert_eq!(area, [SET_BYTE; 6]);
    assert_eq!(source_text(both, 0, &mut area), Ok(5));
    assert_eq!(&area, b"[@a].\xA5");
}
