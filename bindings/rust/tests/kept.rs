//! A kept index and a fresh one give the same answers, and the owned layer gives those of the lent calls.
#![cfg(feature = "alloc")]

mod common;

use citations::{
    pool, source_text, source_text_of, AnnotationCounts, Bracket, Index, Locator, LookedUp, Mode, Refusal, Refused, Standing, BUILT,
    NOT_BUILT, SOURCE_TEXT_MORE,
};
use common::Areas;

/// Texts from a small alphabet of what the rules look at; `seed` chooses.
struct Texts(u64);

impl Texts {
    const PARTS: [&'static str; 28] = [
        "[",
        "[",
        "[@a]",
        "[@b, p. 3]",
        "]",
        "]",
        "@a",
        "@b",
        "-@a",
        ";",
        ";",
        ",",
        "+",
        "\\",
        " ",
        "\n",
        "\n[@a]: ",
        "\n[@b]: {author=Bee year=2}",
        ":",
        "{",
        "}",
        "§",
        "é",
        "p. 12",
        "(",
        "[see @a, which is far from here to its close, so that no short look finds it; @b",
        "[@a, xxxxxxxxxxxxxxxxxxxxxxxxxxxxxxxxxxxxxxxxxxxxxxxxxxxxxxxxxxxxxxxxxxxxxxx]",
        "xxxxxxxxxxxxxxxxxxxxxxxxxxxxxxxx",
    ];

    fn below(&mut self, n: usize) -> usize {
        self.0 ^= self.0 << 13;
        self.0 ^= self.0 >> 7;
        self.0 ^= self.0 << 17;
        (self.0 % n as u64) as usize
    }

    fn next(&mut self) -> String {
        let parts = 1 + self.below(40);
        (0..parts).map(|_| Self::PARTS[self.below(Self::PARTS.len())]).collect()
    }
}

// The answer without its note, and the note.
fn parted(answer: Result<LookedUp, Refused>) -> (Result<(usize, usize), Refusal>, u8) {
    match answer {
        Ok(found) => (Ok((found.close, found.items)), found.note),
        Err(refused) => (Err(refused.refusal), refused.note),
    }
}

#[test]
fn a_kept_index_changes_no_answer() {
    let pool = pool::encode(&[pool::Entry { id: "a", ..Default::default() }]).unwrap();
    let mut texts = Texts(0x9E37_79B9_7F4A_7C15);
    let mut built = 0;
    for _ in 0..400 {
        let text = texts.next();
        let text = text.as_bytes();
        let (mut kept, mut note) = (Areas::of(text), NOT_BUILT);
        for at in 0..=text.len() {
            let mut fresh = Areas::of(text);
            kept.items = fresh.items.clone();
            let (answer, _) = parted(fresh.look_up(text, at, NOT_BUILT));
            let (kept_answer, kept_note) = parted(kept.look_up(text, at, note));
            assert_eq!((answer, &fresh.items), (kept_answer, &kept.items));
            note = kept_note;
        }
        built += usize::from(note == BUILT);
        for (mode, pool) in [(0, &b""[..]), (1, b""), (0, &pool), (1, &pool)] {
            let mut fresh = Areas::of(text);
            let counts = fresh.annotate(text, mode, pool, NOT_BUILT).unwrap();
            let mut again = Areas { index: kept.index.clone(), records: kept.records.clone(), ..Areas::of(text) };
            let kept_counts = again.annotate(text, mode, pool, note).unwrap();
            assert_eq!(AnnotationCounts { note: counts.note, ..kept_counts }, counts);
            assert_eq!((&fresh.items, &fresh.groups), (&again.items, &again.groups));
            assert_eq!((&fresh.references, &fresh.labels), (&again.references, &again.labels));
        }
    }
    assert!(built > 100, "only {built} of 400 texts had an index built");
}

#[test]
fn the_owned_layer_gives_the_lent_answers() {
    let mut texts = Texts(0x2545_F491_4F6C_DD1D);
    for _ in 0..200 {
        let text = texts.next();
        let text = text.as_bytes();
        let mut index = Index::new(text).unwrap();
        for at in 0..=text.len() {
            let mut areas = Areas::of(text);
            let answer = areas.look_up(text, at, NOT_BUILT);
            match index.look_up(at) {
                Ok(group) => {
                    let found = answer.unwrap();
                    assert_eq!((group.close(), group.items().len()), (found.close, found.items));
                    for (i, item) in group.items().enumerate() {
                        assert_eq!(item.numbers()[..], areas.items[16 * i..16 * (i + 1)]);
                        assert_eq!(group.item(i), Some(item));
                    }
                    assert_eq!(group.item(found.items), None);
                }
                Err(refusal) => assert_eq!(refusal, answer.unwrap_err().refusal),
            }
        }
        let mut areas = Areas::of(text);
        let counts = areas.annotate(text, 1, b"", NOT_BUILT).unwrap();
        let annotated = index.annotate(Mode::AuthorYear, b"").unwrap();
        assert_eq!(annotated.references(), &areas.references[..counts.sources]);
        assert_eq!(annotated.labels(), &areas.labels[..counts.label_bytes]);
        assert_eq!((annotated.groups().len(), annotated.items().len()), (counts.groups, counts.items));
        let labels: Vec<u8> = annotated.items().filter_map(|item| annotated.label(item)).flatten().copied().collect();
        assert_eq!(labels, annotated.labels());
        assert!((0..counts.groups).map(|i| annotated.group(i)).eq(annotated.groups().map(Some)));
        assert!((0..counts.items).map(|i| annotated.item(i)).eq(annotated.items().map(Some)));
        assert_eq!((annotated.group(counts.groups), annotated.item(counts.items)), (None, None));
        for source in 1..=counts.sources as u16 {
            let first = annotated.first_item_of(source).unwrap();
            let before = annotated.items().take_while(|item| *item != first);
            assert_eq!(before.filter_map(|item| item.number()).max().unwrap_or(0), source - 1);
        }
        assert_eq!(annotated.first_item_of(counts.sources as u16 + 1), None);
    }
}

// A text of each kind, and two groups of one index at once.
#[test]
fn an_index_has_its_text_or_borrows_it() {
    fn closes<T: AsRef<[u8]>>(mut index: Index<T>) -> T {
        let (first, second) = (index.look_up(0).unwrap(), index.look_up(5).unwrap());
        assert_eq!((first.close(), second.close()), (3, 11));
        let keys = [&first, &second].map(|group| group.item(0).unwrap().key().of(index.text()));
        assert_eq!(keys, [&b"a"[..], b"bcd"]);
        index.into_text()
    }
    let text = "[@a] [@bcd ]";
    assert_eq!(closes(Index::new(text).unwrap()), text);
    assert_eq!(closes(Index::new(text.as_bytes()).unwrap()), text.as_bytes());
    assert_eq!(closes(Index::new(text.to_string()).unwrap()), text);
    assert_eq!(closes(Index::new(text.as_bytes().to_vec()).unwrap()), text.as_bytes());
    assert_eq!(closes(Index::new(std::borrow::Cow::from(text.as_bytes())).unwrap()), text.as_bytes());
}

#[test]
fn refusals_of_the_owned_layer() {
    assert_eq!(Index::new(&[b'a'; 65_536]).unwrap_err(), Refusal::TextTooLong);
    assert_eq!(Index::new(b"\xFF").unwrap_err(), Refusal::TextNotUtf8);
    let mut index = Index::new(b"a\\[@a][b").unwrap();
    assert_eq!(index.look_up(0).unwrap_err(), Refusal::NoBracket);
    assert_eq!(index.look_up(2).unwrap_err(), Refusal::BracketEscaped);
    assert_eq!(index.look_up(6).unwrap_err(), Refusal::NoGroup);
    assert_eq!(index.annotate(Mode::Number, b"\0").unwrap_err(), Refusal::BadPool);
    assert_eq!(index.entries(), None);
    assert_eq!(source_text_of(b"", 0).unwrap_err(), Refusal::NoEntry);
    assert_eq!(source_text_of(b"\0", 0).unwrap_err(), Refusal::BadPool);
    assert_eq!(source_text_of(&[0; 32_769], 0).unwrap_err(), Refusal::BadPool);
}

#[test]
fn labels_above_their_limit_are_refused_and_the_index_is_kept() {
    // 1,000 uses of a source whose author has 100 bytes.
    let text = "[@a] ".repeat(1_000) + "[" + &"x".repeat(99) + "\n[@a]: {author=" + &"A".repeat(100) + "}";
    let mut index = Index::new(text.as_bytes()).unwrap();
    assert_eq!(index.annotate(Mode::AuthorYear, b"").unwrap_err(), Refusal::AreaTooShort);
    assert_eq!(index.note(), BUILT);
    assert_eq!(index.entries().unwrap()[0], 3);
    assert_eq!(index.look_up(0).unwrap().close(), 3);
    assert_eq!(index.annotate(Mode::Number, b"").unwrap().labels().len(), 1_000);
}

#[test]
fn a_pool_defines_keys_and_counts_uses() {
    let ant = pool::Name { family: Some("Ant"), given: Some("A."), ..Default::default() };
    let bee = pool::Name { literal: Some("The Bee"), ..Default::default() };
    let pool = pool::encode(&[
        pool::Entry { id: "a", names: &[ant, bee], year: Some(-44), title: Some("Hills"), ..Default::default() },
        pool::Entry { id: "b", names: &[bee], date: Some("n.d."), ..Default::default() },
        pool::Entry { id: "long", year: Some(i64::MIN), ..Default::default() },
    ])
    .unwrap();
    assert_eq!(source_text_of(&pool, 0).unwrap(), b"Ant, A.; The Bee (-44). Hills.");
    assert_eq!(source_text_of(&pool, 1).unwrap(), b"The Bee (n.d.).");
    assert_eq!(source_text_of(&pool, 2).unwrap(), b"(-9223372036854775808).");
    assert_eq!(source_text_of(&pool, 3).unwrap_err(), Refusal::NoEntry);

    let text = b"[@b; -@a] [@c] [+@a, see]";
    let annotated = Index::new(text).unwrap().annotate(Mode::AuthorYear, &pool).unwrap();
    let standings: Vec<_> = annotated.groups().map(|group| group.standing()).collect();
    assert_eq!(standings, [Standing::Numbered, Standing::Undefined, Standing::Numbered]);
    let numbers: Vec<_> = annotated.items().map(|item| (item.number(), item.use_index())).collect();
    assert_eq!(numbers, [(Some(1), Some(1)), (Some(2), Some(1)), (None, None), (Some(2), Some(2))]);
    let labels: Vec<_> = annotated.items().map(|item| annotated.label(item)).collect();
    assert_eq!(labels, [Some(&b"The Bee n.d."[..]), Some(b"-44"), None, Some(b"Ant -44")]);
    assert_eq!(annotated.references(), [2, 1]);
    let last = annotated.items().last().unwrap();
    assert!(!last.suppressed() && last.prefix().is_none() && matches!(last.locator(), Locator::Plain { .. }));
}

// A source text is at most three bytes longer than its pool, and that one is the longest.
#[test]
fn the_area_that_always_suffices_for_a_source_text() {
    let pool = pool::encode(&[pool::Entry { id: "", year: Some(i64::MIN), ..Default::default() }]).unwrap();
    assert_eq!(pool.len(), 20);
    assert_eq!(source_text_of(&pool, 0).unwrap().len(), pool.len() + SOURCE_TEXT_MORE);
    assert_eq!(source_text(&pool, 0, &mut [0; 22]), Err(Refusal::AreaTooShort));
    // more names, a date beside the year, or a title: never as much more
    let name = pool::Name { family: Some("x"), given: Some(""), ..Default::default() };
    for names in [&[name][..], &[name; 40]] {
        for title in [None, Some("t")] {
            let entry = pool::Entry { id: "", names, year: Some(i64::MIN), title, ..Default::default() };
            let pool = pool::encode(&[entry]).unwrap();
            assert!(source_text_of(&pool, 0).unwrap().len() < pool.len() + SOURCE_TEXT_MORE);
        }
    }
}

#[test]
fn a_pool_that_is_too_long_is_not_written() {
    let title = "x".repeat(40_000);
    assert_eq!(pool::encode(&[pool::Entry { id: "a", title: Some(&title), ..Default::default() }]), None);
    let fits = |n| pool::encode(&[pool::Entry { id: "a", title: Some(&title[..n]), ..Default::default() }]);
    assert_eq!(fits(32_768 - 13).unwrap().len(), 32_768);
    assert_eq!(fits(32_768 - 12), None);
    assert_eq!(pool::encode(&[]).unwrap(), [0, 0]);
    assert_eq!(source_text_of(&fits(32_768 - 13).unwrap(), 0).unwrap().len(), 32_768 - 12);
}

#[test]
fn a_build_leaves_zero_records() {
    let text = "[".repeat(100);
    let mut areas = Areas::of(text.as_bytes());
    let refused = areas.look_up(text.as_bytes(), 0, NOT_BUILT).unwrap_err();
    assert_eq!((refused.refusal, refused.note), (Refusal::NoGroup, BUILT));
    assert_eq!(areas.records[..100], [Bracket::default(); 100]);
    assert_eq!(areas.records[100..], [common::SET_BRACKET; 3]);
    assert_eq!(areas.index[..100], [0; 100]);
    assert_eq!(areas.index[100..], [common::SET; 3]);
}
