//! The crate's constants and those of include/citations.h are the same; tests/c/constants.c holds the header's against the library.

use std::collections::BTreeMap;

use citations::raw::{self, NO_ANSWER};
use citations::{LocatorLabel, Mode, Refusal, Standing};

const HEADER: &str = include_str!("../../../include/citations.h");

// The header's enumerators by name, without CITATIONS_.
fn enumerators() -> BTreeMap<&'static str, u32> {
    let value = |line: &'static str| {
        let (name, rest) = line.trim_start().strip_prefix("CITATIONS_")?.split_once(" = ")?;
        let digits = rest.split(|c: char| !c.is_ascii_digit()).next()?;
        Some((name, digits.parse().ok()?))
    };
    HEADER.lines().filter_map(value).collect()
}

// What a name would be in the other's spelling: TextTooLong is TEXT_TOO_LONG.
fn spelled(name: &str) -> String {
    let mut out = String::new();
    for c in name.chars() {
        if c.is_ascii_uppercase() && !out.is_empty() {
            out.push('_');
        }
        out.push(c.to_ascii_uppercase());
    }
    out
}

#[test]
fn numbers_and_codes() {
    let header = enumerators();
    let of = |name: &str| *header.get(name).unwrap_or_else(|| panic!("the header has no CITATIONS_{name}"));
    for refusal in Refusal::ALL {
        assert_eq!(of(&spelled(&format!("{refusal:?}"))), u32::from(refusal.number()), "{refusal:?}");
    }
    for label in LocatorLabel::ALL {
        assert_eq!(of(&format!("LABEL_{}", spelled(&format!("{label:?}")))), u32::from(label.code()), "{label:?}");
    }
    for standing in [Standing::InDefinition, Standing::Undefined, Standing::Numbered] {
        assert_eq!(of(&spelled(&format!("{standing:?}"))), standing as u32, "{standing:?}");
    }
    for mode in [Mode::Number, Mode::AuthorYear] {
        assert_eq!(of(&format!("BY_{}", spelled(&format!("{mode:?}")))), mode as u32, "{mode:?}");
    }
    // no refusal and no label of the header is missing here
    let enumeration =
        |name: &str| HEADER.split(&format!("enum {name} {{")).nth(1).unwrap().split('}').next().unwrap().matches(" = ").count();
    assert_eq!(enumeration("citations_number"), 1 + Refusal::ALL.len());
    assert_eq!(enumeration("citations_label_code"), 1 + LocatorLabel::ALL.len());
}

#[test]
fn lengths_and_places() {
    let header = enumerators();
    let same = [
        ("TEXT_MAX", citations::TEXT_MAX),
        ("POOL_MAX", citations::POOL_MAX),
        ("LABELS_MAX", citations::LABELS_MAX),
        ("SOURCE_TEXT_MORE", citations::SOURCE_TEXT_MORE),
        ("NOT_BUILT", citations::NOT_BUILT.into()),
        ("BUILT", citations::BUILT.into()),
        ("ITEM_RECORD", citations::ITEM_RECORD),
        ("GROUP_RECORD", citations::GROUP_RECORD),
        ("LOOK_UP_NUMBER", raw::NUMBER),
        ("LOOK_UP_CLOSE", raw::LOOK_UP_CLOSE),
        ("LOOK_UP_ITEMS", raw::LOOK_UP_ITEMS),
        ("LOOK_UP_NOTE", raw::LOOK_UP_NOTE),
        ("LOOK_UP_ANSWER", raw::LOOK_UP),
        ("ANNOTATE_NUMBER", raw::NUMBER),
        ("ANNOTATE_GROUPS", raw::ANNOTATION_GROUPS),
        ("ANNOTATE_ITEMS", raw::ANNOTATION_ITEMS),
        ("ANNOTATE_SOURCES", raw::ANNOTATION_SOURCES),
        ("ANNOTATE_LABEL_BYTES", raw::ANNOTATION_LABEL_BYTES),
        ("ANNOTATE_NOTE", raw::ANNOTATION_NOTE),
        ("ANNOTATE_ANSWER", raw::ANNOTATION),
        ("SIZE_NUMBER", raw::NUMBER),
        ("SIZE_RECORDS", raw::SIZE_RECORDS),
        ("SIZE_ANSWER", raw::SIZE),
        ("LOCATOR_NUMBER", raw::NUMBER),
        ("LOCATOR_LABEL_CODE", raw::LOCATOR_LABEL_CODE),
        ("LOCATOR_VALUE", raw::LOCATOR_VALUE),
        ("LOCATOR_SUFFIX", raw::LOCATOR_SUFFIX),
        ("LOCATOR_ANSWER", raw::LOCATOR),
        ("SOURCE_TEXT_NUMBER", raw::NUMBER),
        ("SOURCE_TEXT_BYTES", raw::SOURCE_TEXT_BYTES),
        ("SOURCE_TEXT_ANSWER", raw::SOURCE_TEXT),
    ];
    for (name, value) in same {
        assert_eq!(header.get(name).copied(), u32::try_from(value).ok(), "CITATIONS_{name}");
    }
}

#[test]
fn version_and_no_answer() {
    let defined = |name: &str| HEADER.lines().find_map(|line| line.strip_prefix(&format!("#define {name} "))).unwrap();
    assert_eq!(defined("CITATIONS_VERSION").parse(), Ok(raw::version()));
    assert_eq!(defined("CITATIONS_NO_ANSWER"), format!("{NO_ANSWER:#X}u"));
    // an answer that is too short is left as it was
    let mut answer = [NO_ANSWER; raw::SIZE];
    raw::size(b"[@a]", &mut answer[..raw::SIZE - 1]);
    assert_eq!(answer[raw::NUMBER], NO_ANSWER);
    raw::size(b"[@a]", &mut answer);
    assert_eq!(answer, [0, 1]);
}
