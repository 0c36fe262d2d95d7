//! Reads a text from standard input, looks its first bracket up twice, annotates it by author and year, and prints its items.
//! It prints what examples/c/main.c prints, and ends with its status: 0 annotated, 1 refused, 2 where it could not work.
//!
//!     cargo run --example annotate < ../../examples/c/entry.txt

use std::env;
use std::io::{self, Read, Write};
use std::process::ExitCode;

use citations::{Annotated, GroupRecord, Index, ItemRecord, Mode, Refusal, Span, Standing};

const ANNOTATED: u8 = 0;
const REFUSED: u8 = 1;
const FAILED: u8 = 2;

fn main() -> ExitCode {
    if env::args_os().len() > 1 {
        eprintln!("it takes no argument: the text comes from standard input");
        return ExitCode::from(FAILED);
    }
    match run(&mut io::stdout().lock()) {
        Ok(status) => ExitCode::from(status),
        Err(error) => {
            eprintln!("the input cannot be read, or the output not written: {error}");
            ExitCode::from(FAILED)
        }
    }
}

fn run(out: &mut impl Write) -> io::Result<u8> {
    let mut text = Vec::new();
    io::stdin().read_to_end(&mut text)?;
    let bracket = text.iter().position(|&byte| byte == b'[');
    let mut index = match Index::new(text) {
        Ok(index) => index,
        Err(refusal) => return refused(out, "size", refusal),
    };
    if let Some(at) = bracket {
        look_up(out, &mut index, at)?;
        look_up(out, &mut index, at)?;
    }
    match index.annotate(Mode::AuthorYear, &[]) {
        Ok(annotated) => print(out, index.text(), &annotated),
        Err(refusal) => refused(out, "annotation", refusal),
    }
}

fn refused(out: &mut impl Write, call: &str, refusal: Refusal) -> io::Result<u8> {
    writeln!(out, "{call}: refused {}", refusal.number())?;
    Ok(REFUSED)
}

/// The index keeps what the first look-up built.
fn look_up(out: &mut impl Write, index: &mut Index<Vec<u8>>, at: usize) -> io::Result<()> {
    let given = index.note();
    match index.look_up(at) {
        Ok(group) => {
            let (close, items) = (group.close(), group.items().len());
            writeln!(out, "look-up at {at}: close {close}, items {items}, note {given} then {}", index.note())
        }
        Err(refusal) => refused(out, "look-up", refusal).map(|_| ()),
    }
}

fn print(out: &mut impl Write, text: &[u8], annotated: &Annotated) -> io::Result<u8> {
    let (groups, items) = (annotated.groups().len(), annotated.items().len());
    let (sources, label_bytes) = (annotated.references().len(), annotated.labels().len());
    writeln!(out, "groups {groups} items {items} sources {sources} label bytes {label_bytes}")?;
    for group in annotated.groups() {
        for item in annotated.items_of(group) {
            print_item(out, text, annotated, group, item)?;
        }
    }
    write!(out, "references:")?;
    for number in annotated.references() {
        write!(out, " {number}")?;
    }
    writeln!(out)?;
    Ok(ANNOTATED)
}

fn print_item(out: &mut impl Write, text: &[u8], annotated: &Annotated, group: GroupRecord<'_>, item: ItemRecord<'_>) -> io::Result<()> {
    let shown = |bytes: &[u8]| String::from_utf8_lossy(bytes).into_owned();
    let part = |span: Option<Span>| span.map_or(String::new(), |span| shown(span.of(text)));
    let Span { offset, length } = group.span();
    let standing = match group.standing() {
        Standing::InDefinition => "definition",
        Standing::Undefined => "undefined",
        Standing::Numbered => "numbered",
    };
    let locator = item.locator();
    writeln!(
        out,
        "{offset} {length} {standing}: {}, locator label {}, value '{}', suffix '{}', number {}, label '{}'",
        part(Some(item.key())),
        locator.label().map_or(0, |label| label.code()),
        part(locator.value()),
        part(locator.suffix()),
        item.number().unwrap_or(0),
        annotated.label(item).map_or(String::new(), shown),
    )
}
