//! The module `citations::probe`, declared after the end of citations.rs by build.rs: it reaches the private functions there
//! and says where in the text the parts of an item stand. How each place is found, exactly, is said at `record`.

use std::collections::{BTreeMap, BTreeSet, HashMap};

use super::*;
use crate::extension::Options;
use crate::parse::in_text;

/// Document 01's item record: pairs for prefix, key, locator, value, suffix; label code; marks; number; use; label pair.
pub type Record = [usize; 16];

const PREFIX: usize = 0;
const KEY: usize = 2;
const LOCATOR: usize = 4;
const VALUE: usize = 6;
const SUFFIX: usize = 8;
const CODE: usize = 10;
const MARKS: usize = 11;
const NUMBER: usize = 12;
const USE: usize = 13;
const LABEL: usize = 14;

/// Document 01's label codes, by the Rust's names; 0 is none.
const LABELS: [&str; 16] = [
    "sub verbo", "paragraph", "section", "chapter", "volume", "figure", "column", "verse", "page", "folio", "issue", "note", "opus",
    "part", "line", "book",
];

/// `is_escaped_at`.
pub fn escaped(text: &str, at: usize) -> bool {
    is_escaped_at(text, at)
}

/// Where the key at `start` ends by `parse_key`; `start` where there is none.
pub fn key_end(text: &str, start: usize) -> usize {
    match parse_key(text, start) {
        None => start,
        Some((key, end)) => {
            assert_eq!(key.as_bytes(), &text.as_bytes()[start..end]);
            end
        }
    }
}

/// `close_bracket`.
pub fn close(text: &str, open: usize, limit: usize) -> Option<usize> {
    close_bracket(text, open, limit)
}

/// `bracket_pairs`.
pub fn pairs(text: &str) -> HashMap<usize, usize> {
    bracket_pairs(text)
}

/// The same, one number a byte.
pub fn index(text: &str) -> Vec<usize> {
    let mut entries = vec![0; text.len()];
    for (open, close) in pairs(text) {
        entries[open] = close;
    }
    entries
}

/// `parse_locator`: label code, value pair and suffix pair, offsets from the start of `loc`.
pub fn locator(loc: &str) -> [usize; 5] {
    let parsed = parse_locator(loc);
    let (value, suffix) = locator_parts(loc, parsed.value.as_deref(), parsed.suffix_text.as_deref());
    [code(parsed.label.as_deref()), value.0, value.1, suffix.0, suffix.1]
}

fn code(label: Option<&str>) -> usize {
    match label {
        None => 0,
        Some(name) => 1 + LABELS.iter().position(|l| *l == name).expect("a label of document 01"),
    }
}

// Pairs of value and suffix in `loc`. The suffix is the end of `loc`. Before it stand only what was stripped: of the value's end
// any of ` ,&-.`, then spaces and tabs. The value's last byte is none of these, so it ends at the last other byte.
fn locator_parts(loc: &str, value: Option<&str>, suffix: Option<&str>) -> ((usize, usize), (usize, usize)) {
    let after = loc.len() - suffix.map_or(0, str::len);
    let value = value.map_or((0, 0), |v| {
        let end = loc[..after].trim_end_matches([' ', '\t', ',', '&', '-', '.']).len();
        pair(loc, end - v.len(), v)
    });
    (value, suffix.map_or((0, 0), |s| pair(loc, after, s)))
}

// The pair of `part`, which must stand at `at` and not be empty.
fn pair(text: &str, at: usize, part: &str) -> (usize, usize) {
    assert_eq!(&text.as_bytes()[at..at + part.len()], part.as_bytes(), "part not at its place");
    assert!(!part.is_empty());
    (at, part.len())
}

// The pair of a part that was given to `parse_matcher_inlines` as a slice of the text, by its address.
fn lent_pair(text: &str, nodes: &Option<Vec<InlineNode>>) -> (usize, usize) {
    match nodes.as_deref() {
        None => (0, 0),
        Some([InlineNode::Text(node)]) => {
            let pos = node.pos.as_ref().expect("a slice of the text");
            pair(text, pos.start_offset, &node.value)
        }
        Some(_) => panic!("the stand-in gives one text node"),
    }
}

/// The record of the item `text[from..to]`, last four numbers 0; none where `parse_item` finds none.
pub fn item(text: &str, from: usize, to: usize, ctx: &MatcherContext<'_>) -> Option<Record> {
    in_text(text);
    parse_item(&text[from..to], ctx).map(|it| record(text, from, to, &it))
}

// The record of the item that `parse_item` made of `text[from..to]`.
// Prefix and locator: by the address of the slice that `parse_inlines` was given.
// Key: `parse_item` trims the item; the prefix is what stands before `-@` or `@`, less white space at its end. So the first
// byte that is not white after the prefix (or the trimmed item's first byte, with no prefix) is that `-` or `@`.
// Value and suffix, which the Rust copies: see `locator_parts`, within the locator.
fn record(text: &str, from: usize, to: usize, it: &Citation) -> Record {
    let mut numbers = [0; 16];
    let start = to - text[from..to].trim_start().len();
    let prefix = lent_pair(text, &it.prefix);
    assert!(prefix.1 == 0 || prefix.0 == start, "a prefix begins its item");
    let before = start + prefix.1;
    let mark = to - text[before..to].trim_start().len();
    let at = mark + usize::from(it.suppress_author);
    assert!(!it.suppress_author || text.as_bytes()[mark] == b'-');
    assert_eq!(text.as_bytes()[at], b'@');
    put(&mut numbers, PREFIX, prefix);
    put(&mut numbers, KEY, pair(text, at + 1, &it.key));
    locate(text, it, &mut numbers);
    numbers[CODE] = code(it.locator_label.as_deref());
    numbers[MARKS] = usize::from(it.suppress_author);
    numbers
}

// Locator, value and suffix of an item.
fn locate(text: &str, it: &Citation, numbers: &mut Record) {
    let (at, length) = lent_pair(text, &it.locator);
    if it.locator.is_none() {
        assert!(it.locator_label.is_none() && it.locator_value.is_none() && it.suffix.is_none());
        return;
    }
    let suffix = it.suffix.as_deref().map(|nodes| match nodes {
        [InlineNode::Text(node)] => node.value.as_str(),
        _ => panic!("the stand-in gives one text node"),
    });
    let (value, suffix) = locator_parts(&text[at..at + length], it.locator_value.as_deref(), suffix);
    put(numbers, LOCATOR, (at, length));
    put(numbers, VALUE, moved(value, at));
    put(numbers, SUFFIX, moved(suffix, at));
}

// A pair counted from `at`, counted from the text's start; a missing one stays.
fn moved(pair: (usize, usize), at: usize) -> (usize, usize) {
    if pair.1 == 0 {
        pair
    } else {
        (pair.0 + at, pair.1)
    }
}

fn put(numbers: &mut Record, place: usize, pair: (usize, usize)) {
    numbers[place] = pair.0;
    numbers[place + 1] = pair.1;
}

/// A group that `match_citation` found.
pub struct Found {
    pub at: usize,
    pub close: usize,
    pub items: Vec<Record>,
    node: CitationGroup,
}

/// `match_citation` at `at`.
pub fn group(text: &str, at: usize, ctx: &MatcherContext<'_>) -> Option<Found> {
    in_text(text);
    let found = match_citation(text, at, ctx)?;
    let InlineNode::CitationGroup(node) = found.node else { panic!("match_citation gives a group") };
    let close = found.end - 1;
    assert_eq!(node.raw.as_bytes(), &text.as_bytes()[at..=close]);
    let items = records(text, at, close, &node.items);
    Some(Found { at, close, items, node })
}

// The items' records: `match_citation` takes a first `+` off and splits at every `;`. An item's `mode` is read for one thing, the assertion
// that it took the `+` off where this does; it is in no record, and nothing is compared by it (document 02, W10).
fn records(text: &str, at: usize, close: usize, items: &[Citation]) -> Vec<Record> {
    let plus = text.as_bytes()[at + 1] == b'+';
    let mut from = at + 1 + usize::from(plus);
    let mut out = Vec::with_capacity(items.len());
    let mut rest = items.iter();
    for part in text[from..close].split(';') {
        let it = rest.next().expect("an item for each part");
        assert_eq!(it.mode.is_some(), plus);
        out.push(record(text, from, from + part.len(), it));
        from += part.len() + 1;
    }
    assert!(rest.next().is_none(), "a part for each item");
    out
}

/// Document 01's annotation, but for its refusals.
#[derive(Default)]
pub struct Annotated {
    /// Pair, first item, item count, standing.
    pub groups: Vec<[usize; 5]>,
    pub items: Vec<Record>,
    pub references: Vec<usize>,
    pub labels: Vec<u8>,
}

/// The sweep, `after_parse`, `annotate_citations_inline` and the sort of `render_refs_list`, over the stand-in paragraph.
pub fn annotate(text: &str, ctx: &MatcherContext<'_>, options: &Options<'_>, mode: CitationMode, pool: Option<Vec<CslEntry>>) -> Annotated {
    let (nodes, mut answer) = sweep(text, ctx);
    let mut citations = Citations::with_mode(mode);
    citations.bibliography = pool;
    let mut children = define(&citations, nodes);
    let mut seen = BTreeSet::new();
    let mut order = Vec::new();
    let mut uses = BTreeMap::new();
    let defs = citations.defs.borrow();
    let has_bib = citations.has_bib();
    annotate_citations_inline(&mut children, &defs, mode, has_bib, &mut seen, &mut order, &mut uses);
    take_annotations(&children, has_bib, &mut answer);
    let page = render_refs_list(&RenderContext::new(options), mode, &order, &defs, &uses, has_bib, 0);
    answer.references = reference_order(&page, &order);
    answer
}

// The stand-in paragraph: accepted groups, LF breaks outside groups and plain runs between. All groups stand 0 as yet.
fn sweep(text: &str, ctx: &MatcherContext<'_>) -> (Vec<InlineNode>, Annotated) {
    let mut answer = Annotated::default();
    let nodes = paragraph(text, |at| {
        let found = group(text, at, ctx)?;
        let end = found.close + 1;
        Some((take_group(found, &mut answer), end))
    });
    (nodes, answer)
}

// The paragraph, by what is at an unescaped bracket: a group's node and where it ends, or no group.
fn paragraph(text: &str, mut group_at: impl FnMut(usize) -> Option<(InlineNode, usize)>) -> Vec<InlineNode> {
    let bytes = text.as_bytes();
    let mut nodes = Vec::new();
    let (mut at, mut run) = (0, 0);
    while at < bytes.len() {
        if bytes[at] == b'[' && !is_escaped_at(text, at) {
            if let Some((node, end)) = group_at(at) {
                plain_run(text, run, at, &mut nodes);
                nodes.push(node);
                at = end;
                run = at;
                continue;
            }
        } else if bytes[at] == b'\n' {
            plain_run(text, run, at, &mut nodes);
            nodes.push(InlineNode::soft_break());
            run = at + 1;
        }
        at += 1;
    }
    plain_run(text, run, at, &mut nodes);
    nodes
}

fn plain_run(text: &str, from: usize, to: usize, nodes: &mut Vec<InlineNode>) {
    if from < to {
        nodes.push(InlineNode::text(&text[from..to]));
    }
}

// Adds a group's records; its node carries its number in `pos`, which citations.rs reads only to make another `pos` of it.
fn take_group(found: Found, answer: &mut Annotated) -> InlineNode {
    let mut node = found.node;
    node.pos = Some(Pos { start_offset: answer.groups.len(), ..Pos::default() });
    answer.groups.push([found.at, found.close + 1 - found.at, answer.items.len(), found.items.len(), 0]);
    answer.items.extend(found.items);
    InlineNode::CitationGroup(node)
}

// The document of one paragraph.
fn document(nodes: Vec<InlineNode>) -> Document {
    Document {
        frontmatter: BTreeMap::new(),
        frontmatter_raw: None,
        footnote_defs: BTreeMap::new(),
        footnote_def_pos: BTreeMap::new(),
        children: vec![BlockNode::Paragraph(Paragraph { children: nodes, ..Paragraph::default() })],
        source_len: 0,
        ingest_payload_len: 0,
    }
}

// `after_parse` on the paragraph; what is left of it without its definition lines.
fn define(citations: &Citations, nodes: Vec<InlineNode>) -> Vec<InlineNode> {
    let groups = count_groups(&nodes);
    let mut doc = citations.after_parse(document(nodes));
    let mut left = Vec::new();
    let mut defining = 0;
    for block in std::mem::take(&mut doc.children) {
        match block {
            BlockNode::Paragraph(p) => left.extend(p.children),
            BlockNode::CitationDefinition(d) => defining += 1 + count_groups(&d.children),
            _ => panic!("after_parse gives paragraphs and definitions"),
        }
    }
    assert_eq!(groups, defining + count_groups(&left), "each group is in a definition line or left");
    left
}

fn count_groups(nodes: &[InlineNode]) -> usize {
    nodes.iter().filter(|n| matches!(n, InlineNode::CitationGroup(_))).count()
}

// Standings, numbers, uses and labels of the groups outside definition lines.
fn take_annotations(children: &[InlineNode], has_bib: bool, answer: &mut Annotated) {
    for node in children {
        let InlineNode::CitationGroup(group) = node else { continue };
        let which = group.pos.as_ref().expect("set by take_group").start_offset;
        let numbered = group.items.iter().all(|it| it.number.is_some());
        answer.groups[which][4] = 1 + usize::from(numbered);
        let first = answer.groups[which][2];
        for (it, numbers) in group.items.iter().zip(&mut answer.items[first..]) {
            assert_eq!(it.number.is_some(), numbered);
            assert_eq!(it.label.is_some(), numbered);
            assert_eq!(it.use_index.is_some(), numbered && has_bib);
            let Some(label) = &it.label else { continue };
            numbers[NUMBER] = it.number.unwrap_or(0);
            numbers[USE] = it.use_index.unwrap_or(0);
            put(numbers, LABEL, (answer.labels.len(), label.len()));
            answer.labels.extend(label.as_bytes());
        }
    }
}

// The numbers of the sources in the order of the ids that `render_refs_list` wrote. In its page `<` comes from it alone.
fn reference_order(page: &str, order: &[String]) -> Vec<usize> {
    const ID: &str = "<li id=\"";
    let numbers: HashMap<String, usize> =
        order.iter().enumerate().map(|(i, key)| (escape_attr(&crate::document_ids::ref_id(key)), i + 1)).collect();
    let mut out = Vec::with_capacity(order.len());
    for (at, _) in page.match_indices(ID) {
        let id = &page[at + ID.len()..];
        let id = &id[..id.find('"').expect("the id's end")];
        out.push(numbers[id]);
    }
    assert_eq!(out.len(), order.len());
    out
}

/// `csl_to_def`: the source text.
pub fn source_text(entry: &CslEntry) -> String {
    csl_to_def(entry).csl_text.expect("csl_to_def sets it")
}

/// `match_citation` at `at`, and nothing else.
pub fn bare_group(text: &str, at: usize, ctx: &MatcherContext<'_>) -> Option<InlineMatch> {
    match_citation(text, at, ctx)
}

/// The extension with a pool, or without.
pub fn extension(mode: CitationMode, pool: Option<Vec<CslEntry>>) -> Citations {
    let mut citations = Citations::with_mode(mode);
    citations.bibliography = pool;
    citations
}

// The sort of `render_refs_list`, by its own statements: build.rs takes them from the given source, since the rest of it renders.
include!(concat!(env!("OUT_DIR"), "/carve/reference_order.rs"));

/// The annotation, and nothing else: the sweep by `match_citation`, `after_parse`, `annotate_citations_inline` and the sort of
/// `render_refs_list`. The paragraph as annotated, and the sources in reference order.
pub fn bare_annotation(text: &str, ctx: &MatcherContext<'_>, citations: &Citations) -> (Document, Vec<String>) {
    let mut doc = citations.after_parse(document(bare_sweep(text, ctx)));
    let (mut seen, mut order, mut uses) = (BTreeSet::new(), Vec::new(), BTreeMap::new());
    let defs = citations.defs.borrow();
    for block in &mut doc.children {
        if let BlockNode::Paragraph(p) = block {
            annotate_citations_inline(&mut p.children, &defs, citations.mode, citations.has_bib(), &mut seen, &mut order, &mut uses);
        }
    }
    let keys = sorted_keys(citations.mode, &order, &defs);
    (doc, keys)
}

// The stand-in paragraph of `sweep`, without records.
fn bare_sweep(text: &str, ctx: &MatcherContext<'_>) -> Vec<InlineNode> {
    paragraph(text, |at| match_citation(text, at, ctx).map(|found| (found.node, found.end)))
}
