//! Stub of parse.rs, which is not given. `parse_matcher_inlines` is document 01's stand-in: one text node.
//! The node's `pos` carries where the part stands in the text, by its address: the text is named by `in_text` first.

use std::cell::Cell;

use crate::ast::{BlockNode, Image, InlineNode, Link, Pos, Text};
use crate::extension::{HeadingIdOptions, Options};

thread_local! {
    // Address and length of the text at hand.
    static TEXT: Cell<(usize, usize)> = const { Cell::new((0, 0)) };
}

/// Names the text that the parts are parts of.
pub fn in_text(text: &str) {
    TEXT.set((text.as_ptr() as usize, text.len()));
}

/// Where `part` stands in the text; none for a copy.
fn place_of(part: &str) -> Option<usize> {
    let (start, length) = TEXT.get();
    let at = (part.as_ptr() as usize).checked_sub(start)?;
    (at + part.len() <= length).then_some(at)
}

pub fn parse_matcher_inlines(part: &str, _: &Options<'_>) -> Vec<InlineNode> {
    let pos = place_of(part).map(|at| Pos { start_offset: at, end_offset: at + part.len(), ..Pos::default() });
    vec![InlineNode::Text(Text { value: part.to_string(), pos })]
}

pub fn parse_blocks_with_options(_: &str, _: &Options<'_>) -> Vec<BlockNode> {
    unimplemented!("stub parse::parse_blocks_with_options")
}

pub fn slugify_parse(_: &str, _: HeadingIdOptions) -> String {
    unimplemented!("stub parse::slugify_parse")
}

pub fn is_unresolved_reference(_: &Link) -> bool {
    unimplemented!("stub parse::is_unresolved_reference")
}

pub fn is_unresolved_image(_: &Image) -> bool {
    unimplemented!("stub parse::is_unresolved_image")
}
