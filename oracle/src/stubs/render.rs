//! Stub of render.rs, which is not given. Rendering is not compared: the body of a reference is empty,
//! and every other function stops the program, so that no answer can rest on a stub.

use std::collections::{BTreeMap, BTreeSet};

use crate::ast::{BlockNode, InlineNode};
use crate::extension::Options;

pub struct RenderState;

impl RenderState {
    pub fn mint_admonition_id(&mut self) -> String {
        unimplemented!("stub render::RenderState::mint_admonition_id")
    }
}

/// The body of a definition line's reference in `render_refs_list`, of which only the ids are read.
pub fn render_inlines_with_options(_: &[InlineNode], _: &Options<'_>) -> String {
    String::new()
}

pub fn plain_inlines(_: &[InlineNode]) -> String {
    unimplemented!("stub render::plain_inlines")
}

pub fn used_footnote_labels(_: &[BlockNode], _: &BTreeMap<String, Vec<BlockNode>>) -> BTreeSet<String> {
    unimplemented!("stub render::used_footnote_labels")
}

pub fn render_container_label(_: &str, _: &Options<'_>) -> String {
    unimplemented!("stub render::render_container_label")
}

pub fn render_inlines_inside_anchor(_: &[InlineNode], _: &Options<'_>) -> String {
    unimplemented!("stub render::render_inlines_inside_anchor")
}

pub fn render_blocks_with_options(_: &[BlockNode], _: &Options<'_>) -> String {
    unimplemented!("stub render::render_blocks_with_options")
}

pub fn render_blocks_at_with_options(_: &[BlockNode], _: &Options<'_>, _: usize) -> String {
    unimplemented!("stub render::render_blocks_at_with_options")
}

pub fn render_blocks_at_with_state(_: &[BlockNode], _: &Options<'_>, _: usize, _: &mut RenderState) -> String {
    unimplemented!("stub render::render_blocks_at_with_state")
}

pub fn render_blocks_with_state_from_depth(_: &[BlockNode], _: &Options<'_>, _: usize, _: &mut RenderState) -> String {
    unimplemented!("stub render::render_blocks_with_state_from_depth")
}
