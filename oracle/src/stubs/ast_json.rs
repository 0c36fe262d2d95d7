//! Stub of ast_json.rs, which is not given.

use crate::ast::{BlockNode, Document};

pub fn footnote_defs_in_source_order(_: &Document) -> Vec<(&String, &Vec<BlockNode>)> {
    unimplemented!("stub ast_json::footnote_defs_in_source_order")
}
