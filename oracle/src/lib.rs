//! The given Rust source, built as it is but for one line of `parse_key` (build.rs), with stubs for the files that are not given.
//! `citations::probe` reaches its private functions; `answers` puts what they return into document 01's layout.

#[allow(dead_code, unused_imports, clippy::all)]
mod carve {
    include!(concat!(env!("OUT_DIR"), "/carve/modules.rs"));
}
// The given files name each other, and the stubs, from the crate's root.
use carve::{ast, citations, document_ids, escape, extension};

#[path = "stubs/ast_json.rs"]
mod ast_json;
#[path = "stubs/includes.rs"]
mod includes;
#[path = "stubs/memchr.rs"]
mod memchr_stub;
#[path = "stubs/parse.rs"]
mod parse;
#[path = "stubs/profile.rs"]
mod profile;
#[path = "stubs/render.rs"]
mod render;
#[path = "stubs/render_loss.rs"]
mod render_loss;

// escape.rs calls `memchr::memchr3`: the name of an outside crate, which is this one.
extern crate self as memchr;
pub use memchr_stub::memchr3;

pub mod answers;
pub mod bare;
pub mod generate;
pub mod pool;
pub mod protocol;
pub mod stored;
