//! The Rust's bare calls, for the benchmark: nothing is rendered, and nothing is turned into document 01's records.

use std::cell::OnceCell;
use std::collections::HashMap;

use crate::ast::Document;
use crate::citations::probe;
use crate::citations::{CitationMode, Citations};
use crate::extension::{InlineMatch, MatcherContext, Options};
use crate::pool;

/// A text with its index, built or not, and the extension in a mode with a pool.
pub struct Bare<'a> {
    options: Options<'static>,
    text: &'a str,
    index: OnceCell<HashMap<usize, usize>>,
    citations: Citations,
}

/// What a look-up found: kept, so that it can be dropped outside the time that is measured.
#[allow(dead_code)]
pub struct Found(Option<InlineMatch>);

/// What an annotation answers: the document and the sources in reference order.
#[allow(dead_code)]
pub struct Annotated(Document, Vec<String>);

impl<'a> Bare<'a> {
    /// A text with no index. The pool is decoded here.
    pub fn new(text: &'a str, mode: usize, pool: &[u8]) -> Bare<'a> {
        let mode = if mode == 1 { CitationMode::AuthorDate } else { CitationMode::Numbered };
        let pool = (!pool.is_empty()).then(|| pool::entries(pool).expect("a pool of its layout"));
        Bare { options: Options::default(), text, index: OnceCell::new(), citations: probe::extension(mode, pool) }
    }

    /// Forgets the index.
    pub fn forget(&mut self) {
        self.index = OnceCell::new();
    }

    fn context(&self) -> MatcherContext<'_> {
        MatcherContext::for_inline(&self.options, self.text, &self.index)
    }

    /// `match_citation` over `citation_close_bracket` at each of these places: how many groups there are, and what was found.
    pub fn look_up(&self, places: &[usize], found: &mut Vec<Found>) -> usize {
        let context = self.context();
        let mut groups = 0;
        for &at in places {
            let one = probe::bare_group(self.text, at, &context);
            groups += usize::from(one.is_some());
            found.push(Found(one));
        }
        groups
    }

    /// The annotation, and how many sources it has.
    pub fn annotate(&self) -> (Annotated, usize) {
        let (doc, order) = probe::bare_annotation(self.text, &self.context(), &self.citations);
        let count = order.len();
        (Annotated(doc, order), count)
    }
}
