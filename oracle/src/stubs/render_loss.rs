//! Stub of render_loss.rs, which is not given.

pub enum DeniedSink {}

pub fn record_destination_denied(_: Option<&crate::ast::Pos>, sink: DeniedSink) {
    match sink {}
}
