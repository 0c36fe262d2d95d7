//! Stub of profile.rs, which is not given: the type that extension.rs names.

#[derive(Debug, Clone)]
pub struct Profile;
