//! Stub of includes.rs, which is not given: the types that ast.rs and extension.rs name.

#[derive(Debug, Clone)]
pub struct IncludeSite;

#[derive(Debug, Clone)]
pub struct IncludeOptions<'a>(std::marker::PhantomData<&'a ()>);
