//! Stub of the crate memchr: the one function that escape.rs calls.

pub fn memchr3(a: u8, b: u8, c: u8, bytes: &[u8]) -> Option<usize> {
    bytes.iter().position(|&x| x == a || x == b || x == c)
}
