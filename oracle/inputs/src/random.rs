//! Numbers from a seed, and characters to choose from.

/// The 25 White_Space code points.
pub const WHITE: [u32; 25] = [
    0x09, 0x0A, 0x0B, 0x0C, 0x0D, 0x20, 0x85, 0xA0, 0x1680, 0x2000, 0x2001, 0x2002, 0x2003, 0x2004, 0x2005, 0x2006, 0x2007, 0x2008, 0x2009,
    0x200A, 0x2028, 0x2029, 0x202F, 0x205F, 0x3000,
];
/// Code points that are near one of those, in number or in use, and are none.
pub const NEAR: [u32; 32] = [
    0x00, 0x08, 0x0E, 0x1C, 0x1D, 0x1E, 0x1F, 0x21, 0x7F, 0x80, 0x84, 0x86, 0x9F, 0xA1, 0x167F, 0x1681, 0x180E, 0x1FFF, 0x200B, 0x200C,
    0x200D, 0x2027, 0x202A, 0x202E, 0x2030, 0x205E, 0x2060, 0x2420, 0x2FFF, 0x3001, 0x3164, 0xFEFF,
];
/// Ends of the ranges of UTF-8, and a few others.
pub const WIDE: [u32; 18] =
    [0x00, 0x41, 0x7F, 0x80, 0xA7, 0xB6, 0xE9, 0x7FF, 0x800, 0x20AC, 0xD7FF, 0xE000, 0xFFFD, 0xFFFF, 0x10000, 0x1D11E, 0x1F600, 0x10FFFF];

/// Bytes that are no UTF-8 in some place.
pub const BROKEN: [&[u8]; 16] = [
    b"\x80", b"\xBF", b"\xC0\xAF", b"\xC1\xBF", b"\xC2", b"\xC2\x20", b"\xE0\x80\xAF", b"\xE0\x9F\xBF", b"\xE2\x82", b"\xED\xA0\x80",
    b"\xED\xBF\xBF", b"\xF0\x8F\xBF\xBF", b"\xF0\x9F\x98", b"\xF4\x90\x80\x80", b"\xF5\x80\x80\x80", b"\xFF",
];

/// A row of numbers from a seed (splitmix64).
pub struct Random(u64);

impl Random {
    pub fn new(seed: u64) -> Random {
        Random(seed)
    }

    pub fn next(&mut self) -> u64 {
        self.0 = self.0.wrapping_add(0x9E37_79B9_7F4A_7C15);
        let mut z = self.0;
        z = (z ^ (z >> 30)).wrapping_mul(0xBF58_476D_1CE4_E5B9);
        z = (z ^ (z >> 27)).wrapping_mul(0x94D0_49BB_1331_11EB);
        z ^ (z >> 31)
    }

    /// A number below `n`.
    pub fn below(&mut self, n: usize) -> usize {
        (self.next() % n as u64) as usize
    }

    /// One of a list.
    pub fn of<T: Copy>(&mut self, list: &[T]) -> T {
        list[self.below(list.len())]
    }
}

/// The character of a code point.
pub fn character(point: u32) -> char {
    char::from_u32(point).expect("a code point")
}
