//! The compiled library with areas lent beforehand, long enough for every text.

use citations::raw::{self, Ample};
use citations::TEXT_MAX;

pub struct Port {
    areas: Ample,
    answer: [u32; raw::ANNOTATION],
}

impl Port {
    pub fn new() -> Port {
        Port { areas: Ample::new(TEXT_MAX), answer: [0; raw::ANNOTATION] }
    }

    /// Looks up each of these places, the note kept from call to call: how many groups there are, and the note.
    pub fn look_up(&mut self, text: &[u8], places: &[usize], mut note: u8) -> (usize, u8) {
        let (mut lent, answer) = (self.areas.lent(text.len()), &mut self.answer);
        let mut groups = 0;
        for &at in places {
            raw::look_up(text, at, note, &mut lent, answer);
            groups += usize::from(answer[0] == 0);
            note = answer[3] as u8;
        }
        (groups, note)
    }

    /// The annotation with no index: how many sources there are.
    pub fn annotate(&mut self, text: &[u8], mode: u8, pool: &[u8]) -> usize {
        let (mut lent, answer) = (self.areas.lent(text.len()), &mut self.answer);
        raw::annotate(text, mode, pool, 0, &mut lent, answer);
        assert_eq!(answer[0], 0, "accepted");
        answer[3] as usize
    }
}
