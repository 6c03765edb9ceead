//! The sum of a walk over a whole input, from the answers to single calls.

use compare::answer::{Answer, Reading, REFUSED, REFUSED_AT, SHOWN, UNFINISHED};
use compare::source::{Outside, Said};

/// What `aglimtaq_walk` and `aglimtaq_walk_back` write.
#[derive(Clone, Copy, Debug, PartialEq, Eq)]
pub struct Whole {
    pub counts: [u64; 8],
    pub sizes: [u64; 64],
    /// `struct aglimtaq_end`.
    pub position: u64,
    pub wanted: u64,
    pub refused: u64,
}

/// The answers so far, and the first reason why one of them lies outside the domain.
pub struct Adding {
    whole: Whole,
    outside: Option<Outside>,
}

impl Adding {
    pub fn new() -> Self {
        let whole = Whole { counts: [0; 8], sizes: [0; 64], position: 0, wanted: 0, refused: 0 };
        Adding { whole, outside: None }
    }

    /// Adds what one call answers; true where it was the last of the walk.
    pub fn add(&mut self, bytes: &[u8], said: &Said<Answer>) -> bool {
        let Answer { position, reading: Reading { answer, number, start, end, .. } } = said.says;
        self.outside = self.outside.or(said.outside);
        self.whole.position = position.at;
        match answer {
            SHOWN | REFUSED_AT => {
                self.whole.counts[number as usize] += 1;
                self.whole.sizes[usize::from(bytes[start as usize] >> 2)] += end - start;
                return false;
            }
            UNFINISHED => self.whole.wanted = number,
            REFUSED => self.whole.refused = number,
            _ => {}
        }
        true
    }

    /// How many records were framed, and where the last of them ends.
    pub fn framed(&self) -> (u64, u64) {
        (self.whole.counts.iter().sum(), self.whole.sizes.iter().sum())
    }

    pub fn said(self) -> Said<Whole> {
        Said { says: self.whole, outside: self.outside }
    }
}
