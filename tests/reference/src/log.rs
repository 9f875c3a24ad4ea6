//! The log of a run (01, 'Calls').

use crate::fault::{Fault, Rules};

const LINE_WORDS: usize = 4;

/// 'Four words make a line: step from 1, instant from 0, name, value as two's
/// complement (1 for an emission).'
pub type Line = [u32; LINE_WORDS];

pub struct Log<'a> {
    words: &'a mut [u32],
    lines: usize,
    /// Lines that a planted fault counts and doesn't keep.
    lost: usize,
}

impl<'a> Log<'a> {
    pub fn new(words: &'a mut [u32]) -> Log<'a> {
        Log {
            words,
            lines: 0,
            lost: 0,
        }
    }

    pub fn lines(&self) -> usize {
        self.lines
    }

    /// 'No four words are left.'
    pub fn is_full(&self, rules: Rules) -> bool {
        let early = usize::from(rules.has(Fault::LogFullEarly));
        let used = (self.lines + self.lost) * LINE_WORDS;
        self.words.len() < used + LINE_WORDS + early
    }

    pub fn write(&mut self, line: Line) {
        let start = self.lines * LINE_WORDS;
        if let Some(words) = self.words.get_mut(start..start + LINE_WORDS) {
            words.copy_from_slice(&line);
            self.lines += 1;
        }
    }

    /// A write that is no line takes no room, unless a planted fault has it so.
    pub fn skip(&mut self, takes_room: bool) {
        self.lost += usize::from(takes_room);
    }
}
