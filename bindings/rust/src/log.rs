//! The lines of a log.

/// The words of a line.
pub const LINE_WORDS: usize = 4;

/// A line: an assignment to a name at or below the reader's level, or an emission of one that made its signal present.
/// An emission that finds its signal present is no line.
#[derive(Clone, Copy, Debug, PartialEq, Eq, Hash)]
pub struct Line {
    /// The step, counted from 1.
    pub step: u32,
    /// The instant, counted from 0.
    pub instant: u32,
    /// The name's number in the script file.
    pub name: u32,
    /// The value assigned, or 1 for an emission.
    pub value: i32,
}

/// The first `count` lines of a log; fewer, if the log is shorter. `count` is [`Run::lines`](crate::Run::lines).
pub fn lines(log: &[u32], count: usize) -> impl Iterator<Item = Line> + '_ {
    let (whole, _rest) = log.as_chunks::<LINE_WORDS>();
    whole
        .iter()
        .take(count)
        .map(|&[step, instant, name, value]| Line {
            step,
            instant,
            name,
            value: value.cast_signed(),
        })
}
