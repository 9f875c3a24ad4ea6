//! The three calls, and what they answer. The only module with `unsafe`.
#![allow(unsafe_code)]

use crate::flows::Flows;
use crate::raw;
use crate::refusal::Refusal;

/// The most steps that [`run`] may be asked for; a higher limit is refused.
pub const MAX_STEPS: u32 = 1_000_000;

/// The words of a pair of the signal list.
pub const PAIR_WORDS: usize = 2;

/// What [`check`] answers for an accepted script: two levels of the book, and a bound on the script's moves.
#[derive(Clone, Copy, Debug, PartialEq, Eq, Hash)]
pub struct Accepted {
    /// W: the meet of the levels of what the script may write.
    pub write: u32,
    /// T: the join of the levels of what the script tests.
    pub test: u32,
    /// The most moves, steps less instants, that the script makes in its whole run, whatever values and signals it
    /// meets; `None` where it holds a while.
    ///
    /// With k nodes other than nil, p of them parallel, that is k * (p + 1). It is a bound, which a run need not reach,
    /// and it bounds moves, not steps: a run may still wait any number of instants.
    pub moves: Option<u32>,
}

/// How a run ended.
#[derive(Clone, Copy, Debug, PartialEq, Eq, Hash)]
#[non_exhaustive]
pub enum Ending {
    /// 0: nothing is left of the script.
    Finished,
    /// 1: the step limit is reached.
    Spent,
    /// 2: the next step needs a line, and the log has no four words left.
    LogFull,
    /// A number that this crate does not know.
    Unknown(u32),
}

impl Ending {
    /// The number that the C interface returns for it.
    pub fn number(self) -> u32 {
        match self {
            Ending::Finished => 0,
            Ending::Spent => 1,
            Ending::LogFull => 2,
            Ending::Unknown(number) => number,
        }
    }

    fn from_number(number: u32) -> Ending {
        match number {
            0 => Ending::Finished,
            1 => Ending::Spent,
            2 => Ending::LogFull,
            other => Ending::Unknown(other),
        }
    }
}

/// What [`run`] answers for a run that is not refused.
#[derive(Clone, Copy, Debug, PartialEq, Eq, Hash)]
pub struct Run {
    /// How the run ended.
    pub ending: Ending,
    /// The counted steps: moves and instant changes.
    pub steps: u32,
    /// The instant changes among them.
    pub instants: u32,
    /// The lines at the head of the log; [`lines`](crate::lines()) reads them.
    pub lines: usize,
}

/// Checks a script under a level book.
pub fn check(book: &[u8], script: &[u8]) -> Result<Accepted, Refusal> {
    let mut out = [0; raw::CHECK_WORDS];
    // SAFETY: every pointer and length is that of one live slice; `out` is borrowed for this call alone, so that it
    // overlaps neither of the others.
    unsafe {
        raw::station_check(
            book.as_ptr(),
            book.len(),
            script.as_ptr(),
            script.len(),
            out.as_mut_ptr(),
            out.len(),
        );
    }
    let [number, place, write, test, bounded, moves] = out;
    not_refused(number, place)?;
    Ok(Accepted {
        write,
        test,
        moves: (bounded != 0).then_some(moves),
    })
}

/// The flows that a script would need, whatever the level book will be.
///
/// A script is refused as [`check`] refuses it, but for the book and for flow, and a name's level may be any up to 15.
/// Under any book that is not refused and has the script's levels, [`check`] gives
/// [`Reason::Flow`](crate::Reason::Flow) exactly when one of these flows is absent from the book's order.
pub fn flows(script: &[u8]) -> Result<Flows, Refusal> {
    let mut words = [0; raw::MAX_LEVELS];
    let mut out = [0; raw::FLOWS_WORDS];
    // SAFETY: every pointer and length is that of one live slice; `words` and `out` are borrowed for this call alone,
    // so that neither overlaps another.
    unsafe {
        raw::station_flows(
            script.as_ptr(),
            script.len(),
            words.as_mut_ptr(),
            words.len(),
            out.as_mut_ptr(),
            out.len(),
        );
    }
    let [number, place] = out;
    not_refused(number, place)?;
    Ok(Flows::new(words))
}

/// Runs a script under a level book for a reader, from these values, for at most `limit` steps.
///
/// `values` has one entry for each name of the script: a register's value, 0 or 1 for a signal, 0 for an owned name.
/// After the run it holds the state after the counted steps, with owned names 0. `log` may have any length; the run's
/// lines stand at its head, four words each, and the words after them are untouched. A refused call changes neither.
///
/// `list` names the signals that arrive while the script runs, in pairs of two words: an instant, counted from 1 and
/// never falling, then the number of a session signal. When an instant is entered, the signals that the list names for
/// it are present, and all others absent. That writes no line. `&[]` is a list without pairs; an array or a vector of
/// pairs gives the words of a list by `as_flattened`:
///
/// ```
/// # let (book, mut values, mut log) = ([0x02, 0x00, 0x03, 0x00, 0x02], [0, 0], []);
/// # let script = [
/// #     0x01, 0x00, 0xFF, 0xFF, 0x01, 0x00, 0xFF, 0xFF, // names 0 and 1: signals
/// #     0x00, 0x00, 0x00, 0x00, 0x00, 0x00, 0x00, 0x00, // node 0: nil
/// #     0x09, 0x00, 0x00, 0x00, 0x00, 0x00, 0x00, 0x00, // node 1: when name 0 do node 0
/// #     0x00, 0x08, 0x00, 0x08, 0x00, 0x18, 0x53, 0x54,
/// # ];
/// const LOCK: u32 = 0;
/// const TILT: u32 = 1;
/// let list = [[1, TILT], [3, LOCK], [3, TILT]];
/// let run = station::run(&book, &script, 0, &mut values, 1000, list.as_flattened(), &mut log)?;
/// # assert_eq!((run.ending, run.steps, run.instants), (station::Ending::Finished, 4, 3));
/// # assert_eq!(values, [1, 1]);
/// # Ok::<(), station::Refusal>(())
/// ```
pub fn run(
    book: &[u8],
    script: &[u8],
    reader: u32,
    values: &mut [i32],
    limit: u32,
    list: &[u32],
    log: &mut [u32],
) -> Result<Run, Refusal> {
    let mut out = [0; raw::RUN_WORDS];
    // SAFETY: every pointer and length is that of one live slice; `values`, `log` and `out` are borrowed mutably, so
    // that none of them overlaps another slice.
    unsafe {
        raw::station_run(
            book.as_ptr(),
            book.len(),
            script.as_ptr(),
            script.len(),
            reader,
            values.as_mut_ptr(),
            values.len(),
            limit,
            list.as_ptr(),
            list.len(),
            log.as_mut_ptr(),
            log.len(),
            out.as_mut_ptr(),
            out.len(),
        );
    }
    let [number, place, ending, steps, instants, lines] = out;
    not_refused(number, place)?;
    Ok(Run {
        ending: Ending::from_number(ending),
        steps,
        instants,
        lines: lines as usize,
    })
}

/// 0 means not refused.
fn not_refused(number: u32, place: u32) -> Result<(), Refusal> {
    if number == 0 {
        return Ok(());
    }
    Err(Refusal::new(number, place))
}
