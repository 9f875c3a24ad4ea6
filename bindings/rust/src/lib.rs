//! Station scripts from Rust: check a script under a level book, run it, and ask which flows it would need.
//!
//! A *level book* orders the levels, a *script file* holds names, expressions and nodes, a *value list* has one number
//! for each name, a *signal list* says which signals arrive in which instant, and a *log* takes the lines that a
//! *reader* may see. The formats are in the repository's `docs/FORMATS.md`, the refusals in `docs/REFUSALS.md`.
//!
//! [`check`], [`flows`](flows()) and [`run`] take any bytes and any numbers and never panic: what the rules do not
//! allow is a [`Refusal`]. They keep no state between calls, so that calls on different buffers may run at the same
//! time.
//!
//! # Example
//!
//! The script `x := 7`, with x a session register at level 0, under a book of two levels.
//!
//! ```
//! let book = [0x02, 0x00, 0x03, 0x00, 0x02];
//! let script = [
//!     0x00, 0x00, 0xFF, 0xFF, // name 0: register, level 0, of the session
//!     0x00, 0x00, 0x00, 0x00, 0x00, 0x00, 0x00, 0x07, // expression 0: the constant 7
//!     0x01, 0x00, 0x00, 0x00, 0x00, 0x00, 0x00, 0x00, // node 0: assign name 0, expression 0
//!     0x00, 0x04, 0x00, 0x0C, 0x00, 0x14, 0x53, 0x54, // tail: offsets 4, 12 and 20, then the mark
//! ];
//!
//! let accepted = station::check(&book, &script)?;
//! assert_eq!((accepted.write, accepted.test), (0, 0));
//! assert_eq!(accepted.moves, Some(1)); // no run makes more moves; None where there is a while
//!
//! let mut values = [0];
//! let mut log = [0; 4 * 256];
//! let run = station::run(&book, &script, 0, &mut values, 1000, &[], &mut log)?;
//! assert_eq!(run.ending, station::Ending::Finished);
//! assert_eq!((run.steps, run.instants, run.lines), (1, 0, 1));
//! assert_eq!(values, [7]);
//!
//! let line = station::lines(&log, run.lines).next();
//! assert_eq!(line, Some(station::Line { step: 1, instant: 0, name: 0, value: 7 }));
//! # Ok::<(), station::Refusal>(())
//! ```
#![no_std]
#![deny(missing_docs)]
#![deny(unsafe_code)]

mod calls;
mod flows;
mod log;
pub mod raw;
mod refusal;

pub use calls::{check, flows, run, Accepted, Ending, Run, MAX_STEPS, PAIR_WORDS};
pub use flows::{Flows, MAX_LEVELS};
pub use log::{lines, Line, LINE_WORDS};
pub use refusal::{Place, Reason, Refusal};
