//! The C interface as it is, for callers that bring their own buffers. `include/station.h` has its rules.
//!
//! A slice is a pointer, then a length in elements. The pointer of a slice of length 0 is never followed.

/// The length of `out` that [`station_check`] asks for.
pub const CHECK_WORDS: usize = 6;

/// The length of `out` that [`station_flows`] asks for.
pub const FLOWS_WORDS: usize = 2;

/// The length of `flows` that [`station_flows`] asks for: a word for each level.
pub const MAX_LEVELS: usize = 16;

/// The length of `out` that [`station_run`] asks for.
pub const RUN_WORDS: usize = 6;

extern "C" {
    /// Checks a script: `out` becomes number, place, W, T, bounded (1, or 0 where there is a while), moves (0 where not
    /// bounded). An `out` of another length than 6 is left untouched, and nothing else happens.
    ///
    /// # Safety
    /// Each pointer is good for reads of its length, `out` also for writes, and `out` overlaps no other slice.
    pub fn station_check(
        book: *const u8,
        book_len: usize,
        script: *const u8,
        script_len: usize,
        out: *mut u32,
        out_len: usize,
    );

    /// Tells which flows a script would need: `out` becomes number, place, and bit j of word i of `flows` says that
    /// data must be let flow from level i to level j. With a `flows` of another length than 16 or an `out` of another
    /// length than 2 nothing at all happens.
    ///
    /// # Safety
    /// Each pointer is good for reads of its length, those of `flows` and `out` also for writes, and neither of these
    /// two overlaps another slice.
    pub fn station_flows(
        script: *const u8,
        script_len: usize,
        flows: *mut u32,
        flows_len: usize,
        out: *mut u32,
        out_len: usize,
    );

    /// Runs a script: `out` becomes number, place, ending, steps, instants, lines. An `out` of another length than 6
    /// is left untouched, and nothing else happens.
    ///
    /// # Safety
    /// Each pointer is good for reads of its length, those of `values`, `log` and `out` also for writes, and none of
    /// these three overlaps another slice. `list` is only read.
    pub fn station_run(
        book: *const u8,
        book_len: usize,
        script: *const u8,
        script_len: usize,
        reader: u32,
        values: *mut i32,
        values_len: usize,
        limit: u32,
        list: *const u32,
        list_len: usize,
        log: *mut u32,
        log_len: usize,
        out: *mut u32,
        out_len: usize,
    );
}
