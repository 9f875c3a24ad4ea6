//! The kinds of nodes, by their numbers in a script file.
pub const NIL: u8 = 0;
pub const ASSIGN: u8 = 1;
pub const LET: u8 = 2;
pub const IF: u8 = 3;
pub const WHILE: u8 = 4;
pub const SEQUENCE: u8 = 5;
pub const EMIT: u8 = 6;
pub const LOCAL: u8 = 7;
pub const WATCHING: u8 = 8;
pub const WHEN: u8 = 9;
pub const PARALLEL: u8 = 10;
