//! What all programs here share: table files, replay scripts, and the lines that answer them.

pub mod answers;
pub mod script;
pub mod speaker;
pub mod table;
pub mod table_check;

/// Class of the end of the input.
pub const END: u16 = 0;
/// Class of the error token.
pub const ERROR: u16 = 1;
/// Class of the virtual start.
pub const START: u16 = 2;
/// First class of a term.
pub const FIRST_TERM: u16 = 3;
/// Stands for "no rule" in an error record and for "no shift" in a table file.
pub const NONE: u16 = 65535;
