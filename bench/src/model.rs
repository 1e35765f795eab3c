//! A second model of the board, written from the scope (document 01) and the change requests (document 02) alone.
//!
//! It shares no line and no idea of layout with the proved crates, so that a slip in one of the two shows as a difference.
//! Where the board moves registers from cell to cell, this model says the result: a broadcast, a sum or a shift is worked
//! out from the cell's index, and a record of concentrate is a number in a list with the cell where it stands. Beside this,
//! which also tells the moves, `plain` is a model of the operations without any.

pub mod answers;
pub mod board;
pub mod cases;
pub mod job;
pub mod moves;
pub mod plain;
pub mod records;
pub mod replay;
pub mod text;
pub mod words;
