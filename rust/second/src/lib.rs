//! A clock, its update slips and the ideal line beside it, as plain functions over plain structs.
//!
//! Everything follows the paper 01, as 02 amends it, in its order and with its numbers. All times, values and rates
//! are kept as 128-bit whole numbers, so that no argument of 64 bits can overflow anything. Refusals are written as
//! tables of rows (number, applies), and the first row that holds gives the number; only a slip too short for its next
//! row is told at once.

mod clock;
mod ideal;
mod slip;

pub use clock::{Clock, Details, Line, MILLION, Request, create, details, exact, new_line, read, update, value};
pub use ideal::{Ideal, ideal_after, ideal_at_creation};
pub use slip::{called_for, packed, read_row, read_single_slip, read_slip, slip_length, time_width, write_slip};
