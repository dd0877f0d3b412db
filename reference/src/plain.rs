//! Plain Rust written for speed, in two forms that share every method: one byte a value (`Bytes`),
//! and 64 values to a word (`u64`). Both go to values and back by the usual step per letter, but for
//! the derivative, and hold whole tables in arrays of a length that the compiler knows. They are the
//! second way that the tests hold against the paper's own, and what `bench/` measures the engine
//! against.
//! The functions named below are the calls on lent buffers and the sheet, each for a form `B`.

mod block;
mod bytes;
mod calls;
mod counts;
mod entry;
mod fact;
mod hexadecimal;
mod session;
mod sheet;
mod solving;
mod table;
mod text;
mod words;
mod written;

pub use block::Block;
pub use bytes::{transform, Bytes};
pub use calls::{
    boole, derivative, lowenheim, lowenheim_handed, particular, product, product_uncounted,
    read_text, shorter, substitute, sum, value,
};
pub use entry::{audit, read_entry, walk, write_entry};
pub use session::{add_condition, mark, return_to};
pub use sheet::print_sheet;

/// Calls a function for the number of blocks that a table of `n` letters has.
macro_rules! for_blocks {
    ($B:ty, $n:expr, $function:ident($($argument:expr),*)) => {
        match $n {
            ..=6 => $function::<$B, 1>($($argument),*),
            7 => $function::<$B, 2>($($argument),*),
            8 => $function::<$B, 4>($($argument),*),
            9 => $function::<$B, 8>($($argument),*),
            _ => $function::<$B, 16>($($argument),*),
        }
    };
}
use for_blocks;
