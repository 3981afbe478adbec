//! The command line by hand: well-formed lines alone.
mod line;
pub use line::{Emit, Format, Line, LineError, Search, Shop, read_line};
