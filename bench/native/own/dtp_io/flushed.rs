//! Writers that are flushed, by Rust's std.
pub use std::io::Write as FlushedWrite;
