//! The process's words and streams, by Rust's std.
use crate::perform::run;
use crate::status::Status;
use dtp_io::{StdSink, StdSource};
use dtp_session::NoGate;
use std::process::ExitCode;

pub fn start() -> ExitCode {
    let words = shim::Vec(std::env::args().skip(1).map(shim::String).collect());
    let mut source = StdSource::new(std::io::stdin());
    let mut sink = StdSink::new(std::io::stdout());
    let status = run(&shim::Host, shim::Global, &words, &mut source, &mut sink, &NoGate);
    ExitCode::from(status)
}
