//! The process's streams, by Rust's std.
use crate::sink::Sink;
use crate::source::{Failed, Source, count_fault};
use std::io::{Read, Write};

pub struct StdSource<R> {
    reader: R,
    faults: u64,
}
impl<R: Read> StdSource<R> {
    pub fn new(reader: R) -> Self {
        StdSource { reader, faults: 0 }
    }
}
impl<R: Read> Source for StdSource<R> {
    fn read(&mut self, buf: &mut [u8]) -> Result<usize, Failed> {
        self.reader.read(buf).map_err(|_| count_fault(&mut self.faults))
    }
}
pub struct StdSink<W> {
    writer: W,
    faults: u64,
}
impl<W: Write> StdSink<W> {
    pub fn new(writer: W) -> Self {
        StdSink { writer, faults: 0 }
    }
}
impl<W: Write> Sink for StdSink<W> {
    fn write(&mut self, piece: &[u8]) -> Result<usize, Failed> {
        match self.writer.write(piece).and_then(|count| self.writer.flush().map(|()| count)) {
            Ok(count) if count > 0 || piece.is_empty() => Ok(count),
            _ => Err(count_fault(&mut self.faults)),
        }
    }
}
