mod row;
mod table;
mod tries;

use dtp_io::{StdSink, StdSource, read_all};

fn main() {
    let mut source = StdSource::new(std::io::stdin());
    let table = read_all(shim::Global, &mut source, 1 << 24).ok().unwrap();
    let mut sink = StdSink::new(std::io::stdout());
    let well = table::try_rows(&shim::Host, shim::Global, &table, &mut sink);
    std::process::exit(if well == Ok(true) { 0 } else { 1 });
}
