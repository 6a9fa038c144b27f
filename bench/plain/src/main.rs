//! The plain sheet program: standard input to standard output.

use plain::sheet::answer_sheet;
use std::io;

fn main() -> io::Result<()> {
    answer_sheet(
        io::BufReader::with_capacity(1 << 16, io::stdin().lock()),
        io::BufWriter::with_capacity(1 << 16, io::stdout().lock()),
    )
}
