//! The listing program: standard input to standard output.

use std::io::{self, BufWriter, Write};

fn main() -> io::Result<()> {
    let mut input = io::stdin().lock();
    let mut output = BufWriter::new(io::stdout().lock());
    second::listing::list(&mut input, &mut output)?;
    output.flush()
}
