// The bench program as a command: standard input to standard output.
// One byte past the limit is enough to know that the input is too long.

use std::io::{self, Read, Write};

fn main() -> io::Result<()> {
    let mut input = Vec::new();
    io::stdin().lock().take(65_537).read_to_end(&mut input)?;
    let mut output = io::stdout().lock();
    output.write_all(&xc9500_reference::bench(&input))?;
    output.flush()
}
