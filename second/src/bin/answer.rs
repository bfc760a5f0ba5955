//! Answers a batch of cases from standard input, as the proved program does: a line for each on
//! standard output, and the bytes of its lent buffers where it asks for them.

use second::batch::Case;
use std::io::{Read, Write};

fn main() -> std::io::Result<()> {
    let mut batch = Vec::new();
    std::io::stdin().read_to_end(&mut batch)?;
    let mut out = std::io::stdout().lock();
    let mut rest = &batch[..];
    while let Some((case, behind)) = Case::first_of(rest) {
        out.write_all(&case.answer().bytes())?;
        rest = behind;
    }
    Ok(())
}
