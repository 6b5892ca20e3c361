// Reads standard input and writes the listing that the model makes of it.
// build: rustc -O list.rs
// run:   ./list < capture

mod model;

use std::io::{Read, Write};

// Lists standard input.
fn main() -> std::io::Result<()> {
    let mut input = Vec::new();
    std::io::stdin().read_to_end(&mut input)?;
    std::io::stdout().write_all(&model::listing(&input))
}
