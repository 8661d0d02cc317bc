//! Lists a run file from standard input.
use std::io::{Read, Write};

fn main() -> std::io::Result<()> {
    let mut file = Vec::new();
    std::io::stdin().take(65_537).read_to_end(&mut file)?;
    std::io::stdout().write_all(plain::listing::list(&file).as_bytes())
}
