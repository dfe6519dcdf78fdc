//! `replay`, the reference's log program: a whole log on standard input, its lines on
//! standard output (docs/SCOPE.md, 'The log program').

mod log;
mod reference;

use std::io::{Read, Write};

fn main() -> std::io::Result<()> {
    let mut input = Vec::new();
    std::io::stdin().lock().read_to_end(&mut input)?;
    std::io::stdout().write_all(log::replay(&input).as_bytes())
}
