//! The second program as an executable: reads a job from standard input, writes the rules' lines.

use std::io::{self, Read, Write};

fn main() -> io::Result<()> {
    let mut bytes = vec![];
    io::stdin().read_to_end(&mut bytes)?;
    io::stdout().write_all(second::job::run(&bytes).as_bytes())
}
