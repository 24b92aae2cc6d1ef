//! Reads a script on standard input and writes its transcript.

use compare::script::Session;
use std::io::{self, BufRead, Write};

fn main() -> io::Result<()> {
    let mut input = io::stdin().lock();
    let mut output = io::stdout().lock();
    let mut session = Session::new();
    let mut line = Vec::new();
    while input.read_until(b'\n', &mut line)? > 0 {
        if line.last() == Some(&b'\n') {
            line.pop();
        }
        output.write_all(&session.carry_out_line(&line))?;
        output.flush()?;
        line.clear();
    }
    Ok(())
}
