//! The program `second`: reads a script from standard input and prints what
//! the console's page says for each line.

use processor::console::Console;
use processor::line::read_line;
use std::io::{stdin, stdout, BufRead, Result, Write};
use std::process::ExitCode;

/// "Every other line prints its answer at once, before the next line is read."
fn play(input: &mut impl BufRead, output: &mut impl Write) -> Result<()> {
    let mut console = Console::new();
    while let Some(line) = read_line(input)? {
        if let Some(mut answer) = console.answer(&line) {
            answer.push('\n');
            output.write_all(answer.as_bytes())?;
            output.flush()?;
        }
    }
    Ok(())
}

fn main() -> ExitCode {
    match play(&mut stdin().lock(), &mut stdout().lock()) {
        Ok(()) => ExitCode::SUCCESS,
        Err(_) => ExitCode::FAILURE,
    }
}
