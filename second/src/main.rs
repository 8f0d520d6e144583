//! Prints expectations: `second line`, `second trace`, `second settings`,
//! `second cards`, `second margins`, `second vectors`, `second failure` and
//! `second table`; `second box` makes the calls on files.

use second::table::{lines, table};
use std::io::{self, Read, Write};
use std::process::ExitCode;

const HELP: &str = "\
second, the independent second program

  second line      the line program: standard input to standard output
  second trace     the trace program: standard input to standard output
  second settings  settings read and written: frames on standard input, a line each
  second cards     all bench cards, one line each: inputs, a colon, outputs
  second margins   Bench near the margin, a line for each worked run
  second vectors   all calls on good and damaged inputs, one line a case
  second failure   how likely an exchange fails, a line a scheme, exact or bounded
  second table     the table of BCNS's noise, an entry a line, computed anew
  second box ..    a call on files: the words of the command line
";

fn main() -> ExitCode {
    let words: Vec<String> = std::env::args().skip(1).collect();
    let words: Vec<&str> = words.iter().map(String::as_str).collect();
    let done = match words[..] {
        ["line"] => text(second::line::line),
        ["trace"] => text(second::trace::trace),
        ["settings"] => text(second::settings::frames::answers),
        ["cards"] => print(second::cards::cards()),
        ["margins"] => print(second::margins::margins()),
        ["vectors"] => print(second::vectors::vectors()),
        ["failure"] => print(second::failure::failure()),
        ["table"] => print(lines(&table())),
        ["box", ref rest @ ..] => files(rest),
        _ => {
            eprint!("{HELP}");
            return ExitCode::from(2);
        }
    };
    match done {
        Ok(()) => ExitCode::SUCCESS,
        Err(error) => {
            eprintln!("second: {error}");
            ExitCode::FAILURE
        }
    }
}

fn text(program: fn(&[u8]) -> Vec<u8>) -> io::Result<()> {
    let mut input = vec![];
    io::stdin().read_to_end(&mut input)?;
    io::stdout().write_all(&program(&input))
}

fn print(lines: Vec<String>) -> io::Result<()> {
    for line in lines {
        writeln!(io::stdout(), "{line}")?;
    }
    Ok(())
}

fn files(words: &[&str]) -> io::Result<()> {
    io::stdout().write_all(second::files::run(words)?.as_bytes())
}
