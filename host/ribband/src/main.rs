//! `ribband`: texture scripts from a shell.
#![forbid(unsafe_code)]

mod assemble;
mod commands;
mod demo;
mod files;
mod image;
mod options;
mod records;
mod show;
mod swatch;

use std::process::ExitCode;

/// What ends a command early: the line to say, and the exit status.
pub struct Stop {
    pub line: String,
    pub status: u8,
}

/// Refused by the library: 1. Bad usage or a file that will not do: 2. A run stopped by its limit: 3.
pub const REFUSED: u8 = 1;
pub const BAD: u8 = 2;
pub const STOPPED: u8 = 3;

impl Stop {
    pub fn bad(line: impl Into<String>) -> Stop {
        Stop { line: line.into(), status: BAD }
    }
}

const HELP: &str = "\
ribband: compile, check, run and look at texture scripts

  ribband compile TABLE -o TAPE                 compile a script table to a core tape
  ribband check TAPE                            check a tape, and say how many steps its runs take
  ribband run TAPE [--memory FILE] [--args 10,20] [--limit N] [--out FILE]
                                                run a tape; --out takes the memory of a run that is done
  ribband show TABLE|TAPE                       list the records by name, indented by structure
  ribband assemble LISTING -o TABLE             turn a listing of words and names into a file of words
  ribband swatch TABLE IMAGE -o IMAGE           run a script over every texel of a binary PPM (P6, 8 bits)
  ribband demo                                  the oatmeal script, compiled and run at 10 and 200

Tables and tapes are files of little-endian 32-bit words, four to a record. A script for `swatch` takes one parameter, and is
run on each of a texel's three values by itself, or three, r g b, and its value is then 65536 r + 256 g + b. What it gives is
taken modulo 256, as a store does. Its arrays begin as zeros for each texel. IMAGE is written as a PNG where its name ends so.

Exit status: 0 done; 1 refused by the compiler or the machine; 2 a bad command line or file; 3 stopped by the limit.";

fn main() -> ExitCode {
    let words: Vec<String> = std::env::args().skip(1).collect();
    let words: Vec<&str> = words.iter().map(String::as_str).collect();
    let done = match words.split_first() {
        None | Some((&("--help" | "-h" | "help"), _)) => {
            println!("{HELP}");
            Ok(())
        }
        Some((&"compile", rest)) => commands::compile(rest),
        Some((&"check", rest)) => commands::check(rest),
        Some((&"run", rest)) => commands::run(rest),
        Some((&"show", rest)) => show::show(rest),
        Some((&"assemble", rest)) => assemble::assemble(rest),
        Some((&"swatch", rest)) => swatch::swatch(rest),
        Some((&"demo", rest)) => demo::demo(rest),
        Some((other, _)) => Err(Stop::bad(format!("no command `{other}`: `ribband --help` lists them"))),
    };
    match done {
        Ok(()) => ExitCode::SUCCESS,
        Err(stop) => {
            eprintln!("ribband: {}", stop.line);
            ExitCode::from(stop.status)
        }
    }
}
