//! The program `geoid`; everything it does is in the library beside it.

use std::process::ExitCode;

fn main() -> ExitCode {
    geoid::commands::main(std::env::args_os().skip(1).collect())
}
