//! The command line `puzhenim`: files in, files out, and words for refusals. Every rule is the proved library's.

#![forbid(unsafe_code)]

mod areas;
mod args;
mod commands;
mod failure;
mod files;
mod help;
mod input;
mod job;
mod legend;
mod page;
mod pbm;
mod picture;
mod plot;
mod progress;

use failure::Failure;
use std::ffi::OsString;
use std::io::Write;
use std::process::ExitCode;

fn run(mut words: impl Iterator<Item = OsString>) -> Result<(), Failure> {
    let first = words.next().ok_or_else(|| Failure::Usage("no command is given".into()))?;
    let name = first.to_string_lossy();
    match name.as_ref() {
        "-h" | "--help" | "help" => help::show(words.next()),
        "-V" | "--version" => files::say(concat!("puzhenim ", env!("CARGO_PKG_VERSION"), "\n")),
        _ => {
            let command = commands::named(&name)?;
            match args::parse(command, words)? {
                Some(args) => (command.run)(&args),
                None => files::say(command.help),
            }
        }
    }
}

fn main() -> ExitCode {
    match run(std::env::args_os().skip(1)) {
        Ok(()) => ExitCode::SUCCESS,
        Err(failure) => {
            // If standard error cannot be written, the status alone tells.
            let _ = writeln!(std::io::stderr(), "puzhenim: {}", failure);
            ExitCode::from(failure.status())
        }
    }
}
