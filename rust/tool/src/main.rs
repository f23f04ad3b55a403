//! dsr: lists, draws, writes, reads and damages recordings of the voice link. Whatever it says of a recording is what the proved library
//! answered; it decides of nothing itself whether it is bad, mended or refused.
#![deny(unsafe_code)]

mod arguments;
mod closed;
mod commands;
mod damage;
mod explain;
mod failure;
mod frames;
mod help;
mod input;
mod layout;
mod list;
mod numbers;
mod output;
mod plot;
mod random;
mod reader;
mod summary;
mod trial;

use std::ffi::OsString;
use std::process::ExitCode;

use arguments::Arguments;
use commands::{Command, COMMANDS};
use failure::{Failure, Outcome, CLEAN};

fn main() -> ExitCode {
    let status = run(std::env::args_os().skip(1)).unwrap_or_else(|failure| {
        failure::tell(&failure.line);
        failure.status
    });
    ExitCode::from(status)
}

fn run(mut words: impl Iterator<Item = OsString>) -> Outcome<u8> {
    let Some(first) = words.next() else {
        return Err(Failure::trouble("which command? dsr --help lists them"));
    };
    match first.to_str() {
        Some("--help" | "-h" | "help") => help::run(words.next().as_deref()),
        Some("--version") => output::put_standard(help::version().as_bytes()).map(|()| CLEAN),
        Some(name) => match commands::command(name) {
            Some(command) => run_command(command, words),
            None => Err(no_command(name)),
        },
        None => Err(no_command(&first.to_string_lossy())),
    }
}

fn run_command(command: &'static Command, words: impl Iterator<Item = OsString>) -> Outcome<u8> {
    let arguments = Arguments::read(command, words)?;
    if arguments.has("help") {
        return output::put_standard(help::of_command(command).as_bytes()).map(|()| CLEAN);
    }
    match command.name {
        "list" => list::run(&arguments),
        "plot" => plot::run(&arguments),
        "write" => frames::write(&arguments),
        "read" => frames::read(&arguments),
        "damage" => damage::run(&arguments),
        "trial" => trial::run(&arguments),
        "explain" => explain::run(&arguments),
        "completion" => help::completion(&arguments),
        _ => help::man(),
    }
}

fn no_command(name: &str) -> Failure {
    let those: Vec<&str> = COMMANDS.iter().map(|command| command.name).collect();
    Failure::trouble(format!("{name}: there is no such command; there are {}", those.join(", ")))
}
