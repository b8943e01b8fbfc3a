//! The engine at a prompt. Each command reads its arguments and files, makes the proved calls of the engine that it needs, and shows what came back.

mod arguments;
mod chart;
mod commands;
mod day;
mod failure;
mod files;
mod help;
mod import;
mod json;
mod records;
mod same;
mod show;
mod tree;

use failure::Failure;
use std::ffi::OsString;
use std::io::{self, ErrorKind, Write};
use std::process::ExitCode;

/// What a command says: on standard output, on standard error, and its status.
struct Said {
    out: Vec<u8>,
    err: String,
    status: u8,
}

impl Said {
    fn done(out: impl Into<Vec<u8>>) -> Said {
        Said { out: out.into(), err: String::new(), status: 0 }
    }
}

fn main() -> ExitCode {
    let said = answer(std::env::args_os().skip(1).collect());
    let written = io::stdout().write_all(&said.out).and_then(|()| io::stdout().flush());
    let mut err = said.err;
    let status = match written {
        // who closes the pipe has seen enough
        Err(error) if error.kind() != ErrorKind::BrokenPipe => {
            err += &format!("ward: standard output: {error}\n");
            2
        }
        _ => said.status,
    };
    // where standard error is closed there is nobody left to tell
    let _ = io::stderr().write_all(err.as_bytes());
    ExitCode::from(status)
}

/// What the tool says to its arguments.
fn answer(given: Vec<OsString>) -> Said {
    let Some((name, rest)) = given.split_first() else {
        return Failure::usage(None, "no command").said(false);
    };
    match name.to_str().unwrap_or_default() {
        "--help" | "-h" => return Said::done(help::TOOL),
        "--version" | "-V" => return Said::done(concat!("ward ", env!("CARGO_PKG_VERSION"), "\n")),
        "help" => return help::asked(rest),
        _ => (),
    }
    let Some(command) = commands::ALL.iter().find(|command| name == command.name) else {
        return Failure::usage(None, format!("no command {}", files::printable(name))).said(false);
    };
    match arguments::parse(command, rest) {
        Err(failure) => failure.said(false),
        Ok(given) if given.has("--help") => Said::done(command.help),
        Ok(given) => (command.run)(&given).unwrap_or_else(|failure| failure.said(given.has("--json"))),
    }
}
