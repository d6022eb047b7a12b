//! The command `zimgurav`: blocks read, searched and drawn. Every number that it shows of currents and drops is the
//! proved library's.

mod arguments;
mod bench_text;
mod block;
mod cells;
mod columns;
mod csv;
mod evaluation;
mod excitation;
mod failure;
mod files;
mod help;
mod identity;
mod interrupt;
mod line_fault;
mod number;
mod options;
mod order;
mod output;
mod output_file;
mod pattern;
mod picture;
mod progress;
mod record;
mod report;
mod selftest;
mod sheet;
mod subcommand;
mod summary;
mod svg;
mod table;
mod vcd;
mod xml;

use std::env;
use std::ffi::{OsStr, OsString};
use std::io::{self, Write};
use std::process::ExitCode;

use crate::arguments::Arguments;
use crate::failure::{Failure, Kind};
use crate::subcommand::{Subcommand, SUBCOMMANDS};

fn main() -> ExitCode {
    match run(env::args_os().skip(1).collect()) {
        Ok(()) => ExitCode::SUCCESS,
        Err(failure) => {
            // Where standard error takes nothing, the status still tells.
            let message = output::printable(failure.message.trim_end());
            let _ = writeln!(io::stderr(), "zimgurav: {message}");
            ExitCode::from(failure.status())
        }
    }
}

/// Does what the arguments ask for.
fn run(arguments: Vec<OsString>) -> Result<(), Failure> {
    if zimgurav::version() != zimgurav::VERSION {
        let message = "the command and the library in it are of different versions";
        return Err(Failure::wrong(message));
    }
    let Some((name, rest)) = arguments.split_first() else {
        let message = format!("a subcommand is missing\n\n{}", help::whole());
        return Err(Failure::usage(message));
    };
    match name.to_str() {
        Some("--help" | "-h") => output::print(&help::whole()),
        Some("--version" | "-V") => output::print(&version()),
        Some("help") => help(rest),
        _ => run_subcommand(known(name)?, rest),
    }
}

/// The release, the commit that it was built from, which `./install` hands over, and the version of the calls.
fn version() -> String {
    let commit = option_env!("ZIMGURAV_COMMIT").map(|commit| format!("commit {commit}"));
    format!(
        "zimgurav {}, {}, version {} of the calls\n",
        env!("CARGO_PKG_VERSION"),
        commit.unwrap_or("of no known commit".to_string()),
        zimgurav::VERSION
    )
}

/// Prints the help of the whole command, or of the subcommand that is named.
fn help(names: &[OsString]) -> Result<(), Failure> {
    match names {
        [] => output::print(&help::whole()),
        [name] if name == "help" || is_help(name) => output::print(&help::whole()),
        [name] => output::print(&help::of(known(name)?)),
        [_, extra, ..] => Err(Failure::extra(extra)),
    }
}

/// The subcommand of a name.
fn known(name: &OsStr) -> Result<&'static Subcommand, Failure> {
    let subcommand = SUBCOMMANDS.iter().find(|known| name == known.name);
    subcommand.ok_or_else(|| {
        let name = name.display();
        Failure::usage(format_args!(
            "there is no subcommand {name}; 'zimgurav --help' lists them"
        ))
    })
}

fn is_help(argument: &OsString) -> bool {
    argument == "--help" || argument == "-h"
}

/// Runs a subcommand, or prints its help.
fn run_subcommand(subcommand: &Subcommand, rest: &[OsString]) -> Result<(), Failure> {
    let mut options = rest.iter().take_while(|word| *word != "--");
    if options.any(is_help) {
        return output::print(&help::of(subcommand));
    }
    let arguments = Arguments::parse(rest, subcommand.options);
    let done = arguments.and_then(|arguments| (subcommand.run)(&arguments));
    done.map_err(|mut failure| {
        if failure.kind == Kind::Usage {
            let name = subcommand.name;
            failure.message += &format!("\n'zimgurav {name} --help' says how it is used");
        }
        failure
    })
}
