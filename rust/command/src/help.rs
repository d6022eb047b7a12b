//! What `--help` prints.

use crate::subcommand::{Subcommand, SUBCOMMANDS};

/// The help of the whole command.
pub fn whole() -> String {
    let lines = SUBCOMMANDS
        .iter()
        .map(|subcommand| format!("  {:<10} {}\n", subcommand.name, subcommand.summary));
    let lines: String = lines.collect();
    format!(
        "\
zimgurav: proved ceilings on the supply current of a block of gates

usage: zimgurav SUBCOMMAND ...

{lines}
'zimgurav help SUBCOMMAND' says more of each, 'zimgurav --version' what build this is.
The exit status is 0 for an answer, 1 for a refusal, and 2 for wrong usage or a file
that cannot be read, understood or written.
"
    )
}

/// The help of a subcommand.
pub fn of(subcommand: &Subcommand) -> String {
    let Subcommand {
        name,
        usage,
        summary,
        about,
        options,
        ..
    } = subcommand;
    let options = options.iter().map(|option| {
        let written = option.written();
        let default = option.default.map(|value| format!(" (default {value})"));
        let (meaning, default) = (option.meaning, default.unwrap_or_default());
        format!("  {written:<16} {meaning}{default}\n")
    });
    let (about, options) = (about.join("\n\n"), options.collect::<String>());
    format!("usage: zimgurav {name} {usage}\n\n{summary}\n\n{about}\n\n{options}")
}
