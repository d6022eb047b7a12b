//! The command on the examples, against what it printed when somebody last looked at it.
//!
//! A file of `transcripts/` has lines `$ zimgurav ARGUMENTS`, each with what the command prints after it. With
//! `ZIMGURAV_TRANSCRIPTS=write` in the environment the files are written anew: look at the difference before you
//! keep it.

use std::{env, fs};

use crate::run;

/// The files of transcripts.
const FILES: [&str; 7] = [
    "help", "read", "bench", "envelope", "simulate", "search", "report",
];

/// What a transcript has to be: each command of it, and after it what it prints now.
fn made_again(transcript: &str) -> String {
    let commands = transcript
        .lines()
        .filter_map(|line| line.strip_prefix("$ "));
    let pieces = commands.map(|command| {
        let words: Vec<&str> = command.split(' ').collect();
        assert_eq!(words[0], "zimgurav", "{command}");
        format!("$ {command}\n{}", run::printed(&words[1..]))
    });
    pieces.collect()
}

#[test]
fn print_the_same() {
    for name in FILES {
        let path = format!("rust/command/tests/command/transcripts/{name}.txt");
        let stored = run::text(&path);
        let made = made_again(&stored);
        if env::var_os("ZIMGURAV_TRANSCRIPTS").is_some_and(|value| value == "write") {
            fs::write(run::root().join(path), made).expect("a file that can be written");
            continue;
        }
        let mut lines = stored.lines().zip(made.lines()).zip(1..);
        let differing = lines.find(|((stored, made), _)| stored != made);
        assert_eq!(differing, None, "the first line of {path} that differs");
        assert_eq!(made, stored, "{path}");
    }
}

/// No transcript is left out, and each has commands.
#[test]
fn are_all_made() {
    let folder = run::root().join("rust/command/tests/command/transcripts");
    let entries = fs::read_dir(folder).expect("a folder");
    let mut names: Vec<String> = entries
        .map(|entry| {
            entry
                .expect("a file")
                .file_name()
                .into_string()
                .expect("text")
        })
        .collect();
    let mut files = FILES.map(|name| format!("{name}.txt"));
    names.sort();
    files.sort();
    assert_eq!(names, files);
    for name in files {
        let transcript = run::text(&format!("rust/command/tests/command/transcripts/{name}"));
        assert!(transcript.starts_with("$ zimgurav "), "{name}");
    }
}
