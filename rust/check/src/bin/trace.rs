//! Prints the rows of docs/TRACE.md that contain the words of the command line, and the file and line of
//! each name that they cite.

use std::env;
use std::process::ExitCode;

use check::trace::{rows, PARTS};

fn main() -> ExitCode {
    let words: Vec<String> = env::args().skip(1).collect();
    let words = words.join(" ").to_lowercase();
    let mut found = false;
    for row in PARTS.into_iter().flat_map(rows) {
        let text = format!("{} | {}", row.left, row.right);
        if text.to_lowercase().contains(&words) {
            found = true;
            println!("{}: {text}", row.section);
            for citation in row.citations() {
                println!("    {citation}");
            }
        }
    }
    ExitCode::from(u8::from(!found))
}
