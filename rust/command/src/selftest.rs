//! The stored calls, made in the library of this build.

use calls::{answer, digest, DIGEST, LIBRARY};

use crate::failure::Failure;
use crate::number::grouped;
use crate::output;
use crate::output_file::OutputFile;

/// Makes the stored calls and prints their number and one digest of all that they answer and write. Two builds are
/// compared by that line. Where it is not the right one, that is said too.
pub fn run(answers_file: Option<OutputFile>) -> Result<(), Failure> {
    let answers: Vec<String> = calls::lines().map(|call| answer(&LIBRARY, call)).collect();
    let (count, digest) = (grouped(answers.len() as u64), digest(&answers));
    output::print(&format!("{count} calls, digest {digest}\n"))?;
    if let Some(file) = answers_file {
        file.write(answers.join("\n") + "\n")?;
    }
    if digest == DIGEST {
        return Ok(());
    }
    let version = zimgurav::VERSION;
    Err(Failure::wrong(format_args!(
        "the right digest of version {version} is {DIGEST}: do not use this build"
    )))
}
