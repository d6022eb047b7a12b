//! What the scripts say where a tool is missing.

use std::process::Command;

use check::repository;

/// A tool that no machine has.
const MISSING: &str = "rt-that-nobody-has";

/// Where the toolchain is not found, that is said in words, before anything is proved.
#[test]
fn missing_toolchain() {
    let ended = Command::new(repository::root().join(".ci/up-to-date"))
        .args(["target/nowhere/libzimgurav.a", "zimgurav", MISSING, "lib"])
        .output()
        .expect("a script");
    let error = String::from_utf8(ended.stderr).expect("text");
    assert_eq!(ended.status.code(), Some(1), "{error}");
    assert_eq!(
        error,
        format!(
            "target/nowhere/libzimgurav.a has to be proved and built, and the Rattle toolchain is not found: \
             there is no command {MISSING} on the PATH\n\
             README.md says where the toolchain comes from, and what to do without it\n"
        )
    );
}
