//! The version of the program that a gateway or a proxy starts.

use std::io::Read;
use std::path::Path;
use std::process::{Command, Stdio};
use std::time::{Duration, Instant};
use std::{io, thread};

/// How long the program may take to tell its version.
const PATIENCE: Duration = Duration::from_secs(10);

/// How often it is looked whether it has.
const PAUSE: Duration = Duration::from_millis(1);

/// What a program that was built without a proof has behind its version.
const UNPROVED: &str = " (unproved)";

/// Asks the program at `path` for its version, which has to be this library's own: of another one, statements and replies
/// may differ. The third number of a version changes neither. Returns whether the program is proved; one that is not
/// has to be named by the command line or the environment.
///
/// # Errors
///
/// Fails with what is wrong if it has another version, or tells none, or is neither proved nor named.
pub fn check_version(path: &Path, is_named: bool) -> io::Result<bool> {
    let told = told_version(path)?;
    let own = env!("CARGO_PKG_VERSION");
    let version = told
        .trim_end()
        .strip_prefix("escrowd ")
        .ok_or_else(|| other("what `--version` prints is no version of escrowd".to_owned()))?;
    let (version, is_proved) = match version.strip_suffix(UNPROVED) {
        Some(version) => (version, false),
        None => (version, true),
    };
    if !is_same(version, own) {
        return Err(other(format!(
            "its version is {version}, and has to be {own}"
        )));
    }
    if !is_proved && !is_named {
        let path = path.display();
        return Err(other(format!(
            "{path} is not proved: --program or ESCROWD has to name it"
        )));
    }
    Ok(is_proved)
}

/// Returns whether the first two numbers of two versions are the same.
fn is_same(one: &str, other: &str) -> bool {
    let numbers =
        |version: &str| -> Vec<String> { version.split('.').take(2).map(str::to_owned).collect() };
    numbers(one) == numbers(other)
}

fn other(text: String) -> io::Error {
    io::Error::new(io::ErrorKind::Other, text)
}

/// Returns what the program at `path` prints for `--version`.
fn told_version(path: &Path) -> io::Result<String> {
    let mut child = Command::new(path)
        .arg("--version")
        .stdin(Stdio::null())
        .stdout(Stdio::piped())
        .stderr(Stdio::null())
        .spawn()?;
    let end = Instant::now() + PATIENCE;
    while child.try_wait()?.is_none() {
        if end <= Instant::now() {
            child.kill()?;
            child.wait()?;
            return Err(other(format!(
                "`--version` takes more than {} s",
                PATIENCE.as_secs()
            )));
        }
        thread::sleep(PAUSE);
    }
    // A version is far shorter than what a pipe holds.
    let mut told = Vec::new();
    if let Some(output) = child.stdout.take() {
        output.take(1024).read_to_end(&mut told)?;
    }
    Ok(String::from_utf8_lossy(&told).into_owned())
}

#[cfg(test)]
mod tests {
    use super::*;
    use std::fs;
    use std::os::unix::fs::PermissionsExt;

    #[test]
    fn the_third_number_of_a_version_does_not_count() {
        assert!(is_same("1.1", "1.1.0") && is_same("1.1.2", "1.1.0"));
        assert!(!is_same("1.2", "1.1.0") && !is_same("2.1", "1.1.0") && !is_same("1", "1.1.0"));
    }

    #[test]
    fn a_program_of_another_version_or_without_a_proof_is_refused() {
        let path = std::env::temp_dir().join(format!("escrowd-version.{}", std::process::id()));
        for (told, is_named, expected) in [
            ("echo escrowd 1.1", false, Ok(true)),
            ("echo 'escrowd 1.1 (unproved)'", true, Ok(false)),
            (
                "echo 'escrowd 1.1 (unproved)'",
                false,
                Err("is not proved: --program or ESCROWD has to name it"),
            ),
            ("echo escrowd 9.0", true, Err("its version is 9.0")),
            ("echo hello", true, Err("no version of escrowd")),
            ("exit 3", true, Err("no version of escrowd")),
        ] {
            fs::write(&path, format!("#!/bin/sh\n{told}\n")).unwrap();
            fs::set_permissions(&path, fs::Permissions::from_mode(0o700)).unwrap();
            match (check_version(&path, is_named), expected) {
                (Ok(is_proved), Ok(expected)) => assert_eq!(is_proved, expected, "{told}"),
                (Err(error), Err(text)) => assert!(error.to_string().contains(text), "{error}"),
                (told, expected) => panic!("{told:?} {expected:?}"),
            }
        }
        fs::remove_file(&path).unwrap();
    }
}
