//! A gateway of its own for each test, over the real program.

use std::env;
use std::ffi::OsStr;
use std::fs;
use std::io::{self, BufRead, BufReader, Write};
use std::path::{Path, PathBuf};
use std::process::{Child, ChildStderr, Command, ExitStatus, Stdio};
use std::sync::atomic::{AtomicU32, Ordering};
use std::thread;
use std::time::{Duration, Instant};

use tokio_postgres::{Client, Config, Error, NoTls};

/// How long a process may take to end.
const PATIENCE: Duration = Duration::from_secs(120);

/// How long a gateway that cannot serve may take to say so.
const SOON: Duration = Duration::from_secs(120);

/// The environment variable that names the program.
const PROGRAM: &str = "ESCROWD";

/// A folder that goes with its test.
pub struct Folder(PathBuf);

impl Folder {
    /// Makes one.
    pub fn new() -> Folder {
        static NUMBER: AtomicU32 = AtomicU32::new(0);
        let number = NUMBER.fetch_add(1, Ordering::Relaxed);
        let path = env::temp_dir().join(format!("escrowd-pg-{}.{number}", std::process::id()));
        fs::create_dir(&path).expect("a folder");
        Folder(path)
    }

    /// Returns the path of an entry.
    pub fn join(&self, name: &str) -> PathBuf {
        self.0.join(name)
    }
}

impl Drop for Folder {
    fn drop(&mut self) {
        let _ = fs::remove_dir_all(&self.0);
    }
}

/// Returns whether the program is there. If not, says so even where the output of tests is kept back.
pub fn has_program(test: &str) -> bool {
    let is_there = env::var_os(PROGRAM).map_or(false, |path| Path::new(&path).is_file());
    if !is_there {
        let text = format!("SKIPPED: {test}: the variable {PROGRAM} names no program\n");
        let _ = io::stderr().write_all(text.as_bytes());
    }
    is_there
}

/// A gateway that serves.
pub struct Gateway {
    child: Child,
    errors: BufReader<ChildStderr>,
    folder: Folder,
}

impl Gateway {
    /// Starts one with these databases, as the command line has them, and waits until it serves.
    pub fn start(databases: &[&OsStr]) -> Gateway {
        Gateway::start_with(databases, &[])
    }

    /// Starts it with more options.
    pub fn start_with(databases: &[&OsStr], options: &[&str]) -> Gateway {
        let folder = Folder::new();
        let mut command = command(&folder.0, databases);
        let mut child = command.args(options).spawn().expect("the gateway");
        let errors = child.stderr.take().expect("its standard error");
        let mut gateway = Gateway {
            child,
            errors: BufReader::new(errors),
            folder,
        };
        gateway.read_until(" serving ");
        gateway
    }

    /// Reads its standard error up to a line with `part`, and returns that line.
    pub fn read_until(&mut self, part: &str) -> String {
        let mut said = String::new();
        loop {
            let start = said.len();
            let count = self
                .errors
                .read_line(&mut said)
                .expect("its standard error");
            assert!(count > 0, "{part:?} is not in {said}");
            if said[start..].contains(part) {
                return said[start..].to_owned();
            }
        }
    }

    /// Returns the folder of its socket.
    pub fn folder(&self) -> &Path {
        &self.folder.0
    }

    /// Connects to a database.
    pub async fn connect(&self, database: &str) -> Result<Client, Error> {
        let mut config = Config::new();
        config
            .host_path(&self.folder.0)
            .user("anybody")
            .dbname(database);
        let (client, connection) = config.connect(NoTls).await?;
        // Errors of the connection are those of its requests too.
        tokio::spawn(connection);
        Ok(client)
    }

    /// Sends it a signal, by name.
    pub fn signal(&self, name: &str) {
        kill(self.child.id(), name);
    }

    /// Returns the processes of its programs.
    pub fn programs(&self) -> Vec<u32> {
        let id = self.child.id();
        let children = fs::read_to_string(format!("/proc/{id}/task/{id}/children"));
        let children = children.expect("its children");
        children
            .split_whitespace()
            .map(|child| child.parse().expect("a number"))
            .collect()
    }

    /// Waits for its end. Returns its status.
    pub fn wait(&mut self) -> Option<i32> {
        wait(&mut self.child).code()
    }
}

impl Drop for Gateway {
    fn drop(&mut self) {
        let _ = self.child.kill();
        let _ = self.child.wait();
    }
}

/// Returns the command of a gateway in `folder`.
fn command(folder: &Path, databases: &[&OsStr]) -> Command {
    let mut command = Command::new(env!("CARGO_BIN_EXE_escrowd-pg"));
    command.arg("--listen").arg(folder).stderr(Stdio::piped());
    for database in databases {
        command.arg("--database").arg(database);
    }
    command
}

/// Runs a gateway that ends by itself. Returns its status and what it said.
pub fn run(folder: &Path, databases: &[&OsStr], options: &[&str]) -> (Option<i32>, String) {
    let start = Instant::now();
    let child = command(folder, databases)
        .args(options)
        .spawn()
        .expect("the gateway");
    let output = child.wait_with_output().expect("its output");
    assert!(start.elapsed() < SOON, "it took {:?}", start.elapsed());
    (
        output.status.code(),
        String::from_utf8_lossy(&output.stderr).into_owned(),
    )
}

/// Writes a program of one line of sh. Another process has the file open meanwhile: children that other tests start at the same
/// time would inherit it from this one, and a file that somebody may still write to cannot be run.
pub fn write_program(path: &Path, line: &str) {
    let script = r##"printf '#!/bin/sh\n%s\n' "$2" > "$1" && chmod 700 "$1""##;
    let mut command = Command::new("sh");
    command.args(["-c", script, "sh"]).arg(path).arg(line);
    assert!(command.status().expect("sh").success());
}

/// Sends a signal to a process.
pub fn kill(process: u32, name: &str) {
    let command = format!("kill -s {} {}", name, process);
    let status = Command::new("sh").args(["-c", &command]).status();
    assert!(status.expect("kill").success());
}

/// Waits for the end of a process.
fn wait(child: &mut Child) -> ExitStatus {
    let start = Instant::now();
    loop {
        if let Some(status) = child.try_wait().expect("a status") {
            return status;
        }
        assert!(start.elapsed() < PATIENCE, "it doesn't end");
        thread::sleep(Duration::from_millis(10));
    }
}
