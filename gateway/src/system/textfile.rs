//! A file of metrics for the textfile collector of node_exporter.

use std::fs::{self, OpenOptions};
use std::io::{self, ErrorKind, Write};
use std::path::{Path, PathBuf};

use prometheus::{Encoder, Registry, TextEncoder};
use tracing::{info, warn};

/// A file that is written again and again.
#[derive(Debug)]
pub struct TextFile {
    path: PathBuf,
    beside: PathBuf,
    is_failing: bool,
}

impl TextFile {
    /// Returns the file at `path`. Nothing is written yet.
    ///
    /// # Errors
    ///
    /// Fails if the path, or that beside it which is written first, has another kind of file than a regular one.
    pub fn new(path: &Path) -> io::Result<TextFile> {
        // The collector reads files that end in `.prom` alone.
        let beside = with_suffix(path, ".new");
        for path in [path, &beside] {
            check_regular(path)?;
        }
        Ok(TextFile {
            path: path.to_owned(),
            beside,
            is_failing: false,
        })
    }

    /// Writes the metrics. What fails is told in the log once, and again when it goes on.
    pub fn write(&mut self, registry: &Registry) {
        match (self.replace(registry), self.is_failing) {
            (Err(error), false) => {
                warn!(
                    "the metrics cannot be written to {}: {error}",
                    self.path.display()
                );
                self.is_failing = true;
            }
            (Ok(()), true) => {
                info!("the metrics are written to {} again", self.path.display());
                self.is_failing = false;
            }
            (Ok(()), false) | (Err(_), true) => {}
        }
    }

    /// Writes a file beside, and renames it: a reader sees one or the other whole.
    fn replace(&self, registry: &Registry) -> io::Result<()> {
        let mut text = Vec::new();
        TextEncoder::new()
            .encode(&registry.gather(), &mut text)
            .map_err(|error| io::Error::new(ErrorKind::Other, error))?;
        check_regular(&self.path)?;
        // What a killed program left is removed. A link or a pipe that somebody put there is neither followed nor opened.
        if check_regular(&self.beside)? {
            fs::remove_file(&self.beside)?;
        }
        OpenOptions::new()
            .write(true)
            .create_new(true)
            .open(&self.beside)?
            .write_all(&text)?;
        fs::rename(&self.beside, &self.path)
    }

    /// Takes the file away, so that no old values are collected.
    pub fn remove(&self) {
        // If it stays, its time of change tells that it is old.
        let _ = fs::remove_file(&self.path);
    }
}

/// Returns whether there is a file at `path`.
///
/// # Errors
///
/// Fails if it is not a regular file: a link would be followed, and a pipe waited for.
fn check_regular(path: &Path) -> io::Result<bool> {
    match fs::symlink_metadata(path) {
        Ok(found) if found.is_file() => Ok(true),
        Ok(_) => {
            let text = format!("{} is not a regular file", path.display());
            Err(io::Error::new(ErrorKind::Other, text))
        }
        Err(error) if error.kind() == ErrorKind::NotFound => Ok(false),
        Err(error) => Err(error),
    }
}

/// Returns a path with a text behind it.
pub fn with_suffix(path: &Path, suffix: &str) -> PathBuf {
    let mut path = path.as_os_str().to_owned();
    path.push(suffix);
    path.into()
}

#[cfg(test)]
mod tests {
    use super::*;
    use crate::system::temporary::Folder;

    #[test]
    fn a_file_that_cannot_be_written_is_told_once() {
        let folder = Folder::new("textfile");
        let registry = Registry::new();
        let mut file = TextFile::new(&folder.0.join("none/x.prom")).unwrap();
        file.write(&registry);
        assert!(file.is_failing);
        fs::create_dir(folder.0.join("none")).unwrap();
        file.write(&registry);
        assert!(!file.is_failing && file.path.exists());
        file.remove();
        assert!(!file.path.exists());
    }

    #[test]
    fn another_kind_of_file_is_neither_followed_nor_opened() {
        let folder = Folder::new("links");
        let (path, other) = (folder.0.join("x.prom"), folder.0.join("other"));
        let beside = folder.0.join("x.prom.new");
        let registry = Registry::new();
        fs::write(&other, "text").unwrap();
        for place in [&path, &beside] {
            std::os::unix::fs::symlink(&other, place).unwrap();
            assert!(TextFile::new(&path).is_err());
            fs::remove_file(place).unwrap();
        }
        let mut file = TextFile::new(&path).unwrap();
        // What a killed program left is replaced.
        fs::write(&beside, "half").unwrap();
        file.write(&registry);
        assert!(!file.is_failing && !beside.exists() && path.exists());
        for place in [&path, &beside] {
            let _ = fs::remove_file(place);
            std::os::unix::fs::symlink(&other, place).unwrap();
            file.write(&registry);
            assert!(file.is_failing);
            fs::remove_file(place).unwrap();
        }
        assert_eq!(fs::read(&other).unwrap(), b"text");
        file.write(&registry);
        assert!(!file.is_failing);
    }
}
