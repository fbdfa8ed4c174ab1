//! Folders of tests.

use std::fs;
use std::path::PathBuf;

/// A folder that goes with its test.
pub struct Folder(pub PathBuf);

impl Folder {
    /// Makes an empty one. No two tests have the same name.
    pub fn new(name: &str) -> Folder {
        let name = format!("escrowd-pg-{}-{name}", std::process::id());
        let path = std::env::temp_dir().join(name);
        fs::create_dir(&path).unwrap();
        Folder(path)
    }

    /// Returns how many files and folders are in it.
    pub fn entries(&self) -> usize {
        fs::read_dir(&self.0).unwrap().count()
    }
}

impl Drop for Folder {
    fn drop(&mut self) {
        let _ = fs::remove_dir_all(&self.0);
    }
}
