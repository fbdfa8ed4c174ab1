//! The thresholds of the C library's allocator.

use std::env;
use std::ffi::OsStr;
use std::os::unix::process::CommandExt;
use std::process::Command;

/// The environment variable that glibc reads them from, at a process's start alone.
const VARIABLE: &str = "GLIBC_TUNABLES";

/// Pieces of 64 KiB and more go back to the system as soon as they are freed, and so does what is free at the heap's end
/// beyond as much. All threads share one heap.
const THRESHOLDS: &str = "glibc.malloc.arena_max=1:glibc.malloc.mmap_threshold=65536:\
                          glibc.malloc.trim_threshold=65536:glibc.malloc.top_pad=65536";

/// Starts the process again with thresholds that stay where they are.
///
/// By itself glibc raises them to the largest piece that was ever freed (mallopt(3)), and then keeps what one client has
/// taken for as long as the process lives. Whoever sets the variable has decided otherwise. If the system refuses the
/// start, the gateway serves all the same.
pub fn settle() {
    let mut words = env::args_os();
    if let (None, Ok(path), Some(name)) = (env::var_os(VARIABLE), env::current_exe(), words.next())
    {
        let _ = Command::new(path)
            .arg0(name)
            .args(words)
            .env(VARIABLE, THRESHOLDS)
            .exec();
    }
}

/// Lets a program that the gateway starts have the thresholds that it has by itself.
pub fn unsettle(command: &mut Command) {
    if env::var_os(VARIABLE).as_deref() == Some(OsStr::new(THRESHOLDS)) {
        command.env_remove(VARIABLE);
    }
}
