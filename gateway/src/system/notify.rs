//! What a service manager is told.

use std::env;
use std::os::unix::net::UnixDatagram;

/// The environment variable in which systemd names its socket.
const SOCKET: &str = "NOTIFY_SOCKET";

/// Tells systemd that clients are served, if it started this process and asked to be told.
pub fn ready() {
    notify(b"READY=1\n");
}

/// Tells systemd that the gateway ends.
pub fn stopping() {
    notify(b"STOPPING=1\n");
}

/// Sends systemd a word. A manager that doesn't read it notices the end or the start in its own way.
fn notify(word: &[u8]) {
    if let Some(path) = env::var_os(SOCKET) {
        let _ = UnixDatagram::unbound().and_then(|socket| {
            socket.set_nonblocking(true)?;
            socket.send_to(word, path)
        });
    }
}
