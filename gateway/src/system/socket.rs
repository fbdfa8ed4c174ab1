//! The socket's file: how it is made, named and taken away.

use std::fs::{self, DirBuilder, Permissions};
use std::io::{self, ErrorKind};
use std::os::unix::fs::{DirBuilderExt, FileTypeExt, MetadataExt, PermissionsExt};
use std::os::unix::net::UnixListener;
use std::path::{Path, PathBuf};
use std::time::Duration;

use thiserror::Error;

/// How often a name is tried that others give and take away at the same time.
const ATTEMPTS: u32 = 100;

/// The name of the socket in its private folder.
const SOCKET: &str = "s";

/// After this time a folder without a socket that answers isn't one of a gateway that starts.
const MOMENT: Duration = Duration::from_secs(60);

/// Why the socket cannot be had.
#[derive(Debug, Error)]
pub enum SocketError {
    /// A process accepts connections at this path.
    #[error("another process listens on {}", .0.display())]
    Answered(PathBuf),
    /// The path has another kind of file.
    #[error("{} exists and is not a socket", .0.display())]
    NoSocket(PathBuf),
    /// The system refused it.
    #[error("the socket {} cannot be created: {error}", path.display())]
    System {
        /// The path of the socket.
        path: PathBuf,
        /// What the system said.
        error: io::Error,
    },
}

/// A socket that listens. It is made in a private folder, so that nobody reaches it before it has its mode, and
/// [`Socket::announce`] gives it its name.
pub struct Socket {
    path: PathBuf,
    private: PrivateFolder,
    identity: (u64, u64),
    announced: bool,
}

impl Socket {
    /// Makes the socket of this port, still without its name. It fails early if the name cannot be had.
    pub fn bind(
        folder: &Path,
        port: u16,
        mode: u32,
    ) -> Result<(Socket, UnixListener), SocketError> {
        let path = folder.join(format!(".s.PGSQL.{port}"));
        let refused = |error| SocketError::System {
            path: path.clone(),
            error,
        };
        if name_is_taken(&path)? {
            return Err(SocketError::Answered(path));
        }
        remove_left(folder);
        let private = PrivateFolder::make(folder).map_err(refused)?;
        let place = private.socket();
        let listener = UnixListener::bind(&place).map_err(refused)?;
        fs::set_permissions(&place, Permissions::from_mode(mode)).map_err(refused)?;
        listener.set_nonblocking(true).map_err(refused)?;
        let identity = identity(&place).map_err(refused)?;
        Ok((
            Socket {
                path,
                private,
                identity,
                announced: false,
            },
            listener,
        ))
    }

    /// Returns the path by which clients find it.
    pub fn path(&self) -> &Path {
        &self.path
    }

    /// Gives the socket its name, unless another process answers there. What a killed gateway left is taken away.
    pub fn announce(&mut self) -> Result<(), SocketError> {
        let refused = |error| SocketError::System {
            path: self.path.clone(),
            error,
        };
        for _ in 0..ATTEMPTS {
            // A link never replaces a file, so that of two gateways only one has the name.
            match fs::hard_link(self.private.socket(), &self.path) {
                Ok(()) => {
                    self.announced = true;
                    self.private.remove();
                    return Ok(());
                }
                Err(error) if error.kind() == ErrorKind::AlreadyExists => self.take_stale_away()?,
                Err(error) => return Err(refused(error)),
            }
        }
        Err(refused(ErrorKind::AlreadyExists.into()))
    }

    /// Frees the name, if nobody answers there.
    fn take_stale_away(&self) -> Result<(), SocketError> {
        if name_is_taken(&self.path)? {
            return Err(SocketError::Answered(self.path.clone()));
        }
        // Another gateway may have taken the name meanwhile. So the file is moved to where nobody else looks, and
        // judged there.
        let aside = self.private.aside();
        match fs::rename(&self.path, &aside) {
            Ok(()) => {}
            Err(error) if error.kind() == ErrorKind::NotFound => return Ok(()),
            Err(error) => {
                return Err(SocketError::System {
                    path: self.path.clone(),
                    error,
                })
            }
        }
        if name_is_taken(&aside)? {
            // If this fails, yet another one has the name, and answers as well.
            let _ = fs::hard_link(&aside, &self.path);
            return Err(SocketError::Answered(self.path.clone()));
        }
        fs::remove_file(&aside).map_err(|error| SocketError::System {
            path: self.path.clone(),
            error,
        })
    }

    /// Takes the name away, if it is still this socket's. Connections that are accepted stay.
    pub fn withdraw(&mut self) {
        if self.announced && matches!(identity(&self.path), Ok(found) if found == self.identity) {
            // A file that stays is taken away by the next gateway.
            let _ = fs::remove_file(&self.path);
        }
        self.announced = false;
    }
}

impl Drop for Socket {
    fn drop(&mut self) {
        self.withdraw();
    }
}

/// Returns whether a process accepts connections at `path`.
fn name_is_taken(path: &Path) -> Result<bool, SocketError> {
    match fs::symlink_metadata(path) {
        Ok(found) if found.file_type().is_socket() => {}
        Ok(_) => return Err(SocketError::NoSocket(path.to_owned())),
        Err(error) if error.kind() == ErrorKind::NotFound => return Ok(false),
        Err(error) => {
            return Err(SocketError::System {
                path: path.to_owned(),
                error,
            })
        }
    }
    // The connection doesn't wait: a process that accepts nothing, with its queue full, answers too.
    match mio::net::UnixStream::connect(path) {
        Ok(_) => Ok(true),
        Err(error) => match error.kind() {
            ErrorKind::WouldBlock => Ok(true),
            ErrorKind::ConnectionRefused | ErrorKind::NotFound => Ok(false),
            _ => Err(SocketError::System {
                path: path.to_owned(),
                error,
            }),
        },
    }
}

/// Returns what tells a file from all others.
fn identity(path: &Path) -> io::Result<(u64, u64)> {
    let found = fs::symlink_metadata(path)?;
    Ok((found.dev(), found.ino()))
}

/// A folder that nobody else may enter.
struct PrivateFolder {
    path: PathBuf,
}

impl PrivateFolder {
    /// Makes one in `folder`. Its path is as short as the socket's: the system allows some hundred bytes.
    fn make(folder: &Path) -> io::Result<PrivateFolder> {
        let mut taken = io::Error::from(ErrorKind::AlreadyExists);
        for number in 0..ATTEMPTS {
            let path = folder.join(format!(".{}.{}", std::process::id(), number));
            match DirBuilder::new().mode(0o700).create(&path) {
                Ok(()) => return Ok(PrivateFolder { path }),
                Err(error) if error.kind() == ErrorKind::AlreadyExists => taken = error,
                Err(error) => return Err(error),
            }
        }
        Err(taken)
    }

    fn socket(&self) -> PathBuf {
        self.path.join(SOCKET)
    }

    fn aside(&self) -> PathBuf {
        self.path.join("t")
    }

    /// Takes the folder away. It is of no use any more, so nothing depends on whether that succeeds.
    fn remove(&self) {
        let _ = fs::remove_dir_all(&self.path);
    }
}

/// Removes the folders in `folder` that gateways left when they were killed at their start.
fn remove_left(folder: &Path) {
    for entry in fs::read_dir(folder).into_iter().flatten().flatten() {
        let path = entry.path();
        let process = entry.file_name().to_str().and_then(process_of);
        if process.map_or(false, |process| is_left(&path, process)) {
            // If that fails, as for a folder of another user, it stays.
            let _ = fs::remove_dir_all(&path);
        }
    }
}

/// Returns whether `path` is a folder that a process of this number made and that nobody uses.
fn is_left(path: &Path, process: u32) -> bool {
    let found = match fs::symlink_metadata(path) {
        Ok(found) if found.is_dir() => found,
        _ => return false,
    };
    if !matches!(name_is_taken(&path.join(SOCKET)), Ok(false)) {
        return false;
    }
    // A gateway that starts needs a moment from the folder to its socket.
    let age = found.modified().ok().and_then(|made| made.elapsed().ok());
    age.map_or(false, |age| age > MOMENT) || process == std::process::id() || !is_running(process)
}

/// Returns the number of the process that made a folder of this name, if a gateway makes such.
fn process_of(name: &str) -> Option<u32> {
    let (process, number) = name.strip_prefix('.')?.split_once('.')?;
    number.parse::<u32>().ok()?;
    process.parse().ok()
}

/// Returns whether there is a process of this number.
fn is_running(process: u32) -> bool {
    Path::new("/proc").join(process.to_string()).exists()
}

impl Drop for PrivateFolder {
    fn drop(&mut self) {
        self.remove();
    }
}

#[cfg(test)]
mod tests {
    use super::*;
    use crate::system::temporary::Folder;
    use std::os::unix::net::UnixStream;

    #[test]
    fn a_socket_has_its_mode_and_answers() {
        let folder = Folder::new("mode");
        let (mut socket, listener) = Socket::bind(&folder.0, 5432, 0o640).unwrap();
        let path = folder.0.join(".s.PGSQL.5432");
        assert!(!path.exists());
        socket.announce().unwrap();
        assert_eq!(
            fs::metadata(&path).unwrap().permissions().mode() & 0o7777,
            0o640
        );
        let _client = UnixStream::connect(&path).unwrap();
        listener.accept().unwrap();
        assert_eq!(folder.entries(), 1);
        drop(socket);
        assert_eq!(folder.entries(), 0);
    }

    #[test]
    fn a_stale_socket_is_taken_away() {
        let folder = Folder::new("stale");
        let path = folder.0.join(".s.PGSQL.1");
        drop(UnixListener::bind(&path).unwrap());
        assert!(path.exists());
        let (mut socket, _listener) = Socket::bind(&folder.0, 1, 0o600).unwrap();
        socket.announce().unwrap();
        UnixStream::connect(&path).unwrap();
        assert_eq!(folder.entries(), 1);
    }

    #[test]
    fn a_socket_that_answers_is_not_taken() {
        let folder = Folder::new("taken");
        let path = folder.0.join(".s.PGSQL.2");
        let (mut late, _late_listener) = Socket::bind(&folder.0, 2, 0o600).unwrap();
        let other = UnixListener::bind(&path).unwrap();
        assert!(matches!(
            Socket::bind(&folder.0, 2, 0o600).map(|_| ()),
            Err(SocketError::Answered(_))
        ));
        assert!(matches!(late.announce(), Err(SocketError::Answered(_))));
        drop(late);
        UnixStream::connect(&path).unwrap();
        other.accept().unwrap();
        assert_eq!(folder.entries(), 1);
    }

    #[test]
    fn another_kind_of_file_stays() {
        let folder = Folder::new("file");
        let path = folder.0.join(".s.PGSQL.3");
        fs::write(&path, "text").unwrap();
        assert!(matches!(
            Socket::bind(&folder.0, 3, 0o600).map(|_| ()),
            Err(SocketError::NoSocket(_))
        ));
        assert_eq!(fs::read(&path).unwrap(), b"text");
    }

    #[test]
    fn folders_of_killed_starts_are_removed() {
        let folder = Folder::new("left");
        // No process has a number above 2^22.
        let (dead, own) = (u32::MAX, std::process::id());
        for name in [
            format!(".{dead}.0"),
            format!(".{own}.7"),
            format!(".{dead}.1"),
        ] {
            fs::create_dir(folder.0.join(name)).unwrap();
        }
        drop(UnixListener::bind(folder.0.join(format!(".{dead}.1/s"))).unwrap());
        let kept = [".1.0".to_owned(), format!(".{dead}.2"), ".x.0".to_owned()];
        for name in &kept {
            fs::create_dir(folder.0.join(name)).unwrap();
        }
        let _starting = UnixListener::bind(folder.0.join(format!(".{dead}.2/s"))).unwrap();
        std::os::unix::fs::symlink("/nowhere", folder.0.join(format!(".{dead}.3"))).unwrap();
        let (socket, _listener) = Socket::bind(&folder.0, 5, 0o600).unwrap();
        // The new one's own is beside those that stay.
        assert_eq!(folder.entries(), kept.len() + 2);
        drop(socket);
        for name in &kept {
            assert!(folder.0.join(name).exists(), "{name}");
        }
        assert_eq!(folder.entries(), kept.len() + 1);
    }

    #[test]
    fn a_name_that_another_has_meanwhile_stays() {
        let folder = Folder::new("other");
        let path = folder.0.join(".s.PGSQL.4");
        let (mut socket, _listener) = Socket::bind(&folder.0, 4, 0o600).unwrap();
        socket.announce().unwrap();
        fs::remove_file(&path).unwrap();
        let _other = UnixListener::bind(&path).unwrap();
        drop(socket);
        UnixStream::connect(&path).unwrap();
    }
}
