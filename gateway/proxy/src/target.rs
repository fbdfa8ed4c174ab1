//! The PostgreSQL behind the proxy.

use std::io;
use std::ops::Deref;
use std::os::unix::ffi::OsStringExt;
use std::path::PathBuf;
use std::sync::atomic::{AtomicBool, Ordering};
use std::sync::Arc;
use std::time::Duration;

use futures_util::future::poll_fn;
use tokio::net::{TcpStream, UnixStream};
use tokio::task::JoinHandle;
use tokio::time::timeout;
use tokio_postgres::config::{Host, SslMode, TargetSessionAttrs};
use tokio_postgres::tls::NoTlsStream;
use tokio_postgres::{AsyncMessage, Client, Config, Connection, NoTls};

use crate::conninfo::{Conninfo, Keepalives};
use crate::stream::{keep_alive, Stream};
use crate::tls::{BadFile, Connector};

/// How long a host may take to accept a connection, and to let the proxy in, if the connection string has no
/// `connect_timeout`.
const PATIENCE: Duration = Duration::from_secs(5);

/// The path of search of the proxy's own connections. By another one a function or an operator that anybody has made, who may create
/// in the schema public for instance, could stand for one of PostgreSQL's, and run with the rights of the proxy.
const PATH: &str = "-c search_path=pg_catalog,pg_temp";

/// Where one server listens.
#[derive(Clone, Debug, PartialEq, Eq)]
pub enum Address {
    /// A host and a port.
    Tcp(String, u16),
    /// The path of a socket.
    Unix(PathBuf),
}

/// The servers that a connection string of libpq names, in its order.
#[derive(Clone, Debug)]
pub struct Target {
    addresses: Vec<Address>,
    connector: Connector,
    config: Config,
    keepalives: Option<Keepalives>,
    /// Whether the proxy's role was seen to be no superuser.
    is_ordinary: Arc<AtomicBool>,
}

/// Why a connection string names no servers.
#[derive(Debug, thiserror::Error)]
pub enum BadTarget {
    /// It names no host, or not as many ports as hosts.
    #[error(
        "the connection string of --postgres needs host=, and one port or as many ports as hosts"
    )]
    Hosts,
    /// A file of certificates cannot be used.
    #[error("the root certificates of --postgres cannot be used: {0}")]
    Roots(#[from] BadFile),
}

/// Why the proxy has no connection of its own.
#[derive(Debug, thiserror::Error)]
pub enum LoginError {
    /// No server accepts connections. It has the error of the last one.
    #[error("PostgreSQL cannot be reached: {0}")]
    Unreachable(io::Error),
    /// PostgreSQL refused it.
    #[error("{0}")]
    Postgres(#[from] tokio_postgres::Error),
    /// The servers that answer are standbys, or by default read-only where the string has `target_session_attrs=read-write`.
    #[error("no server takes writes")]
    ReadOnly,
}

/// A connection of the proxy's own. The second half has to be polled, for instance by a [`Session`].
pub type Own = (Client, Connection<Stream, NoTlsStream>);

/// Takes what a notification says. Anybody may notify, as often as he wants.
pub type Heard = Arc<dyn Fn(&str) + Send + Sync>;

/// A connection of the proxy's own with the task that serves it. It is closed when it is dropped, also if PostgreSQL is
/// silent and the task would wait for an answer.
#[derive(Debug)]
pub struct Session {
    client: Client,
    task: JoinHandle<()>,
}

impl From<Own> for Session {
    fn from((client, connection): Own) -> Session {
        let task = tokio::spawn(async {
            // Whoever asks gets its error.
            let _ = connection.await;
        });
        Session { client, task }
    }
}

impl Session {
    /// Serves a connection, and hands over what each notification says. Its end is news too, since something may be missed.
    pub fn listening(own: Own, heard: Heard) -> Session {
        let (client, mut connection) = own;
        let task = tokio::spawn(async move {
            while let Some(Ok(message)) = poll_fn(|context| connection.poll_message(context)).await
            {
                if let AsyncMessage::Notification(it) = message {
                    heard(it.payload());
                }
            }
            drop(connection);
            heard("");
        });
        Session { client, task }
    }
}

impl Deref for Session {
    type Target = Client;

    fn deref(&self) -> &Client {
        &self.client
    }
}

impl Drop for Session {
    fn drop(&mut self) {
        self.task.abort();
    }
}

impl Target {
    /// Returns the servers of a connection string.
    ///
    /// # Errors
    ///
    /// See [`BadTarget`].
    pub fn of(conninfo: &Conninfo) -> Result<Target, BadTarget> {
        let mut config = conninfo.config.clone();
        let (hosts, ports) = (config.get_hosts(), config.get_ports());
        if hosts.is_empty() || ports.len() > 1 && ports.len() != hosts.len() {
            return Err(BadTarget::Hosts);
        }
        let address = |(place, host): (usize, &Host)| {
            let port = ports.get(place).or_else(|| ports.first());
            let port = port.copied().unwrap_or(5432);
            match host {
                Host::Tcp(name) => Address::Tcp(name.clone(), port),
                Host::Unix(folder) => Address::Unix(folder.join(format!(".s.PGSQL.{port}"))),
            }
        };
        let addresses = hosts.iter().enumerate().map(address).collect();
        if let (None, Some(password)) = (config.get_password(), std::env::var_os("PGPASSWORD")) {
            config.password(password.into_vec());
        }
        // The stream is encrypted before tokio-postgres has it.
        config.ssl_mode(SslMode::Disable);
        Ok(Target {
            addresses,
            connector: conninfo.connector()?,
            config,
            keepalives: conninfo.keepalives,
            is_ordinary: Arc::default(),
        })
    }

    /// Returns whether a client of this name has to prove who it is: the proxy's own role may read what signs its notes. If
    /// the role is a superuser, so may everybody whom PostgreSQL lets in as one.
    pub fn is_guarded(&self, user: Option<&str>) -> bool {
        user.is_some() && user == self.config.get_user() && self.is_ordinary.load(Ordering::Relaxed)
    }

    /// Returns the connection string's other parameters.
    pub fn config(&self) -> &Config {
        &self.config
    }

    /// Returns the servers.
    pub fn addresses(&self) -> &[Address] {
        &self.addresses
    }

    /// Returns whether only a server that takes writes will do: the connection string names several, and asks for that one.
    pub fn asks_for_writes(&self) -> bool {
        let asked = self.config.get_target_session_attrs();
        asked == TargetSessionAttrs::ReadWrite && self.addresses.len() > 1
    }

    /// Connects to the first server that accepts.
    ///
    /// # Errors
    ///
    /// Fails with the error of the last server if none does.
    pub async fn connect(&self) -> io::Result<Stream> {
        let mut last = io::Error::from(io::ErrorKind::NotFound);
        for address in &self.addresses {
            match self.connect_to(address).await {
                Ok(stream) => return Ok(stream),
                Err(error) => last = error,
            }
        }
        Err(last)
    }

    /// Connects to one server, encrypted as the connection string says.
    ///
    /// # Errors
    ///
    /// Fails if the server does not accept in time, or TLS cannot be had as it is asked for.
    pub async fn connect_to(&self, address: &Address) -> io::Result<Stream> {
        let connecting = async {
            match address {
                Address::Tcp(name, port) => {
                    let socket = TcpStream::connect((name.as_str(), *port)).await?;
                    if let Some(keepalives) = self.keepalives {
                        keep_alive(&socket, keepalives)?;
                    }
                    self.connector.encrypt(socket, name).await
                }
                Address::Unix(path) => Ok(Stream::Unix(UnixStream::connect(path).await?)),
            }
        };
        match timeout(self.patience(), connecting).await {
            Ok(connected) => connected,
            Err(_) => Err(io::ErrorKind::TimedOut.into()),
        }
    }

    /// Returns how long each server may take.
    fn patience(&self) -> Duration {
        let chosen = self.config.get_connect_timeout();
        chosen.copied().unwrap_or(PATIENCE)
    }

    /// Opens a connection of the proxy's own at the first server that lets it in within the time of a host, and takes writes. It
    /// begins with `first`, if that is given. `name` and `options` are its `application_name` and `options`.
    ///
    /// # Errors
    ///
    /// Fails with the error of the last server if none does.
    pub async fn login(
        &self,
        first: Option<&Address>,
        name: &str,
        options: &str,
    ) -> Result<(Own, &Address), LoginError> {
        let mut last = LoginError::Unreachable(io::ErrorKind::NotFound.into());
        let is_first = |address: &&Address| Some(*address) == first;
        let (firsts, others): (Vec<_>, Vec<_>) = self.addresses.iter().partition(is_first);
        for address in firsts.into_iter().chain(others) {
            match timeout(self.patience(), self.login_at(address, name, options)).await {
                Ok(Ok(own)) => return Ok((own, address)),
                Ok(Err(error)) => last = error,
                Err(_) => last = LoginError::Unreachable(io::ErrorKind::TimedOut.into()),
            }
        }
        Err(last)
    }

    async fn login_at(
        &self,
        address: &Address,
        name: &str,
        options: &str,
    ) -> Result<Own, LoginError> {
        let stream = self.connect_to(address).await;
        let stream = stream.map_err(LoginError::Unreachable)?;
        let mut config = self.config.clone();
        config.application_name(name);
        config.options(&format!("{options} {PATH}"));
        let (client, mut connection) = config.connect_raw(stream, NoTls).await?;
        let is_ordinary = connection.parameter("is_superuser") == Some("off");
        self.is_ordinary.store(is_ordinary, Ordering::Relaxed);
        // The proxy writes whatever the default of its role or its database is, and takes its time. PostgreSQL has transaction_timeout
        // since 17, and refuses it in `options` before.
        let query = "SELECT pg_catalog.pg_is_in_recovery(), pg_catalog.current_setting('transaction_read_only') = 'on', \
            pg_catalog.set_config('default_transaction_read_only', 'off', false), \
            (SELECT pg_catalog.set_config(name, '0', false) FROM pg_catalog.pg_settings WHERE name = 'transaction_timeout')";
        let asked = client.query_one(query, &[]);
        let answer = tokio::select! {
            row = asked => row?,
            ended = &mut connection => return Err(match ended {
                Ok(()) => LoginError::Unreachable(io::ErrorKind::ConnectionReset.into()),
                Err(error) => error.into(),
            }),
        };
        let asks = self.config.get_target_session_attrs() == TargetSessionAttrs::ReadWrite;
        if answer.get(0) || asks && answer.get(1) {
            return Err(LoginError::ReadOnly);
        }
        Ok((client, connection))
    }
}

#[cfg(test)]
mod tests {
    use socket2::SockRef;

    use super::*;
    use crate::args::Place;
    use crate::listener::Listener;

    #[tokio::test]
    async fn connections_are_kept_alive_as_the_string_says() {
        let listener = tokio::net::TcpListener::bind("127.0.0.1:0").await.unwrap();
        let port = listener.local_addr().unwrap().port();
        let served = format!("host=127.0.0.1 port={port} sslmode=disable");
        for (more, expected) in [
            ("", Some((30, 10, 3))),
            ("keepalives_idle=7 keepalives_count=2", Some((7, 10, 2))),
            ("keepalives_interval=1", Some((30, 1, 3))),
            ("keepalives=0", None),
        ] {
            let target = Target::of(&format!("{served} {more}").parse().unwrap()).unwrap();
            assert_eq!(kept(&target.connect().await.unwrap()), expected, "{more}");
        }
    }

    #[tokio::test]
    async fn clients_are_asked_whether_they_are_there() {
        let place = Place::Address("127.0.0.1:0".to_owned());
        let listener = Listener::open(&place, 0, 0).await.unwrap();
        let address = match &listener {
            Listener::Tcp(socket) => socket.local_addr().unwrap(),
            Listener::Unix(..) => panic!("it is no TCP"),
        };
        let _client = TcpStream::connect(address).await.unwrap();
        assert_eq!(kept(&listener.accept().await.unwrap()), Some((30, 10, 3)));
    }

    /// Returns how a connection is kept alive: `keepalives_idle`, `keepalives_interval` and `keepalives_count`. The time in which
    /// what was sent has to be taken has no limit: a side that waits for a lock takes nothing.
    fn kept(stream: &Stream) -> Option<(u64, u64, u32)> {
        let socket = match stream {
            Stream::Tcp(socket) => SockRef::from(socket),
            Stream::Unix(_) | Stream::Tls(..) => panic!("it is no TCP"),
        };
        assert_eq!(socket.tcp_user_timeout().unwrap(), None);
        socket.keepalive().unwrap().then(|| {
            (
                socket.keepalive_time().unwrap().as_secs(),
                socket.keepalive_interval().unwrap().as_secs(),
                socket.keepalive_retries().unwrap(),
            )
        })
    }

    fn of(text: &str) -> Option<Vec<Address>> {
        Some(Target::of(&text.parse().unwrap()).ok()?.addresses)
    }

    #[test]
    fn hosts_and_ports_are_those_of_libpq() {
        let tcp = |name: &str, port| Address::Tcp(name.to_string(), port);
        assert_eq!(
            of("host=a,b dbname=shop"),
            Some(vec![tcp("a", 5432), tcp("b", 5432)])
        );
        assert_eq!(
            of("host=a,b port=1,2"),
            Some(vec![tcp("a", 1), tcp("b", 2)])
        );
        assert_eq!(of("host=a,b port=7"), Some(vec![tcp("a", 7), tcp("b", 7)]));
        let socket = Address::Unix(PathBuf::from("/run/pg/.s.PGSQL.5433"));
        assert_eq!(of("host=/run/pg port=5433"), Some(vec![socket]));
        assert_eq!(of("dbname=shop"), None);
        assert_eq!(of("host=a,b,c port=1,2"), None);
    }
}
