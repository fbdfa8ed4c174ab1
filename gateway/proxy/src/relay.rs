//! The relay of one client's connection to a connection of its own at PostgreSQL.
//!
//! Messages go on one by one, so that what is reserved can be taken out of the stream; what is large passes in parts.

use std::future::Future;
use std::io;
use std::sync::atomic::{AtomicBool, Ordering};
use std::sync::{Arc, Mutex, MutexGuard, PoisonError};
use std::time::Duration;

use bytes::{Bytes, BytesMut};
use escrowd_pg::wire::frontend::startup_parameters;
use tokio::io::{AsyncRead, AsyncReadExt, AsyncWrite, AsyncWriteExt};
use tokio::sync::mpsc::unbounded_channel;
use tokio::sync::Notify;
use tokio::time::timeout;

use crate::error::Error;
use crate::expected::Track;
use crate::frames::{Frames, Startup};
use crate::hub::Hub;
use crate::own;
use crate::protocol::{Connection, Ownership};
use crate::replies::Replies;
use crate::requests::Requests;
use crate::sasl;
use crate::stream::{Outgoing, Stream};
use crate::target::{LoginError, Target};
use crate::tls::{self, Acceptor};

/// How long a client may take to its StartupMessage.
pub const STARTUP: Duration = Duration::from_secs(10);

/// The bytes that are read at once, and the most that are kept unsent.
pub const CHUNK: usize = 65_536;

/// How long a client may take to what it was sent last, once its connection has ended.
const FAREWELL: Duration = Duration::from_secs(60);

/// What the proxy serves clients with.
#[derive(Clone)]
pub struct Service {
    /// The hub.
    pub hub: Arc<Hub>,
    /// PostgreSQL.
    pub target: Arc<Target>,
    /// TLS for clients.
    pub acceptor: Option<Arc<Acceptor>>,
    /// How long a COMMIT waits for its fold.
    pub fold_wait: Duration,
}

/// What both directions of a connection share. One task polls them in turn, so nobody ever waits for a lock.
pub struct Shared {
    track: Mutex<Track>,
    /// Something was answered.
    pub changed: Notify,
    is_engaged: AtomicBool,
    waits: AtomicBool,
    is_writing: AtomicBool,
    has_turn: AtomicBool,
}

/// The turn of a connection, for which others wait. While it has it, it waits for nothing of its client's.
pub struct Turn<'a>(&'a Shared);

impl Drop for Turn<'_> {
    fn drop(&mut self) {
        self.0.has_turn.store(false, Ordering::Relaxed);
    }
}

impl Shared {
    fn new() -> Shared {
        Shared {
            track: Mutex::new(Track::new()),
            changed: Notify::new(),
            is_engaged: AtomicBool::new(false),
            waits: AtomicBool::new(true),
            is_writing: AtomicBool::new(false),
            has_turn: AtomicBool::new(false),
        }
    }

    /// Returns what is expected and known.
    pub fn track(&self) -> MutexGuard<'_, Track> {
        self.track.lock().unwrap_or_else(PoisonError::into_inner)
    }

    /// The hub is told of all replies from now on.
    pub fn engage(&self) {
        self.is_engaged.store(true, Ordering::Relaxed);
    }

    /// The hub has nothing of the connection's any more.
    pub fn disengage(&self) {
        self.is_engaged.store(false, Ordering::Relaxed);
    }

    /// Returns whether the hub is told of all replies.
    pub fn is_engaged(&self) -> bool {
        self.is_engaged.load(Ordering::Relaxed)
    }

    /// Whether a COMMIT waits for its fold.
    pub fn set_wait(&self, waits: bool) {
        self.waits.store(waits, Ordering::Relaxed);
    }

    /// Returns whether a COMMIT waits for its fold.
    pub fn waits(&self) -> bool {
        self.waits.load(Ordering::Relaxed)
    }

    /// Whether something is being written to the client, which may take nothing.
    pub fn set_writing(&self, is_writing: bool) {
        self.is_writing.store(is_writing, Ordering::Relaxed);
    }

    /// Waits until nothing is being written to the client.
    pub async fn until_written(&self) {
        while self.is_writing.load(Ordering::Relaxed) {
            self.changed.notified().await;
        }
    }

    /// Begins a turn for which others wait. Nothing is written to the client up to its end. None: something is being written.
    pub fn turn(&self) -> Option<Turn<'_>> {
        if self.is_writing.load(Ordering::Relaxed) {
            return None;
        }
        self.has_turn.store(true, Ordering::Relaxed);
        Some(Turn(self))
    }

    /// Returns whether others wait for this connection.
    pub fn has_turn(&self) -> bool {
        self.has_turn.load(Ordering::Relaxed)
    }
}

/// Serves a client until either side ends.
pub async fn serve(client: Stream, service: &Service) -> Result<(), Error> {
    let target = &service.target;
    let acceptor = service.acceptor.as_deref();
    let mut input = BytesMut::new();
    let (mut client, first) = match timeout(STARTUP, tls::begin(client, &mut input, acceptor)).await
    {
        Ok(Ok(Some(begun))) => begun,
        Ok(Ok(None)) => return Ok(()),
        Ok(Err(error)) => return Err(error),
        Err(_) => return Err(Error::Late),
    };
    match first {
        Startup::Tls | Startup::Gss => Ok(()),
        Startup::Cancel(packet) => {
            let mut server = connect(service).await.map_err(Error::Unreachable)?;
            server.write_all(&packet).await?;
            server.flush().await?;
            // PostgreSQL closes it once the cancel is sent on; the client waits for that.
            while server.read_buf(&mut input).await? > 0 {}
            Ok(())
        }
        Startup::Message(packet) => {
            if is_served(&packet, target) && service.hub.ownership() == Ownership::Elsewhere {
                // A client goes on to its next host.
                let bytes = own::fatal("57P03", &Error::NotOwner.to_string());
                client.write_all(&bytes).await?;
                client.shutdown().await?;
                return Err(Error::NotOwner);
            }
            let mut server = match connect(service).await {
                Ok(server) => server,
                Err(error) => {
                    let message = format!("PostgreSQL cannot be reached: {error}");
                    client.write_all(&own::fatal("57P03", &message)).await?;
                    client.shutdown().await?;
                    return Err(Error::Unreachable(error));
                }
            };
            server.write_all(&packet).await?;
            server.flush().await?;
            let mut output = BytesMut::new();
            let guarded = target.is_guarded(user(&packet));
            let (from, to) = (&mut input, &mut output);
            match authenticate(&mut client, &mut server, from, to, guarded).await? {
                true if is_served(&packet, target) => {
                    reserve(client, server, (input, output), service).await
                }
                true => relay(client, server, input, output).await,
                false => Ok(()),
            }
        }
    }
}

/// Connects to the server that takes writes, as far as the keeper knows it; or else to the first that accepts, unless that
/// may be a standby.
async fn connect(service: &Service) -> io::Result<Stream> {
    let target = &service.target;
    let known = match service.hub.address() {
        Some(address) => target.connect_to(&address).await,
        None => Err(io::Error::new(
            io::ErrorKind::NotConnected,
            LoginError::ReadOnly,
        )),
    };
    match known {
        Err(error) if !target.asks_for_writes() => {
            tracing::debug!("{error}");
            target.connect().await
        }
        known => known,
    }
}

/// Relays the client's authentication. Returns true behind AuthenticationOk, and false if a side has ended. What was read
/// behind it is in `input` and `output`.
///
/// # Errors
///
/// Fails as a relay does, if the client wants its authentication bound to a certificate that is not PostgreSQL's, and if
/// it is `guarded` and PostgreSQL lets it in without a question.
pub async fn authenticate(
    client: &mut Stream,
    server: &mut Stream,
    input: &mut BytesMut,
    output: &mut BytesMut,
    guarded: bool,
) -> Result<bool, Error> {
    let (mut is_asked, mut is_waiting) = (false, false);
    let may_bind = client.certificate() == server.certificate();
    let is_tls = client.certificate().is_some() && server.certificate().is_some();
    let (mut from_client, mut from_server) = (Frames::default(), Frames::default());
    loop {
        while let Some(piece) = from_server.next(output)? {
            is_asked |= sasl::asks(piece.bytes());
            is_waiting |= sasl::waits(piece.bytes());
            if guarded && !is_asked && sasl::is_ok(piece.bytes()) {
                client.write_all(&own::fatal("28000", UNASKED)).await?;
                client.shutdown().await?;
                return Err(Error::Unasked);
            }
            match sasl::without_binding(piece.bytes()).filter(|_| !may_bind) {
                Some(changed) => client.write_all(&changed).await?,
                None => client.write_all(piece.bytes()).await?,
            }
            if sasl::is_ok(piece.bytes()) {
                client.flush().await?;
                return Ok(true);
            }
        }
        client.flush().await?;
        // What PostgreSQL does not wait for is a statement that the client has sent in advance. It is looked at later.
        let is_early = |frames: &Frames, input: &BytesMut, is_waiting: bool| {
            !is_waiting && !frames.is_amid() && !matches!(input.first(), None | Some(b'X'))
        };
        while !is_early(&from_client, input, is_waiting) {
            let piece = match from_client.next(input)? {
                Some(piece) => piece,
                None => break,
            };
            if is_tls && !may_bind && sasl::misses_binding(piece.bytes()) {
                client.write_all(&own::fatal("28000", NO_BINDING)).await?;
                client.shutdown().await?;
                return Err(Error::Binding);
            }
            server.write_all(piece.bytes()).await?;
            is_waiting = false;
        }
        server.flush().await?;
        let may_read = !is_early(&from_client, input, is_waiting);
        let read = tokio::select! {
            read = server.read_buf(output) => read?,
            read = client.read_buf(input), if may_read => read?,
        };
        if read == 0 {
            return Ok(false);
        }
    }
}

/// Returns the user of a StartupMessage.
fn user(packet: &[u8]) -> Option<&str> {
    let parameters = packet.get(8..).and_then(startup_parameters)?;
    let user = parameters.iter().rev().find(|(name, _)| *name == "user");
    user.map(|(_, user)| *user)
}

/// Returns whether a StartupMessage is for the database of the proxy's, and for statements.
fn is_served(packet: &[u8], target: &Target) -> bool {
    let parameters = packet.get(8..).and_then(startup_parameters);
    let parameters = parameters.unwrap_or_default();
    let value = |name: &str| {
        let mut found = parameters.iter().filter(|(known, _)| *known == name);
        found.next_back().map(|(_, value)| *value)
    };
    let config = target.config();
    let own = config.get_dbname().or_else(|| config.get_user());
    let replicates = !matches!(
        value("replication"),
        None | Some("off" | "false" | "no" | "0")
    );
    !replicates && own.is_some() && own == value("database").or_else(|| value("user"))
}

/// Forgets a connection when its task ends, however that is.
struct Open<'a>(&'a Hub, Connection);

impl Drop for Open<'_> {
    fn drop(&mut self) {
        self.0.close(self.1);
    }
}

/// Relays both directions, but for reservations, until one of them ends.
async fn reserve(
    client: Stream,
    server: Stream,
    (input, output): (BytesMut, BytesMut),
    service: &Service,
) -> Result<(), Error> {
    let (from_client, to_client) = client.split()?;
    let (from_server, to_server) = server.split()?;
    let mut to_client = Outgoing::new(to_client);
    let ends = service.hub.open();
    let open = Open(&service.hub, ends.connection);
    let shared = Shared::new();
    let (own, replies) = unbounded_channel();
    let (resume, resumed) = unbounded_channel();
    let requests = Requests::new(
        from_client,
        to_server,
        &shared,
        &service.hub,
        (ends.connection, ends.mail),
        replies,
        resume,
    );
    let answers = Replies {
        from: from_server,
        to: &mut to_client,
        shared: &shared,
        hub: &service.hub,
        connection: ends.connection,
        delivered: ends.delivered,
        own,
        resumed,
        fold_wait: service.fold_wait,
        tag: Bytes::new(),
        whole: None,
        row: None,
    };
    let ended = tokio::select! {
        ended = until_end(requests.run(input), answers.run(output)) => ended,
        _ = ends.end.notified() => Err(Error::Ended),
    };
    // What it has reserved waits no longer for a client that may take nothing.
    drop(open);
    let last = ended.as_ref().err().and_then(Error::fatal);
    let farewell = to_client.end(last.as_deref().unwrap_or_default());
    // The client may be gone.
    let _ = timeout(FAREWELL, farewell).await;
    ended
}

/// Relays both directions until one of them ends. `input` and `output` were read from the client and from the server.
async fn relay(
    client: Stream,
    server: Stream,
    input: BytesMut,
    output: BytesMut,
) -> Result<(), Error> {
    let (from_client, to_client) = client.split()?;
    let (from_server, to_server) = server.split()?;
    let there = pass(from_client, to_server, input);
    let back = pass(from_server, to_client, output);
    until_end(there, back).await
}

/// Waits for the end of PostgreSQL's side, which follows that of the client's: what the client sent before it is answered, as by
/// PostgreSQL itself. An end that the proxy makes comes at once.
async fn until_end(
    there: impl Future<Output = Result<(), Error>>,
    back: impl Future<Output = Result<(), Error>>,
) -> Result<(), Error> {
    tokio::pin!(there, back);
    tokio::select! {
        ended = &mut back => ended,
        ended = &mut there => match ended {
            Ok(()) => back.await,
            // The server's socket may still hold a last error for a client that reads on.
            Err(Error::System(_)) => back.await.and(ended),
            ended => ended,
        },
    }
}

/// Passes the messages of one direction until its end, and shuts the other side's direction then.
async fn pass(
    mut from: impl AsyncRead + Unpin,
    mut to: impl AsyncWrite + Unpin,
    input: BytesMut,
) -> Result<(), Error> {
    let passed = pass_messages(&mut from, &mut to, input).await;
    let shut = to.shutdown().await;
    passed.and(shut.map_err(Error::from))
}

async fn pass_messages(
    from: &mut (impl AsyncRead + Unpin),
    to: &mut (impl AsyncWrite + Unpin),
    mut input: BytesMut,
) -> Result<(), Error> {
    let mut frames = Frames::default();
    loop {
        while let Some(piece) = frames.next(&mut input)? {
            to.write_all(piece.bytes()).await?;
        }
        to.flush().await?;
        input.reserve(CHUNK);
        if from.read_buf(&mut input).await? == 0 {
            return Ok(());
        }
    }
}

/// What a client is told that comes as the proxy's own role.
const UNASKED: &str =
    "the role of escrowd-proxy needs a password here; change pg_hba.conf for its connections";

/// What a client is told that can neither bind its authentication nor go on without it.
const NO_BINDING: &str =
    "SCRAM channel binding does not pass escrowd-proxy; connect with channel_binding=disable";
