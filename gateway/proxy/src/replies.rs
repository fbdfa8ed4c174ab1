//! What PostgreSQL sends: it goes on to the client, but for what answers the proxy itself.
//!
//! While a transaction has reservations, each end that a reply tells of is told to the hub, and a ReadyForQuery waits until
//! the hub lets it go on.

use std::sync::Arc;
use std::time::Duration;

use bytes::{Bytes, BytesMut};
use tokio::io::AsyncReadExt;
use tokio::sync::mpsc::error::SendError;
use tokio::sync::mpsc::{UnboundedReceiver, UnboundedSender};
use tokio::time::sleep;

use crate::error::Error;
use crate::expected::Reply;
use crate::frames::{Frames, Piece};
use crate::hub::Hub;
use crate::own;
use crate::protocol::{Connection, Event, Status};
use crate::relay::{Shared, CHUNK};
use crate::requests::{OwnReply, Resumed};
use crate::stream::{Outgoing, Reader};

/// How long a client with reservations may take nothing before the proxy asks whether PostgreSQL has ended its session.
const STUCK: Duration = Duration::from_secs(3);

/// The direction from PostgreSQL to a client.
pub struct Replies<'a> {
    /// PostgreSQL.
    pub from: Reader,
    /// The client.
    pub to: &'a mut Outgoing,
    /// What both directions share.
    pub shared: &'a Shared,
    /// The hub.
    pub hub: &'a Arc<Hub>,
    /// The number of the connection.
    pub connection: Connection,
    /// ReadyForQuery may go on.
    pub delivered: UnboundedReceiver<()>,
    /// Takes own replies.
    pub own: UnboundedSender<OwnReply>,
    /// What is to be written before it goes on behind an own reply.
    pub resumed: UnboundedReceiver<Resumed>,
    /// How long a COMMIT waits for its fold.
    pub fold_wait: Duration,
    /// The command tag at the end of a Query, which goes together with the ReadyForQuery behind it.
    pub tag: Bytes,
    /// A large message that is looked at as a whole, as far as it has come.
    pub whole: Option<BytesMut>,
    /// The row of the own reply that is under way.
    pub row: Option<Vec<Option<Bytes>>>,
}

impl Replies<'_> {
    /// Serves PostgreSQL until it ends. `input` was read before. What the client has not taken yet stays to be written.
    pub async fn run(mut self, mut input: BytesMut) -> Result<(), Error> {
        let mut frames = Frames::default();
        loop {
            while let Some(piece) = frames.next(&mut input)? {
                match piece {
                    Piece::Message(kind, bytes) => self.message(kind, &bytes).await?,
                    Piece::Part(bytes, is_first) => {
                        self.part(&bytes, is_first, frames.is_amid()).await?;
                    }
                }
                if self.to.len() > CHUNK {
                    self.flush().await?;
                }
            }
            if self.tag.is_empty() {
                self.flush().await?;
            }
            input.reserve(CHUNK);
            tokio::select! {
                biased;
                // The other direction answers by itself.
                Some(resumed) = self.resumed.recv() => self.resume(&resumed),
                read = self.from.read_buf(&mut input) => if read? == 0 {
                    return Ok(());
                },
            }
        }
    }

    fn resume(&mut self, resumed: &Resumed) {
        match resumed.is_end {
            true => self.tag = resumed.bytes.clone(),
            false => self.to.push(&resumed.bytes),
        }
    }

    /// Writes to the client what there is, unless others wait for an own reply: then a client that takes nothing would stop them.
    async fn flush(&mut self) -> Result<(), Error> {
        if !self.to.is_empty() && !self.shared.has_turn() {
            self.shared.set_writing(true);
            tokio::select! {
                biased;
                written = self.to.flush() => written?,
                _ = until_forsaken(self.shared, self.hub) => return Err(Error::Forsaken),
            }
            self.shared.set_writing(false);
            self.shared.changed.notify_one();
        }
        Ok(())
    }

    /// Takes a part of a large message: it passes on, unless the message has to be looked at as a whole.
    async fn part(&mut self, bytes: &[u8], is_first: bool, is_cut: bool) -> Result<(), Error> {
        if is_first && self.shared.track().needs_whole(bytes[0]) {
            self.whole = Some(BytesMut::new());
        }
        match &mut self.whole {
            Some(whole) => whole.extend_from_slice(bytes),
            None => {
                if is_first {
                    self.large(bytes[0])?;
                }
                self.to.push_part(bytes, is_cut);
            }
        }
        if is_cut {
            return Ok(());
        }
        match self.whole.take() {
            Some(whole) => self.message(whole[0], &whole.freeze()).await,
            None => Ok(()),
        }
    }

    /// Takes the kind of a message that passes in parts. No reply to the proxy itself is as large.
    fn large(&mut self, kind: u8) -> Result<(), Error> {
        let reply = self.shared.track().reply(kind, &[]);
        let connection = self.connection;
        match reply {
            Reply::Pass => {}
            Reply::Failed {
                skips_own: false, ..
            } => {
                if self.shared.is_engaged() {
                    self.hub.handle(Event::Failed { connection });
                }
                self.tag.clear();
            }
            _ => return Err(Error::Stray(char::from(kind))),
        }
        self.shared.changed.notify_one();
        Ok(())
    }

    async fn message(&mut self, kind: u8, bytes: &Bytes) -> Result<(), Error> {
        let reply = self.shared.track().reply(kind, &bytes[5..]);
        let connection = self.connection;
        let is_engaged = self.shared.is_engaged();
        match reply {
            Reply::Pass => {
                // Settings and notifications come behind the end of a transaction.
                if matches!(kind, b'S' | b'A') {
                    self.push_tag();
                }
                self.to.push(bytes);
            }
            Reply::Completed(tag) => {
                if is_engaged {
                    self.hub.handle(Event::Completed { connection, tag });
                }
                match self.shared.track().ends_string() {
                    true => self.tag = bytes.clone(),
                    false => self.to.push(bytes),
                }
            }
            Reply::Failed { skips_own, moved } => {
                if is_engaged {
                    self.hub.handle(Event::Failed { connection });
                }
                self.tag.clear();
                if let Some(row) = own::kept_row(bytes) {
                    self.shared.track().refuse_row(row);
                }
                match moved {
                    0 => self.to.push(bytes),
                    moved => self.to.push(&own::moved(bytes, moved as i64)),
                }
                if skips_own {
                    self.hand_over(OwnReply::Skipped).await;
                }
            }
            Reply::Ready(status) => {
                if is_engaged {
                    self.keep_back(status).await?;
                }
                self.shared.track().ready(status);
                self.push_tag();
                self.to.push(bytes);
            }
            Reply::Kept => self.shared.track().keep_row(bytes.clone()),
            Reply::Own => {
                if kind == b'D' {
                    self.row = own::row(bytes);
                }
            }
            Reply::OwnTag => {
                let tag = bytes.slice(5..bytes.len().saturating_sub(1).max(5));
                self.row = Some(vec![Some(tag)]);
            }
            Reply::OwnDone => {
                let row = self.row.take();
                self.hand_over(OwnReply::Row(row)).await;
            }
            Reply::OwnFailed => {
                self.row = None;
                self.hand_over(OwnReply::Failed(bytes.clone())).await;
            }
            Reply::Stray => return Err(Error::Stray(char::from(kind))),
        }
        if reply != Reply::Pass || self.shared.track().is_settled() {
            self.shared.changed.notify_one();
        }
        Ok(())
    }

    fn push_tag(&mut self) {
        self.to.push(&std::mem::take(&mut self.tag));
    }

    /// Hands an own reply over, and waits until what the client gets behind it is known.
    async fn hand_over(&mut self, reply: OwnReply) {
        let handed = self.own.send(reply);
        self.shared.changed.notify_one();
        match handed {
            Ok(()) => {
                if let Some(resumed) = self.resumed.recv().await {
                    self.resume(&resumed);
                }
            }
            // The other direction can write nothing more to PostgreSQL, whose last words are the client's.
            Err(SendError(OwnReply::Failed(error))) => self.to.push(&error),
            Err(_) => {}
        }
    }

    /// Keeps a ReadyForQuery back until the hub delivers it, or the client has waited long enough.
    async fn keep_back(&mut self, status: Status) -> Result<(), Error> {
        let connection = self.connection;
        let goes_on = self.shared.track().goes_on();
        self.hub.handle(Event::Ready {
            connection,
            status,
            goes_on,
        });
        let wait = match self.shared.waits() {
            true => self.fold_wait,
            false => Duration::ZERO,
        };
        let delivered = tokio::select! {
            biased;
            delivered = self.delivered.recv() => delivered,
            _ = sleep(wait) => {
                self.hub.handle(Event::WaitOver { connection });
                self.delivered.recv().await
            }
        };
        delivered.ok_or(Error::Ended)?;
        if status == Status::Idle && self.hub.is_idle(connection) {
            self.shared.disengage();
        }
        Ok(())
    }
}

/// Waits until PostgreSQL has ended the session of a client with reservations. That end is behind what the client has not taken
/// yet, so it is not seen in the stream.
async fn until_forsaken(shared: &Shared, hub: &Hub) {
    loop {
        sleep(STUCK).await;
        let process = shared.track().process;
        if shared.is_engaged() && hub.has_ended(process).await {
            return;
        }
    }
}
