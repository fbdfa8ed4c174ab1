//! UPDATEs that are reservations, and COMMITs.
//!
//! A change is asked of the server, and then noted in the client's own transaction (rules 3 to 6). Nothing else of the
//! client's is sent in between. What an UPDATE asks for besides is PostgreSQL's.

use std::sync::Arc;
use std::time::{Duration, Instant};

use bytes::Bytes;
use escrowd_pg::decimal::Decimal;
use escrowd_pg::statement::constant::Datum;
use tokio::time::timeout;

use crate::catalog::{Catalog, Table};
use crate::error::Error;
use crate::expected::{Expect, Kept, Left};
use crate::hub::Mail;
use crate::json;
use crate::note::{changes_array, Grant, Noted, Secret};
use crate::own::{self, Value};
use crate::parameters::{key_text, Parameters};
use crate::protocol::{Answer, Event, Line, Status};
use crate::refusals::{words, Words};
use crate::requests::{End, OwnReply, Requests, Rest, Sent};
use crate::server::Refusal;
use crate::update::{Asked, Change, Deletion, Form, Key, Part};

/// How long an UPDATE waits until what is declared is known.
const CATALOG_WAIT: Duration = Duration::from_secs(5);

/// How long an UPDATE waits for a row that others have locked (rule 21).
const LOCK_WAIT: Duration = Duration::from_secs(1);

/// How long an UPDATE waits for the owner to serve (rule 21). All else has limits of its own.
const OWNER_WAIT: Duration = Duration::from_secs(20);

/// How long PostgreSQL may take to answer a greeting, for which others wait.
const GREETING_WAIT: Duration = Duration::from_secs(20);

/// The text that finds out what the client's name of a table means, and whether its COMMITs wait for their folds.
const MEANING: &str = "SELECT pg_catalog.to_regclass($1)::pg_catalog.oid::pg_catalog.int8, pg_catalog.current_setting('escrow.wait', true)";

/// The text that finds out the latter alone.
const WAIT: &str = "SELECT pg_catalog.current_setting('escrow.wait', true)";

/// The text that finds out whether the client's role may know what is reserved.
const MAY_KNOW: &str = "SELECT EXISTS (SELECT FROM pg_catalog.pg_roles AS r \
    WHERE r.rolname OPERATOR(pg_catalog.=) ANY ('{pg_monitor,escrow_proxy}'::pg_catalog.name[]) AND pg_catalog.pg_has_role(r.oid, 'USAGE'))";

/// The text that finds out whether functions of some of these names are aggregates, or return sets.
const KINDS: &str = "SELECT EXISTS (SELECT FROM pg_catalog.pg_proc WHERE proname OPERATOR(pg_catalog.=) ANY ($1::pg_catalog.name[]) AND (proretset OR prokind OPERATOR(pg_catalog.<>) 'f'))";

/// The text that tells what is reserved.
const SHOW: &str = "SELECT escrow.show($1)";

/// The text that greets a connection (rule 18).
const GREETING: &str = "SELECT escrow.greet($1, $2, $3)";

/// An UPDATE that is served.
struct Job<'a> {
    form: &'a Form,
    table: &'a Table,
    change: Change,
    /// The condition of the table's CHECKs that refuses where the statement's condition does not hold.
    condition: Option<usize>,
    sent: Sent<'a>,
    /// Whether no block is around it.
    alone: bool,
    /// Whether it is a transaction by itself: nothing has run in front of it, and its end comes next.
    is_whole: bool,
    /// Whether it is about one row, and asks for nothing else.
    is_single: bool,
}

impl Job<'_> {
    /// Returns how many characters of the client's text are in front of it.
    fn place(&self) -> i64 {
        match self.sent {
            Sent::Query(_) | Sent::Execute(..) => 0,
            Sent::Piece(_, place, _) => place as i64,
        }
    }
}

/// What the hub has decided of a row.
enum Decided {
    /// It is noted.
    Noted(OwnReply, End),
    /// Its note has failed, or was not sent.
    Failed(Option<(OwnReply, End)>),
    /// There is no such row.
    Missing,
    /// It is refused.
    Refused(Answer, Option<Refusal>),
}

/// What became of a row.
enum RowEnd {
    /// It is reserved, or changed. The other direction waits behind this reply.
    Done(OwnReply, End),
    /// There is no such row.
    Missing,
    /// The statement's condition does not hold.
    NotSo,
    /// An error has answered the client.
    Failed,
}

/// What became of a change without a reservation.
enum Here {
    /// It is done. The other direction waits behind this reply.
    Done(OwnReply),
    /// Somebody holds the row or has locked it.
    Not,
    /// The client sees no such row.
    Missing,
    /// An error has answered the client.
    Failed,
}

impl Requests<'_> {
    /// Passes a COMMIT, with a fold in front of what only this transaction holds (rule 13). If that fails, PostgreSQL skips
    /// the COMMIT, so that the transaction fails by an error.
    pub(crate) async fn commit(&mut self, sent: Sent<'_>) -> Result<(), Error> {
        if self.shared.is_engaged() {
            if sent.is_query() || self.shared.track().is_executing() {
                self.settle().await?;
            }
            if !self.know_wait().await? {
                self.pass_update(sent);
                return Ok(());
            }
        }
        if self.shared.is_engaged() && self.shared.waits() {
            let keys = self.own_folds();
            let last = keys.len().saturating_sub(1);
            let mut are_folded = !keys.is_empty();
            for (at, (table, keys)) in keys.into_iter().enumerate() {
                let keys: Vec<String> = keys.iter().map(|key| quoted_element(&key.text)).collect();
                let values = [Value::Text(format!("{{{}}}", keys.join(",")))];
                let end = match sent {
                    Sent::Query(bytes) if at == last => End::Query(bytes.to_vec()),
                    Sent::Execute(bytes, _) if at == last => End::Execute(bytes.to_vec()),
                    _ => End::Flush,
                };
                let reply = self.ask(&table.own_text, &values, &[0], end).await?;
                let connection = self.connection;
                are_folded &= matches!(&reply, OwnReply::Row(Some(row)) if is_true(row.first()));
                if at == last && are_folded {
                    let key = None;
                    self.hub.handle(Event::OwnFolded { connection, key });
                }
                let has_failed = !matches!(reply, OwnReply::Row(_));
                if matches!(reply, OwnReply::Failed(_)) {
                    self.hub.handle(Event::Failed { connection });
                }
                self.go_on(&reply, Vec::new());
                if has_failed {
                    self.pass_update(sent);
                    return Ok(());
                }
                if at == last {
                    return Ok(());
                }
            }
        }
        self.pass_on(sent);
        Ok(())
    }

    /// Returns the keys that the transaction may fold itself, by their tables.
    fn own_folds(&self) -> Vec<(Arc<Table>, Vec<Key>)> {
        let is_sure = {
            let track = self.shared.track();
            !track.is_deaf() && track.status() == Status::InBlock && track.is_plain()
        };
        let catalog = self.hub.declared().unwrap_or_default();
        let mut tables: Vec<(Arc<Table>, Vec<Key>)> = Vec::new();
        if !is_sure {
            return tables;
        }
        let keys = self.hub.own_folds(self.connection);
        let takes_utf8 = {
            let track = self.shared.track();
            // A setting that has changed is told at the next ReadyForQuery.
            track.takes_utf8 && track.is_fresh()
        };
        if !takes_utf8 && !keys.iter().all(|key| key.text.is_ascii()) {
            return tables;
        }
        for key in keys {
            match tables.last_mut() {
                Some((table, keys)) if table.number == key.table => keys.push(key),
                _ => match catalog.of_number(key.table) {
                    Some(table) => tables.push((table.clone(), vec![key])),
                    None => return Vec::new(),
                },
            }
        }
        tables
    }

    /// Returns whether PostgreSQL skips or refuses what comes.
    pub(crate) fn has_failed(&self) -> bool {
        let track = self.shared.track();
        track.is_deaf() || track.status() == Status::Failed && track.is_plain()
    }

    /// Asks whether the client's COMMITs wait for their folds, if that may have changed. Returns false if that failed: its error has
    /// answered the client.
    pub(crate) async fn know_wait(&mut self) -> Result<bool, Error> {
        if self.shared.track().knows_wait() || self.has_failed() {
            return Ok(true);
        }
        let reply = self.ask(WAIT, &[], &[0], End::Flush).await?;
        match &reply {
            OwnReply::Row(Some(row)) => self.learn_wait(row.first()),
            _ => self.tell_failure(&reply),
        }
        self.go_on(&reply, Vec::new());
        Ok(matches!(reply, OwnReply::Row(_)))
    }

    /// Takes PostgreSQL's setting of the client's.
    fn learn_wait(&self, setting: Option<&Option<Bytes>>) {
        let setting = setting.and_then(Option::as_deref).unwrap_or_default();
        self.shared.set_wait(!is_off(setting));
        self.shared.track().learn_wait();
    }

    /// Tells PostgreSQL what is reserved, so that `escrow.reservations()` of this client shows it. Nothing is sent for a role that
    /// may not know it: a client can have PostgreSQL print the plans, with their values, of all that its connection runs.
    pub(crate) async fn show(&mut self) -> Result<(), Error> {
        self.settle().await?;
        if self.has_failed() || !self.may_know().await? {
            return Ok(());
        }
        let reserved = self.hub.reservations();
        let values = [Value::Text(match self.shared.track().takes_utf8 {
            true => reserved,
            false => json::in_ascii(&reserved),
        })];
        let reply = self.ask(SHOW, &values, &[], End::Flush).await?;
        self.tell_failure(&reply);
        self.go_on(&reply, Vec::new());
        Ok(())
    }

    /// Asks whether the client's role may know what is reserved.
    async fn may_know(&mut self) -> Result<bool, Error> {
        let reply = self.ask(MAY_KNOW, &[], &[0], End::Flush).await?;
        self.tell_failure(&reply);
        self.go_on(&reply, Vec::new());
        let row = match &reply {
            OwnReply::Row(row) => row.as_ref(),
            _ => None,
        };
        let value = row.and_then(|row| row.first()?.as_deref());
        Ok(value == Some(b"t"))
    }

    /// Has the rows left that a DELETE may be of, since PostgreSQL deletes no row that is held. The tables of its name are
    /// those of any schema: a row that is left for nothing is loaded again.
    pub(crate) async fn delete(
        &mut self,
        deletion: &Deletion,
        parameters: Parameters<'_>,
    ) -> Result<(), Error> {
        let catalog = self.first_catalog().await;
        for table in catalog.named(deletion.table_name()) {
            if let Some(key) = deletion.key(table, parameters) {
                self.leave(key).await;
            }
        }
        Ok(())
    }

    /// Has the rows left for which PostgreSQL has refused something to the client, as a DELETE by another condition: a repeat
    /// finds them free.
    pub(crate) async fn leave_refused(&mut self) {
        let rows = self.shared.track().take_refused_rows();
        let catalog = self.hub.declared().unwrap_or_default();
        for row in rows {
            let mut tables = catalog.named(&row.table);
            if let Some(table) = tables.find(|it| it.schema == row.schema) {
                if let Some(text) = key_text(Datum::Unknown(row.key), table.key_type) {
                    let (table, text) = (table.number, text.into());
                    self.leave(Key { table, text }).await;
                }
            }
        }
    }

    /// Has a row left, unless somebody has reserved it.
    async fn leave(&mut self, key: Key) {
        let connection = Some(self.connection);
        self.hub.handle(Event::Leave { connection, key });
        while !matches!(self.mail.recv().await, Some(Mail::Answer(..)) | None) {}
    }

    /// Serves an UPDATE that may be a reservation.
    pub(crate) async fn update(
        &mut self,
        form: &Form,
        parameters: Parameters<'_>,
        results: &[i16],
        sent: Sent<'_>,
    ) -> Result<(), Error> {
        if !sent.is_execute() || self.shared.track().is_executing() {
            self.settle().await?;
        }
        if self.shared.track().is_deaf() {
            self.pass_on(sent);
            return Ok(());
        }
        let table = match self.has_failed() {
            true => None,
            false => self.declared(form).await?,
        };
        let plan = table.as_deref().and_then(|table| form.plan(table));
        let asked = plan.as_ref().and_then(|plan| plan.bind(parameters));
        let (table, plan, asked) = match (&table, plan, asked) {
            (Some(table), Some(plan), Some(asked)) => (table, plan, asked),
            _ => {
                self.pass_update(sent);
                return Ok(());
            }
        };
        // PostgreSQL has read what an Execute runs.
        if !sent.is_execute() && !self.are_plain(plan.shown_functions()).await? {
            self.pass_update(sent);
            return Ok(());
        }
        let Asked {
            keys,
            change,
            condition,
        } = asked;
        let has_rest = plan.rest(true).is_some();
        if condition.is_some() && has_rest && keys.len() > 1 {
            // The rest would have to be that of some rows.
            self.pass_update(sent);
            return Ok(());
        }
        if !keys.iter().all(|key| key.text.is_ascii()) {
            // The proxy reads them as UTF-8, and sends them so to the client's own session.
            self.learn_letters().await?;
            if self.has_failed() || !self.shared.track().takes_utf8 {
                self.pass_update(sent);
                return Ok(());
            }
        }
        let (alone, is_first) = {
            let mut track = self.shared.track();
            let is_first = track.is_fresh();
            track.runs();
            let alone = track.status() == Status::Idle && track.is_plain();
            (alone, is_first)
        };
        let ends = match sent {
            Sent::Query(_) => true,
            Sent::Execute(..) => self.has_sync,
            Sent::Piece(..) => false,
        };
        if sent.is_query() {
            self.drop_unnamed();
        }
        let job = Job {
            form,
            table,
            change,
            condition,
            sent,
            alone,
            is_whole: alone && is_first && ends,
            is_single: keys.len() == 1 && !has_rest,
        };
        let mut count = 0;
        for key in &keys {
            match self.row(&job, key).await? {
                RowEnd::Done(reply, end) if job.is_single => {
                    let tag = own::command_complete("UPDATE 1");
                    self.go_on_to(&reply, tag, sent.is_end());
                    if sent.is_query() && end == End::Flush {
                        self.pass(own::SYNC, Expect::Sync);
                    }
                    return Ok(());
                }
                RowEnd::Done(reply, _) => {
                    self.go_on(&reply, Vec::new());
                    count += 1;
                }
                RowEnd::Missing if keys.len() == 1 => {
                    self.pass_update(sent);
                    return Ok(());
                }
                // The transaction may have inserted it itself.
                RowEnd::Missing => match self.change_here(&job, key).await? {
                    Here::Done(reply) => {
                        self.go_on(&reply, Vec::new());
                        count += 1;
                    }
                    Here::Not | Here::Missing => {}
                    Here::Failed => return Ok(()),
                },
                RowEnd::NotSo => {}
                RowEnd::Failed => return Ok(()),
            }
        }
        let rest = plan.rest(count > 0).map(|Part { text, moved }| Rest {
            text,
            moved,
            has_rows: plan.rest_has_rows(),
            is_described: !sent.is_execute() && plan.rest_has_rows(),
            count: plan.rest_counts().then_some(count),
            types: plan.types(parameters),
            formats: parameters.formats.to_vec(),
            values: parameters.values.to_vec(),
            results: results.to_vec(),
            limit: match sent {
                Sent::Execute(_, limit) => limit,
                Sent::Query(_) | Sent::Piece(..) => None,
            },
        });
        self.end_update(&job, count, rest).await
    }

    /// Ends an UPDATE whose rows are reserved: PostgreSQL serves what it asks for besides.
    async fn end_update(
        &mut self,
        job: &Job<'_>,
        count: usize,
        rest: Option<Rest>,
    ) -> Result<(), Error> {
        let tag = own::command_complete(&format!("UPDATE {count}"));
        if count == 0 {
            // Nothing else has tested whether the client's role may ask for it.
            let words = Words {
                state: "00000",
                message: String::new(),
                detail: String::new(),
                about: String::new(),
            };
            let reply = self.tell(job, words, End::Flush).await?;
            self.tell_failure(&reply);
            let is_allowed = matches!(reply, OwnReply::Row(_));
            if !is_allowed || rest.is_none() {
                let tag = if is_allowed { tag } else { Vec::new() };
                self.go_on_to(&reply, tag, is_allowed && job.sent.is_end());
                self.end_query(job.sent);
                return Ok(());
            }
            self.go_on(&reply, Vec::new());
        }
        match rest {
            Some(rest) => {
                let reply = self.ask_rest(&rest).await?;
                self.tell_failure(&reply);
                let served = match &reply {
                    OwnReply::Row(row) => row.as_deref().and_then(tag_of),
                    OwnReply::Failed(error) => {
                        let error = own::moved(error, rest.moved + job.place());
                        self.go_on(&OwnReply::Failed(error.into()), Vec::new());
                        self.end_query(job.sent);
                        return Ok(());
                    }
                    _ => {
                        self.go_on(&reply, Vec::new());
                        self.end_query(job.sent);
                        return Ok(());
                    }
                };
                if rest.count.is_some() && served.and_then(rows_of) != rest.count {
                    self.go_on(&reply, Vec::new());
                    return self.refuse(job, changed_row()).await;
                }
                let tag = match served {
                    Some(served) if !job.form.is_main() => own::command_complete(served),
                    _ => tag,
                };
                let kept = self.shared.track().take_kept_rows();
                if kept.are_too_many {
                    self.go_on(&reply, Vec::new());
                    return self.refuse(job, too_many_rows()).await;
                }
                let served = served.unwrap_or_default();
                let tag = self.rows_end(job, &rest, kept, served, tag);
                self.go_on_to(&reply, tag, job.sent.is_end());
            }
            None => self.say(tag, job.sent.is_end()),
        }
        self.end_query(job.sent);
        Ok(())
    }

    /// Returns what tells the client how its rows end: the tag, or that there may be more (as in PostgreSQL, where it has got as
    /// many as it has asked for). Keeps what is left of them.
    fn rows_end(
        &mut self,
        job: &Job<'_>,
        rest: &Rest,
        kept: Kept,
        served: &str,
        tag: Vec<u8>,
    ) -> Vec<u8> {
        // PostgreSQL keeps such a portal, also where it has no more rows.
        let may_go_on = kept.is_full || rest.has_rows;
        if may_go_on && job.sent.is_execute() {
            let word = served.rsplit_once(' ').map_or(served, |(word, _)| word);
            let word = if job.form.is_main() { "UPDATE" } else { word };
            let (rows, tag) = (kept.rows.into(), word.to_owned());
            self.own.rows_left = Some(Left { rows, tag });
        }
        match kept.is_full {
            true => own::SUSPENDED.to_vec(),
            false => tag,
        }
    }

    /// Reserves a change of a row.
    async fn row(&mut self, job: &Job<'_>, key: &Key) -> Result<RowEnd, Error> {
        self.shared.engage();
        let begun = Instant::now();
        loop {
            self.hub.handle(Event::Reserve {
                connection: self.connection,
                key: key.clone(),
                change: job.change.clone(),
                alone: job.alone,
            });
            let (answer, refusal) = match self.reserve(job).await? {
                Decided::Noted(reply, end) => return Ok(RowEnd::Done(reply, end)),
                Decided::Failed(waiting) => {
                    let end = waiting.map(|(reply, end)| {
                        self.go_on(&reply, Vec::new());
                        end
                    });
                    if job.sent.is_query() && end != Some(End::Sync) {
                        self.pass(own::SYNC, Expect::Sync);
                    }
                    return Ok(RowEnd::Failed);
                }
                Decided::Missing => return Ok(RowEnd::Missing),
                Decided::Refused(answer, refusal) => (answer, refusal),
            };
            if let (Answer::Refused, Some(refusal), Some(condition)) =
                (answer, &refusal, job.condition)
            {
                if refuses_too(job.table, refusal, condition) {
                    return Ok(RowEnd::NotSo);
                }
            }
            if answer == Answer::Locked {
                match self.change_here(job, key).await? {
                    Here::Done(reply) => return Ok(RowEnd::Done(reply, End::Flush)),
                    Here::Failed => return Ok(RowEnd::Failed),
                    // The client itself may have deleted it.
                    Here::Missing => return Ok(RowEnd::Missing),
                    Here::Not if begun.elapsed() < LOCK_WAIT => continue,
                    Here::Not => {}
                }
            }
            self.refuse(job, words(job.table, answer, refusal)).await?;
            return Ok(RowEnd::Failed);
        }
    }

    /// Changes a row that nobody holds, and that the client itself may have locked, in the client's transaction (rule 16).
    async fn change_here(&mut self, job: &Job<'_>, key: &Key) -> Result<Here, Error> {
        let secret = self.hub.secret().ok_or(Error::Ended)?;
        let epoch = self.hub.epoch();
        if let Some(reply) = self.be_greeted(&secret, epoch).await? {
            self.tell_failure(&reply);
            self.go_on(&reply, Vec::new());
            self.end_query(job.sent);
            return Ok(Here::Failed);
        }
        let grant = Grant {
            table: job.table.number,
            epoch,
            process: self.shared.track().process,
            number: self.hub.number(),
            key: &key.text,
            changes: &job.change,
        };
        let values = [
            Value::Text(epoch.to_string()),
            Value::Text(grant.number.to_string()),
            Value::Text(key.text.to_string()),
            Value::Text(changes_array(&job.change)),
            Value::Binary(secret.of_here(&grant).to_vec()),
            Value::Text(job.form.relation()),
        ];
        let text = &job.table.here_text;
        let reply = self.ask(text, &values, &[0], End::Flush).await?;
        self.tell_failure(&reply);
        match &reply {
            OwnReply::Row(Some(row)) if is_true(row.first()) => return Ok(Here::Done(reply)),
            OwnReply::Row(row) => {
                self.go_on(&reply, Vec::new());
                let is_seen = row.as_ref().map_or(true, |row| row.first() != Some(&None));
                return Ok(if is_seen { Here::Not } else { Here::Missing });
            }
            _ => {}
        }
        self.go_on(&reply, Vec::new());
        self.end_query(job.sent);
        Ok(Here::Failed)
    }

    /// Tells the hub of an error of an own request that is no note.
    pub(crate) fn tell_failure(&self, reply: &OwnReply) {
        if matches!(reply, OwnReply::Failed(_)) && self.shared.is_engaged() {
            let connection = self.connection;
            self.hub.handle(Event::Failed { connection });
        }
    }

    /// Ends a Query that own requests have answered.
    fn end_query(&mut self, sent: Sent<'_>) {
        if sent.is_query() {
            self.pass(own::SYNC, Expect::Sync);
        }
    }

    /// Passes an UPDATE on. If an own request has failed, its error has answered the client.
    fn pass_update(&mut self, sent: Sent<'_>) {
        if self.shared.track().is_skipping() && sent.is_query() {
            self.end_query(sent);
        } else {
            self.pass_on(sent);
        }
    }

    /// Returns the declared table that the client's name means. None: none, or it cannot be asked.
    async fn declared(&mut self, form: &Form) -> Result<Option<Arc<Table>>, Error> {
        let catalog = self.known_catalog().await;
        if catalog.named(form.table_name()).next().is_none() {
            return Ok(None);
        }
        Ok(match self.meaning(form).await? {
            Some(oid) => catalog.of_oid(oid).cloned(),
            None => None,
        })
    }

    /// Returns what is declared, at least as new as what this client has changed of it.
    pub(crate) async fn known_catalog(&mut self) -> Arc<Catalog> {
        match std::mem::take(&mut self.own.is_old) {
            true => self.read_catalog().await,
            false => self.first_catalog().await,
        }
    }

    /// Returns what is declared, as it was read last. If it was not read yet, it waits for that, once for each client.
    pub(crate) async fn first_catalog(&mut self) -> Arc<Catalog> {
        match self.hub.declared() {
            Some(known) => known,
            None if std::mem::replace(&mut self.own.has_waited, true) => Arc::default(),
            None => self.read_catalog().await,
        }
    }

    /// Has what is declared read anew, and returns it.
    async fn read_catalog(&self) -> Arc<Catalog> {
        let mut catalog = self.hub.catalog();
        drop(catalog.borrow_and_update());
        self.hub.refresh();
        // If it is not read in time, PostgreSQL's triggers refuse what is a reservation.
        let _ = timeout(CATALOG_WAIT, catalog.changed()).await;
        let known = catalog.borrow().clone();
        known.unwrap_or_default()
    }

    /// Returns the relation that the client's name of a table means. None: none, or it cannot be asked.
    async fn meaning(&mut self, form: &Form) -> Result<Option<u32>, Error> {
        let name = form.relation();
        if let Some(known) = self.shared.track().meaning(&name) {
            return Ok(known);
        }
        let values = [Value::Text(name.clone())];
        let reply = self.ask(MEANING, &values, &[0], End::Flush).await?;
        let oid = match &reply {
            OwnReply::Row(Some(row)) => match row.first() {
                Some(Some(text)) => Some(
                    std::str::from_utf8(text)
                        .ok()
                        .and_then(|it| it.parse().ok()),
                ),
                _ => Some(None),
            },
            _ => None,
        };
        self.tell_failure(&reply);
        self.go_on(&reply, Vec::new());
        if let (Some(oid), OwnReply::Row(Some(row))) = (oid, &reply) {
            self.shared.track().set_meaning(name, oid);
            self.learn_wait(row.get(1));
        }
        Ok(oid.flatten())
    }

    /// Returns whether all functions of these names return one value for each row. If that cannot be asked, an error has answered the
    /// client.
    async fn are_plain(&mut self, names: &[String]) -> Result<bool, Error> {
        if names.is_empty() {
            return Ok(true);
        }
        let names: Vec<String> = names.iter().map(|name| quoted_element(name)).collect();
        let values = [Value::Text(format!("{{{}}}", names.join(",")))];
        let reply = self.ask(KINDS, &values, &[0], End::Flush).await?;
        self.tell_failure(&reply);
        self.go_on(&reply, Vec::new());
        Ok(match &reply {
            OwnReply::Row(Some(row)) => !is_true(row.first()),
            _ => false,
        })
    }

    /// Goes through a reservation to its end, as the hub says.
    async fn reserve(&mut self, job: &Job<'_>) -> Result<Decided, Error> {
        // The reply behind which the other direction waits, and what was sent with its request.
        let mut waiting: Option<(OwnReply, End)> = None;
        loop {
            let mail = match timeout(OWNER_WAIT, self.mail.recv()).await {
                Ok(mail) => mail.ok_or(Error::Ended)?,
                Err(_) => return Err(Error::NoOwner),
            };
            match mail {
                Mail::Note {
                    key,
                    epoch,
                    may_fold,
                    ..
                } => waiting = self.note(job, &key, epoch, may_fold).await?,
                Mail::Answer(answer, refusal) => {
                    return match (answer, waiting) {
                        (Answer::Reserved, Some((reply, end))) => Ok(Decided::Noted(reply, end)),
                        (Answer::Reserved, None) => Err(Error::Ended),
                        (Answer::Failed, waiting) => Ok(Decided::Failed(waiting)),
                        (Answer::Missing, _) => Ok(Decided::Missing),
                        (Answer::NotOwner, _) => Err(Error::NotOwner),
                        (answer, _) => Ok(Decided::Refused(answer, refusal)),
                    };
                }
            }
        }
    }

    /// Sends a note, and tells the hub what came of it. Returns its reply, behind which the other direction waits. None:
    /// nothing was sent.
    async fn note(
        &mut self,
        job: &Job<'_>,
        key: &Key,
        epoch: i64,
        may_fold: bool,
    ) -> Result<Option<(OwnReply, End)>, Error> {
        let connection = self.connection;
        if self.shared.track().is_skipping() {
            self.hub.handle(Event::NoteFailed { connection });
            return Ok(None);
        }
        let secret = self.hub.secret().ok_or(Error::Ended)?;
        if let Some(reply) = self.be_greeted(&secret, epoch).await? {
            self.hub.handle(Event::NoteFailed { connection });
            return Ok(Some((reply, End::Flush)));
        }
        let number = self.hub.number();
        let grant = Grant {
            table: job.table.number,
            epoch,
            process: self.shared.track().process,
            number,
            key: &key.text,
            changes: &job.change,
        };
        let proved = secret.of_note(&grant);
        let values = [
            Value::Text(epoch.to_string()),
            Value::Text(number.to_string()),
            Value::Text(key.text.to_string()),
            Value::Text(changes_array(&job.change)),
            Value::Binary(proved.proof.to_vec()),
            Value::Text(job.form.relation()),
        ];
        // A Sync in a block commits nothing. The client may have ended the block before a Sync.
        let is_block = {
            let track = self.shared.track();
            track.status() == Status::InBlock && track.is_plain()
        };
        let end = match is_block && job.sent.is_query() && job.is_single {
            true => End::Sync,
            false => End::Flush,
        };
        let folds = job.is_whole && job.is_single && may_fold && self.shared.waits();
        let text = match folds {
            true => &job.table.direct_text,
            false => &job.table.note_text,
        };
        let reply = self.ask(text, &values, &[1], end.clone()).await?;
        match &reply {
            OwnReply::Row(Some(row)) => {
                let noted = row.first().and_then(Option::as_deref);
                let noted = noted.and_then(|bytes| Noted::read(bytes, &proved.answer));
                let Noted { id, has_folded } = noted.ok_or(Error::Forged)?;
                let line = Line { epoch, number };
                self.hub.handle(Event::Noted {
                    connection,
                    id,
                    line,
                });
                if has_folded {
                    let key = Some(key.clone());
                    self.hub.handle(Event::OwnFolded { connection, key });
                }
            }
            OwnReply::Row(None) => return Err(Error::Forged),
            OwnReply::Failed(_) | OwnReply::Skipped | OwnReply::Unsent => {
                self.hub.handle(Event::NoteFailed { connection });
            }
        }
        Ok(Some((reply, end)))
    }

    /// Greets the connection, unless it was greeted in this epoch. Returns the reply if it failed.
    async fn be_greeted(&mut self, secret: &Secret, epoch: i64) -> Result<Option<OwnReply>, Error> {
        self.own.lose(self.shared.track().take_lost());
        if self.own.greeted == epoch {
            return Ok(None);
        }
        let process = self.shared.track().process;
        self.hub.set_process(self.connection, process);
        let reply = self.greet(secret, epoch).await?;
        if !matches!(reply, OwnReply::Row(_)) {
            return Ok(Some(reply));
        }
        self.go_on(&reply, Vec::new());
        self.own.greeted = epoch;
        Ok(None)
    }

    /// Greets the connection. Greetings go one after another, so nothing is waited for meanwhile but PostgreSQL's answer: neither
    /// what the client has asked PostgreSQL for, nor that the client takes what it is sent.
    async fn greet(&mut self, secret: &Secret, epoch: i64) -> Result<OwnReply, Error> {
        self.settle().await?;
        let (hub, shared) = (self.hub.clone(), self.shared);
        let _turn = loop {
            let greeting = hub.greeting.lock().await;
            match shared.turn() {
                Some(turn) => break (turn, greeting),
                None => drop(greeting),
            }
            shared.until_written().await;
        };
        match timeout(GREETING_WAIT, self.greet_once(secret, epoch)).await {
            Ok(greeted) => greeted,
            Err(_) => Err(Error::Silent),
        }
    }

    /// Greets the connection in its turn. PostgreSQL may have had a higher number: one of a former owner's came while the epoch
    /// was set.
    async fn greet_once(&mut self, secret: &Secret, epoch: i64) -> Result<OwnReply, Error> {
        let hub = self.hub.clone();
        loop {
            let number = hub.number();
            let process = self.shared.track().process;
            let values = [
                Value::Text(epoch.to_string()),
                Value::Text(number.to_string()),
                Value::Binary(secret.of_greeting(epoch, process, number).to_vec()),
            ];
            let reply = self.ask(GREETING, &values, &[0], End::Flush).await?;
            let last = match &reply {
                OwnReply::Row(Some(row)) => row.first().and_then(number_of),
                _ => None,
            };
            match last {
                Some(last) => hub.pass_number(last),
                None => return Ok(reply),
            }
            self.go_on(&reply, Vec::new());
        }
    }

    /// Has PostgreSQL raise what the client's UPDATE is refused with, so that its transaction fails as by any error.
    async fn refuse(&mut self, job: &Job<'_>, words: Words) -> Result<(), Error> {
        let end = match job.sent {
            Sent::Query(_) => End::Sync,
            Sent::Execute(..) | Sent::Piece(..) => End::Flush,
        };
        let reply = self.tell(job, words, end).await?;
        self.tell_failure(&reply);
        if matches!(reply, OwnReply::Row(_)) {
            return Err(Error::Forged); // it always raises
        }
        self.go_on(&reply, Vec::new());
        Ok(())
    }

    /// Calls the function that tests the rights of the client's role, and raises these words.
    async fn tell(&mut self, job: &Job<'_>, words: Words, end: End) -> Result<OwnReply, Error> {
        let changed: Vec<&str> = job
            .change
            .iter()
            .map(|it| if it.is_some() { "t" } else { "f" })
            .collect();
        let takes_utf8 = self.shared.track().takes_utf8;
        let told = |text: String| Value::Text(if takes_utf8 { text } else { in_ascii(&text) });
        let values = [
            Value::Text(words.state.to_owned()),
            told(words.message),
            told(words.detail),
            told(words.about),
            Value::Text(format!("{{{}}}", changed.join(","))),
            Value::Text(job.form.relation()),
        ];
        self.ask(&job.table.refusal_text, &values, &[], end).await
    }
}

/// Returns whether a refusal says that a condition of the table's CHECKs does not hold either: it is of that, or tells how low
/// the same sum would be.
fn refuses_too(table: &Table, refusal: &Refusal, condition: usize) -> bool {
    let (place, worst) = match refusal {
        Refusal::Check {
            place,
            is_high: false,
            worst,
            ..
        } => (*place, worst),
        _ => return false,
    };
    let (broken, asked) = match (table.checks.get(place), table.checks.get(condition)) {
        (Some(broken), Some(asked)) => (broken, asked),
        _ => return false,
    };
    let is_below = || {
        let order = Decimal::parse(worst)?.compare(&Decimal::parse(&asked.limit)?);
        Some(order.is_lt() || order.is_eq() && asked.comparison == ">")
    };
    place == condition || broken.coefficients == asked.coefficients && is_below().unwrap_or(false)
}

/// Returns whether a setting is one of PostgreSQL's words for false.
fn is_off(setting: &[u8]) -> bool {
    let word = setting.to_ascii_lowercase();
    match word.first() {
        Some(b'f') => b"false".starts_with(&word),
        Some(b'n') => b"no".starts_with(&word),
        Some(b'o') => word.len() > 1 && b"off".starts_with(&word),
        _ => word == b"0",
    }
}

/// Writes a text for a client of another encoding than UTF-8: what is not in ASCII becomes a question mark.
fn in_ascii(text: &str) -> String {
    let of = |it: char| if it.is_ascii() { it } else { '?' };
    text.chars().map(of).collect()
}

/// Returns whether a value is a boolean in text that is true.
fn is_true(value: Option<&Option<Bytes>>) -> bool {
    matches!(value, Some(Some(text)) if &text[..] == b"t")
}

/// Returns a value that is a number in text.
fn number_of(value: &Option<Bytes>) -> Option<i64> {
    std::str::from_utf8(value.as_deref()?).ok()?.parse().ok()
}

/// Returns the command tag that is a reply's only value.
fn tag_of(row: &[Option<Bytes>]) -> Option<&str> {
    std::str::from_utf8(row.first()?.as_deref()?).ok()
}

/// Reads how many rows a command tag tells.
fn rows_of(tag: &str) -> Option<usize> {
    tag.rsplit(' ').next()?.parse().ok()
}

/// The words for a row that PostgreSQL does not see as the reservation did.
fn changed_row() -> Words {
    Words {
        state: "40001",
        message: "could not serialize access due to concurrent update".to_owned(),
        detail: "The row is not what it was when it was reserved. Repeat the transaction."
            .to_owned(),
        about: String::new(),
    }
}

/// The words for rows that a client asks for later, where they are more than the proxy keeps.
fn too_many_rows() -> Words {
    Words {
        state: "54000",
        message: "too many rows are left of a portal".to_owned(),
        detail: "A client has at most 16 MB of them. Ask for all rows at once.".to_owned(),
        about: String::new(),
    }
}

/// Writes a text as an element of an array.
fn quoted_element(text: &str) -> String {
    format!("\"{}\"", text.replace('\\', "\\\\").replace('"', "\\\""))
}

#[cfg(test)]
mod tests {
    use super::*;

    #[test]
    fn words_are_told_in_letters_of_all_encodings() {
        assert_eq!(in_ascii("\"gr\u{f6}\u{df}e\" = 1"), "\"gr??e\" = 1");
    }

    #[test]
    fn settings_are_off_as_in_postgres() {
        for off in ["off", "OF", "f", "False", "n", "no", "0"] {
            assert!(is_off(off.as_bytes()), "{off}");
        }
        for on in ["", "on", "o", "1", "yes", "t", "none", "00", "offer"] {
            assert!(!is_off(on.as_bytes()), "{on}");
        }
    }
}
