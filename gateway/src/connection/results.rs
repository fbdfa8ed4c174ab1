//! Rows on their way from the program to the client.

use std::rc::Rc;

use crate::connection::channel::Output;
use crate::connection::prepared::{Formats, Progress};
use crate::connection::work::{not_understood, Tag, Target};
use crate::connection::{Connection, MOST_OUTPUT};
use crate::rows::shape::{Order, Shape};
use crate::rows::spool::{Spill, Spool};
use crate::rows::{append_count, ResultSet, Row};
use crate::sqlstate::{Failure, Report, SqlState};
use crate::wire::backend::{self, Column, Format};

/// A result, of which rows come from the program and go to the client.
///
/// A row goes to the client at once if the client takes its output. Otherwise it waits.
#[derive(Debug)]
pub struct Rows {
    shape: Shape,
    formats: Formats,
    tag: Tag,
    /// Rows that wait.
    spool: Spool,
    /// How many rows came, those that the result does not have included.
    read: u64,
    /// Whether all rows came.
    is_complete: bool,
    /// How many rows the client asks for. None: all.
    asked: Option<u64>,
    /// How many of these it got.
    given: u64,
    /// The row that is written.
    row: Vec<u8>,
}

impl Rows {
    fn new(shape: Shape, formats: Formats, tag: Tag, asked: Option<u64>, spill: &Spill) -> Rows {
        Rows {
            shape,
            formats,
            tag,
            spool: Spool::new(spill),
            read: 0,
            is_complete: false,
            asked,
            given: 0,
            row: Vec::new(),
        }
    }

    /// Returns the result's columns.
    pub fn columns(&self) -> &Rc<[Column]> {
        &self.shape.columns
    }

    /// Takes a row of the table.
    pub fn push(&mut self, row: &Row<'_>, output: &mut Output) -> Result<(), Failure> {
        self.read += 1;
        if self.shape.counts() {
            return Ok(());
        }
        let (offset, limit) = (self.shape.offset, self.shape.limit);
        let end = limit.and_then(|limit| offset.checked_add(limit));
        match self.shape.order {
            Order::Rising if self.read <= offset || end.map_or(false, |end| self.read > end) => {
                return Ok(());
            }
            Order::Rising => {}
            // Of the rows so far, only those that may be the last ones are kept.
            Order::Falling if end == Some(self.spool.len()) => self.drop_first()?,
            Order::Falling => {}
        }
        if limit == Some(0) {
            return Ok(());
        }
        self.row.clear();
        row.append(|place| self.formats.of(place), &mut self.row)
            .map_err(|_| not_understood())?;
        self.deliver(output)
    }

    /// Gives the client the row that is written, or lets it wait.
    fn deliver(&mut self, output: &mut Output) -> Result<(), Failure> {
        let goes_through = self.shape.order == Order::Rising && self.spool.is_empty();
        if goes_through && self.is_asked_for() && output.len() < MOST_OUTPUT {
            output.buffer().extend_from_slice(&self.row);
            self.given += 1;
            return Ok(());
        }
        self.spool.push(&self.row)
    }

    fn drop_first(&mut self) -> Result<(), Failure> {
        self.row.clear();
        self.spool.take_first(&mut self.row).map(|_| ())
    }

    fn is_asked_for(&self) -> bool {
        self.asked.map_or(true, |asked| self.given < asked)
    }

    /// Is told that all rows came.
    fn complete(&mut self, output: &mut Output) -> Result<(), Failure> {
        self.is_complete = true;
        if self.shape.counts() {
            let has_row = self.shape.offset == 0 && self.shape.limit != Some(0);
            self.row.clear();
            let format = |place| self.formats.of(place);
            append_count(&self.shape, self.read, format, &mut self.row)
                .map_err(|_| not_understood())?;
            self.shape.order = Order::Rising;
            if has_row {
                self.deliver(output)?;
            }
        }
        if self.shape.order == Order::Falling {
            for _ in 0..self.shape.offset.min(self.spool.len()) {
                self.row.clear();
                self.spool.take_last(&mut self.row)?;
            }
        }
        Ok(())
    }

    /// Gives the client rows that wait, as far as it takes its output.
    pub fn flow(&mut self, output: &mut Output) -> Result<(), Failure> {
        if self.shape.order == Order::Falling && !self.is_complete {
            return Ok(());
        }
        while self.is_asked_for() && output.len() < MOST_OUTPUT {
            let out = output.buffer();
            let is_taken = match self.shape.order {
                Order::Rising => self.spool.take_first(out)?,
                Order::Falling => self.spool.take_last(out)?,
            };
            if !is_taken {
                break;
            }
            self.given += 1;
        }
        Ok(())
    }

    /// Returns whether the client has all that it asked for and that there is.
    fn is_given(&self) -> bool {
        self.is_complete && (self.spool.is_empty() || !self.is_asked_for())
    }

    /// Begins to give further rows.
    fn ask(&mut self, asked: Option<u64>) {
        self.asked = asked;
        self.given = 0;
    }

    /// Passes over so many rows, or over all, and returns how many there were.
    fn pass(&mut self, most: Option<u64>) -> Result<u64, Failure> {
        let mut passed = 0;
        while most.map_or(true, |most| passed < most) {
            self.row.clear();
            let is_taken = match self.shape.order {
                Order::Rising => self.spool.take_first(&mut self.row)?,
                Order::Falling => self.spool.take_last(&mut self.row)?,
            };
            if !is_taken {
                break;
            }
            passed += 1;
        }
        Ok(passed)
    }

    /// Tells the client that it has what it asked for.
    fn tell_end(&self, out: &mut Vec<u8>) {
        match self.tag {
            Tag::Rows(FETCH) => backend::command_complete_of(out, FETCH, self.given as usize),
            _ if self.asked == Some(self.given) => backend::portal_suspended(out),
            Tag::Rows(words) => backend::command_complete_of(out, words, self.given as usize),
            Tag::Plain(tag) => backend::command_complete(out, tag),
            Tag::Count(words, count) => backend::command_complete_of(out, words, count as usize),
        }
    }
}

/// The tag of FETCH.
const FETCH: &str = "FETCH";

/// Returns how many rows Execute asks for. None: all.
fn asked(limit: u32) -> Option<u64> {
    Some(limit.into()).filter(|&limit| limit > 0)
}

impl Connection {
    /// Begins a result: describes its columns, if that is due.
    pub(super) fn begin_rows(
        &mut self,
        target: &Target,
        shape: Shape,
        tag: Tag,
    ) -> Result<Rows, Failure> {
        let (formats, asked) = match target {
            Target::Simple => {
                let text = |_| Format::Text;
                backend::row_description(self.output.buffer(), &shape.columns, text);
                (Formats::default(), None)
            }
            Target::Describe { portal } => (self.prepared.portal(portal)?.formats.clone(), Some(0)),
            Target::Declare { .. } | Target::Fetch { .. } => (Formats::default(), Some(0)),
            Target::Execute { portal, limit } => {
                let portal = self.prepared.portal(portal)?;
                portal.check_described(&shape.columns)?;
                portal.check_formats(&shape.columns)?;
                (portal.formats.clone(), asked(*limit))
            }
        };
        let settings = &self.settings;
        let new = || Spill::new(&settings.memory, &settings.disk);
        let spill = self.spill.get_or_insert_with(new);
        Ok(Rows::new(shape, formats, tag, asked, spill))
    }

    /// Gives the client a result that the gateway made by itself.
    pub(super) fn give_result(
        &mut self,
        target: Target,
        mut result: ResultSet,
        tag: Tag,
    ) -> Result<(), Failure> {
        let shape = Shape::all(Rc::clone(result.columns()));
        let mut rows = self.begin_rows(&target, shape, tag)?;
        loop {
            rows.row.clear();
            let format = |place| rows.formats.of(place);
            match result.take_row(format, &mut rows.row) {
                Ok(true) => rows.deliver(&mut self.output)?,
                Ok(false) => break,
                Err(_) => return Err(not_understood()),
            }
        }
        self.end_rows(target, rows)
    }

    /// Is told that all rows of a result came. The client gets the rest as it reads.
    pub(super) fn end_rows(&mut self, target: Target, mut rows: Rows) -> Result<(), Failure> {
        rows.complete(&mut self.output)?;
        match target {
            Target::Describe { portal } => {
                let columns = Rc::clone(rows.columns());
                self.prepared.portal(&portal)?.progress = Progress::Rows(Box::new(rows));
                self.write_description(&portal, Some(columns));
            }
            Target::Declare { cursor, by } => {
                self.prepared.portal(&cursor)?.progress = Progress::Rows(Box::new(rows));
                self.complete(&by, Tag::Plain("DECLARE CURSOR"));
            }
            target => {
                self.giving = Some(Box::new((target, rows)));
                self.give_rows();
            }
        }
        Ok(())
    }

    /// Gives the client rows of the result that it is getting, as far as it takes its output.
    pub(super) fn give_rows(&mut self) {
        let mut giving = match self.giving.take() {
            Some(giving) => giving,
            None => return,
        };
        if let Err(report) = giving.1.flow(&mut self.output) {
            return self.fail(report, None);
        }
        if !giving.1.is_given() {
            self.giving = Some(giving);
            return;
        }
        let (target, rows) = *giving;
        rows.tell_end(self.output.buffer());
        let portal = match target {
            Target::Execute { portal, .. } => portal,
            Target::Fetch { cursor, by } => {
                self.end_fetch(*by);
                cursor
            }
            _ => return,
        };
        if let Ok(portal) = self.prepared.portal(&portal) {
            portal.progress = Progress::Rows(Box::new(rows));
        }
    }

    /// Begins FETCH: the next rows of a cursor are given. MOVE passes over them.
    pub(super) fn begin_fetch(
        &mut self,
        name: &str,
        most: Option<u64>,
        is_move: bool,
        target: Target,
    ) -> Result<(), Failure> {
        let unknown = || {
            let text = format!("cursor \"{}\" does not exist", name);
            Report::error(SqlState::UNDEFINED_PORTAL, text)
        };
        let portal = self.prepared.portal(name).map_err(|_| unknown())?;
        let mut rows = match std::mem::replace(&mut portal.progress, Progress::Done) {
            Progress::Rows(rows) => rows,
            progress => {
                portal.progress = progress;
                return Err(Report::missing("FETCH from a portal that has not run"));
            }
        };
        if is_move {
            let passed = rows.pass(most)?;
            portal.progress = Progress::Rows(rows);
            self.complete(&target, Tag::Count("MOVE", passed));
            return Ok(());
        }
        if let Target::Fetch { by, .. } = &target {
            let columns = Rc::clone(rows.columns());
            match &**by {
                Target::Execute { portal, .. } => {
                    let portal = self.prepared.portal(portal)?;
                    portal.check_formats(&columns)?;
                    if (0..columns.len()).any(|place| portal.formats.of(place) == Format::Binary) {
                        return Err(Report::missing("binary rows of a cursor"));
                    }
                }
                _ => {
                    let out = self.output.buffer();
                    backend::row_description(out, &columns, |_| Format::Text);
                }
            }
        }
        rows.tag = Tag::Rows(FETCH);
        rows.ask(most);
        self.giving = Some(Box::new((target, *rows)));
        self.give_rows();
        Ok(())
    }

    /// Notes that the portal of a FETCH has run.
    fn end_fetch(&mut self, by: Target) {
        if let Target::Execute { portal, .. } = by {
            if let Ok(portal) = self.prepared.portal(&portal) {
                portal.progress = Progress::Done;
            }
        }
    }

    /// Gives the client further rows of a portal.
    pub(super) fn give_rows_of(&mut self, name: &str, limit: u32) {
        let rows = self.prepared.portal(name).and_then(|portal| {
            match std::mem::replace(&mut portal.progress, Progress::Done) {
                Progress::Rows(mut rows) => {
                    portal.check_formats(rows.columns())?;
                    rows.ask(asked(limit));
                    Ok(rows)
                }
                _ => Err(Report::error(
                    SqlState::UNDEFINED_PORTAL,
                    "portal has no rows",
                )),
            }
        });
        match rows {
            Ok(rows) => {
                let portal = name.to_owned();
                self.giving = Some(Box::new((Target::Execute { portal, limit }, *rows)));
                self.give_rows();
            }
            Err(report) => self.fail(report, None),
        }
    }
}
