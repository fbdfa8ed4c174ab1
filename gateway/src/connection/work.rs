//! What runs for a client, and what the program's replies to it mean.

use std::rc::Rc;

use crate::connection::activity::Evaluate;
use crate::connection::channel::Output;
use crate::connection::prepared::{
    other_columns, Arguments, Binding, Portal, Progress, Statement as Prepared,
};
use crate::connection::results::Rows;
use crate::connection::transaction::{savepoint_name, Block};
use crate::connection::{Connection, Event, Need};
use crate::reply::{self, Done, Outcome, Question, Refusal};
use crate::rows::{Definition, Reader, ResultSet};
use crate::sqlstate::{self, Failure, Refused, Report, SqlState};
use crate::statement::constant::Input;
use crate::statement::query::Name;
use crate::statement::served::{Define, Insert, Served, Show, Verb};
use crate::statement::{explain, line, select, Cursor, Parsed, Statement, Step};
use crate::wire::backend;

/// What the next reply of the program answers, and what is done then.
#[derive(Debug)]
pub enum Awaited {
    /// A statement of the client's.
    Statement(Box<Running>),
    /// The COMMIT behind a statement that is a transaction by itself, with what that was answered.
    OwnCommit(Option<(Box<Running>, Result<Completed, Failure>)>),
    /// SHOW TABLE, which tells the gateway the definition of a table.
    Definition {
        /// The table.
        table: String,
        /// What is done then.
        then: AfterDefinition,
    },
    /// A COMMIT.
    Commit(AfterCommit),
    /// A ROLLBACK.
    Rollback {
        /// What asked for it.
        target: Target,
        /// AND CHAIN.
        chain: bool,
    },
    /// A SAVEPOINT of this name.
    Savepoint {
        /// What asked for it.
        target: Target,
        /// Its name.
        name: String,
    },
    /// A ROLLBACK TO the savepoint at a place.
    RollbackTo {
        /// What asked for it.
        target: Target,
        /// The place.
        place: usize,
    },
    /// A ROLLBACK or ROLLBACK TO of the gateway's own.
    Undo,
    /// What all connections do, which the engine tells in this turn.
    Activities {
        /// What asked for it.
        target: Target,
        /// The statement.
        subject: Subject,
        /// What makes the statement's result of it.
        evaluate: Evaluate,
    },
}

/// What asks for a statement to be run.
#[derive(Clone, Debug)]
pub enum Target {
    /// A simple query.
    Simple,
    /// Execute.
    Execute {
        /// The portal.
        portal: String,
        /// The most rows; 0 for all.
        limit: u32,
    },
    /// Describe of a portal, which reads its rows ahead.
    Describe {
        /// The portal.
        portal: String,
    },
    /// DECLARE, which reads its cursor's rows ahead.
    Declare {
        /// The cursor.
        cursor: String,
        /// What asked for DECLARE.
        by: Box<Target>,
    },
    /// FETCH.
    Fetch {
        /// The cursor.
        cursor: String,
        /// What asked for FETCH.
        by: Box<Target>,
    },
}

/// A statement that is run, with its values.
#[derive(Clone, Debug)]
pub enum Subject {
    /// A statement of the simple query.
    Simple(Rc<Parsed>),
    /// A prepared statement with its values.
    Prepared(Rc<Prepared>, Rc<Arguments>),
}

impl Subject {
    /// Returns the statement. None: its text is empty.
    pub fn statement(&self) -> Option<&Statement> {
        match self {
            Subject::Simple(parsed) => Some(&parsed.statement),
            Subject::Prepared(prepared, _) => Some(&prepared.parsed.as_ref()?.statement),
        }
    }

    /// Returns what the program does for it: for DECLARE, the SELECT.
    fn served(&self) -> Option<&Served> {
        match self.statement()? {
            Statement::Declare(cursor) => cursor.read.served(),
            statement => statement.served(),
        }
    }

    /// Returns the values of its parameters.
    pub fn input(&self) -> Input<'_> {
        match self {
            Subject::Simple(_) => Input::default(),
            Subject::Prepared(_, arguments) => arguments.input(),
        }
    }
}

/// A statement that was served.
#[derive(Debug)]
pub struct Completed {
    /// The tag of CommandComplete.
    pub tag: Tag,
    /// Its rows.
    pub rows: Option<ResultSet>,
}

impl Completed {
    /// Makes one without rows.
    pub fn plain(tag: &'static str) -> Completed {
        Completed {
            tag: Tag::Plain(tag),
            rows: None,
        }
    }
}

/// The tag of CommandComplete.
#[derive(Clone, Copy, Debug, PartialEq, Eq)]
pub enum Tag {
    /// These words.
    Plain(&'static str),
    /// SELECT or FETCH, and how many rows were given.
    Rows(&'static str),
    /// INSERT or MOVE, and how many rows it was.
    Count(&'static str, u64),
}

/// A statement that the program serves for the client.
#[derive(Debug)]
pub struct Running {
    verb: Verb,
    target: Target,
    subject: Subject,
    /// Whether it is a transaction by itself.
    commits: bool,
    /// The row of an INSERT that is served, from 0.
    row: usize,
    /// The definition of its table by which it was written, if one was known.
    definition: Option<Rc<Definition>>,
    /// How many replies are still to come. A result may be that of several lines.
    replies: usize,
    /// What makes rows of the replies, if they have some.
    reader: Option<Reader>,
    /// The result, once it is begun.
    rows: Option<Rows>,
    /// What RETURNING shows of the rows that were written, and of the one that is.
    returned: Option<(ResultSet, Vec<Option<String>>)>,
    /// Why rows that came can't be given. What still comes is passed over.
    failed: Option<Failure>,
    /// Whether its table was defined anew before the program served it.
    is_stale: bool,
    /// How often it was asked again for that.
    repeats: u32,
    /// Whether it was refused for something that the table's definition may tell.
    is_explained: bool,
}

impl Running {
    /// Gives the client rows that wait, as far as it takes its output.
    pub fn flow(&mut self, output: &mut Output) -> Result<(), Failure> {
        self.rows.as_mut().map_or(Ok(()), |rows| rows.flow(output))
    }
}

/// How often a statement is asked again whose table is defined anew all the time.
const MOST_REPEATS: u32 = 8;

/// What goes on once a COMMIT is answered.
#[derive(Clone, Debug)]
pub enum AfterCommit {
    /// The client's COMMIT.
    Command {
        /// What asked for it.
        target: Target,
        /// AND CHAIN.
        chain: bool,
    },
    /// The end of a simple query.
    Query,
    /// Sync.
    Sync,
}

/// What goes on once a definition is known.
#[derive(Debug)]
pub enum AfterDefinition {
    /// Bind of this statement, with the values of its parameters.
    Bind(Binding, Vec<Option<Vec<u8>>>, Rc<Prepared>),
    /// Describe of a prepared statement of this name.
    Describe(String, Rc<Prepared>),
    /// Describe of a portal of this name.
    DescribePortal(String, Rc<Prepared>),
    /// A statement.
    Run(Box<Running>),
    /// The report of a statement that was refused for a value.
    Explain(Box<Running>, Failure),
    /// Nothing: it is asked for behind a statement that defines the table.
    Nothing,
}

/// Makes the report of a reply that isn't understood.
pub fn not_understood() -> Failure {
    Report::fatal(SqlState::INTERNAL_ERROR, "the server's reply is not valid")
}

impl Connection {
    /// Runs a statement. `commits`: it is a transaction by itself, and its end is sure, so it may be committed at once.
    pub(super) fn execute(&mut self, subject: Subject, target: Target, commits: bool) {
        let owner = subject.clone();
        let statement = match owner.statement() {
            Some(statement) => statement,
            None => return backend::empty_query(self.output.buffer()),
        };
        self.events.push(Event::Statement(statement.kind()));
        if self.transaction.block == Block::Failed && !statement.leaves_failed_block() {
            return self.finish(target, &subject, Err(failed_block()));
        }
        match statement {
            Statement::Served(served) => self.run(served, target, subject, commits),
            Statement::Commit { chain } => self.commit_block(*chain, target, &subject),
            Statement::Rollback { chain } => self.roll_back_block(*chain, target, &subject),
            Statement::Savepoint(name) => self.savepoint(&name.text, target, &subject),
            Statement::RollbackTo(name) => self.roll_back_to(&name.text, target, &subject),
            Statement::Declare(cursor) => self.declare(cursor, target, subject),
            Statement::Fetch {
                name,
                step,
                is_move,
            } => self.fetch(&name.text, *step, *is_move, target, &subject),
            Statement::Query(query) => self.run_query(query, target, subject),
            statement => {
                let result = self.run_locally(statement);
                self.finish(target, &subject, result);
            }
        }
    }

    fn run(&mut self, served: &Served, target: Target, subject: Subject, commits: bool) {
        let verb = served.verb();
        if let Err(report) = self.may_run(served) {
            return self.finish(target, &subject, Err(report));
        }
        match served {
            Served::Define(define) if define.line.is_empty() => {
                self.tell(&define.notices);
                return self.complete(&target, Tag::Plain(verb.words()));
            }
            Served::Show(Show::Statistics) => {
                let completed = Completed {
                    tag: Tag::Plain(verb.words()),
                    rows: Some(self.totals.shown()),
                };
                return self.finish(target, &subject, Ok(completed));
            }
            _ => {}
        }
        self.run_by_definition(Box::new(Running {
            verb,
            target,
            subject,
            commits,
            row: 0,
            definition: None,
            replies: 1,
            reader: None,
            rows: None,
            returned: None,
            failed: None,
            is_stale: false,
            repeats: 0,
            is_explained: false,
        }));
    }

    /// Asks the program for a statement. If that needs the definition of its table, and it isn't known, it is asked for
    /// first.
    fn run_by_definition(&mut self, mut running: Box<Running>) {
        let subject = running.subject.clone();
        let (served, input) = match subject.served() {
            Some(served) => (served, subject.input()),
            None => return self.die(not_understood()),
        };
        let table = served.table().map(|table| table.text.as_str());
        running.definition = table.and_then(|table| self.definitions().get(table));
        if let (Some(table), None) = (table, &running.definition) {
            if line::needs_definition(served, input) {
                return self.ask_definition(table, AfterDefinition::Run(running));
            }
        }
        if let Err(report) = self.ask_statement(&mut running, served, input) {
            return self.fail_statement(running, report);
        }
        let verb = running.verb;
        if running.replies == 0 {
            // No key, no row.
            let begun = self.begin_rows_of(&mut running);
            return self.finish_statement(running, begun.map(|()| Completed::plain("SELECT")));
        }
        self.await_statement(running);
        if let (Verb::CreateTable | Verb::AlterTable, Some(table)) = (verb, table) {
            // Nobody's statement comes in between. So no SELECT has to ask for it.
            self.ask_definition(table, AfterDefinition::Nothing);
        }
    }

    /// Writes the lines of a statement, and makes ready what their replies need.
    fn ask_statement(
        &mut self,
        running: &mut Running,
        served: &Served,
        input: Input<'_>,
    ) -> Result<(), Failure> {
        let question = Question::from(running.verb);
        running.replies = 1;
        let definition = running.definition.clone();
        if let (Served::Select(select), Some(definition)) = (served, &definition) {
            let shape = select.shape(definition, input)?;
            running.replies = self.requests.lines(question, |out| {
                line::write_select(select, definition, input, out)
            })?;
            running.reader = Some(Reader::of_table(Rc::clone(definition), shape));
            return Ok(());
        }
        if question != Question::Order {
            running.reader = Some(Reader::of_show(question));
        }
        self.prepare_returned(running, served, input)?;
        let (row, definition) = (running.row, definition.as_deref());
        let need = match running.verb {
            Verb::Reserve if self.commits_at_once(running) => Some(Need::Statement),
            Verb::Reserve => Some(Need::Transaction),
            _ => None,
        };
        self.requests.line(need, question, |out| {
            line::write(served, row, definition, input, out)
        })
    }

    /// Computes what RETURNING shows of a row before that is written: what is wrong with it changes nothing. What PostgreSQL
    /// finds before it runs a statement comes first.
    fn prepare_returned(
        &self,
        running: &mut Running,
        served: &Served,
        input: Input<'_>,
    ) -> Result<(), Failure> {
        let shown = served.returning();
        let definition = match &running.definition {
            Some(definition) if !shown.is_empty() => definition,
            _ => return Ok(()),
        };
        let known = line::known_values(served, running.row, definition, input)?;
        let rows = match running.returned.take() {
            Some((rows, _)) => rows,
            None => ResultSet::new(select::columns(shown, definition, input.types)?),
        };
        // What is refused when the row is written comes before what RETURNING can't tell of it.
        let (row, by) = (running.row, Some(&**definition));
        line::write(served, row, by, input, &mut Vec::new())?;
        let row = select::returned_row(shown, definition, input, |place| known[place].clone())?;
        running.returned = Some((rows, row));
        Ok(())
    }

    /// Returns whether a statement is a transaction by itself, whose COMMIT is asked with it.
    fn commits_at_once(&self, running: &Running) -> bool {
        let is_alone = self.transaction.block == Block::None && !self.transaction.dirty;
        // A portal with rows stays until Sync.
        running.verb == Verb::Reserve && running.commits && is_alone && running.returned.is_none()
    }

    /// Awaits the reply to a statement's line, with its COMMIT behind it if it is a transaction by itself.
    fn await_statement(&mut self, running: Box<Running>) {
        let commits = self.commits_at_once(&running);
        self.awaited.push_back(Awaited::Statement(running));
        if commits {
            let need = Some(Need::Statement);
            self.ask(need, Question::Order, &["COMMIT"], Awaited::OwnCommit(None));
        }
    }

    /// Asks the program by a line, and awaits its reply.
    pub(super) fn ask(
        &mut self,
        need: Option<Need>,
        question: Question,
        words: &[&str],
        awaited: Awaited,
    ) {
        self.requests.push(need, question, words);
        self.awaited.push_back(awaited);
    }

    /// Asks the program by a line of the transaction, and awaits its reply.
    pub(super) fn ask_in_transaction(&mut self, words: &[&str], awaited: Awaited) {
        self.ask(Some(Need::Transaction), Question::Order, words, awaited);
    }

    /// Refuses what would commit by itself inside a transaction, and writes of a transaction that only reads.
    fn may_run(&self, served: &Served) -> Result<(), Failure> {
        let verb = served.verb();
        let is_inside = self.transaction.block == Block::Open
            || self.transaction.several
            || self.transaction.dirty;
        let locks = match served {
            Served::Select(select) => select.locks.as_ref(),
            _ => None,
        };
        if (verb.writes() || locks.is_some()) && self.is_read_only() {
            let locks = locks.map_or(String::new(), |strength| format!(" FOR {}", strength));
            return Err(Report::error(
                SqlState::READ_ONLY_TRANSACTION,
                format!(
                    "cannot execute {}{} in a read-only transaction",
                    verb.words(),
                    locks
                ),
            ));
        }
        if verb.commits_by_itself() && is_inside {
            return Err(sqlstate::commits_by_itself(verb.words()));
        }
        match served {
            Served::Define(define) => self.may_name_key(define),
            _ => Ok(()),
        }
    }

    /// Checks that no table has the name of a new table's key. In PostgreSQL both are relations.
    fn may_name_key(&self, define: &Define) -> Result<(), Failure> {
        let is_known = |name: &str| self.definitions().get(name).is_some();
        let is_there = define.is_conditional && is_known(&define.table.text);
        let mut key = define.key.iter().filter(|_| !is_there);
        match key.find(|key| key.text == define.table.text || is_known(&key.text)) {
            Some(key) => Err(Report::error(
                SqlState::DUPLICATE_TABLE,
                format!("relation \"{}\" already exists", key.text),
            )),
            None => Ok(()),
        }
    }

    /// Takes a line of a reply that is not its last one.
    pub(super) fn take_line(&mut self, line: &[u8]) {
        match self.awaited.pop_front() {
            Some(Awaited::Statement(mut running)) => {
                if running.failed.is_none() && !running.is_stale {
                    if let Err(report) = self.take_row(&mut running, line) {
                        running.failed = Some(report);
                    }
                }
                self.awaited.push_front(Awaited::Statement(running));
            }
            // The program's part has taken note of it.
            Some(awaited @ Awaited::Definition { .. }) => self.awaited.push_front(awaited),
            _ => self.die(not_understood()),
        }
    }

    /// Makes a row of a line, and gives it to the client.
    fn take_row(&mut self, running: &mut Running, line: &[u8]) -> Result<(), Failure> {
        if self.is_stale(running) {
            running.is_stale = true;
            return Ok(());
        }
        let line = std::str::from_utf8(line).map_err(|_| not_understood())?;
        self.begin_rows_of(running)?;
        let (reader, rows) = match (&mut running.reader, &mut running.rows) {
            (Some(reader), Some(rows)) => (reader, rows),
            _ => return Err(not_understood()),
        };
        let (output, mut result) = (&mut self.output, Ok(()));
        let read = reader.read(line, |row| {
            if result.is_ok() {
                result = rows.push(row, output);
            }
        });
        read.map_err(|_| not_understood())?;
        result
    }

    /// Returns whether the table of a statement has other columns than the ones by which it was asked.
    fn is_stale(&self, running: &Running) -> bool {
        let asked = running.definition.as_ref();
        asked.map_or(false, |asked| match self.definitions().get(&asked.table) {
            Some(now) => !Rc::ptr_eq(&now, asked) && now.columns != asked.columns,
            None => true,
        })
    }

    fn begin_rows_of(&mut self, running: &mut Running) -> Result<(), Failure> {
        if let (None, Some(reader)) = (&running.rows, &running.reader) {
            let tag = match running.verb {
                Verb::Select => Tag::Rows("SELECT"),
                _ => Tag::Plain("SHOW"),
            };
            let shape = reader.shape().clone();
            running.rows = Some(self.begin_rows(&running.target, shape, tag)?);
        }
        Ok(())
    }

    /// Takes the last line of a reply.
    pub(super) fn take_last_line(&mut self, line: &[u8]) {
        let outcome = std::str::from_utf8(line).ok().and_then(reply::outcome);
        let (awaited, outcome) = match (self.awaited.pop_front(), outcome) {
            (Some(awaited), Some(outcome)) => (awaited, outcome),
            _ => return self.die(not_understood()),
        };
        self.totals.count(outcome);
        match awaited {
            Awaited::Statement(running) => self.statement_replied(running, outcome),
            Awaited::OwnCommit(Some((running, result))) => {
                self.own_commit_replied(running, result, outcome);
            }
            Awaited::OwnCommit(None) => self.die(not_understood()),
            Awaited::Definition { table, then } => self.definition_replied(&table, then, outcome),
            Awaited::Commit(after) => self.commit_replied(after, outcome),
            Awaited::Undo if outcome != Outcome::Done(Done::RolledBack) => {
                // The session is given back, and rolled back until it is free. So nothing of it is ever committed.
                let text =
                    "terminating connection because its transaction could not be rolled back";
                self.die(Report::fatal(SqlState::OUT_OF_MEMORY, text));
            }
            Awaited::Undo => {}
            control => self.control_replied(control, outcome),
        }
    }

    /// Asks the program for the definition of a table.
    pub(super) fn ask_definition(&mut self, table: &str, then: AfterDefinition) {
        let awaited = Awaited::Definition {
            table: table.to_owned(),
            then,
        };
        self.ask(None, Question::Table, &["SHOW TABLE ", table], awaited);
    }

    fn definition_replied(&mut self, table: &str, then: AfterDefinition, outcome: Outcome<'_>) {
        if let Outcome::Refused(Refusal::NoSuchTable) = outcome {
            self.definitions().forget(table);
        }
        let definition = self.definitions().get(table);
        let outcome = match outcome {
            // Names of the program have no case. It showed another table than the client's.
            Outcome::Done(_) if definition.is_none() => Outcome::Refused(Refusal::NoSuchTable),
            outcome => outcome,
        };
        match (then, outcome) {
            (AfterDefinition::Nothing, _) => {}
            (AfterDefinition::Explain(running, report), _) => {
                self.explain(running, report, definition.as_deref());
            }
            (AfterDefinition::Run(mut running), Outcome::Refused(refusal)) => {
                match self.refused(&mut running, &refusal) {
                    Ok(completed) => self.finish(running.target, &running.subject, Ok(completed)),
                    Err(report) => self.fail_statement(running, report),
                }
            }
            (
                AfterDefinition::Bind(_, _, statement)
                | AfterDefinition::Describe(_, statement)
                | AfterDefinition::DescribePortal(_, statement),
                Outcome::Refused(refusal),
            ) => {
                let report = refusal_of_table(&refusal, &statement);
                self.fail(report, Some(&statement.text));
            }
            (AfterDefinition::Run(running), _) => self.run_by_definition(running),
            (AfterDefinition::Bind(binding, values, _), _) => {
                let values: Vec<_> = values.iter().map(Option::as_deref).collect();
                self.bind_now(binding, &values, definition.as_deref());
            }
            (AfterDefinition::Describe(name, _), _) => self.describe_now(&name),
            (AfterDefinition::DescribePortal(name, _), _) => self.describe_portal(&name),
        }
    }

    fn statement_replied(&mut self, mut running: Box<Running>, outcome: Outcome<'_>) {
        let result = self.outcome(&mut running, outcome);
        running.replies -= 1;
        if running.replies > 0 {
            if let (Err(report), None) = (result, &running.failed) {
                running.failed = Some(report);
            }
            return self.awaited.push_front(Awaited::Statement(running));
        }
        match self.awaited.front_mut() {
            Some(Awaited::OwnCommit(none)) => *none = Some((running, result)),
            _ => self.finish_statement(running, result),
        }
    }

    /// Ends a statement. If it was served by another definition than it was asked by, it is asked again: a SELECT and a
    /// refusal changed nothing. If a value was refused, the table's definition tells which.
    fn finish_statement(&mut self, mut running: Box<Running>, result: Result<Completed, Failure>) {
        if running.is_stale && running.rows.is_none() && running.repeats < MOST_REPEATS {
            running.repeats += 1;
            running.is_stale = false;
            running.failed = None;
            running.replies = 1;
            return self.run_by_definition(running);
        }
        match result {
            Err(report) if running.is_explained => {
                let served = running.subject.served();
                let table = served
                    .and_then(Served::table)
                    .map(|table| table.text.clone());
                match table.map(|table| (self.definitions().get(&table), table)) {
                    Some((None, table)) => {
                        self.ask_definition(&table, AfterDefinition::Explain(running, report));
                    }
                    known => {
                        let definition = known.and_then(|(definition, _)| definition);
                        self.explain(running, report, definition.as_deref());
                    }
                }
            }
            Err(report) => self.fail_statement(running, report),
            Ok(_) if self.has_further_row(&running) => {
                running.row += 1;
                self.run_by_definition(running);
            }
            Ok(completed) => match running.rows {
                None => self.finish(running.target, &running.subject, Ok(completed)),
                Some(rows) => {
                    if let Err(report) = self.end_rows(running.target, rows) {
                        self.fail_of(report, &running.subject);
                    }
                }
            },
        }
    }

    /// Returns whether an INSERT has more rows than were written.
    fn has_further_row(&self, running: &Running) -> bool {
        match running.subject.served() {
            Some(Served::Insert(insert)) => running.row + 1 < insert.rows.len(),
            _ => false,
        }
    }

    /// Tells the client that a statement was refused, and how many rows of it were written before.
    pub(super) fn fail_statement(&mut self, running: Box<Running>, mut report: Failure) {
        if running.row > 0 {
            let before = match running.row {
                1 => "The row before it was inserted, and stays.".to_owned(),
                rows => format!("The {} rows before it were inserted, and stay.", rows),
            };
            report.detail = Some(match report.detail.take() {
                Some(detail) => format!("{} {}", detail, before),
                None => before,
            });
        }
        self.finish(running.target, &running.subject, Err(report));
    }

    /// Tells what was wrong with a statement that was refused, as far as its table's definition tells it.
    fn explain(&mut self, running: Box<Running>, report: Failure, definition: Option<&Definition>) {
        let (row, input) = (running.row, running.subject.input());
        let explained = definition
            .zip(running.subject.served())
            .and_then(|(definition, served)| explain::refusal(definition, served, row, input));
        self.fail_statement(running, explained.unwrap_or(report));
    }

    /// Takes the reply to the COMMIT behind an UPDATE.
    fn own_commit_replied(
        &mut self,
        running: Box<Running>,
        result: Result<Completed, Failure>,
        outcome: Outcome<'_>,
    ) {
        let committed = commit_outcome(outcome);
        let is_committed = committed.is_ok();
        // The COMMIT behind a refusal commits nothing.
        let result = result.and_then(|completed| committed.map(|()| completed));
        match &result {
            Ok(_) => self.end_transaction(true),
            // A COMMIT that fails leaves open what was reserved: it is rolled back.
            Err(_) => self.transaction.dirty &= !is_committed,
        }
        self.finish_statement(running, result);
    }

    fn commit_replied(&mut self, after: AfterCommit, outcome: Outcome<'_>) {
        let failed = match commit_outcome(outcome) {
            Ok(()) => {
                let chain = matches!(after, AfterCommit::Command { chain: true, .. });
                self.end_block(true, chain);
                None
            }
            Err(report) => {
                self.transaction.block = Block::None;
                Some(report)
            }
        };
        match (after, failed) {
            (AfterCommit::Command { target, .. }, None) => {
                self.complete(&target, Tag::Plain("COMMIT"));
            }
            (AfterCommit::Command { .. } | AfterCommit::Query, Some(report)) => {
                self.fail(report, None);
            }
            (AfterCommit::Query, None) => self.end_query(),
            (AfterCommit::Sync, failed) => {
                if let Some(report) = failed {
                    self.fail(report, None);
                    self.skipping = false;
                }
                self.ready();
            }
        }
    }

    fn control_replied(&mut self, awaited: Awaited, outcome: Outcome<'_>) {
        let (target, tag) = match (awaited, outcome) {
            (Awaited::Rollback { target, chain }, Outcome::Done(Done::RolledBack)) => {
                self.end_block(false, chain);
                (target, "ROLLBACK")
            }
            (Awaited::Savepoint { target, name }, Outcome::Done(Done::Savepoint)) => {
                self.add_savepoint(name);
                (target, "SAVEPOINT")
            }
            (Awaited::RollbackTo { target, place }, Outcome::Done(Done::RolledBack)) => {
                self.back_to_savepoint(place);
                (target, "ROLLBACK")
            }
            (_, Outcome::Refused(refusal)) => {
                let refused = Refused {
                    verb: "SAVEPOINT",
                    table: None,
                    constraint: None,
                };
                return self.fail(sqlstate::refusal(&refusal, refused), None);
            }
            _ => return self.die(not_understood()),
        };
        self.complete(&target, Tag::Plain(tag));
    }

    /// Returns what the reply to a statement means.
    fn outcome(
        &mut self,
        running: &mut Running,
        outcome: Outcome<'_>,
    ) -> Result<Completed, Failure> {
        match outcome {
            Outcome::Done(done) => self.done(running, done),
            Outcome::Refused(refusal) => {
                running.is_explained = matches!(
                    refusal,
                    Refusal::BadValue | Refusal::BadAssignment | Refusal::NotTheKey
                );
                running.is_stale |= refusal.is_of_definition() && self.is_stale(running);
                self.refused(running, &refusal)
            }
        }
    }

    fn done(&mut self, running: &mut Running, done: Done) -> Result<Completed, Failure> {
        let tag = match done {
            Done::Reserved => {
                self.transaction.reserves(self.now);
                return Ok(written(running, Tag::Plain("UPDATE 1")));
            }
            Done::Inserted => Tag::Count("INSERT 0", running.row as u64 + 1),
            Done::Deleted => Tag::Plain("DELETE 1"),
            Done::Updated => Tag::Plain("UPDATE 1"),
            Done::Created => Tag::Plain("CREATE TABLE"),
            Done::Altered => Tag::Plain("ALTER TABLE"),
            Done::Dropped => Tag::Plain("DROP TABLE"),
            Done::Rows(lines) | Done::Reservations(lines) => {
                return self.rows_done(running, Some(lines));
            }
            Done::Table | Done::Bounds => return self.rows_done(running, None),
            Done::Committed | Done::RolledBack | Done::Savepoint | Done::Statistics => {
                return Err(not_understood());
            }
        };
        self.events.push(Event::Committed);
        if let Some(Served::Define(define)) = running.subject.served() {
            self.tell(&define.notices);
        }
        Ok(written(running, tag))
    }

    /// Tells the client notices.
    fn tell(&mut self, notices: &[String]) {
        for notice in notices {
            let report = Report::notice(SqlState::SUCCESS, notice.clone());
            self.report(&report, None);
        }
    }

    /// Ends the rows of a reply that says how many lines it has.
    fn rows_done(
        &mut self,
        running: &mut Running,
        lines: Option<u64>,
    ) -> Result<Completed, Failure> {
        if let Some(report) = running.failed.take() {
            return Err(report);
        }
        if running.is_stale {
            // It is asked again, unless rows of it were given.
            return Err(other_columns());
        }
        self.begin_rows_of(running)?;
        match running.reader.as_mut().map(|reader| reader.end(lines)) {
            Some(Ok(())) => Ok(Completed::plain("SHOW")),
            _ => Err(not_understood()),
        }
    }

    fn refused(
        &mut self,
        running: &mut Running,
        refusal: &Refusal<'_>,
    ) -> Result<Completed, Failure> {
        match (refusal, running.verb) {
            (Refusal::NoSuchRow, Verb::Reserve | Verb::Replace) => {
                return Ok(unwritten(running, "UPDATE 0"));
            }
            (Refusal::NoSuchRow, Verb::Delete) => return Ok(unwritten(running, "DELETE 0")),
            (Refusal::NoSuchRow, Verb::ShowBounds) => {
                self.begin_rows_of(running)?;
                return Ok(Completed::plain("SHOW"));
            }
            // The tree has no statement that the program does not read.
            (Refusal::Syntax { .. }, _) => {
                let text = "the server did not read the statement";
                return Err(Report::error(SqlState::INTERNAL_ERROR, text));
            }
            _ => {}
        }
        let (table, constraint, is_conditional) = match running.subject.served() {
            Some(Served::Define(define)) => (
                Some(&define.table),
                define.constraint.as_ref(),
                define.is_conditional,
            ),
            served => (served.and_then(Served::table), None, false),
        };
        let report = sqlstate::refusal(
            refusal,
            Refused {
                verb: running.verb.words(),
                table: table.map(|table| (table.text.as_str(), table.span.start)),
                constraint: constraint.map(|name| name.text.as_str()),
            },
        );
        let skips = match refusal {
            Refusal::TableExists => running.verb == Verb::CreateTable,
            Refusal::NoSuchTable => running.verb == Verb::DropTable,
            Refusal::NoSuchConstraint => running.verb == Verb::AlterTable,
            _ => false,
        };
        if is_conditional && skips {
            let state = match refusal {
                Refusal::TableExists => report.state,
                _ => SqlState::SUCCESS,
            };
            let text = format!("{}, skipping", report.message);
            self.report(&Report::notice(state, text), None);
            return Ok(Completed::plain(running.verb.words()));
        }
        Err(report)
    }

    /// Tells the client how its statement ended.
    pub(super) fn finish(
        &mut self,
        target: Target,
        subject: &Subject,
        result: Result<Completed, Failure>,
    ) {
        let ended = result.and_then(|completed| match completed.rows {
            Some(rows) => self.give_result(target, rows, completed.tag),
            None => {
                self.complete(&target, completed.tag);
                Ok(())
            }
        });
        if let Err(report) = ended {
            self.fail_of(report, subject);
        }
    }

    /// Tells the client that its statement, which has no rows, was served.
    pub(super) fn complete(&mut self, target: &Target, tag: Tag) {
        match target {
            Target::Describe { portal } => return self.write_description(portal, None),
            Target::Execute { portal, .. } => {
                if let Ok(portal) = self.prepared.portal(portal) {
                    portal.progress = Progress::Done;
                }
            }
            Target::Declare { by, .. } | Target::Fetch { by, .. } => return self.complete(by, tag),
            Target::Simple => {}
        }
        let out = self.output.buffer();
        match tag {
            Tag::Plain(tag) => backend::command_complete(out, tag),
            Tag::Rows(words) => backend::command_complete_of(out, words, 0),
            Tag::Count(words, count) => {
                backend::command_complete_of(out, words, count as usize);
            }
        }
    }

    /// Tells the client that its statement failed, with the place in its text.
    pub(super) fn fail_of(&mut self, report: Failure, subject: &Subject) {
        match subject {
            Subject::Simple(_) => self.fail_query(report),
            Subject::Prepared(prepared, _) => self.fail(report, Some(&prepared.text)),
        }
    }

    /// Tells the client that a statement of its simple query failed, with the place in its text.
    pub(super) fn fail_query(&mut self, report: Failure) {
        let text = self.query.as_ref().map(|query| Rc::clone(&query.text));
        self.fail(report, text.as_deref());
    }

    /// Runs FETCH or MOVE.
    fn fetch(&mut self, name: &str, step: Step, is_move: bool, target: Target, subject: &Subject) {
        let rows = match step {
            Step::Rows(count) => Ok(Some(u64::from(count))),
            Step::All => Ok(None),
            Step::Back => {
                let text = "cursor can only scan forward";
                let report = Report::error(SqlState::NOT_IN_PREREQUISITE_STATE, text);
                Err(report.hint("Cursors are as with NO SCROLL: read the query again."))
            }
            Step::Other => {
                let report = Report::missing("FETCH or MOVE to a row by its number");
                Err(report.hint("FETCH n, FETCH ALL and MOVE n go forward."))
            }
        };
        let by = Box::new(target.clone());
        let cursor = name.to_owned();
        let begun = rows
            .and_then(|rows| self.begin_fetch(name, rows, is_move, Target::Fetch { cursor, by }));
        if let Err(report) = begun {
            self.finish(target, subject, Err(report));
        }
    }

    /// Runs DECLARE: its query is read, and its rows wait in a portal of the cursor's name.
    fn declare(&mut self, cursor: &Cursor, target: Target, subject: Subject) {
        if self.transaction.block == Block::None {
            let report = outside_of_block("DECLARE CURSOR");
            return self.finish(target, &subject, Err(report));
        }
        let name = cursor.name.text.as_str();
        let statement = Statement::Fetch {
            name: cursor.name.clone(),
            step: Step::All,
            is_move: false,
        };
        let parsed = Parsed {
            statement,
            places: Vec::new(),
            parameter: None,
            size: name.len(),
        };
        let text = "".into();
        let prepared = Rc::new(Prepared::new(text, Some(Rc::new(parsed)), Vec::new()));
        let portal = Portal::new(
            prepared,
            Arguments::default(),
            Default::default(),
            Progress::Done,
        );
        if let Err(report) = self.prepared.add_portal(name, portal) {
            return self.finish(target, &subject, Err(report));
        }
        let by = Box::new(target);
        let cursor_target = Target::Declare {
            cursor: name.to_owned(),
            by,
        };
        match &*cursor.read {
            Statement::Served(served) => self.run(served, cursor_target, subject, false),
            Statement::Query(query) => self.run_query(query, cursor_target, subject),
            read => {
                let result = self.run_locally(read);
                self.finish(cursor_target, &subject, result);
            }
        }
    }

    /// Commits what is reserved, because a query or a pipeline ends.
    pub(super) fn commit(&mut self, after: AfterCommit) {
        self.ask_in_transaction(&["COMMIT"], Awaited::Commit(after));
    }

    fn commit_block(&mut self, chain: bool, target: Target, subject: &Subject) {
        if self.transaction.block == Block::Failed {
            return self.roll_back_block(chain, target, subject);
        }
        if let Err(report) = self.expect_block(chain, "COMMIT AND CHAIN") {
            return self.finish(target, subject, Err(report));
        }
        if self.transaction.dirty {
            return self.commit(AfterCommit::Command { target, chain });
        }
        self.end_block(true, chain);
        self.finish(target, subject, Ok(Completed::plain("COMMIT")));
    }

    fn roll_back_block(&mut self, chain: bool, target: Target, subject: &Subject) {
        if let Err(report) = self.expect_block(chain, "ROLLBACK AND CHAIN") {
            return self.finish(target, subject, Err(report));
        }
        if self.transaction.dirty {
            let awaited = Awaited::Rollback { target, chain };
            return self.ask_in_transaction(&["ROLLBACK"], awaited);
        }
        self.end_block(false, chain);
        self.finish(target, subject, Ok(Completed::plain("ROLLBACK")));
    }

    /// Warns if no block is there to be ended, or refuses a statement that needs one to chain the next to it.
    fn expect_block(&mut self, chain: bool, statement: &str) -> Result<(), Failure> {
        if self.transaction.block != Block::None {
            return Ok(());
        }
        if chain {
            return Err(outside_of_block(statement));
        }
        let text = "there is no transaction in progress";
        let report = Report::warning(SqlState::NO_ACTIVE_TRANSACTION, text);
        self.report(&report, None);
        Ok(())
    }

    fn savepoint(&mut self, name: &str, target: Target, subject: &Subject) {
        if self.transaction.block == Block::None {
            let report = outside_of_block("SAVEPOINT");
            return self.finish(target, subject, Err(report));
        }
        let name = name.to_owned();
        let words = ["SAVEPOINT ", &savepoint_name(self.savepoints())];
        self.ask_in_transaction(&words, Awaited::Savepoint { target, name });
    }

    fn roll_back_to(&mut self, name: &str, target: Target, subject: &Subject) {
        if self.transaction.block == Block::None {
            let report = outside_of_block("ROLLBACK TO SAVEPOINT");
            return self.finish(target, subject, Err(report));
        }
        match self.transaction.savepoint(name) {
            None => self.finish(target, subject, Err(no_savepoint(name))),
            Some(place) => {
                let words = ["ROLLBACK TO ", &savepoint_name(place)];
                let awaited = Awaited::RollbackTo { target, place };
                self.ask_in_transaction(&words, awaited);
            }
        }
    }
}

/// Returns what the reply to a COMMIT means.
fn commit_outcome(outcome: Outcome<'_>) -> Result<(), Failure> {
    match outcome {
        Outcome::Done(Done::Committed) => Ok(()),
        Outcome::Refused(refusal) => {
            let refused = Refused {
                verb: "COMMIT",
                table: None,
                constraint: None,
            };
            Err(sqlstate::refusal(&refusal, refused))
        }
        Outcome::Done(_) => Err(not_understood()),
    }
}

/// Returns what a statement that wrote a row tells, with what its RETURNING shows if all rows are written.
fn written(running: &mut Running, tag: Tag) -> Completed {
    let (mut rows, row) = match running.returned.take() {
        Some(returned) => returned,
        None => return Completed { tag, rows: None },
    };
    let row: Vec<Option<&str>> = row.iter().map(Option::as_deref).collect();
    rows.push_row(&row);
    let is_last = match running.subject.served() {
        Some(Served::Insert(Insert { rows, .. })) => running.row + 1 == rows.len(),
        _ => true,
    };
    if is_last {
        let rows = Some(rows);
        return Completed { tag, rows };
    }
    running.returned = Some((rows, Vec::new()));
    Completed { tag, rows: None }
}

/// Returns what a statement that wrote no row tells.
fn unwritten(running: &mut Running, tag: &'static str) -> Completed {
    Completed {
        tag: Tag::Plain(tag),
        rows: running.returned.take().map(|(rows, _)| rows),
    }
}

/// Makes the report of a prepared statement whose table can't be shown.
fn refusal_of_table(refusal: &Refusal<'_>, statement: &Prepared) -> Failure {
    let served = statement.served();
    let refused = Refused {
        verb: served.map_or("", |served| served.verb().words()),
        table: served
            .and_then(Served::table)
            .map(|Name { text, span }| (text.as_str(), span.start)),
        constraint: None,
    };
    sqlstate::refusal(refusal, refused)
}

/// Makes the report of a statement in a block that has failed.
pub fn failed_block() -> Failure {
    Report::error(
        SqlState::FAILED_TRANSACTION,
        "current transaction is aborted, commands ignored until end of transaction block",
    )
}

/// Makes the report of a statement that needs a block.
pub fn outside_of_block(statement: &str) -> Failure {
    Report::error(
        SqlState::NO_ACTIVE_TRANSACTION,
        format!("{} can only be used in transaction blocks", statement),
    )
}

/// Makes the report of a savepoint that isn't there.
pub fn no_savepoint(name: &str) -> Failure {
    Report::error(
        SqlState::UNDEFINED_SAVEPOINT,
        format!("savepoint \"{}\" does not exist", name),
    )
}
