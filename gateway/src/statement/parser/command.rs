//! Statements (manual, SQL Commands), with those of the program and without the queries.

use std::mem;

use crate::sqlstate::{Failure, Report};
use crate::statement::parser::{keywords, Parser, TokenKind};
use crate::statement::query::{
    self, Expression, ExpressionKind, FoundUpdate, Name, Outline, Place, QualifiedName,
};
use crate::statement::select::Shown;
use crate::statement::served::{
    returned, Assignment, Delete, Insert, Keys, Served, Show, Table, Update, Verb,
};
use crate::statement::session::{Isolation, Modes, Setting};
use crate::statement::{constant, relations, select, Cursor, Discard, Statement, Step};

impl<'a> Parser<'a> {
    /// Reads a statement to its end.
    pub(super) fn statement(&mut self) -> Result<Statement, Failure> {
        let statement = self.unended()?;
        self.expect_end()?;
        Ok(statement)
    }

    fn unended(&mut self) -> Result<Statement, Failure> {
        if self.at_symbol(0, b'(') {
            return self.read();
        }
        let word = match self.keyword_at(0) {
            Some("SELECT" | "VALUES" | "WITH" | "TABLE") => return self.read(),
            Some(word) => word,
            None => return Err(self.fault()),
        };
        self.at += 1;
        let start = self.tokens.list[0].span().start;
        match word {
            "UPDATE" => self.update(),
            "INSERT" => self.insert(),
            "DELETE" => self.delete(),
            "BEGIN" => {
                self.keyword_of(&["WORK", "TRANSACTION"]);
                let modes = self.modes()?;
                Ok(Statement::Begin {
                    start: false,
                    modes,
                })
            }
            "START" => {
                self.expect_keyword("TRANSACTION")?;
                let modes = self.modes()?;
                Ok(Statement::Begin { start: true, modes })
            }
            "COMMIT" | "END" => {
                self.refuse_two_phases(start)?;
                self.keyword_of(&["WORK", "TRANSACTION"]);
                let chain = self.chain()?;
                Ok(Statement::Commit { chain })
            }
            "ROLLBACK" | "ABORT" => self.rollback(start, word == "ROLLBACK"),
            "SAVEPOINT" => self.name().map(Statement::Savepoint),
            "RELEASE" => {
                self.optional_word("SAVEPOINT");
                self.name().map(Statement::Release)
            }
            "SHOW" => self.show(),
            "SET" => self.set(),
            "RESET" => {
                if self.keyword("ALL") {
                    return Ok(Statement::ResetAll);
                }
                if self.keyword("ROLE") || self.keywords(&["SESSION", "AUTHORIZATION"]) {
                    return Ok(Statement::SetRole {
                        name: None,
                        is_reset: true,
                    });
                }
                let name = self.shown_name()?;
                Ok(Statement::Set(Setting {
                    name,
                    value: None,
                    local: false,
                    reset: true,
                }))
            }
            "CREATE" => self.create(start),
            "ALTER" => self.alter(start),
            "DROP" => self.drop(start),
            "DISCARD" => {
                let what = self.keyword_of(&["ALL", "PLANS", "SEQUENCES", "TEMP", "TEMPORARY"]);
                Ok(Statement::Discard(match what {
                    Some("ALL") => Discard::All,
                    Some("PLANS") => Discard::Plans,
                    Some("SEQUENCES") => Discard::Sequences,
                    Some(_) => Discard::Temporary,
                    None => return Err(self.fault()),
                }))
            }
            "DEALLOCATE" => {
                self.optional_word("PREPARE");
                if self.keyword("ALL") {
                    return Ok(Statement::Deallocate(None));
                }
                self.name().map(Some).map(Statement::Deallocate)
            }
            "UNLISTEN" => {
                if !self.take_operator("*") {
                    self.name()?;
                }
                Ok(Statement::Unlisten)
            }
            "DECLARE" => self.declare(),
            "FETCH" => self.fetch(false),
            "MOVE" => self.fetch(true),
            "CLOSE" => {
                if self.keyword("ALL") {
                    return Ok(Statement::Close(None));
                }
                self.name().map(Some).map(Statement::Close)
            }
            word => {
                let report = self.unknown(word);
                Err(match report.place {
                    Some(_) => report,
                    None => report.at(start),
                })
            }
        }
    }

    /// Reads what a statement is.
    pub(super) fn outline(&mut self) -> Result<Outline, Failure> {
        let is_control = matches!(
            self.keyword_at(0),
            Some(
                "BEGIN"
                    | "START"
                    | "COMMIT"
                    | "END"
                    | "ROLLBACK"
                    | "ABORT"
                    | "SAVEPOINT"
                    | "RELEASE"
                    | "SET"
            )
        );
        if is_control {
            return self.unended().map(Box::new).map(Outline::Control);
        }
        self.updates().map(|_| Outline::Data)
    }

    /// Reads a query, an INSERT, an UPDATE or a DELETE, which may have WITH in front. Returns the UPDATEs of one table in it.
    pub(super) fn updates(&mut self) -> Result<Vec<FoundUpdate>, Failure> {
        let mut found: Vec<FoundUpdate> = Vec::new();
        let mut names = Vec::new();
        let mut place = Place::Whole;
        if self.keyword("WITH") {
            if self.at_keyword("RECURSIVE") {
                return Err(self.missing("WITH RECURSIVE"));
            }
            let mut number = 0;
            self.list(|parser| {
                names.push(parser.with_name()?.name.text);
                if parser.at_keyword("WITH") {
                    parser.query()?;
                } else {
                    parser.data(Place::InWith(number), &mut found)?;
                }
                number += 1;
                parser.with_end()
            })?;
            place = Place::BehindWith;
        }
        self.data(place, &mut found)?;
        // Such a name is the table's in the UPDATE, and the query's in any other statement.
        let is_hidden = |it: &FoundUpdate| {
            let table = &it.update.table;
            table.schema.is_none() && names.contains(&table.name.text)
        };
        if found.iter().any(is_hidden) {
            return Err(self.missing("an UPDATE of a table with the name of a query in WITH"));
        }
        Ok(found)
    }

    /// Reads a query, an INSERT, an UPDATE or a DELETE. It adds an UPDATE to those that were found.
    fn data(&mut self, place: Place, found: &mut Vec<FoundUpdate>) -> Result<(), Failure> {
        let start = self.start();
        match self.keyword_of(&["INSERT", "UPDATE", "DELETE"]) {
            Some("INSERT") => self.insert_tree(),
            Some("UPDATE") => {
                let update = self.update_tree()?;
                let span = self.span_from(start);
                found.push(FoundUpdate {
                    update,
                    span,
                    place,
                });
                Ok(())
            }
            Some(_) => self.delete_tree(),
            None if self.at_query(0) => self.query().map(drop),
            None => Err(self.missing("such a statement beside others")),
        }
    }

    /// Reads a query, which reads a table of the program or none.
    fn read(&mut self) -> Result<Statement, Failure> {
        let query = self.query()?;
        self.expect_end()?;
        if relations::reads_table(&query) {
            return Served::select(query).map(Statement::Served);
        }
        Ok(match select::exists(&query)? {
            Some(exists) => Statement::Served(Served::Select(Box::new(exists))),
            None => Statement::Query(Box::new(query)),
        })
    }

    /// Makes the report of a first word that begins no statement that is served.
    fn unknown(&mut self, word: &str) -> Failure {
        match word {
            "COPY" => Report::missing("COPY")
                .hint("Load rows by INSERT, each outside a block (autocommit)."),
            "LISTEN" | "NOTIFY" => Report::missing(word).hint(
                "There are no notifications. SHOW BOUNDS shows how much can still be reserved.",
            ),
            "PREPARE" if self.at_keyword("TRANSACTION") => two_phases(),
            "PREPARE" | "EXECUTE" => Report::missing(word)
                .hint("Let the driver prepare statements: the protocol's own are served."),
            "TRUNCATE" => Report::missing("TRUNCATE").hint("Drop the table and create it again."),
            "EXPLAIN" | "ANALYZE" | "VACUUM" | "ANALYSE" | "REINDEX" | "CLUSTER" | "CHECKPOINT" => {
                Report::missing(word).hint("There is no planner, and nothing to clean up.")
            }
            "LOCK" => Report::missing("LOCK").hint("Reservations need no lock."),
            "GRANT" | "REVOKE" | "REASSIGN" | "COMMENT" | "SECURITY" | "IMPORT" | "REFRESH"
            | "CALL" | "DO" | "MERGE" | "LOAD" => Report::missing(word),
            _ => {
                self.at = 0;
                self.fault()
            }
        }
    }

    /// Moves behind a word that may be left out, and that may be a name too.
    fn optional_word(&mut self, word: &str) {
        if self.at_keyword(word) && self.peek_at(1).is_some() {
            self.at += 1;
        }
    }

    fn refuse_two_phases(&self, start: usize) -> Result<(), Failure> {
        if self.at_keyword("PREPARED") {
            return Err(two_phases().at(start));
        }
        Ok(())
    }

    fn rollback(&mut self, start: usize, may_be_partial: bool) -> Result<Statement, Failure> {
        self.refuse_two_phases(start)?;
        self.keyword_of(&["WORK", "TRANSACTION"]);
        if may_be_partial && self.keyword("TO") {
            self.optional_word("SAVEPOINT");
            return self.name().map(Statement::RollbackTo);
        }
        let chain = self.chain()?;
        Ok(Statement::Rollback { chain })
    }

    fn chain(&mut self) -> Result<bool, Failure> {
        if !self.keyword("AND") {
            return Ok(false);
        }
        let no = self.keyword("NO");
        self.expect_keyword("CHAIN")?;
        Ok(!no)
    }

    /// Reads modes of a transaction, at least one.
    fn some_modes(&mut self) -> Result<Modes, Failure> {
        match self.peek() {
            Some(_) => self.modes(),
            None => Err(self.fault()),
        }
    }

    /// Reads modes of a transaction.
    fn modes(&mut self) -> Result<Modes, Failure> {
        let mut modes = Modes::default();
        while self.peek().is_some() {
            if self.keywords(&["ISOLATION", "LEVEL"]) {
                modes.isolation = Some(self.isolation()?);
            } else if self.keyword("READ") {
                match self.keyword_of(&["ONLY", "WRITE"]) {
                    Some(word) => modes.read_only = Some(word == "ONLY"),
                    None => return Err(self.fault()),
                }
            } else {
                // Nothing is deferred.
                self.keyword("NOT");
                self.expect_keyword("DEFERRABLE")?;
            }
            if self.symbol(b',') && self.peek().is_none() {
                return Err(self.fault());
            }
        }
        Ok(modes)
    }

    fn isolation(&mut self) -> Result<Isolation, Failure> {
        if self.keyword("SERIALIZABLE") {
            return Ok(Isolation::Serializable);
        }
        if self.keywords(&["REPEATABLE", "READ"]) {
            return Ok(Isolation::RepeatableRead);
        }
        self.expect_keyword("READ")?;
        match self.keyword_of(&["UNCOMMITTED", "COMMITTED"]) {
            Some("COMMITTED") => Ok(Isolation::ReadCommitted),
            Some(_) => Ok(Isolation::ReadUncommitted),
            None => Err(self.fault()),
        }
    }

    /// Reads the name of a role, or the word for none.
    fn role(&mut self, none: &str) -> Result<Statement, Failure> {
        let name = if self.keyword(none) {
            None
        } else if self.at_text() {
            Some(self.text_value()?)
        } else {
            Some(self.name()?.text)
        };
        Ok(Statement::SetRole {
            name,
            is_reset: false,
        })
    }

    /// Reads SET, from behind that word.
    fn set(&mut self) -> Result<Statement, Failure> {
        if self.keyword("TRANSACTION") {
            return self.some_modes().map(Statement::SetTransaction);
        }
        if self.keyword("CONSTRAINTS") {
            if !self.keyword("ALL") {
                self.list(Self::qualified_name)?;
            }
            return match self.keyword_of(&["DEFERRED", "IMMEDIATE"]) {
                Some(_) => Ok(Statement::SetConstraints),
                None => Err(self.fault()),
            };
        }
        let local = self.keyword("LOCAL");
        if !local && self.keyword("SESSION") {
            if self.keywords(&["CHARACTERISTICS", "AS", "TRANSACTION"]) {
                return self.some_modes().map(Statement::SetCharacteristics);
            }
            if self.keyword("AUTHORIZATION") {
                return self.role("DEFAULT");
            }
        }
        if self.keyword("ROLE") {
            return self.role("NONE");
        }
        let (name, value) = if self.keywords(&["TIME", "ZONE"]) {
            let value = if self.keyword("LOCAL") {
                None
            } else {
                self.setting_value()?
            };
            ("timezone".to_owned(), value)
        } else if self.keyword("NAMES") {
            let value = if self.peek().is_none() {
                None
            } else {
                self.setting_value()?
            };
            ("client_encoding".to_owned(), value)
        } else {
            let name = self.setting_name()?;
            if !self.keyword("TO") && !self.take_operator("=") {
                return Err(self.fault());
            }
            (name, self.setting_value()?)
        };
        Ok(Statement::Set(Setting {
            name,
            value,
            local,
            reset: false,
        }))
    }

    /// Reads the name of a setting behind SHOW or RESET.
    fn shown_name(&mut self) -> Result<String, Failure> {
        if self.keywords(&["TIME", "ZONE"]) {
            Ok("timezone".to_owned())
        } else if self.keywords(&["TRANSACTION", "ISOLATION", "LEVEL"]) {
            Ok("transaction_isolation".to_owned())
        } else if self.keywords(&["SESSION", "AUTHORIZATION"]) {
            Ok("session_authorization".to_owned())
        } else {
            self.setting_name()
        }
    }

    fn setting_name(&mut self) -> Result<String, Failure> {
        let mut name = self.name()?.text;
        while self.symbol(b'.') {
            name.push('.');
            name.push_str(&self.name()?.text);
        }
        Ok(name)
    }

    /// Reads one value of a setting or several. None: DEFAULT.
    fn setting_value(&mut self) -> Result<Option<String>, Failure> {
        if self.keyword("DEFAULT") {
            return Ok(None);
        }
        let values = self.list(|parser| {
            let is_negative = parser.take_operator("-");
            let has_sign = is_negative || parser.take_operator("+");
            let token = match parser.peek() {
                Some(token) => token,
                None => return Err(parser.fault()),
            };
            let value = match token.kind {
                TokenKind::Number => {
                    parser.at += 1;
                    token.text(parser.text).to_owned()
                }
                _ if has_sign => return Err(parser.fault()),
                _ if parser.at_text() => parser.text_value()?,
                TokenKind::QuotedName => {
                    parser.at += 1;
                    token.text(parser.text).to_owned()
                }
                _ => {
                    let is_on = parser.keyword("ON");
                    if is_on || parser.keyword_of(&["TRUE", "FALSE"]).is_some() {
                        token.text(parser.text).to_owned()
                    } else {
                        parser.name_if(keywords::may_be_name)?;
                        token.text(parser.text).to_owned()
                    }
                }
            };
            Ok(format!("{}{}", if is_negative { "-" } else { "" }, value))
        })?;
        Ok(Some(values.join(", ")))
    }

    /// Reads SHOW, from behind that word.
    fn show(&mut self) -> Result<Statement, Failure> {
        let has_more = self.peek_at(1).is_some();
        if self.keyword("TABLE") {
            let table = self.plain_table()?;
            return Ok(Statement::Served(Served::Show(Show::Table(table))));
        }
        if has_more && self.keyword("BOUNDS") {
            let table = self.plain_table()?;
            let keys = self.keys(&table, Verb::ShowBounds)?;
            return Ok(Statement::Served(Served::Show(Show::Bounds(table, keys))));
        }
        if self.keyword("JOURNAL") {
            let table = if has_more {
                Some(self.plain_table()?)
            } else {
                None
            };
            return Ok(Statement::Served(Served::Show(Show::Journal(table))));
        }
        if self.keyword("STATISTICS") {
            return Ok(Statement::Served(Served::Show(Show::Statistics)));
        }
        if self.keyword("ALL") {
            return Ok(Statement::ShowAll);
        }
        self.shown_name().map(Statement::ShowSetting)
    }

    fn plain_table(&mut self) -> Result<Table, Failure> {
        let name = self.qualified_name()?;
        Table::new(name, None)
    }

    /// Reads the table of a statement that changes it. SET is no alias.
    fn changed_table(&mut self) -> Result<(QualifiedName, Option<Name>), Failure> {
        let is_only = self.keyword("ONLY");
        let name = self.qualified_name()?;
        if !is_only {
            self.take_operator("*");
        }
        let alias = if self.keyword("AS") {
            Some(self.name()?)
        } else if self.at_keyword("SET") {
            None
        } else {
            self.optional_name()
        };
        Ok((name, alias))
    }

    /// Reads the WHERE of a statement that is about one row.
    fn keys(&mut self, table: &Table, verb: Verb) -> Result<Keys, Failure> {
        if !self.keyword("WHERE") {
            if self.peek().is_some() && !self.at_keyword("RETURNING") {
                return Err(self.fault());
            }
            let what = format!("{} without WHERE", verb.words());
            return Err(verb.missing(&what, self.tokens.list[0].span().start));
        }
        if self.at_keywords(&["CURRENT", "OF"]) {
            return Err(self.missing("WHERE CURRENT OF"));
        }
        let condition = self.expression()?;
        if self.peek().is_some() && !self.at_keyword("RETURNING") {
            return Err(self.fault());
        }
        Keys::new(table, condition, verb, false)
    }

    fn returning(&mut self, table: &Table, verb: Verb) -> Result<Vec<Shown>, Failure> {
        if !self.keyword("RETURNING") {
            return Ok(Vec::new());
        }
        let targets = self.targets()?;
        self.expect_end()?;
        returned(table, targets, verb)
    }

    /// Reads SET of an UPDATE: each column, and what it becomes.
    fn assignments(&mut self) -> Result<Vec<Assignment>, Failure> {
        self.expect_keyword("SET")?;
        let assignments = self.list(|parser| {
            if parser.at_symbol(0, b'(') {
                return Err(Verb::Replace.missing("SET of several columns at once", parser.start()));
            }
            let column = parser.name()?;
            if parser.at_symbol(0, b'.') || parser.at_symbol(0, b'[') {
                return Err(parser.missing("SET of a part of a column"));
            }
            if !parser.take_operator("=") {
                return Err(parser.fault());
            }
            Ok(Assignment {
                column,
                value: parser.expression()?,
                is_subtracted: false,
            })
        })?;
        if self.at_keyword("FROM") {
            return Err(self.missing("UPDATE .. FROM"));
        }
        Ok(assignments)
    }

    /// Reads an UPDATE from behind that word, whatever of it is served.
    fn update_tree(&mut self) -> Result<query::Update, Failure> {
        let (table, alias) = self.changed_table()?;
        let assignments = self.assignments()?;
        let condition = if self.keyword("WHERE") {
            Some(self.expression()?)
        } else {
            None
        };
        Ok(query::Update {
            table,
            alias,
            changes: assignments
                .into_iter()
                .map(|it| (it.column, it.value))
                .collect(),
            condition,
            returning: self.returning_tree()?,
        })
    }

    /// Reads RETURNING, if it is here.
    fn returning_tree(&mut self) -> Result<Vec<query::Target>, Failure> {
        if self.keyword("RETURNING") {
            self.targets()
        } else {
            Ok(Vec::new())
        }
    }

    /// Reads an INSERT from behind that word, whatever of it is served.
    fn insert_tree(&mut self) -> Result<(), Failure> {
        self.insert_into()?;
        if self.keyword("VALUES") {
            self.list(|parser| {
                parser.list_in_parentheses(|parser| match parser.keyword("DEFAULT") {
                    true => Ok(()),
                    false => parser.expression().map(drop),
                })
            })?;
            if self.at_query_end() {
                return Err(self.missing("INSERT of such a query"));
            }
        } else if !self.keywords(&["DEFAULT", "VALUES"]) {
            self.query()?;
        }
        self.conflict()?;
        self.returning_tree().map(drop)
    }

    /// Moves behind the next token if it is this word, which is no keyword here, and returns whether it was.
    fn plain_word(&mut self, word: &str) -> bool {
        let found = self
            .word()
            .map_or(false, |found| found.eq_ignore_ascii_case(word));
        self.at += usize::from(found);
        found
    }

    /// Reads ON CONFLICT, if it is here.
    fn conflict(&mut self) -> Result<(), Failure> {
        if !self.keyword("ON") {
            return Ok(());
        }
        if !self.plain_word("CONFLICT") {
            return Err(self.fault());
        }
        if self.at_symbol(0, b'(') {
            self.list_in_parentheses(Self::name)?;
            if self.at_keyword("WHERE") {
                return Err(self.missing("ON CONFLICT of a partial index"));
            }
        } else if self.keyword("ON") {
            self.expect_keyword("CONSTRAINT")?;
            self.name()?;
        }
        self.expect_keyword("DO")?;
        if !self.keyword("UPDATE") {
            return match self.plain_word("NOTHING") {
                true => Ok(()),
                false => Err(self.fault()),
            };
        }
        self.assignments()?;
        if self.keyword("WHERE") {
            self.expression()?;
        }
        Ok(())
    }

    /// Reads a DELETE from behind that word, whatever of it is served.
    fn delete_tree(&mut self) -> Result<(), Failure> {
        self.expect_keyword("FROM")?;
        self.changed_table()?;
        if self.at_keyword("USING") {
            return Err(self.missing("DELETE .. USING"));
        }
        if self.keyword("WHERE") {
            self.expression()?;
        }
        self.returning_tree().map(drop)
    }

    fn update(&mut self) -> Result<Statement, Failure> {
        let (name, alias) = self.changed_table()?;
        let mut assignments = self.assignments()?;
        let table = Table::new(name, alias)?;
        let keys = self.keys(&table, Verb::Replace)?;
        let returning = self.returning(&table, Verb::Replace)?;
        let mut reserves = None;
        for assignment in &mut assignments {
            table.check_column(&assignment.column)?;
            let place = assignment.value.span.start;
            let is_change = settle(&table, assignment)?;
            if *reserves.get_or_insert(is_change) != is_change {
                let text = "an UPDATE of RESERVABLE and plain columns at once";
                return Err(Verb::Replace.missing(text, place));
            }
        }
        Ok(Statement::Served(Served::Update(Update {
            table,
            reserves: reserves.unwrap_or(false),
            assignments,
            keys,
            returning,
        })))
    }

    /// Reads INTO of an INSERT: the table, its alias, and the columns that are named.
    fn insert_into(&mut self) -> Result<(QualifiedName, Option<Name>, Vec<Name>), Failure> {
        self.expect_keyword("INTO")?;
        let table = self.qualified_name()?;
        let alias = if self.keyword("AS") {
            Some(self.name()?)
        } else {
            None
        };
        let columns = if self.at_symbol(0, b'(') && !self.at_query(0) {
            self.list_in_parentheses(|parser| {
                let column = parser.name()?;
                if parser.at_symbol(0, b'.') || parser.at_symbol(0, b'[') {
                    return Err(parser.missing("a part of a column"));
                }
                Ok(column)
            })?
        } else {
            Vec::new()
        };
        if self.at_keyword("OVERRIDING") {
            return Err(self.missing("OVERRIDING"));
        }
        Ok((table, alias, columns))
    }

    fn insert(&mut self) -> Result<Statement, Failure> {
        let (name, alias, columns) = self.insert_into()?;
        if self.at_keyword("DEFAULT") {
            return Err(Verb::Insert.missing("DEFAULT VALUES", self.start()));
        }
        if !self.at_keyword("VALUES") {
            if self.at_query(0) {
                return Err(Verb::Insert.missing("INSERT of a query", self.start()));
            }
            return Err(self.fault());
        }
        self.at += 1;
        let rows = self.list(|parser| parser.list_in_parentheses(Self::expression))?;
        if self.at_keyword("ON") {
            return Err(Verb::Insert.missing("ON CONFLICT", self.start()));
        }
        if self.peek().is_some() && !self.at_keyword("RETURNING") {
            if self.at_query_end() {
                return Err(Verb::Insert.missing("INSERT of a query", self.start()));
            }
            return Err(self.fault());
        }
        let table = Table::new(name, alias)?;
        let returning = self.returning(&table, Verb::Insert)?;
        for column in &columns {
            table.check_column(column)?;
        }
        for value in rows.iter().flatten() {
            constant::check(value, Verb::Insert)?;
        }
        let length = rows.first().map_or(0, Vec::len);
        if let Some(other) = rows.iter().find(|row| row.len() != length) {
            let text = "VALUES lists must all be the same length";
            let place = other.first().map_or(0, |value| value.span.start);
            return Err(Report::error(crate::sqlstate::SqlState::SYNTAX_ERROR, text).at(place));
        }
        Ok(Statement::Served(Served::Insert(Insert {
            table,
            columns,
            rows,
            returning,
        })))
    }

    fn delete(&mut self) -> Result<Statement, Failure> {
        self.expect_keyword("FROM")?;
        let (name, alias) = self.changed_table()?;
        if self.at_keyword("USING") {
            return Err(self.missing("DELETE .. USING"));
        }
        let table = Table::new(name, alias)?;
        let keys = self.keys(&table, Verb::Delete)?;
        let returning = self.returning(&table, Verb::Delete)?;
        Ok(Statement::Served(Served::Delete(Delete {
            table,
            keys,
            returning,
        })))
    }

    /// Reads DECLARE, from behind that word.
    fn declare(&mut self) -> Result<Statement, Failure> {
        let name = self.name()?;
        loop {
            if self.at_keyword("BINARY") {
                return Err(self.missing("a binary cursor"));
            }
            if self.keywords(&["NO", "SCROLL"])
                || self.keyword_of(&["ASENSITIVE", "INSENSITIVE"]).is_some()
            {
                continue;
            }
            if self.at_keyword("SCROLL") {
                return Err(self.missing("a cursor that goes backward (SCROLL)"));
            }
            break;
        }
        self.expect_keyword("CURSOR")?;
        if self.at_keywords(&["WITH", "HOLD"]) {
            return Err(self.missing("a cursor that stays behind its transaction (WITH HOLD)"));
        }
        self.keywords(&["WITHOUT", "HOLD"]);
        self.expect_keyword("FOR")?;
        if !self.at_query(0) {
            return Err(self.fault());
        }
        let read = self.read()?;
        self.size += mem::size_of::<Statement>();
        Ok(Statement::Declare(Cursor {
            name,
            read: Box::new(read),
        }))
    }

    /// Reads FETCH or MOVE, from behind that word.
    fn fetch(&mut self, is_move: bool) -> Result<Statement, Failure> {
        let is_number = |parser: &Self, ahead| {
            parser.peek_at(ahead).map(|token| token.kind) == Some(TokenKind::Number)
        };
        let has_more = self.peek_at(1).is_some();
        let direction = if has_more {
            self.keyword_of(&[
                "NEXT", "FORWARD", "ALL", "PRIOR", "FIRST", "LAST", "ABSOLUTE", "RELATIVE",
                "BACKWARD",
            ])
        } else {
            None
        };
        let step = match direction {
            None | Some("FORWARD" | "RELATIVE" | "BACKWARD" | "ABSOLUTE") => {
                let is_relative = direction == Some("RELATIVE");
                let is_signed = matches!(self.operator(), Some("-" | "+")) && is_number(self, 1);
                let is_back = is_signed && self.operator() == Some("-");
                self.at += usize::from(is_signed);
                let count = if is_number(self, 0) {
                    Some(self.integer()?)
                } else {
                    None
                };
                match (direction, count) {
                    (Some("ABSOLUTE"), _) => Step::Other,
                    (Some("BACKWARD"), count) if !is_back => {
                        if count.is_none() {
                            self.keyword("ALL");
                        }
                        Step::Back
                    }
                    (_, Some(count)) if is_back && count > 0 => Step::Back,
                    (_, Some(0)) => Step::Other,
                    (_, Some(_)) if is_relative => Step::Other,
                    (_, Some(count)) => Step::Rows(count.unsigned_abs()),
                    (Some("FORWARD"), None) if self.keyword("ALL") => Step::All,
                    (Some("RELATIVE"), None) => return Err(self.fault()),
                    (_, None) => Step::Rows(1),
                }
            }
            Some("NEXT") => Step::Rows(1),
            Some("ALL") => Step::All,
            Some("PRIOR") => Step::Back,
            Some(_) => Step::Other,
        };
        self.keyword_of(&["FROM", "IN"]);
        let name = self.name()?;
        Ok(Statement::Fetch {
            name,
            step,
            is_move,
        })
    }
}

fn two_phases() -> Failure {
    Report::missing("a two-phase commit").hint("COMMIT ends a transaction at once.")
}

/// Finds out whether an UPDATE adds to a column or subtracts from it. Then what it adds or subtracts is left of the value.
fn settle(table: &Table, assignment: &mut Assignment) -> Result<bool, Failure> {
    let place = assignment.value.span.start;
    let missing = || Verb::Reserve.missing("an expression in place of a value", place);
    let (left, operator, right) =
        match mem::replace(&mut assignment.value.kind, ExpressionKind::Null) {
            ExpressionKind::Binary(left, operator, right) if matches!(&*operator, "+" | "-") => {
                (*left, operator, *right)
            }
            kind => {
                assignment.value.kind = kind;
                constant::check(&assignment.value, Verb::Replace)?;
                return Ok(false);
            }
        };
    assignment.is_subtracted = operator == "-";
    let (own, value) = match own_value(table, left)? {
        (Some(own), _) => (own, right),
        // `5 + n` is `n + 5`.
        (None, Some(left)) if !assignment.is_subtracted => match own_value(table, right)? {
            (Some(own), _) => (own, left),
            _ => return Err(missing()),
        },
        _ => return Err(missing()),
    };
    if own.text != assignment.column.text {
        let what = "a column that becomes another one plus a number";
        return Err(Verb::Reserve.missing(what, own.span.start));
    }
    constant::check(&value, Verb::Reserve)?;
    assignment.value = value;
    Ok(true)
}

/// Returns the column that an expression is the value of, as `n` and `COALESCE(n, 0)` are: no column is NULL. None: it is
/// another expression, which is returned.
fn own_value(
    table: &Table,
    expression: Expression,
) -> Result<(Option<Name>, Option<Expression>), Failure> {
    let span = expression.span;
    match expression.kind {
        ExpressionKind::Column(column) => Ok((Some(table.column(column)?), None)),
        ExpressionKind::Function(mut call)
            if call.name.schema.is_none()
                && call.name.name.text == "coalesce"
                && call.arguments.len() > 1
                && matches!(call.arguments[0].kind, ExpressionKind::Column(_))
                && call.arguments[1..]
                    .iter()
                    .all(|argument| matches!(argument.kind, ExpressionKind::Number(_))) =>
        {
            own_value(table, call.arguments.swap_remove(0))
        }
        kind => Ok((None, Some(Expression { kind, span }))),
    }
}
