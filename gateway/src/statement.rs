//! Statements as clients write them.

pub mod constant;
pub mod explain;
pub mod known;
pub mod line;
pub mod literal;
pub mod parameters;
pub mod parser;
pub mod query;
pub mod relations;
pub mod select;
pub mod served;
pub mod session;
pub mod words;

#[cfg(test)]
mod tests;

use query::{Name, Query};
use served::Served;
use session::{Modes, Setting};

/// What a statement does, as the metrics count it.
#[derive(Clone, Copy, Debug, PartialEq, Eq, Hash, PartialOrd, Ord)]
pub enum Kind {
    /// BEGIN, START TRANSACTION.
    Begin,
    /// COMMIT, END.
    Commit,
    /// ROLLBACK, ABORT.
    Rollback,
    /// SAVEPOINT, RELEASE, ROLLBACK TO.
    Savepoint,
    /// SELECT of a table.
    Select,
    /// UPDATE.
    Update,
    /// INSERT.
    Insert,
    /// DELETE.
    Delete,
    /// CREATE TABLE, ALTER TABLE, DROP TABLE.
    Definition,
    /// SHOW TABLE, SHOW BOUNDS, SHOW JOURNAL, SHOW STATISTICS.
    Show,
    /// SET, RESET, SHOW of a setting, DISCARD, DEALLOCATE and what drivers ask at a connect.
    Setting,
    /// What is refused before it reaches the program.
    Other,
}

impl Kind {
    /// All kinds, in order.
    pub const ALL: [Kind; 12] = [
        Kind::Begin,
        Kind::Commit,
        Kind::Rollback,
        Kind::Savepoint,
        Kind::Select,
        Kind::Update,
        Kind::Insert,
        Kind::Delete,
        Kind::Definition,
        Kind::Show,
        Kind::Setting,
        Kind::Other,
    ];

    /// Returns the name under which the metrics count it.
    pub fn name(self) -> &'static str {
        match self {
            Kind::Begin => "begin",
            Kind::Commit => "commit",
            Kind::Rollback => "rollback",
            Kind::Savepoint => "savepoint",
            Kind::Select => "select",
            Kind::Update => "update",
            Kind::Insert => "insert",
            Kind::Delete => "delete",
            Kind::Definition => "definition",
            Kind::Show => "show",
            Kind::Setting => "setting",
            Kind::Other => "other",
        }
    }
}

/// What DISCARD throws away.
#[derive(Clone, Copy, Debug, PartialEq, Eq)]
pub enum Discard {
    /// All of the session.
    All,
    /// Plans, which aren't kept.
    Plans,
    /// What sequences remember; there are none.
    Sequences,
    /// Temporary tables; there are none.
    Temporary,
}

/// A cursor that DECLARE makes.
#[derive(Clone, Debug, PartialEq, Eq)]
pub struct Cursor {
    /// Its name.
    pub name: Name,
    /// What it reads: a query, or a SELECT of a table.
    pub read: Box<Statement>,
}

/// How far FETCH and MOVE go.
#[derive(Clone, Copy, Debug, PartialEq, Eq)]
pub enum Step {
    /// So many rows forward.
    Rows(u32),
    /// To the end.
    All,
    /// Backward.
    Back,
    /// To a row by its number.
    Other,
}

/// A statement.
#[derive(Clone, Debug, PartialEq, Eq)]
pub enum Statement {
    /// BEGIN, or START TRANSACTION.
    Begin {
        /// Whether it is START TRANSACTION.
        start: bool,
        /// Its modes.
        modes: Modes,
    },
    /// COMMIT, END.
    Commit {
        /// AND CHAIN: the next block begins at once.
        chain: bool,
    },
    /// ROLLBACK, ABORT.
    Rollback {
        /// AND CHAIN: the next block begins at once.
        chain: bool,
    },
    /// SAVEPOINT.
    Savepoint(Name),
    /// ROLLBACK TO.
    RollbackTo(Name),
    /// RELEASE.
    Release(Name),
    /// SET TRANSACTION.
    SetTransaction(Modes),
    /// SET SESSION CHARACTERISTICS.
    SetCharacteristics(Modes),
    /// SET and RESET of one setting.
    Set(Setting),
    /// SET ROLE, SET SESSION AUTHORIZATION, or RESET of them. The client's own role is the only one.
    SetRole {
        /// The role's name. None: NONE or DEFAULT.
        name: Option<String>,
        /// Whether it is RESET.
        is_reset: bool,
    },
    /// SET CONSTRAINTS: no constraint is deferred.
    SetConstraints,
    /// RESET ALL.
    ResetAll,
    /// SHOW of a setting.
    ShowSetting(String),
    /// SHOW ALL.
    ShowAll,
    /// DISCARD.
    Discard(Discard),
    /// DEALLOCATE of one prepared statement, or of all.
    Deallocate(Option<Name>),
    /// UNLISTEN: nobody listens.
    Unlisten,
    /// DECLARE
    Declare(Cursor),
    /// FETCH, MOVE
    Fetch {
        /// The cursor's name.
        name: Name,
        /// How far.
        step: Step,
        /// MOVE, which shows no rows.
        is_move: bool,
    },
    /// CLOSE of one cursor, or of all.
    Close(Option<Name>),
    /// A query that reads no table of the program.
    Query(Box<Query>),
    /// What the program serves.
    Served(Served),
}

impl Statement {
    /// Returns how the metrics count it.
    pub fn kind(&self) -> Kind {
        match self {
            Statement::Begin { .. } => Kind::Begin,
            Statement::Commit { .. } => Kind::Commit,
            Statement::Rollback { .. } => Kind::Rollback,
            Statement::Savepoint(_) | Statement::RollbackTo(_) | Statement::Release(_) => {
                Kind::Savepoint
            }
            Statement::Served(served) => served.verb().kind(),
            Statement::Declare(_) | Statement::Fetch { .. } => Kind::Select,
            _ => Kind::Setting,
        }
    }

    /// Returns whether it may run in a block that has failed.
    pub fn leaves_failed_block(&self) -> bool {
        matches!(
            self,
            Statement::Commit { .. } | Statement::Rollback { .. } | Statement::RollbackTo(_)
        )
    }

    /// Returns it as a query that reads no table of the database; for DECLARE, the query of its cursor.
    pub fn query(&self) -> Option<&Query> {
        match self {
            Statement::Query(query) => Some(query),
            Statement::Declare(cursor) => cursor.read.query(),
            _ => None,
        }
    }

    /// Returns what the program does for it, if it does.
    pub fn served(&self) -> Option<&Served> {
        match self {
            Statement::Served(served) => Some(served),
            _ => None,
        }
    }
}

/// A text that was read.
#[derive(Clone, Debug, PartialEq, Eq)]
pub struct Parsed {
    /// The statement.
    pub statement: Statement,
    /// What its parameters stand for.
    pub places: Vec<parameters::Place>,
    /// The number of its first parameter, and where that is.
    pub parameter: Option<(u16, usize)>,
    /// How many bytes it takes: a bound from above, near the truth.
    pub size: usize,
}
