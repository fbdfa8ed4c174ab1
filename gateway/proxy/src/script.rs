//! Strings of several statements, as a Query may have them.
//!
//! PostgreSQL reads such a string as a whole before it runs the first statement. Outside a block it is one transaction. The
//! proxy sends its statements one by one in a pipeline, which is one transaction too. So it serves a string only if
//! PostgreSQL can read all of it, and if each statement does the same in a pipeline.

use escrowd_pg::statement as gateway;
use escrowd_pg::statement::parser::next_outline;
use escrowd_pg::statement::query::Outline;

use crate::catalog::Catalog;
use crate::update::Statement;

/// Settings by which PostgreSQL reads the text behind them. In a string they count for the next one alone.
const OF_TEXTS: [&str; 4] = [
    "backslash_quote",
    "client_encoding",
    "escape_string_warning",
    "standard_conforming_strings",
];

/// Words of calls that may do more to a session than a pipeline can bear, or that the proxy looks for.
const STRANGE: [&str; 2] = ["escrow.", "set_config"];

/// A statement of a string.
#[derive(Clone, Debug, PartialEq, Eq)]
pub struct Piece {
    /// Its text.
    pub text: String,
    /// How many characters of the string are in front of it.
    pub place: usize,
    /// What it asks for, if the proxy looks at it.
    pub statement: Option<Statement>,
}

/// Returns whether a text may have several statements.
pub fn may_be_several(text: &str) -> bool {
    let parts = text.split_once(';');
    parts.map_or(false, |(_, rest)| !rest.trim().is_empty())
}

/// Returns whether settings of the session may change what a text says.
pub fn depends_on_settings(text: &[u8]) -> bool {
    text.contains(&b'\\') || !text.is_ascii()
}

/// Reads a string of several statements, which begins in a block or not. None: it is one statement, PostgreSQL has nothing to reserve in it, or it has
/// something that does not do the same in a pipeline.
pub fn pieces(text: &str, catalog: &Catalog, in_block: bool) -> Option<Vec<Piece>> {
    if !may_be_several(text) {
        return None;
    }
    let has = |word: &str| {
        let mut all = text.as_bytes().windows(word.len());
        all.any(|it| it.eq_ignore_ascii_case(word.as_bytes()))
    };
    if !catalog.tables().iter().any(|table| has(&table.name)) || STRANGE.iter().any(|it| has(it)) {
        return None;
    }
    let mut pieces = Vec::new();
    let (mut at, mut end, mut place) = (0, 0, 0);
    let mut has_ended = false;
    while let Some((span, outline)) = next_outline(text, &mut at).ok()? {
        if !may_be_piped(&outline) {
            return None;
        }
        place += text[end..span.start].chars().count();
        let written = &text[span.start..span.end];
        // PostgreSQL reads all of the string by the settings at its beginning.
        if has_ended && depends_on_settings(written.as_bytes()) {
            return None;
        }
        has_ended |= in_block && ends_settings(&outline);
        pieces.push(Piece {
            text: written.to_owned(),
            place,
            statement: Statement::read(written).filter(|it| is_about(it, catalog)),
        });
        place += written.chars().count();
        end = span.end;
    }
    let is_served = |piece: &Piece| piece.statement.is_some();
    // One by itself may have an empty statement in front.
    let are_several = pieces.len() > 1 || text.trim_start().starts_with(';');
    (are_several && pieces.iter().any(is_served)).then_some(pieces)
}

/// Returns whether a statement ends a block or a part of it, and with that settings which were made there.
fn ends_settings(outline: &Outline) -> bool {
    match outline {
        Outline::Data => false,
        Outline::Control(statement) => matches!(
            &**statement,
            gateway::Statement::Commit { .. }
                | gateway::Statement::Rollback { .. }
                | gateway::Statement::RollbackTo(_)
        ),
    }
}

/// Returns whether a statement of a string does the same in a pipeline.
fn may_be_piped(outline: &Outline) -> bool {
    match outline {
        Outline::Data => true,
        Outline::Control(statement) => match &**statement {
            gateway::Statement::Set(setting) => {
                // SET LOCAL warns in a pipeline outside a block.
                !setting.local && !OF_TEXTS.contains(&&*setting.name)
            }
            gateway::Statement::Begin { .. }
            | gateway::Statement::Commit { .. }
            | gateway::Statement::Rollback { .. }
            | gateway::Statement::Savepoint(_)
            | gateway::Statement::RollbackTo(_)
            | gateway::Statement::Release(_)
            | gateway::Statement::SetRole { .. } => true,
            _ => false,
        },
    }
}

/// Returns whether a statement may reserve something, or has to have a row left.
fn is_about(statement: &Statement, catalog: &Catalog) -> bool {
    match statement {
        Statement::Update(form) => {
            let mut tables = catalog.named(form.table_name());
            tables.any(|table| form.plan(table).is_some())
        }
        Statement::Delete(deletion) => catalog.named(deletion.table_name()).next().is_some(),
        Statement::Deallocate(_) | Statement::Commit | Statement::Named => false,
    }
}
