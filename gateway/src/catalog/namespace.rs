//! What names and Oids mean: tables of the database, and what PostgreSQL's catalog calls by a name.

use std::collections::BTreeSet;
use std::rc::Rc;

use postgres_protocol::Oid;

use crate::catalog::procedures;
use crate::catalog::system;
use crate::catalog::types::{self, oid};
use crate::rows::Definition;
use crate::sqlstate::{Failure, Report, SqlState};

/// The schema of PostgreSQL's own catalog.
pub const PG_CATALOG: Oid = 11;
/// The schema `pg_toast`.
pub const PG_TOAST: Oid = 99;
/// The schema of the tables.
pub const PUBLIC: Oid = 2200;
/// The schema `information_schema`.
pub const INFORMATION_SCHEMA: Oid = 13_207;
/// The role of the client: whoever connects owns all.
pub const OWNER: Oid = 10;
/// The first Oid of what PostgreSQL does not define itself.
pub const FIRST_NORMAL: Oid = 16_384;

/// The schemas.
pub const SCHEMAS: [(Oid, &str); 4] = [
    (PG_CATALOG, "pg_catalog"),
    (PG_TOAST, "pg_toast"),
    (PUBLIC, "public"),
    (INFORMATION_SCHEMA, "information_schema"),
];

/// How many Oids belong to a table: its own, its index', its key's and one for each check.
const OIDS_OF_A_TABLE: Oid = 1_024;

/// How many tables have Oids of their own below the greatest integer.
const PLACES: u64 = ((1_u64 << 31) - FIRST_NORMAL as u64) / OIDS_OF_A_TABLE as u64 - 1;

/// A table of the database.
#[derive(Clone, Debug)]
pub struct Table {
    /// Its Oid.
    pub oid: Oid,
    /// Its definition.
    pub definition: Rc<Definition>,
}

impl Table {
    /// Returns its name.
    pub fn name(&self) -> &str {
        &self.definition.table
    }

    /// Returns the Oid of its key's index.
    pub fn index(&self) -> Oid {
        self.oid + 1
    }

    /// Returns the Oid of its key as a constraint.
    pub fn key_constraint(&self) -> Oid {
        self.oid + 2
    }

    /// Returns the Oid of the check at this place, from 0.
    pub fn check(&self, place: usize) -> Oid {
        self.oid + 3 + place as Oid
    }

    /// Returns the name of its key and of the key's index, as PostgreSQL makes it.
    pub fn key_name(&self) -> String {
        format!("{}_pkey", self.name())
    }
}

/// The tables of a database, with their Oids.
///
/// An Oid follows from the table's name, so it is the same in each session and behind a restart, unless two names meet.
#[derive(Debug, Default)]
pub struct Tables {
    tables: Vec<Table>,
}

/// Returns a number that follows from a name: FNV-1a.
fn hash(name: &str) -> u64 {
    name.bytes().fold(0xcbf2_9ce4_8422_2325, |hash, byte| {
        (hash ^ u64::from(byte)).wrapping_mul(0x0100_0000_01b3)
    })
}

impl Tables {
    /// Gives each table its Oid.
    pub fn new(mut definitions: Vec<Rc<Definition>>) -> Tables {
        definitions.sort_by(|left, right| left.table.cmp(&right.table));
        let mut taken = BTreeSet::new();
        let tables = definitions
            .into_iter()
            .map(|definition| {
                let mut place = hash(&definition.table) % PLACES;
                while !taken.insert(place) {
                    place = (place + 1) % PLACES;
                }
                let oid = FIRST_NORMAL + (place as Oid + 1) * OIDS_OF_A_TABLE;
                Table { oid, definition }
            })
            .collect();
        Tables { tables }
    }

    /// Returns them in order of their names.
    pub fn all(&self) -> &[Table] {
        &self.tables
    }

    /// Returns the table of this name.
    pub fn by_name(&self, name: &str) -> Option<&Table> {
        self.tables.iter().find(|table| table.name() == name)
    }

    /// Returns the table that this Oid belongs to: its own or one of its parts.
    pub fn owner(&self, oid: Oid) -> Option<&Table> {
        let belongs = |table: &&Table| (table.oid..table.oid + OIDS_OF_A_TABLE).contains(&oid);
        self.tables.iter().find(belongs)
    }

    /// Returns the table of this Oid.
    pub fn by_oid(&self, oid: Oid) -> Option<&Table> {
        self.tables.iter().find(|table| table.oid == oid)
    }

    /// Returns the table whose index has this Oid.
    pub fn by_index(&self, oid: Oid) -> Option<&Table> {
        self.tables.iter().find(|table| table.index() == oid)
    }

    /// Returns the schema and the name of a table, an index or a relation of the catalog.
    pub fn relation_name(&self, oid: Oid) -> Option<(Oid, String)> {
        if let Some(relation) = system::by_oid(oid) {
            return Some((relation.schema_oid(), relation.name.to_owned()));
        }
        match self.owner(oid)? {
            table if table.oid == oid => Some((PUBLIC, table.name().to_owned())),
            table if table.index() == oid => Some((PUBLIC, table.key_name())),
            _ => None,
        }
    }

    /// Returns the Oid of a table, an index or a relation of the catalog.
    pub fn relation_oid(&self, schema: Option<&str>, name: &str) -> Option<Oid> {
        if let Some(relation) = system::by_name(schema, name) {
            return Some(relation.oid);
        }
        if !matches!(schema, None | Some("public")) {
            return None;
        }
        self.tables.iter().find_map(|table| match name {
            name if name == table.name() => Some(table.oid),
            name if name == table.key_name() => Some(table.index()),
            _ => None,
        })
    }
}

/// Returns the Oid of a schema.
pub fn schema_oid(name: &str) -> Option<Oid> {
    SCHEMAS
        .iter()
        .find(|(_, known)| *known == name)
        .map(|&(oid, _)| oid)
}

/// Returns the name of a schema.
pub fn schema_name(oid: Oid) -> Option<&'static str> {
    SCHEMAS
        .iter()
        .find(|(known, _)| *known == oid)
        .map(|&(_, name)| name)
}

/// Writes a name as PostgreSQL's quote_ident does: in quotes if it has to be.
pub fn quoted(name: &str) -> String {
    let mut bytes = name.bytes();
    let starts_well = bytes
        .next()
        .map_or(false, |byte| byte.is_ascii_lowercase() || byte == b'_');
    let is_plain = starts_well
        && bytes.all(|byte| byte.is_ascii_lowercase() || byte.is_ascii_digit() || byte == b'_');
    if is_plain && !system::is_reserved(name) {
        name.to_owned()
    } else {
        format!("\"{}\"", name.replace('"', "\"\""))
    }
}

/// Writes a name, with its schema in front if it is not found without.
fn qualified(schema: Oid, name: &str) -> String {
    match schema_name(schema) {
        Some(schema_name) if !matches!(schema, PUBLIC | PG_CATALOG) => {
            format!("{}.{}", quoted(schema_name), quoted(name))
        }
        _ => quoted(name),
    }
}

/// Cuts a name with dots into its parts, folded as PostgreSQL does. None: it isn't written as a name.
pub fn parts(text: &str) -> Option<Vec<String>> {
    let mut parts = Vec::new();
    let mut rest = text.trim();
    loop {
        let (part, behind) = match rest.strip_prefix('"') {
            Some(quoted) => quoted_part(quoted)?,
            None => {
                let end = rest.find(['.', '"', ' ']).unwrap_or(rest.len());
                let part = rest[..end].to_ascii_lowercase();
                let starts_well = part.chars().next()?;
                if starts_well.is_ascii_digit() {
                    return None;
                }
                (part, &rest[end..])
            }
        };
        parts.push(part);
        let behind = behind.trim_start();
        if behind.is_empty() {
            return Some(parts);
        }
        rest = behind.strip_prefix('.')?.trim_start();
    }
}

/// Reads what is behind the first quote of a name, and returns what is behind its last one.
fn quoted_part(mut rest: &str) -> Option<(String, &str)> {
    let mut part = String::new();
    loop {
        let end = rest.find('"')?;
        part.push_str(&rest[..end]);
        rest = &rest[end + 1..];
        match rest.strip_prefix('"') {
            Some(more) => {
                part.push('"');
                rest = more;
            }
            None if part.is_empty() => return None,
            None => return Some((part, rest)),
        }
    }
}

fn invalid_name() -> Failure {
    Report::error(SqlState::INVALID_NAME, "invalid name syntax")
}

/// Returns a name's schema, if one is written, and the name itself.
fn schema_and_name(text: &str) -> Result<(Option<String>, String), Failure> {
    let mut parts = parts(text).ok_or_else(invalid_name)?;
    let name = parts.pop().ok_or_else(invalid_name)?;
    match parts.len() {
        0 => Ok((None, name)),
        1 => Ok((parts.pop(), name)),
        _ => Err(Report::error(
            SqlState::SYNTAX_ERROR,
            format!("improper qualified name (too many dotted names): {}", text),
        )),
    }
}

/// Reads the type that a text names, as regtype does: `integer`, `int4[]`, `pg_catalog.text`.
///
/// # Errors
///
/// Fails if no type has this name.
pub fn read_type(text: &str) -> Result<Oid, Failure> {
    let missing = || {
        let text = format!("type \"{}\" does not exist", text);
        Report::error(SqlState::UNDEFINED_OBJECT, text)
    };
    let mut name = text.trim();
    let is_array = match name.strip_suffix("[]") {
        Some(element) => {
            name = element.trim();
            true
        }
        None => false,
    };
    let lower = name.to_ascii_lowercase();
    let words = lower.split_whitespace().collect::<Vec<_>>().join(" ");
    let internal = types::internal_name(&words).to_owned();
    let known = if types::by_name(&internal).is_some() && internal != words
        || name.starts_with('"') && internal == "char"
    {
        internal
    } else {
        let (schema, name) = schema_and_name(name)?;
        match schema.as_deref() {
            None | Some("pg_catalog") if name == "char" => "bpchar".to_owned(),
            None | Some("pg_catalog") => name,
            Some(_) => return Err(missing()),
        }
    };
    let found = types::by_name(&known).ok_or_else(missing)?;
    if is_array {
        types::array_of(found.oid).ok_or_else(missing)
    } else {
        Ok(found.oid)
    }
}

/// Reads a value of a type whose values are oids with names.
///
/// # Errors
///
/// Fails if nothing of this kind has the name.
pub fn read_named(text: &str, kind: Oid, tables: &Tables, user: &str) -> Result<Oid, Failure> {
    let trimmed = text.trim();
    if trimmed == "-" {
        return Ok(0);
    }
    if !trimmed.is_empty() && trimmed.bytes().all(|byte| byte.is_ascii_digit()) {
        return trimmed.parse().map_err(|_| {
            let text = format!("value \"{}\" is out of range for type oid", text);
            Report::error(SqlState::NUMBER_OUT_OF_RANGE, text)
        });
    }
    let missing = |state: SqlState, what: &str| {
        Report::error(state, format!("{} \"{}\" does not exist", what, text))
    };
    match kind {
        oid::REGTYPE => read_type(text),
        oid::REGCLASS => {
            let (schema, name) = schema_and_name(text)?;
            if let Some(schema) = schema
                .as_deref()
                .filter(|schema| schema_oid(schema).is_none())
            {
                let text = format!("schema \"{}\" does not exist", schema);
                return Err(Report::error(SqlState::INVALID_SCHEMA, text));
            }
            tables
                .relation_oid(schema.as_deref(), &name)
                .ok_or_else(|| missing(SqlState::UNDEFINED_TABLE, "relation"))
        }
        oid::REGNAMESPACE => {
            let (_, name) = schema_and_name(text)?;
            schema_oid(&name).ok_or_else(|| missing(SqlState::INVALID_SCHEMA, "schema"))
        }
        oid::REGROLE => {
            let (_, name) = schema_and_name(text)?;
            if name == user {
                Ok(OWNER)
            } else {
                Err(missing(SqlState::UNDEFINED_OBJECT, "role"))
            }
        }
        oid::REGPROC => {
            let (schema, name) = schema_and_name(text)?;
            let schema = schema.as_deref().unwrap_or("pg_catalog");
            let mut found =
                procedures::by_name(&name).filter(|procedure| procedure.schema == schema);
            match (found.next(), found.next()) {
                (Some(procedure), None) => Ok(procedure.oid),
                (Some(_), Some(_)) => Err(Report::error(
                    SqlState::AMBIGUOUS_FUNCTION,
                    format!("more than one function named \"{}\"", text),
                )),
                _ => Err(missing(SqlState::UNDEFINED_FUNCTION, "function")),
            }
        }
        _ => read_procedure(text)?.ok_or_else(|| missing(SqlState::UNDEFINED_FUNCTION, "function")),
    }
}

/// Reads the function that a text names with the types of its arguments: `array_in(cstring,oid,integer)`.
fn read_procedure(text: &str) -> Result<Option<Oid>, Failure> {
    let (name, arguments) = text
        .trim()
        .strip_suffix(')')
        .and_then(|text| text.split_once('('))
        .ok_or_else(|| {
            let text = "expected a left parenthesis";
            Report::error(SqlState::INVALID_TEXT_REPRESENTATION, text)
        })?;
    let (schema, name) = schema_and_name(name)?;
    let arguments: Result<Vec<Oid>, Failure> = match arguments.trim() {
        "" => Ok(Vec::new()),
        arguments => arguments.split(',').map(read_type).collect(),
    };
    let arguments = arguments?;
    let schema = schema.as_deref().unwrap_or("pg_catalog");
    let fits = |procedure: &&procedures::Procedure| {
        procedure.schema == schema && procedure.arguments == arguments
    };
    Ok(procedures::by_name(&name)
        .find(fits)
        .map(|procedure| procedure.oid))
}

/// Writes a value of a type whose values are oids with names, as PostgreSQL prints it.
pub fn write_named(value: Oid, kind: Oid, tables: &Tables, user: &str) -> String {
    if value == 0 {
        return "-".to_owned();
    }
    let name = match kind {
        oid::REGTYPE => types::by_oid(value).map(|_| types::display(value)),
        oid::REGCLASS => tables
            .relation_name(value)
            .map(|(schema, name)| qualified(schema, &name)),
        oid::REGNAMESPACE => schema_name(value).map(quoted),
        oid::REGROLE => (value == OWNER).then(|| quoted(user)),
        oid::REGPROC => procedures::by_oid(value).map(|procedure| {
            let is_alone = procedures::by_name(procedure.name).count() == 1;
            match procedure.schema {
                "pg_catalog" if is_alone => quoted(procedure.name),
                schema => format!("{}.{}", schema, quoted(procedure.name)),
            }
        }),
        _ => procedures::by_oid(value).map(|procedure| {
            let arguments: Vec<String> = procedure
                .arguments
                .iter()
                .map(|&oid| types::display(oid))
                .collect();
            format!("{}({})", quoted(procedure.name), arguments.join(","))
        }),
    };
    name.unwrap_or_else(|| value.to_string())
}

#[cfg(test)]
mod tests {
    use super::*;

    fn tables() -> Tables {
        let definition = |printed: &str| Rc::new(Definition::parse(printed).unwrap());
        Tables::new(vec![
            definition("CREATE TABLE STOCK (ID NUMBER(15) PRIMARY KEY, N NUMBER(15) RESERVABLE)"),
            definition("CREATE TABLE A$B (ID NUMBER(15) PRIMARY KEY, N NUMBER(15) RESERVABLE)"),
        ])
    }

    #[test]
    fn oids_belong_to_one_table_and_follow_from_its_name() {
        let tables = tables();
        let (first, second) = (
            tables.by_name("stock").unwrap(),
            tables.by_name("a$b").unwrap(),
        );
        assert!(first.oid > FIRST_NORMAL && first.oid < 1 << 31);
        assert_ne!(first.oid, second.oid);
        assert_eq!(tables.owner(first.check(31)).unwrap().oid, first.oid);
        let alone = Tables::new(vec![Rc::clone(&first.definition)]);
        assert_eq!(alone.by_name("stock").unwrap().oid, first.oid);
    }

    #[test]
    fn names_become_oids_and_oids_become_names() {
        let tables = tables();
        let stock = tables.by_name("stock").unwrap();
        for (text, kind, value) in [
            ("stock", oid::REGCLASS, stock.oid),
            ("\"stock\"", oid::REGCLASS, stock.oid),
            ("public.STOCK", oid::REGCLASS, stock.oid),
            ("stock_pkey", oid::REGCLASS, stock.index()),
            ("pg_class", oid::REGCLASS, 1259),
            ("pg_catalog.pg_class", oid::REGCLASS, 1259),
            ("integer", oid::REGTYPE, 23),
            ("character varying", oid::REGTYPE, 1043),
            ("int4[]", oid::REGTYPE, 1007),
            ("pg_catalog.text", oid::REGTYPE, 25),
            ("\"char\"", oid::REGTYPE, 18),
            ("boolin", oid::REGPROC, 1242),
            ("array_in(cstring,oid,integer)", oid::REGPROCEDURE, 750),
            ("pg_catalog", oid::REGNAMESPACE, 11),
            ("clerk", oid::REGROLE, 10),
            ("-", oid::REGCLASS, 0),
            ("1259", oid::REGCLASS, 1259),
        ] {
            assert_eq!(
                read_named(text, kind, &tables, "clerk").unwrap(),
                value,
                "{}",
                text
            );
        }
        for (value, kind, text) in [
            (stock.oid, oid::REGCLASS, "stock"),
            (tables.by_name("a$b").unwrap().oid, oid::REGCLASS, "\"a$b\""),
            (1259, oid::REGCLASS, "pg_class"),
            (23, oid::REGTYPE, "integer"),
            (1242, oid::REGPROC, "boolin"),
            (750, oid::REGPROCEDURE, "array_in(cstring,oid,integer)"),
            (5, oid::REGCLASS, "5"),
            (0, oid::REGPROC, "-"),
        ] {
            assert_eq!(write_named(value, kind, &tables, "clerk"), text);
        }
        for (text, kind, state) in [
            ("none", oid::REGCLASS, SqlState::UNDEFINED_TABLE),
            ("no.stock", oid::REGCLASS, SqlState::INVALID_SCHEMA),
            ("hstore", oid::REGTYPE, SqlState::UNDEFINED_OBJECT),
            ("a b", oid::REGCLASS, SqlState::INVALID_NAME),
            ("nobody", oid::REGROLE, SqlState::UNDEFINED_OBJECT),
            ("abs", oid::REGPROC, SqlState::AMBIGUOUS_FUNCTION),
        ] {
            assert_eq!(
                read_named(text, kind, &tables, "clerk").unwrap_err().state,
                state,
                "{}",
                text
            );
        }
    }
}
