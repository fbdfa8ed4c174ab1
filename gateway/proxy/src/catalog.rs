//! The tables that are declared reservable, as `escrow.declared` has them.

use std::sync::Arc;

use tokio_postgres::types::Type;
use tokio_postgres::{Client, Error, Row};

/// What a key is compared as.
#[derive(Clone, Copy, Debug, PartialEq, Eq)]
pub enum KeyType {
    /// smallint, integer or bigint: the least and the greatest value.
    Integer(i64, i64),
    /// numeric, with the digits in front of the point and behind it if it is declared with them.
    Numeric(Option<(u32, u32)>),
    /// text or varchar, with its length in characters if it has one.
    Text(Option<usize>),
    /// uuid
    Uuid,
}

/// A reservable column.
#[derive(Clone, Debug, PartialEq, Eq)]
pub struct Column {
    /// Its name.
    pub name: String,
    /// Its number in the table.
    pub place: i16,
    /// Its type, as PostgreSQL writes it.
    pub type_name: String,
    /// The digits of a value, and those behind the point.
    pub digits: (u32, u32),
    /// The least and the greatest value, if the type has other ones than its digits give.
    pub range: Option<(i64, i64)>,
}

/// A linear condition of a CHECK.
#[derive(Clone, Debug, PartialEq, Eq)]
pub struct Check {
    /// The constraint's name.
    pub name: String,
    /// A coefficient for each reservable column, as text.
    pub coefficients: Vec<String>,
    /// `<`, `<=`, `>`, `>=` or `=`.
    pub comparison: String,
    /// What the sum is compared with, as text.
    pub limit: String,
}

/// A declared table.
#[derive(Clone, Debug, PartialEq, Eq)]
pub struct Table {
    /// Its number in `escrow.declared`.
    pub number: i32,
    /// The relation's oid.
    pub oid: u32,
    /// Its schema.
    pub schema: String,
    /// Its name.
    pub name: String,
    /// The key's column.
    pub key: String,
    /// The key's type.
    pub key_type: KeyType,
    /// The reservable columns.
    pub columns: Vec<Column>,
    /// The CHECKs over them.
    pub checks: Vec<Check>,
    /// The text of a note.
    pub note_text: String,
    /// The text of a note that folds its own change.
    pub direct_text: String,
    /// The text of an own fold.
    pub own_text: String,
    /// The text by which a change is refused inside of PostgreSQL.
    pub refusal_text: String,
    /// The text by which a row is changed that the client itself has locked.
    pub here_text: String,
}

impl Table {
    /// Returns the texts that the proxy alone sends.
    fn own_texts(&self) -> [&str; 4] {
        let own = [
            &self.note_text,
            &self.direct_text,
            &self.own_text,
            &self.here_text,
        ];
        own.map(String::as_str)
    }

    /// Returns the place of a reservable column among them.
    pub fn column(&self, name: &str) -> Option<usize> {
        self.columns.iter().position(|column| column.name == name)
    }
}

/// All declared tables at one time.
#[derive(Clone, Debug, Default, PartialEq, Eq)]
pub struct Catalog {
    tables: Vec<Arc<Table>>,
}

/// The query of [`Catalog::read`]. The parts of a JSON come as arrays of texts.
const QUERY: &str = "
    SELECT d.number, d.relation::oid AS oid, n.nspname::text AS schema, c.relname::text AS name, d.key_name::text AS key, d.key_type,
        d.note_text, d.direct_text, d.own_text, d.here_text, d.refusal_text,
        ARRAY(SELECT x->>'name' FROM jsonb_array_elements(d.columns) WITH ORDINALITY AS e (x, i) ORDER BY i) AS columns,
        ARRAY(SELECT (x->>'place')::int2 FROM jsonb_array_elements(d.columns) WITH ORDINALITY AS e (x, i) ORDER BY i) AS places,
        ARRAY(SELECT x->>'type' FROM jsonb_array_elements(d.columns) WITH ORDINALITY AS e (x, i) ORDER BY i) AS types,
        ARRAY(SELECT (x->>'digits')::int4 FROM jsonb_array_elements(d.columns) WITH ORDINALITY AS e (x, i) ORDER BY i) AS digits,
        ARRAY(SELECT (x->>'scale')::int4 FROM jsonb_array_elements(d.columns) WITH ORDINALITY AS e (x, i) ORDER BY i) AS scales,
        ARRAY(SELECT (x->>'least')::int8 FROM jsonb_array_elements(d.columns) WITH ORDINALITY AS e (x, i) ORDER BY i) AS least,
        ARRAY(SELECT (x->>'greatest')::int8 FROM jsonb_array_elements(d.columns) WITH ORDINALITY AS e (x, i) ORDER BY i) AS greatest,
        ARRAY(SELECT x->>'name' FROM jsonb_array_elements(d.checks) WITH ORDINALITY AS e (x, i) ORDER BY i) AS checks,
        ARRAY(SELECT x->>'comparison' FROM jsonb_array_elements(d.checks) WITH ORDINALITY AS e (x, i) ORDER BY i) AS comparisons,
        ARRAY(SELECT x->>'limit' FROM jsonb_array_elements(d.checks) WITH ORDINALITY AS e (x, i) ORDER BY i) AS limits,
        ARRAY(SELECT array_to_string(ARRAY(SELECT jsonb_array_elements_text(x->'coefficients')), ' ')
            FROM jsonb_array_elements(d.checks) WITH ORDINALITY AS e (x, i) ORDER BY i) AS coefficients
    FROM escrow.declared AS d JOIN pg_catalog.pg_class AS c ON c.oid = d.relation JOIN pg_catalog.pg_namespace AS n ON n.oid = c.relnamespace
    ORDER BY d.number";

impl Catalog {
    /// Reads the tables.
    pub async fn read(client: &Client) -> Result<Catalog, Error> {
        let rows = client.query(QUERY, &[]).await?;
        let tables = rows.iter().filter_map(table).map(Arc::new).collect();
        Ok(Catalog { tables })
    }

    /// Returns the tables of a name, of any schema.
    pub fn named<'a>(&'a self, name: &'a str) -> impl Iterator<Item = &'a Arc<Table>> {
        self.tables.iter().filter(move |table| table.name == name)
    }

    /// Returns the table of a relation.
    pub fn of_oid(&self, oid: u32) -> Option<&Arc<Table>> {
        self.tables.iter().find(|table| table.oid == oid)
    }

    /// Returns the table of a number.
    pub fn of_number(&self, number: i32) -> Option<&Arc<Table>> {
        self.tables.iter().find(|table| table.number == number)
    }

    /// Returns all tables.
    pub fn tables(&self) -> &[Arc<Table>] {
        &self.tables
    }

    /// Returns whether a text is one of the proxy's own, which nobody else may send (rule 19).
    pub fn is_own_text(&self, text: &[u8]) -> bool {
        self.own_texts().any(|own| own == text)
    }

    /// Returns whether a text of the proxy's own begins so.
    pub fn begins_own_text(&self, text: &[u8]) -> bool {
        self.own_texts().any(|own| own.starts_with(text))
    }

    fn own_texts(&self) -> impl Iterator<Item = &[u8]> {
        let texts = self.tables.iter().flat_map(|it| it.own_texts());
        texts.map(str::as_bytes)
    }
}

/// Makes a table of a row. None: its key has a type that this version does not know.
fn table(row: &Row) -> Option<Table> {
    let names: Vec<String> = row.get("columns");
    let places: Vec<i16> = row.get("places");
    let types: Vec<String> = row.get("types");
    let digits: Vec<i32> = row.get("digits");
    let scales: Vec<i32> = row.get("scales");
    let least: Vec<Option<i64>> = row.get("least");
    let greatest: Vec<Option<i64>> = row.get("greatest");
    let columns = (0..names.len()).map(|at| Column {
        name: names[at].clone(),
        place: places[at],
        type_name: types[at].clone(),
        digits: (digits[at].unsigned_abs(), scales[at].unsigned_abs()),
        range: least[at].zip(greatest[at]),
    });
    let check_names: Vec<String> = row.get("checks");
    let comparisons: Vec<String> = row.get("comparisons");
    let limits: Vec<String> = row.get("limits");
    let coefficients: Vec<String> = row.get("coefficients");
    let checks = (0..check_names.len()).map(|at| Check {
        name: check_names[at].clone(),
        coefficients: coefficients[at].split(' ').map(str::to_owned).collect(),
        comparison: comparisons[at].clone(),
        limit: limits[at].clone(),
    });
    Some(Table {
        number: row.get("number"),
        oid: row.get("oid"),
        schema: row.get("schema"),
        name: row.get("name"),
        key: row.get("key"),
        key_type: KeyType::read(row.get("key_type"))?,
        columns: columns.collect(),
        checks: checks.collect(),
        note_text: row.get("note_text"),
        direct_text: row.get("direct_text"),
        own_text: row.get("own_text"),
        here_text: row.get("here_text"),
        refusal_text: row.get("refusal_text"),
    })
}

impl KeyType {
    /// Reads a type as `format_type` writes it.
    fn read(text: &str) -> Option<KeyType> {
        let (name, size) = match text.split_once('(') {
            Some((name, size)) => (name, Some(size.strip_suffix(')')?)),
            None => (text, None),
        };
        Some(match name {
            "smallint" => KeyType::Integer(i16::MIN.into(), i16::MAX.into()),
            "integer" => KeyType::Integer(i32::MIN.into(), i32::MAX.into()),
            "bigint" => KeyType::Integer(i64::MIN, i64::MAX),
            "numeric" => KeyType::Numeric(match size {
                Some(size) => {
                    let (precision, scale) = size.split_once(',')?;
                    let (precision, scale): (u32, u32) =
                        (precision.parse().ok()?, scale.parse().ok()?);
                    Some((precision.checked_sub(scale)?, scale))
                }
                None => None,
            }),
            "text" => KeyType::Text(None),
            "character varying" => KeyType::Text(match size {
                Some(size) => Some(size.parse().ok()?),
                None => None,
            }),
            "uuid" => KeyType::Uuid,
            _ => return None,
        })
    }

    /// Returns the oid of the type that a parameter without one gets beside a key.
    pub fn parameter_oid(self) -> u32 {
        match self {
            KeyType::Integer(least, _) if least == i64::from(i16::MIN) => Type::INT2.oid(),
            KeyType::Integer(least, _) if least == i64::from(i32::MIN) => Type::INT4.oid(),
            KeyType::Integer(..) => Type::INT8.oid(),
            KeyType::Numeric(_) => Type::NUMERIC.oid(),
            KeyType::Text(_) => Type::TEXT.oid(),
            KeyType::Uuid => Type::UUID.oid(),
        }
    }
}

impl Column {
    /// Returns the oid of the column's type.
    pub fn oid(&self) -> u32 {
        match self.type_name.as_str() {
            "smallint" => Type::INT2.oid(),
            "integer" => Type::INT4.oid(),
            "bigint" => Type::INT8.oid(),
            _ => Type::NUMERIC.oid(),
        }
    }
}

#[cfg(test)]
mod tests {
    use super::*;

    #[test]
    fn types_of_keys_are_read_as_postgresql_writes_them() {
        assert_eq!(
            KeyType::read("integer"),
            Some(KeyType::Integer(-2_147_483_648, 2_147_483_647))
        );
        assert_eq!(
            KeyType::read("numeric(10,2)"),
            Some(KeyType::Numeric(Some((8, 2))))
        );
        assert_eq!(KeyType::read("numeric"), Some(KeyType::Numeric(None)));
        assert_eq!(
            KeyType::read("character varying(7)"),
            Some(KeyType::Text(Some(7)))
        );
        assert_eq!(
            KeyType::read("character varying"),
            Some(KeyType::Text(None))
        );
        assert_eq!(KeyType::read("date"), None);
    }
}
