//! The relations of pg_catalog and information_schema, as PostgreSQL 15 defines them.

use std::collections::HashMap;

use once_cell::sync::Lazy;
use postgres_protocol::Oid;

use crate::catalog::namespace::{INFORMATION_SCHEMA, PG_CATALOG};

/// A column of a relation.
#[derive(Debug)]
pub struct Column {
    /// Its name.
    pub name: &'static str,
    /// The Oid of its type; of a domain, that of the type below it.
    pub oid: Oid,
    /// The type's modifier; -1: none.
    pub modifier: i32,
    /// Whether it is NOT NULL.
    pub is_required: bool,
}

/// A relation of the catalog.
#[derive(Debug)]
pub struct Relation {
    /// Its Oid. That of a view is not PostgreSQL's, which gives one anew in each database.
    pub oid: Oid,
    /// The name of its schema.
    pub schema: &'static str,
    /// Its name.
    pub name: &'static str,
    /// relkind: `r` or `v`.
    pub kind: &'static str,
    /// Its columns, in order.
    pub columns: Vec<Column>,
}

impl Relation {
    /// Returns the Oid of its schema.
    pub fn schema_oid(&self) -> Oid {
        if self.schema == "pg_catalog" {
            PG_CATALOG
        } else {
            INFORMATION_SCHEMA
        }
    }

    /// Returns the place of a column, from 0.
    pub fn place(&self, name: &str) -> Option<usize> {
        self.columns.iter().position(|column| column.name == name)
    }
}

/// The first Oid of the views.
const FIRST_VIEW: usize = 12_000;

/// The columns that pg_stat_activity has here beside PostgreSQL's: the session's number, and its reservations.
const OWN_COLUMNS: [&str; 2] = ["session:23:-1:0", "reservations:23:-1:0"];

/// The words that can't be names without quotes.
const RESERVED: &str = "all analyse analyze and any array as asc asymmetric authorization between bigint binary bit \
    boolean both case cast char character check coalesce collate collation column concurrently constraint create \
    cross current_catalog current_date current_role current_schema current_time current_timestamp current_user dec \
    decimal default deferrable desc distinct do else end except exists extract false fetch float for foreign freeze \
    from full grant greatest group grouping having ilike in initially inner inout int integer intersect interval \
    into is isnull join lateral leading least left like limit localtime localtimestamp national natural nchar none \
    normalize not notnull null nullif numeric offset on only or order out outer overlaps overlay placing position \
    precision primary real references returning right row select session_user setof similar smallint some substring \
    symmetric table tablesample then time timestamp to trailing treat trim true union unique user using values \
    varchar variadic verbose when where window with xmlattributes xmlconcat xmlelement xmlexists xmlforest \
    xmlnamespaces xmlparse xmlpi xmlroot xmlserialize xmltable";

static RELATIONS: Lazy<Vec<Relation>> = Lazy::new(|| {
    let lines = include_str!("data/relations.tsv").lines().enumerate();
    lines
        .filter_map(|(place, line)| read(place, line))
        .collect()
});

static BY_NAME: Lazy<HashMap<(&'static str, &'static str), usize>> = Lazy::new(|| {
    let named = RELATIONS.iter().enumerate();
    named
        .map(|(place, relation)| ((relation.schema, relation.name), place))
        .collect()
});

static BY_OID: Lazy<HashMap<Oid, usize>> = Lazy::new(|| {
    RELATIONS
        .iter()
        .enumerate()
        .map(|(place, relation)| (relation.oid, place))
        .collect()
});

fn read(place: usize, line: &'static str) -> Option<Relation> {
    let mut fields = line.split('\t');
    let oid = fields.next()?;
    let mut relation = Relation {
        oid: oid.parse().unwrap_or((FIRST_VIEW + place) as Oid),
        schema: fields.next()?,
        name: fields.next()?,
        kind: fields.next()?,
        columns: fields.next()?.split(' ').filter_map(read_column).collect(),
    };
    if relation.name == "pg_stat_activity" {
        relation
            .columns
            .extend(OWN_COLUMNS.iter().copied().filter_map(read_column));
    }
    Some(relation)
}

fn read_column(field: &'static str) -> Option<Column> {
    let mut parts = field.split(':');
    Some(Column {
        name: parts.next()?,
        oid: parts.next()?.parse().ok()?,
        modifier: parts.next()?.parse().ok()?,
        is_required: parts.next()? == "1",
    })
}

/// Returns all relations.
pub fn all() -> &'static [Relation] {
    &RELATIONS
}

/// Returns the relation of this Oid.
pub fn by_oid(oid: Oid) -> Option<&'static Relation> {
    BY_OID.get(&oid).map(|&place| &RELATIONS[place])
}

/// Returns the relation of this name. Without a schema it is looked for in pg_catalog, which comes first in the path.
pub fn by_name(schema: Option<&str>, name: &str) -> Option<&'static Relation> {
    let schema = match schema {
        None | Some("pg_catalog") => "pg_catalog",
        Some("information_schema") => "information_schema",
        Some(_) => return None,
    };
    // All names of pg_catalog begin so: most tables of a database are told apart by that alone.
    if schema == "pg_catalog" && !name.starts_with("pg_") {
        return None;
    }
    BY_NAME.get(&(schema, name)).map(|&place| &RELATIONS[place])
}

/// Returns whether a word is no name without quotes.
pub fn is_reserved(word: &str) -> bool {
    RESERVED.split(' ').any(|reserved| reserved == word)
}

#[cfg(test)]
mod tests {
    use super::*;

    #[test]
    fn relations_are_those_of_postgresql_15() {
        assert_eq!(all().len(), 208);
        let class = by_name(None, "pg_class").unwrap();
        assert_eq!(
            (class.oid, class.kind, class.columns.len()),
            (1259, "r", 33)
        );
        assert_eq!(class.columns[1].name, "relname");
        let columns = by_name(Some("information_schema"), "columns").unwrap();
        assert_eq!(columns.place("is_nullable"), Some(6));
        assert_eq!(
            (columns.columns[6].oid, columns.columns[6].modifier),
            (1043, 7)
        );
        assert!(by_name(None, "columns").is_none());
        for relation in all().iter().filter(|it| it.schema == "pg_catalog") {
            assert!(by_name(None, relation.name).is_some());
        }
        assert_eq!(by_oid(columns.oid).unwrap().name, "columns");
    }

    #[test]
    fn reserved_words_need_quotes() {
        assert!(is_reserved("select") && is_reserved("user") && !is_reserved("stock"));
    }
}
