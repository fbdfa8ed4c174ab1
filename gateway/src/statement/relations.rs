//! What the relations of a query are: tables of the program, or of the catalog.

use crate::catalog;
use crate::statement::query::{Body, QualifiedName, Query, Relation};

/// Returns whether a name is one of the catalog's.
pub fn is_of_catalog(name: &QualifiedName) -> bool {
    let schema = name.schema.as_ref().map(|schema| schema.text.as_str());
    catalog::has_relation(schema, &name.name.text)
}

/// Returns whether a query reads a table of the program in one of its FROMs.
pub fn reads_table(query: &Query) -> bool {
    reads(query, &mut Vec::new())
}

/// `known` are the names of the queries of WITH.
fn reads<'a>(query: &'a Query, known: &mut Vec<&'a str>) -> bool {
    let outer = known.len();
    let mut found = false;
    for with in &query.with {
        if query.is_recursive {
            known.push(&with.alias.name.text);
        }
        found |= reads(&with.query, known);
        known.push(&with.alias.name.text);
    }
    found |= body_reads(&query.body, known);
    known.truncate(outer);
    found
}

fn body_reads<'a>(body: &'a Body, known: &mut Vec<&'a str>) -> bool {
    match body {
        Body::Select(select) => select.from.iter().any(|it| relation_reads(it, known)),
        Body::Values(_) => false,
        Body::Query(query) => reads(query, known),
        Body::Set(left, _, _, right) => body_reads(left, known) || body_reads(right, known),
    }
}

fn relation_reads<'a>(relation: &'a Relation, known: &mut Vec<&'a str>) -> bool {
    match relation {
        Relation::Table { name, .. } => {
            let is_query = name.schema.is_none() && known.contains(&name.name.text.as_str());
            !is_query && !is_of_catalog(name)
        }
        Relation::Subquery { query, .. } => reads(query, known),
        Relation::Function { .. } => false,
        Relation::Join { left, right, .. } => {
            relation_reads(left, known) || relation_reads(right, known)
        }
    }
}
