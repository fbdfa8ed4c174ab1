//! What PostgreSQL itself defines: types, functions, schemas and their like.

use crate::catalog::functions;
use crate::catalog::namespace::{self, OWNER, PG_CATALOG};
use crate::catalog::procedures::{self, Procedure};
use crate::catalog::relations::{Content, Rows};
use crate::catalog::types;
use crate::catalog::value::Value;

pub(super) fn content(name: &str) -> Option<Content> {
    Some(Content::Fixed(match name {
        "pg_type" => fill_types,
        "pg_proc" => fill_functions,
        "pg_range" => fill_ranges,
        "pg_namespace" => fill_schemas,
        "pg_am" => fill_access_methods,
        "pg_collation" => fill_collations,
        "pg_language" => fill_languages,
        "pg_tablespace" => fill_tablespaces,
        _ => return None,
    }))
}

/// Returns the Oid of the function of this name that a type names; `-` is none.
fn function_oid(name: &str) -> Value {
    procedures::by_name(name)
        .next()
        .map_or(0, |procedure| procedure.oid)
        .into()
}

fn fill_types(rows: &mut Rows) {
    /// The columns that are functions, and the places of their names in the data.
    const FUNCTIONS: [(&str, usize); 8] = [
        ("typsubscript", 10),
        ("typinput", 13),
        ("typoutput", 14),
        ("typreceive", 15),
        ("typsend", 16),
        ("typmodin", 17),
        ("typmodout", 18),
        ("typanalyze", 19),
    ];
    for known in types::all() {
        let field = |place: usize| Value::text(known.fields[place]);
        let truth = |place: usize| Value::Bool(known.fields[place] == "t");
        let number = |place: usize| Value::Integer(known.fields[place].parse().unwrap_or(0));
        let mut columns = vec![
            ("oid", known.oid.into()),
            ("typname", field(1)),
            ("typnamespace", PG_CATALOG.into()),
            ("typowner", OWNER.into()),
            ("typlen", number(2)),
            ("typbyval", truth(3)),
            ("typtype", field(4)),
            ("typcategory", field(5)),
            ("typispreferred", truth(6)),
            ("typisdefined", truth(7)),
            ("typdelim", field(8)),
            ("typrelid", number(9)),
            ("typelem", number(11)),
            ("typarray", number(12)),
            ("typalign", field(20)),
            ("typstorage", field(21)),
            ("typtypmod", Value::Integer(-1)),
            ("typcollation", number(22)),
        ];
        columns.extend(
            FUNCTIONS
                .iter()
                .map(|&(name, place)| (name, function_oid(known.fields[place]))),
        );
        rows.add(&columns);
    }
}

/// Returns whether a type's values are read and written by this function.
fn is_of_a_type(procedure: &Procedure) -> bool {
    types::all().iter().any(|known| {
        known.fields[10] == procedure.name || known.fields[13..=19].contains(&procedure.name)
    })
}

fn fill_functions(rows: &mut Rows) {
    const INTERNAL: i64 = 12;
    for procedure in procedures::all() {
        if !functions::is_served(procedure) && !is_of_a_type(procedure) {
            continue;
        }
        let schema = namespace::schema_oid(procedure.schema).unwrap_or(PG_CATALOG);
        let arguments = procedure.arguments.iter().map(|&oid| i64::from(oid));
        rows.add(&[
            ("oid", procedure.oid.into()),
            ("proname", procedure.name.into()),
            ("pronamespace", schema.into()),
            ("proowner", OWNER.into()),
            ("prolang", INTERNAL.into()),
            ("procost", Value::Float(1.0)),
            (
                "prorows",
                Value::Float(if procedure.returns_set { 1_000.0 } else { 0.0 }),
            ),
            ("provariadic", procedure.variadic.into()),
            ("prokind", procedure.kind.to_string().into()),
            ("proisstrict", procedure.is_strict.into()),
            ("proretset", procedure.returns_set.into()),
            ("provolatile", procedure.volatility.to_string().into()),
            ("proparallel", "s".into()),
            ("pronargs", (procedure.arguments.len() as i64).into()),
            ("pronargdefaults", (procedure.defaults as i64).into()),
            ("prorettype", procedure.result.into()),
            ("proargtypes", Value::integers(arguments)),
            ("prosrc", procedure.name.into()),
        ]);
    }
}

fn fill_ranges(rows: &mut Rows) {
    // The type of ranges, that of its elements, that of several ranges, and the operator class.
    const RANGES: [(i64, i64, i64, i64); 6] = [
        (3904, 23, 4451, 1978),
        (3906, 1700, 4532, 3125),
        (3908, 1114, 4533, 3128),
        (3910, 1184, 4534, 3127),
        (3912, 1082, 4535, 3122),
        (3926, 20, 4536, 3124),
    ];
    for (range, element, several, class) in RANGES {
        rows.add(&[
            ("rngtypid", range.into()),
            ("rngsubtype", element.into()),
            ("rngmultitypid", several.into()),
            ("rngsubopc", class.into()),
        ]);
    }
}

fn fill_schemas(rows: &mut Rows) {
    for (oid, name) in namespace::SCHEMAS {
        rows.add(&[
            ("oid", oid.into()),
            ("nspname", name.into()),
            ("nspowner", OWNER.into()),
        ]);
    }
}

fn fill_access_methods(rows: &mut Rows) {
    for (oid, name, handler, kind) in [
        (2_i64, "heap", "heap_tableam_handler", "t"),
        (403, "btree", "bthandler", "i"),
    ] {
        rows.add(&[
            ("oid", oid.into()),
            ("amname", name.into()),
            ("amhandler", function_oid(handler)),
            ("amtype", kind.into()),
        ]);
    }
}

fn fill_collations(rows: &mut Rows) {
    for (oid, name, provider) in [
        (100_i64, "default", "d"),
        (950, "C", "c"),
        (951, "POSIX", "c"),
    ] {
        let locale = (provider == "c").then_some(name);
        rows.add(&[
            ("oid", oid.into()),
            ("collname", name.into()),
            ("collnamespace", PG_CATALOG.into()),
            ("collowner", OWNER.into()),
            ("collprovider", provider.into()),
            ("collisdeterministic", true.into()),
            ("collencoding", Value::Integer(-1)),
            ("collcollate", locale.into()),
            ("collctype", locale.into()),
        ]);
    }
}

fn fill_languages(rows: &mut Rows) {
    rows.add(&[
        ("oid", 12_i64.into()),
        ("lanname", "internal".into()),
        ("lanowner", OWNER.into()),
        ("lanvalidator", 2246_i64.into()),
    ]);
}

fn fill_tablespaces(rows: &mut Rows) {
    for (oid, name) in [(1663_i64, "pg_default"), (1664, "pg_global")] {
        rows.add(&[
            ("oid", oid.into()),
            ("spcname", name.into()),
            ("spcowner", OWNER.into()),
        ]);
    }
}
