//! The tables of the database, their columns, keys and checks; and the relations of the catalog itself.

use postgres_protocol::Oid;

use crate::catalog::constraints;
use crate::catalog::functions::RESERVABLE;
use crate::catalog::namespace::{self, Table, OWNER, PUBLIC};
use crate::catalog::relations::{is_served, Content, Rows};
use crate::catalog::system;
use crate::catalog::types;
use crate::catalog::value::Value;
use crate::catalog::{Session, World};
use crate::sqlstate::Failure;

/// The access method of tables.
const HEAP: i64 = 2;
/// The access method of indexes.
const BTREE: i64 = 403;
/// The Oid of pg_class, for comments.
const PG_CLASS: i64 = 1259;

pub(super) fn content(name: &str) -> Option<Content> {
    Some(Content::Made(match name {
        "pg_class" => fill_classes,
        "pg_attribute" => fill_attributes,
        "pg_index" => fill_indexes,
        "pg_constraint" => fill_constraints,
        "pg_description" => fill_descriptions,
        "pg_tables" => fill_pg_tables,
        "pg_indexes" => fill_pg_indexes,
        "pg_views" => fill_pg_views,
        _ => return None,
    }))
}

/// A row of pg_class.
struct Class<'n> {
    oid: Oid,
    schema: Oid,
    name: &'n str,
    kind: &'static str,
    access_method: i64,
    columns: usize,
    checks: usize,
    has_index: bool,
    identity: &'static str,
}

fn add_class(rows: &mut Rows, class: &Class<'_>) {
    let is_table = class.kind == "r";
    rows.add(&[
        ("oid", class.oid.into()),
        ("relname", class.name.into()),
        ("relnamespace", class.schema.into()),
        ("relowner", OWNER.into()),
        ("relam", class.access_method.into()),
        // PostgreSQL says -1 of a table that it has not counted.
        ("reltuples", Value::Float(if is_table { -1.0 } else { 0.0 })),
        ("relhasindex", class.has_index.into()),
        ("relpersistence", "p".into()),
        ("relkind", class.kind.into()),
        ("relnatts", (class.columns as i64).into()),
        ("relchecks", (class.checks as i64).into()),
        ("relispopulated", true.into()),
        ("relreplident", class.identity.into()),
    ]);
}

fn fill_classes(rows: &mut Rows, world: &World, _: &dyn Session) -> Result<(), Failure> {
    for table in world.tables.all() {
        let definition = &table.definition;
        add_class(
            rows,
            &Class {
                oid: table.oid,
                schema: PUBLIC,
                name: table.name(),
                kind: "r",
                access_method: HEAP,
                columns: definition.columns.len(),
                checks: definition.checks.len(),
                has_index: true,
                identity: "d",
            },
        );
        add_class(
            rows,
            &Class {
                oid: table.index(),
                schema: PUBLIC,
                name: &table.key_name(),
                kind: "i",
                access_method: BTREE,
                columns: 1,
                checks: 0,
                has_index: false,
                identity: "n",
            },
        );
    }
    for relation in system::all().iter().filter(|relation| is_served(relation)) {
        add_class(
            rows,
            &Class {
                oid: relation.oid,
                schema: relation.schema_oid(),
                name: relation.name,
                kind: relation.kind,
                access_method: if relation.kind == "r" { HEAP } else { 0 },
                columns: relation.columns.len(),
                checks: 0,
                has_index: false,
                identity: "n",
            },
        );
    }
    Ok(())
}

/// A row of pg_attribute.
struct Attribute<'n> {
    relation: Oid,
    number: usize,
    name: &'n str,
    oid: Oid,
    modifier: i32,
    is_required: bool,
}

fn add_attribute(rows: &mut Rows, attribute: &Attribute<'_>) {
    let known = types::by_oid(attribute.oid);
    let field = |place: usize| known.map_or("", |known| known.fields[place]);
    rows.add(&[
        ("attrelid", attribute.relation.into()),
        ("attname", attribute.name.into()),
        ("atttypid", attribute.oid.into()),
        ("attstattarget", Value::Integer(-1)),
        ("attlen", known.map_or(-1, |known| known.size).into()),
        ("attnum", (attribute.number as i64).into()),
        ("attcacheoff", Value::Integer(-1)),
        ("atttypmod", attribute.modifier.into()),
        ("attbyval", (field(3) == "t").into()),
        ("attalign", field(20).into()),
        ("attstorage", field(21).into()),
        ("attnotnull", attribute.is_required.into()),
        ("attislocal", true.into()),
        (
            "attcollation",
            known.map_or(0, |known| known.collation).into(),
        ),
    ]);
}

fn fill_attributes(rows: &mut Rows, world: &World, _: &dyn Session) -> Result<(), Failure> {
    for table in world.tables.all() {
        for (place, column) in table.definition.columns.iter().enumerate() {
            let (oid, modifier) = constraints::column_type(column);
            let attribute = Attribute {
                relation: table.oid,
                number: place + 1,
                name: &column.name,
                oid,
                modifier,
                is_required: true,
            };
            add_attribute(rows, &attribute);
            if place == table.definition.key {
                let of_index = Attribute {
                    relation: table.index(),
                    number: 1,
                    is_required: false,
                    ..attribute
                };
                add_attribute(rows, &of_index);
            }
        }
    }
    for relation in system::all().iter().filter(|relation| is_served(relation)) {
        for (place, column) in relation.columns.iter().enumerate() {
            add_attribute(
                rows,
                &Attribute {
                    relation: relation.oid,
                    number: place + 1,
                    name: column.name,
                    oid: column.oid,
                    modifier: column.modifier,
                    is_required: column.is_required,
                },
            );
        }
    }
    Ok(())
}

/// Returns the place of a table's key among its columns, from 1.
fn key_number(table: &Table) -> i64 {
    table.definition.key as i64 + 1
}

fn fill_indexes(rows: &mut Rows, world: &World, _: &dyn Session) -> Result<(), Failure> {
    for table in world.tables.all() {
        let column = &table.definition.columns[table.definition.key];
        let oid = constraints::column_type(column).0;
        let collation = types::by_oid(oid).map_or(0, |known| known.collation);
        // The operator classes int8_ops, numeric_ops and text_ops.
        let class = match oid {
            types::oid::INT8 => 3124,
            types::oid::NUMERIC => 3125,
            _ => 3126,
        };
        rows.add(&[
            ("indexrelid", table.index().into()),
            ("indrelid", table.oid.into()),
            ("indnatts", 1_i64.into()),
            ("indnkeyatts", 1_i64.into()),
            ("indisunique", true.into()),
            ("indisprimary", true.into()),
            ("indimmediate", true.into()),
            ("indisvalid", true.into()),
            ("indisready", true.into()),
            ("indislive", true.into()),
            ("indkey", Value::integers([key_number(table)])),
            ("indcollation", Value::integers([i64::from(collation)])),
            ("indclass", Value::integers([class])),
            ("indoption", Value::integers([0])),
        ]);
    }
    Ok(())
}

fn fill_constraints(rows: &mut Rows, world: &World, _: &dyn Session) -> Result<(), Failure> {
    for table in world.tables.all() {
        for (place, check) in table.definition.checks.iter().enumerate() {
            rows.add(&[
                ("oid", table.check(place).into()),
                ("conname", check.name.as_str().into()),
                ("connamespace", PUBLIC.into()),
                ("contype", "c".into()),
                ("convalidated", true.into()),
                ("conrelid", table.oid.into()),
                ("confupdtype", " ".into()),
                ("confdeltype", " ".into()),
                ("confmatchtype", " ".into()),
                ("conislocal", true.into()),
                (
                    "conkey",
                    Value::integers(constraints::columns_of(table, &check.condition)),
                ),
                ("conbin", check.condition.as_str().into()),
            ]);
        }
        rows.add(&[
            ("oid", table.key_constraint().into()),
            ("conname", table.key_name().into()),
            ("connamespace", PUBLIC.into()),
            ("contype", "p".into()),
            ("convalidated", true.into()),
            ("conrelid", table.oid.into()),
            ("conindid", table.index().into()),
            ("confupdtype", " ".into()),
            ("confdeltype", " ".into()),
            ("confmatchtype", " ".into()),
            ("conislocal", true.into()),
            ("connoinherit", true.into()),
            ("conkey", Value::integers([key_number(table)])),
        ]);
    }
    Ok(())
}

fn fill_descriptions(rows: &mut Rows, world: &World, _: &dyn Session) -> Result<(), Failure> {
    for table in world.tables.all() {
        let columns = table.definition.columns.iter().enumerate();
        for (place, _) in columns.filter(|(_, column)| column.is_reservable) {
            rows.add(&[
                ("objoid", table.oid.into()),
                ("classoid", PG_CLASS.into()),
                ("objsubid", (place as i64 + 1).into()),
                ("description", RESERVABLE.into()),
            ]);
        }
    }
    Ok(())
}

fn fill_pg_tables(rows: &mut Rows, world: &World, _: &dyn Session) -> Result<(), Failure> {
    let owner = Value::text(&world.user);
    let mut add = |schema: &str, name: &str, has_index: bool| {
        rows.add(&[
            ("schemaname", schema.into()),
            ("tablename", name.into()),
            ("tableowner", owner.clone()),
            ("hasindexes", has_index.into()),
            ("hasrules", false.into()),
            ("hastriggers", false.into()),
            ("rowsecurity", false.into()),
        ]);
    };
    for table in world.tables.all() {
        add("public", table.name(), true);
    }
    let relations = system::all().iter().filter(|relation| is_served(relation));
    for relation in relations.filter(|relation| relation.kind == "r") {
        add(relation.schema, relation.name, false);
    }
    Ok(())
}

fn fill_pg_indexes(rows: &mut Rows, world: &World, _: &dyn Session) -> Result<(), Failure> {
    for table in world.tables.all() {
        rows.add(&[
            ("schemaname", "public".into()),
            ("tablename", table.name().into()),
            ("indexname", table.key_name().into()),
            (
                "indexdef",
                constraints::index_definition(table, false).into(),
            ),
        ]);
    }
    Ok(())
}

/// The views are those of the catalog. What defines them is not told.
fn fill_pg_views(rows: &mut Rows, world: &World, _: &dyn Session) -> Result<(), Failure> {
    let relations = system::all().iter().filter(|relation| is_served(relation));
    for relation in relations.filter(|relation| relation.kind == "v") {
        rows.add(&[
            ("schemaname", relation.schema.into()),
            ("viewname", relation.name.into()),
            ("viewowner", world.user.as_str().into()),
        ]);
    }
    debug_assert!(namespace::schema_name(PUBLIC).is_some());
    Ok(())
}
