//! The views of information_schema.

use crate::catalog::constraints;
use crate::catalog::namespace::{Table, PUBLIC, SCHEMAS};
use crate::catalog::relations::{is_served, Content, Rows};
use crate::catalog::system::{self, Relation};
use crate::catalog::types::{self, oid};
use crate::catalog::value::Value;
use crate::catalog::{Session, World};
use crate::sqlstate::Failure;

pub(super) fn content(name: &str) -> Option<Content> {
    Some(Content::Made(match name {
        "tables" => fill_tables,
        "columns" => fill_columns,
        "table_constraints" => fill_table_constraints,
        "key_column_usage" => fill_key_columns,
        "constraint_column_usage" => fill_constraint_columns,
        "constraint_table_usage" => fill_constraint_tables,
        "check_constraints" => fill_checks,
        "schemata" => fill_schemata,
        "information_schema_catalog_name" => fill_catalog_name,
        "enabled_roles" => fill_enabled_roles,
        "applicable_roles" | "administrable_role_authorizations" => fill_nothing,
        "table_privileges" | "role_table_grants" => fill_privileges,
        _ => return None,
    }))
}

fn fill_nothing(_: &mut Rows, _: &World, _: &dyn Session) -> Result<(), Failure> {
    Ok(())
}

/// A value of a row, with the name of its column.
type Named = (&'static str, Value);

/// Returns what names a table of the database.
fn table_names(world: &World, table: &str) -> [Named; 3] {
    [
        ("table_catalog", world.database.as_str().into()),
        ("table_schema", "public".into()),
        ("table_name", table.into()),
    ]
}

/// Returns what names a constraint.
fn constraint_names(world: &World, constraint: &str) -> [Named; 3] {
    [
        ("constraint_catalog", world.database.as_str().into()),
        ("constraint_schema", "public".into()),
        ("constraint_name", constraint.into()),
    ]
}

/// Adds a row of what names a constraint, a table or both, and of the rest.
fn add_named(rows: &mut Rows, names: &[[Named; 3]], rest: &[Named]) {
    rows.add(&[names.concat().as_slice(), rest].concat());
}

/// Returns YES or NO.
fn yes(is: bool) -> Value {
    (if is { "YES" } else { "NO" }).into()
}

/// Returns the relations of the catalog that are served.
fn system_relations() -> impl Iterator<Item = &'static Relation> {
    system::all().iter().filter(|relation| is_served(relation))
}

fn fill_tables(rows: &mut Rows, world: &World, _: &dyn Session) -> Result<(), Failure> {
    let mut add = |schema: &str, name: &str, is_table: bool, is_own: bool| {
        rows.add(&[
            ("table_catalog", world.database.as_str().into()),
            ("table_schema", schema.into()),
            ("table_name", name.into()),
            (
                "table_type",
                (if is_table { "BASE TABLE" } else { "VIEW" }).into(),
            ),
            ("is_insertable_into", yes(is_own)),
            ("is_typed", yes(false)),
        ]);
    };
    for table in world.tables.all() {
        add("public", table.name(), true, true);
    }
    for relation in system_relations() {
        add(relation.schema, relation.name, relation.kind == "r", false);
    }
    Ok(())
}

/// A column as information_schema.columns shows it.
struct Shown<'n> {
    schema: &'n str,
    table: &'n str,
    name: &'n str,
    number: usize,
    oid: u32,
    modifier: i32,
    is_required: bool,
    is_own: bool,
}

fn add_column(rows: &mut Rows, world: &World, column: &Shown<'_>) {
    const HEADER: i32 = 4;
    let name = types::by_oid(column.oid).map_or("", |known| known.name);
    let is_array = types::element(column.oid).is_some() && name.starts_with('_');
    let data_type = if is_array {
        "ARRAY".to_owned()
    } else {
        types::format(column.oid, None)
    };
    let size = (column.modifier >= HEADER).then(|| column.modifier - HEADER);
    // precision, radix, scale
    let number: Option<(i64, i64, Option<i64>)> = match column.oid {
        oid::INT2 => Some((16, 2, Some(0))),
        oid::INT4 => Some((32, 2, Some(0))),
        oid::INT8 => Some((64, 2, Some(0))),
        oid::FLOAT4 => Some((24, 2, None)),
        oid::FLOAT8 => Some((53, 2, None)),
        _ => None,
    };
    let (mut precision, mut radix, mut scale) = match number {
        Some((precision, radix, scale)) => (precision.into(), radix.into(), scale.into()),
        None => (Value::Null, Value::Null, Value::Null),
    };
    if column.oid == oid::NUMERIC {
        radix = Value::Integer(10);
        if let Some(size) = size {
            precision = i64::from(size >> 16).into();
            scale = i64::from(size & 0x7ff).into();
        }
    }
    let characters = size.filter(|_| column.oid == oid::VARCHAR);
    let octets: Option<i64> = match column.oid {
        oid::VARCHAR => Some(characters.map_or(1 << 30, |length| i64::from(length) * 4)),
        oid::TEXT => Some(1 << 30),
        _ => None,
    };
    let collation = (column.oid == oid::NAME).then_some("C");
    rows.add(&[
        ("table_catalog", world.database.as_str().into()),
        ("table_schema", column.schema.into()),
        ("table_name", column.table.into()),
        ("column_name", column.name.into()),
        ("ordinal_position", (column.number as i64).into()),
        ("is_nullable", yes(!column.is_required)),
        ("data_type", data_type.into()),
        ("character_maximum_length", characters.into()),
        ("character_octet_length", octets.into()),
        ("numeric_precision", precision),
        ("numeric_precision_radix", radix),
        ("numeric_scale", scale),
        (
            "collation_catalog",
            collation.map(|_| world.database.clone()).into(),
        ),
        ("collation_schema", collation.map(|_| "pg_catalog").into()),
        ("collation_name", collation.into()),
        ("udt_catalog", world.database.as_str().into()),
        ("udt_schema", "pg_catalog".into()),
        ("udt_name", name.into()),
        ("dtd_identifier", column.number.to_string().into()),
        ("is_self_referencing", yes(false)),
        ("is_identity", yes(false)),
        ("identity_cycle", yes(false)),
        ("is_generated", "NEVER".into()),
        ("is_updatable", yes(column.is_own)),
    ]);
}

fn fill_columns(rows: &mut Rows, world: &World, _: &dyn Session) -> Result<(), Failure> {
    for table in world.tables.all() {
        for (place, column) in table.definition.columns.iter().enumerate() {
            let (oid, modifier) = constraints::column_type(column);
            let shown = Shown {
                schema: "public",
                table: table.name(),
                name: &column.name,
                number: place + 1,
                oid,
                modifier,
                is_required: true,
                is_own: true,
            };
            add_column(rows, world, &shown);
        }
    }
    for relation in system_relations() {
        for (place, column) in relation.columns.iter().enumerate() {
            let shown = Shown {
                schema: relation.schema,
                table: relation.name,
                name: column.name,
                number: place + 1,
                oid: column.oid,
                modifier: column.modifier,
                is_required: column.is_required,
                is_own: false,
            };
            add_column(rows, world, &shown);
        }
    }
    Ok(())
}

/// Returns the name that information_schema gives the rule that a column is NOT NULL.
fn not_null_name(table: &Table, place: usize) -> String {
    format!("{}_{}_{}_not_null", PUBLIC, table.oid, place + 1)
}

fn fill_table_constraints(rows: &mut Rows, world: &World, _: &dyn Session) -> Result<(), Failure> {
    for table in world.tables.all() {
        let mut add = |name: &str, kind: &str| {
            let names = [
                constraint_names(world, name),
                table_names(world, table.name()),
            ];
            let rest = [
                ("constraint_type", kind.into()),
                ("is_deferrable", yes(false)),
                ("initially_deferred", yes(false)),
                ("enforced", yes(true)),
            ];
            add_named(rows, &names, &rest);
        };
        for check in &table.definition.checks {
            add(&check.name, "CHECK");
        }
        add(&table.key_name(), "PRIMARY KEY");
        for place in 0..table.definition.columns.len() {
            add(&not_null_name(table, place), "CHECK");
        }
    }
    Ok(())
}

fn fill_key_columns(rows: &mut Rows, world: &World, _: &dyn Session) -> Result<(), Failure> {
    for table in world.tables.all() {
        let names = [
            constraint_names(world, &table.key_name()),
            table_names(world, table.name()),
        ];
        let rest = [
            column_name(table, table.definition.key),
            ("ordinal_position", 1_i64.into()),
        ];
        add_named(rows, &names, &rest);
    }
    Ok(())
}

fn fill_constraint_columns(rows: &mut Rows, world: &World, _: &dyn Session) -> Result<(), Failure> {
    for table in world.tables.all() {
        let mut add = |constraint: &str, place: usize| {
            let names = [
                table_names(world, table.name()),
                constraint_names(world, constraint),
            ];
            add_named(rows, &names, &[column_name(table, place)]);
        };
        for check in &table.definition.checks {
            for number in constraints::columns_of(table, &check.condition) {
                add(&check.name, number as usize - 1);
            }
        }
        add(&table.key_name(), table.definition.key);
    }
    Ok(())
}

/// Returns what names the column of a table at this place.
fn column_name(table: &Table, place: usize) -> Named {
    let name = table.definition.columns[place].name.as_str();
    ("column_name", name.into())
}

/// The tables that a foreign key or a unique key is of: each table has its key.
fn fill_constraint_tables(rows: &mut Rows, world: &World, _: &dyn Session) -> Result<(), Failure> {
    for table in world.tables.all() {
        let names = [
            table_names(world, table.name()),
            constraint_names(world, &table.key_name()),
        ];
        add_named(rows, &names, &[]);
    }
    Ok(())
}

fn fill_checks(rows: &mut Rows, world: &World, _: &dyn Session) -> Result<(), Failure> {
    for table in world.tables.all() {
        let mut add = |name: &str, clause: &str| {
            let names = [constraint_names(world, name)];
            add_named(rows, &names, &[("check_clause", clause.into())]);
        };
        for check in &table.definition.checks {
            add(
                &check.name,
                &format!(
                    "({})",
                    constraints::condition(table, &check.condition, false)
                ),
            );
        }
        for (place, column) in table.definition.columns.iter().enumerate() {
            add(
                &not_null_name(table, place),
                &format!("{} IS NOT NULL", column.name),
            );
        }
    }
    Ok(())
}

fn fill_schemata(rows: &mut Rows, world: &World, _: &dyn Session) -> Result<(), Failure> {
    for (_, name) in SCHEMAS {
        rows.add(&[
            ("catalog_name", world.database.as_str().into()),
            ("schema_name", name.into()),
            ("schema_owner", world.user.as_str().into()),
        ]);
    }
    Ok(())
}

fn fill_catalog_name(rows: &mut Rows, world: &World, _: &dyn Session) -> Result<(), Failure> {
    rows.add(&[("catalog_name", world.database.as_str().into())]);
    Ok(())
}

fn fill_enabled_roles(rows: &mut Rows, world: &World, _: &dyn Session) -> Result<(), Failure> {
    rows.add(&[("role_name", world.user.as_str().into())]);
    Ok(())
}

fn fill_privileges(rows: &mut Rows, world: &World, _: &dyn Session) -> Result<(), Failure> {
    let user = Value::text(&world.user);
    for table in world.tables.all() {
        for privilege in [
            "INSERT",
            "SELECT",
            "UPDATE",
            "DELETE",
            "TRUNCATE",
            "REFERENCES",
            "TRIGGER",
        ] {
            let rest = [
                ("grantor", user.clone()),
                ("grantee", user.clone()),
                ("privilege_type", privilege.into()),
                ("is_grantable", yes(true)),
                ("with_hierarchy", yes(privilege == "SELECT")),
            ];
            add_named(rows, &[table_names(world, table.name())], &rest);
        }
    }
    Ok(())
}
