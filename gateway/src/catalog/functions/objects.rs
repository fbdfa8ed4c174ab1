//! Functions of tables, types, roles and other objects.

use postgres_protocol::Oid;

use crate::catalog::constraints;
use crate::catalog::execution::Executor;
use crate::catalog::functions::{Body, Table};
use crate::catalog::namespace::{self, OWNER};
use crate::catalog::plan::Call;
use crate::catalog::procedures;
use crate::catalog::system;
use crate::catalog::types::{self, oid};
use crate::catalog::value::Value;
use crate::sqlstate::{Failure, Report, SqlState};

pub const BODIES: Table = &[
    ("format_type(oid,int4)", |_, _, arguments| {
        let modifier = match &arguments[1] {
            Value::Integer(modifier) => Some(*modifier as i32),
            _ => None,
        };
        Ok(match &arguments[0] {
            Value::Integer(0) => "-".into(),
            Value::Integer(oid) => types::format(*oid as Oid, modifier).into(),
            _ => Value::Null,
        })
    }),
    ("pg_get_userbyid(oid)", |executor, _, arguments| {
        Ok(match arguments[0].as_integer() {
            oid if oid == i64::from(OWNER) => executor.world.user.as_str().into(),
            oid => format!("unknown (OID={})", oid).into(),
        })
    }),
    ("pg_table_is_visible(oid)", |executor, _, arguments| {
        let found = executor.world.tables.relation_name(arguments[0].as_oid());
        Ok(found
            .map(|(schema, _)| schema != namespace::INFORMATION_SCHEMA)
            .into())
    }),
    ("pg_type_is_visible(oid)", |_, _, arguments| {
        Ok(types::by_oid(arguments[0].as_oid()).map(|_| true).into())
    }),
    ("pg_function_is_visible(oid)", |_, _, arguments| {
        let found = procedures::by_oid(arguments[0].as_oid());
        Ok(found
            .map(|procedure| procedure.schema == "pg_catalog")
            .into())
    }),
    ("pg_collation_is_visible(oid)", |_, _, arguments| {
        Ok(matches!(arguments[0].as_integer(), 100 | 950 | 951)
            .then(|| true)
            .into())
    }),
    ("to_regclass(text)", to_named),
    ("to_regtype(text)", to_named),
    ("to_regproc(text)", to_named),
    ("to_regprocedure(text)", to_named),
    ("to_regnamespace(text)", to_named),
    ("to_regrole(text)", to_named),
    ("pg_get_expr(pg_node_tree,oid)", expression),
    ("pg_get_expr(pg_node_tree,oid,bool)", expression),
    ("pg_get_constraintdef(oid)", constraint),
    ("pg_get_constraintdef(oid,bool)", constraint),
    ("pg_get_indexdef(oid)", index),
    ("pg_get_indexdef(oid,int4,bool)", index),
    (
        "pg_get_serial_sequence(text,text)",
        |executor, _, arguments| {
            let table = arguments[0].as_text();
            let oid = relation(executor, table)?;
            let column = arguments[1].as_text();
            let has_column = match executor.world.tables.by_oid(oid) {
                Some(table) => table.definition.column(column).is_some(),
                None => system::by_oid(oid).map_or(false, |known| known.place(column).is_some()),
            };
            if !has_column {
                let text = format!(
                    "column \"{}\" of relation \"{}\" does not exist",
                    column, table
                );
                return Err(Report::error(SqlState::UNDEFINED_COLUMN, text));
            }
            Ok(Value::Null)
        },
    ),
    ("pg_get_partkeydef(oid)", nothing),
    ("pg_get_function_result(oid)", |_, _, arguments| {
        let found = procedures::by_oid(arguments[0].as_oid());
        Ok(found
            .map(|procedure| {
                let set = if procedure.returns_set { "SETOF " } else { "" };
                format!("{}{}", set, types::display(procedure.result))
            })
            .into())
    }),
    ("pg_get_function_arguments(oid)", function_arguments),
    (
        "pg_get_function_identity_arguments(oid)",
        function_arguments,
    ),
    ("obj_description(oid)", nothing),
    ("obj_description(oid,name)", nothing),
    ("shobj_description(oid,name)", nothing),
    ("col_description(oid,int4)", |executor, _, arguments| {
        let table = executor.world.tables.by_oid(arguments[0].as_oid());
        let place = usize::try_from(arguments[1].as_integer() - 1).ok();
        let column = table
            .zip(place)
            .and_then(|(table, place)| table.definition.columns.get(place));
        Ok(column
            .filter(|column| column.is_reservable)
            .map(|_| RESERVABLE)
            .into())
    }),
    (
        "pg_relation_is_publishable(regclass)",
        |executor, _, arguments| {
            let oid = arguments[0].as_oid();
            let is_known = executor.world.tables.relation_name(oid).is_some();
            Ok(is_known.then_some(false).into())
        },
    ),
    (
        "pg_relation_is_updatable(regclass,bool)",
        |executor, _, arguments| {
            // INSERT, UPDATE and DELETE: 1 << CMD_INSERT and so on.
            const ALL: i64 = 28;
            let table = executor.world.tables.by_oid(arguments[0].as_oid());
            Ok(table.map_or(0, |_| ALL).into())
        },
    ),
    // A store doesn't tell what a table takes of its file.
    ("pg_table_size(regclass)", nothing),
    ("pg_relation_size(regclass)", nothing),
    ("pg_relation_size(regclass,text)", nothing),
    ("pg_total_relation_size(regclass)", nothing),
    ("pg_indexes_size(regclass)", nothing),
    ("pg_database_size(oid)", nothing),
    ("pg_database_size(name)", nothing),
    ("pg_tablespace_size(oid)", nothing),
    ("pg_tablespace_size(name)", nothing),
    ("pg_relation_filenode(regclass)", nothing),
    ("pg_relation_filepath(regclass)", nothing),
];

/// The comment of RESERVABLE columns.
pub const RESERVABLE: &str = "RESERVABLE";

fn nothing(_: &mut Executor<'_>, _: &Call, _: &[Value]) -> Result<Value, Failure> {
    Ok(Value::Null)
}

fn relation(executor: &Executor<'_>, text: &str) -> Result<Oid, Failure> {
    namespace::read_named(
        text,
        oid::REGCLASS,
        &executor.world.tables,
        &executor.world.user,
    )
}

/// Looks for the object of a name; NULL if there is none.
fn to_named(
    executor: &mut Executor<'_>,
    call: &Call,
    arguments: &[Value],
) -> Result<Value, Failure> {
    let text = arguments[0].as_text();
    let world = executor.world;
    match namespace::read_named(text, call.result, &world.tables, &world.user) {
        Ok(oid) => Ok(oid.into()),
        Err(report) if report.state == SqlState::INVALID_NAME => Err(report),
        Err(_) => Ok(Value::Null),
    }
}

/// Returns whether the last argument asks for the pretty form.
fn is_pretty(arguments: &[Value]) -> bool {
    arguments.last().map_or(false, Value::is_true)
}

fn expression(
    executor: &mut Executor<'_>,
    _: &Call,
    arguments: &[Value],
) -> Result<Value, Failure> {
    let table = executor.world.tables.by_oid(arguments[1].as_oid());
    let condition = arguments[0].as_text();
    Ok(table
        .map(|table| constraints::condition(table, condition, is_pretty(&arguments[2..])))
        .into())
}

fn constraint(
    executor: &mut Executor<'_>,
    _: &Call,
    arguments: &[Value],
) -> Result<Value, Failure> {
    let oid = arguments[0].as_oid();
    let table = executor.world.tables.owner(oid);
    Ok(table
        .and_then(|table| constraints::definition(table, oid, is_pretty(&arguments[1..])))
        .into())
}

fn index(executor: &mut Executor<'_>, _: &Call, arguments: &[Value]) -> Result<Value, Failure> {
    let table = match executor.world.tables.by_index(arguments[0].as_oid()) {
        Some(table) => table,
        None => return Ok(Value::Null),
    };
    Ok(match arguments.get(1).map_or(0, Value::as_integer) {
        0 => constraints::index_definition(table, is_pretty(&arguments[1..])).into(),
        1 => constraints::key_column(table).into(),
        _ => "".into(),
    })
}

fn function_arguments(
    _: &mut Executor<'_>,
    _: &Call,
    arguments: &[Value],
) -> Result<Value, Failure> {
    let found = procedures::by_oid(arguments[0].as_oid());
    Ok(found
        .map(|procedure| {
            let types: Vec<String> = procedure
                .arguments
                .iter()
                .map(|&oid| types::display(oid))
                .collect();
            types.join(", ")
        })
        .into())
}

/// Returns what computes the functions of a family that have many forms each.
pub fn by_name(name: &str) -> Option<Body> {
    Some(match name {
        "has_table_privilege" | "has_any_column_privilege" | "has_sequence_privilege" => {
            relation_privilege
        }
        "has_column_privilege" => column_privilege,
        "has_schema_privilege" => schema_privilege,
        "has_database_privilege" => database_privilege,
        "has_function_privilege"
        | "has_language_privilege"
        | "has_type_privilege"
        | "has_tablespace_privilege"
        | "pg_has_role" => owned,
        // Objects of other kinds don't exist here.
        name if name.starts_with("pg_") && name.ends_with("_is_visible") => nothing,
        _ => return None,
    })
}

/// Fails unless the user that is asked for is the client's own; whoever connects is the only role.
fn check_role(executor: &Executor<'_>, roles: &[Value], types: &[Oid]) -> Result<(), Failure> {
    for (role, &oid) in roles.iter().zip(types) {
        let is_own = match role {
            Value::Text(name) => {
                **name == *executor.world.user || (oid == oid::NAME && &**name == "public")
            }
            Value::Integer(oid) => matches!(*oid as Oid, OWNER | 0),
            _ => true,
        };
        if !is_own {
            let text = format!("role \"{}\" does not exist", role.as_text());
            return Err(Report::error(SqlState::UNDEFINED_OBJECT, text));
        }
    }
    Ok(())
}

/// Cuts a list of privileges, and fails at one that doesn't exist.
fn privileges(list: &str, known: &[&str]) -> Result<Vec<String>, Failure> {
    list.split(',')
        .map(|privilege| {
            let written = privilege.trim();
            let plain = written.to_ascii_uppercase();
            let plain = plain.strip_suffix(" WITH GRANT OPTION").unwrap_or(&plain);
            if known.contains(&plain) {
                Ok(plain.to_owned())
            } else {
                let text = format!("unrecognized privilege type: \"{}\"", written);
                Err(Report::error(SqlState::INVALID_PARAMETER_VALUE, text))
            }
        })
        .collect()
}

const OF_TABLES: &[&str] = &[
    "SELECT",
    "INSERT",
    "UPDATE",
    "DELETE",
    "TRUNCATE",
    "REFERENCES",
    "TRIGGER",
    "USAGE",
];

/// Returns the Oid of the relation that an argument means. None: it has an Oid of nothing.
fn relation_of(executor: &Executor<'_>, argument: &Value) -> Result<Option<Oid>, Failure> {
    match argument {
        Value::Integer(oid) => {
            let oid = *oid as Oid;
            Ok(executor.world.tables.relation_name(oid).map(|_| oid))
        }
        name => relation(executor, name.as_text()).map(Some),
    }
}

fn relation_privilege(
    executor: &mut Executor<'_>,
    call: &Call,
    arguments: &[Value],
) -> Result<Value, Failure> {
    match arguments {
        [roles @ .., relation, list] => of_relation(executor, call, roles, relation, list),
        _ => Ok(Value::Null),
    }
}

/// Whoever may do something with a relation may do it with each of its columns.
fn column_privilege(
    executor: &mut Executor<'_>,
    call: &Call,
    arguments: &[Value],
) -> Result<Value, Failure> {
    match arguments {
        [roles @ .., relation, _, list] => of_relation(executor, call, roles, relation, list),
        _ => Ok(Value::Null),
    }
}

fn of_relation(
    executor: &Executor<'_>,
    call: &Call,
    roles: &[Value],
    relation: &Value,
    list: &Value,
) -> Result<Value, Failure> {
    check_role(executor, roles, &call.types)?;
    let relation = relation_of(executor, relation)?;
    let privileges = privileges(list.as_text(), OF_TABLES)?;
    // The client may do all with its tables, and read the catalog.
    let may = |oid| {
        executor.world.tables.by_oid(oid).is_some()
            || privileges.iter().any(|privilege| privilege == "SELECT")
    };
    Ok(relation.map(may).into())
}

fn schema_privilege(
    executor: &mut Executor<'_>,
    call: &Call,
    arguments: &[Value],
) -> Result<Value, Failure> {
    let last = arguments.len() - 1;
    check_role(executor, &arguments[..last - 1], &call.types)?;
    let schema = match &arguments[last - 1] {
        Value::Integer(oid) => namespace::schema_name(*oid as Oid).map(|_| *oid as Oid),
        name => Some(namespace::schema_oid(name.as_text()).ok_or_else(|| {
            let text = format!("schema \"{}\" does not exist", name.as_text());
            Report::error(SqlState::INVALID_SCHEMA, text)
        })?),
    };
    let privileges = privileges(arguments[last].as_text(), &["CREATE", "USAGE"])?;
    let is_usage = privileges.iter().any(|privilege| privilege == "USAGE");
    Ok(schema
        .map(|schema| schema == namespace::PUBLIC || is_usage)
        .into())
}

fn database_privilege(
    executor: &mut Executor<'_>,
    call: &Call,
    arguments: &[Value],
) -> Result<Value, Failure> {
    let last = arguments.len() - 1;
    check_role(executor, &arguments[..last - 1], &call.types)?;
    let known = ["CREATE", "CONNECT", "TEMPORARY", "TEMP"];
    let privileges = privileges(arguments[last].as_text(), &known)?;
    let is_known = match &arguments[last - 1] {
        Value::Integer(oid) => executor.world.database_name(*oid as Oid).is_some(),
        name if executor
            .world
            .databases
            .iter()
            .any(|known| known == name.as_text()) =>
        {
            true
        }
        name => {
            let text = format!("database \"{}\" does not exist", name.as_text());
            return Err(Report::error(SqlState::UNDEFINED_DATABASE, text));
        }
    };
    let may_connect = privileges.iter().any(|privilege| privilege == "CONNECT");
    Ok(is_known.then_some(may_connect).into())
}

fn owned(executor: &mut Executor<'_>, call: &Call, arguments: &[Value]) -> Result<Value, Failure> {
    if call.name == "pg_has_role" {
        check_role(executor, &arguments[..arguments.len() - 1], &call.types)?;
    }
    Ok(Value::Bool(true))
}
