//! Functions of the session and the server.

use crate::catalog::execution::Executor;
use crate::catalog::functions::Table;
use crate::catalog::missing;
use crate::catalog::plan::Call;
use crate::catalog::value::Value;
use crate::sqlstate::{Failure, Report, SqlState};

/// The number of the encoding UTF8, the only one of the server.
pub const UTF8: i64 = 6;

pub const BODIES: Table = &[
    ("version()", |executor, _, _| {
        let version = executor.session.setting("server_version")?;
        Ok(format!("PostgreSQL {}", version).into())
    }),
    ("current_schema()", |_, _, _| Ok("public".into())),
    ("current_schemas(bool)", |_, _, arguments| {
        let schemas: &[&str] = if arguments[0].is_true() {
            &["pg_catalog", "public"]
        } else {
            &["public"]
        };
        Ok(Value::texts(schemas))
    }),
    ("current_database()", |executor, _, _| {
        Ok(executor.world.database.as_str().into())
    }),
    ("current_user()", user),
    ("session_user()", user),
    ("getpgusername()", user),
    ("pg_backend_pid()", |executor, _, _| {
        Ok(executor.world.process_id.into())
    }),
    ("pg_is_in_recovery()", no),
    ("pg_is_wal_replay_paused()", no),
    ("pg_my_temp_schema()", |_, _, _| Ok(0_i64.into())),
    ("pg_is_other_temp_schema(oid)", no),
    ("inet_client_addr()", null),
    ("inet_client_port()", null),
    ("inet_server_addr()", null),
    ("inet_server_port()", null),
    ("now()", now),
    ("transaction_timestamp()", now),
    ("statement_timestamp()", now),
    ("clock_timestamp()", now),
    ("pg_client_encoding()", |executor, _, _| {
        Ok(executor.session.setting("client_encoding")?.into())
    }),
    ("getdatabaseencoding()", |_, _, _| Ok("UTF8".into())),
    ("pg_encoding_to_char(int4)", |_, _, arguments| {
        Ok((match arguments[0].as_integer() {
            0 => "SQL_ASCII",
            UTF8 => "UTF8",
            -1 => "",
            _ => return Err(missing("an encoding other than UTF8")),
        })
        .into())
    }),
    ("pg_char_to_encoding(name)", |_, _, arguments| {
        let name = arguments[0].as_text().to_ascii_lowercase();
        Ok((match name
            .replace(|mark: char| !mark.is_ascii_alphanumeric(), "")
            .as_str()
        {
            "utf8" | "unicode" => UTF8,
            "sqlascii" => 0,
            _ => return Err(missing("an encoding other than UTF8")),
        })
        .into())
    }),
    ("current_setting(text)", |executor, _, arguments| {
        Ok(executor.session.setting(arguments[0].as_text())?.into())
    }),
    (
        "current_setting(text,bool)",
        |executor, _, arguments| match executor.session.setting(arguments[0].as_text()) {
            Ok(value) => Ok(value.into()),
            Err(report) if arguments[1].is_true() && report.state == SqlState::UNDEFINED_OBJECT => {
                Ok(Value::Null)
            }
            Err(report) => Err(report),
        },
    ),
    ("set_config(text,text,bool)", |executor, _, arguments| {
        if arguments[0].is_null() {
            let text = "SET requires parameter name";
            return Err(Report::error(SqlState::NULL_VALUE_NOT_ALLOWED, text));
        }
        let value = match &arguments[1] {
            Value::Null => None,
            value => Some(value.as_text()),
        };
        let name = arguments[0].as_text();
        executor.session.set(name, value, arguments[2].is_true())?;
        Ok(executor.session.setting(name)?.into())
    }),
    // No lock of this kind can be held here.
    ("pg_advisory_unlock_all()", |_, _, _| Ok("".into())),
    ("pg_cancel_backend(int4)", |executor, call, arguments| {
        find_client(executor, arguments[0].as_integer())?.map_or(Ok(Value::Bool(false)), |_| {
            Err(missing(&format!("the function {}", call.name))
                .hint("pg_terminate_backend ends a session. No statement waits for another one."))
        })
    }),
    (
        "pg_terminate_backend(int4,int8)",
        |executor, _, arguments| {
            let process_id = arguments[0].as_integer();
            match find_client(executor, process_id)? {
                Some(process_id) => {
                    executor.session.terminate(process_id);
                    Ok(Value::Bool(true))
                }
                None => Ok(Value::Bool(false)),
            }
        },
    ),
    ("pg_stat_get_snapshot_timestamp()", null),
    ("pg_tablespace_location(oid)", |_, _, _| Ok("".into())),
];

fn user(executor: &mut Executor<'_>, _: &Call, _: &[Value]) -> Result<Value, Failure> {
    Ok(executor.world.user.as_str().into())
}

fn no(_: &mut Executor<'_>, _: &Call, _: &[Value]) -> Result<Value, Failure> {
    Ok(Value::Bool(false))
}

fn null(_: &mut Executor<'_>, _: &Call, _: &[Value]) -> Result<Value, Failure> {
    Ok(Value::Null)
}

fn now(executor: &mut Executor<'_>, call: &Call, _: &[Value]) -> Result<Value, Failure> {
    Ok(Value::Time(match call.name {
        "now" | "transaction_timestamp" => executor.session.transaction_start(),
        _ => executor.session.now(),
    }))
}

/// Returns the process id of a client, and warns if it is none.
fn find_client(executor: &mut Executor<'_>, process_id: i64) -> Result<Option<i32>, Failure> {
    let found = executor
        .session
        .activities()
        .iter()
        .map(|activity| activity.process_id)
        .find(|&known| i64::from(known) == process_id);
    if found.is_none() {
        let text = format!("PID {} is not a PostgreSQL backend process", process_id);
        executor
            .session
            .warn(Report::warning(SqlState::WARNING, text));
    }
    Ok(found)
}
