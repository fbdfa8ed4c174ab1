//! Databases, roles, settings and sessions.

use std::time::SystemTime;

use crate::catalog::functions::UTF8;
use crate::catalog::namespace::OWNER;
use crate::catalog::relations::{Content, Rows};
use crate::catalog::value::Value;
use crate::catalog::{microseconds, Session, World};
use crate::sqlstate::Failure;

/// The tablespace of all databases.
const DEFAULT_TABLESPACE: i64 = 1663;

pub(super) fn content(name: &str) -> Option<Content> {
    Some(Content::Made(match name {
        "pg_database" => fill_databases,
        "pg_roles" | "pg_authid" => fill_roles,
        "pg_user" | "pg_shadow" => fill_users,
        "pg_settings" => fill_settings,
        "pg_stat_activity" => fill_activities,
        _ => return None,
    }))
}

fn fill_databases(rows: &mut Rows, world: &World, _: &dyn Session) -> Result<(), Failure> {
    for name in &world.databases {
        rows.add(&[
            ("oid", world.database_oid(name).into()),
            ("datname", name.as_str().into()),
            ("datdba", OWNER.into()),
            ("encoding", UTF8.into()),
            ("datlocprovider", "c".into()),
            ("datallowconn", true.into()),
            ("datconnlimit", Value::Integer(-1)),
            ("dattablespace", DEFAULT_TABLESPACE.into()),
            ("datcollate", "C".into()),
            ("datctype", "C".into()),
        ]);
    }
    Ok(())
}

/// The client's own role is the only one: the socket's owner decides who connects.
fn fill_roles(rows: &mut Rows, world: &World, _: &dyn Session) -> Result<(), Failure> {
    rows.add(&[
        ("oid", OWNER.into()),
        ("rolname", world.user.as_str().into()),
        ("rolsuper", false.into()),
        ("rolinherit", true.into()),
        ("rolcreaterole", false.into()),
        ("rolcreatedb", false.into()),
        ("rolcanlogin", true.into()),
        ("rolreplication", false.into()),
        ("rolbypassrls", false.into()),
        ("rolconnlimit", Value::Integer(-1)),
        ("rolpassword", "********".into()),
    ]);
    Ok(())
}

fn fill_users(rows: &mut Rows, world: &World, _: &dyn Session) -> Result<(), Failure> {
    rows.add(&[
        ("usename", world.user.as_str().into()),
        ("usesysid", OWNER.into()),
        ("usecreatedb", false.into()),
        ("usesuper", false.into()),
        ("userepl", false.into()),
        ("usebypassrls", false.into()),
        ("passwd", "********".into()),
    ]);
    Ok(())
}

fn fill_settings(rows: &mut Rows, _: &World, session: &dyn Session) -> Result<(), Failure> {
    for setting in session.settings() {
        rows.add(&[
            ("name", setting.name.into()),
            ("setting", setting.value.into()),
            ("unit", setting.unit.into()),
            ("context", setting.context.into()),
            ("vartype", setting.kind.into()),
            ("source", setting.source.into()),
            ("boot_val", setting.default.into()),
            ("reset_val", setting.reset.into()),
            ("pending_restart", false.into()),
        ]);
    }
    Ok(())
}

fn fill_activities(rows: &mut Rows, world: &World, session: &dyn Session) -> Result<(), Failure> {
    let time = |time: SystemTime| Value::Time(microseconds(time));
    for activity in session.activities() {
        rows.add(&[
            ("datid", world.database_oid(&activity.database).into()),
            ("datname", activity.database.as_str().into()),
            ("pid", activity.process_id.into()),
            ("usesysid", OWNER.into()),
            ("usename", activity.user.as_str().into()),
            (
                "application_name",
                activity.application_name.as_str().into(),
            ),
            ("backend_start", time(activity.since)),
            (
                "xact_start",
                activity.transaction_since.map_or(Value::Null, time),
            ),
            ("state_change", time(activity.state_since)),
            ("state", activity.state.words().into()),
            ("backend_type", "client backend".into()),
            (
                "session",
                activity
                    .session
                    .map_or(Value::Null, |session| i64::from(session).into()),
            ),
            ("reservations", (activity.reservations as i64).into()),
        ]);
    }
    Ok(())
}
