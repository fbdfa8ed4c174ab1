//! The rows of the catalog's relations.

mod builtin;
mod cluster;
mod information;
mod tables;

use std::cell::RefCell;
use std::collections::HashMap;
use std::rc::Rc;

use postgres_protocol::Oid;

use crate::catalog::execution::{Row, Stored};
use crate::catalog::system::Relation;
use crate::catalog::types::{self, oid};
use crate::catalog::value::Value;
use crate::catalog::{Session, World};
use crate::sqlstate::Failure;

/// What a relation has.
enum Content {
    /// The same rows for each session.
    Fixed(fn(&mut Rows)),
    /// Rows that follow from the tables and the session.
    Made(fn(&mut Rows, &World, &dyn Session) -> Result<(), Failure>),
    /// No row: what it lists can't exist here.
    Empty,
}

/// The relations that list what can't exist here: no view, rule, trigger, sequence, inheritance, policy, comment of a
/// client's own, large object, publication, foreign server and so on.
const EMPTY: &[&str] = &[
    "column_domain_usage",
    "column_options",
    "column_udt_usage",
    "data_type_privileges",
    "domain_constraints",
    "domains",
    "element_types",
    "foreign_data_wrapper_options",
    "foreign_data_wrappers",
    "foreign_server_options",
    "foreign_servers",
    "foreign_table_options",
    "foreign_tables",
    "parameters",
    "pg_attrdef",
    "pg_auth_members",
    "pg_conversion",
    "pg_db_role_setting",
    "pg_default_acl",
    "pg_depend",
    "pg_enum",
    "pg_event_trigger",
    "pg_extension",
    "pg_foreign_data_wrapper",
    "pg_foreign_server",
    "pg_foreign_table",
    "pg_group",
    "pg_inherits",
    "pg_init_privs",
    "pg_largeobject",
    "pg_largeobject_metadata",
    "pg_matviews",
    "pg_opclass",
    "pg_opfamily",
    "pg_parameter_acl",
    "pg_partitioned_table",
    "pg_policies",
    "pg_policy",
    "pg_prepared_xacts",
    "pg_publication",
    "pg_publication_namespace",
    "pg_publication_rel",
    "pg_publication_tables",
    "pg_replication_origin",
    "pg_replication_slots",
    "pg_rewrite",
    "pg_rules",
    "pg_seclabel",
    "pg_seclabels",
    "pg_sequence",
    "pg_sequences",
    "pg_shdepend",
    "pg_shdescription",
    "pg_shseclabel",
    "pg_stat_replication",
    "pg_stat_subscription",
    "pg_stat_wal_receiver",
    "pg_statistic",
    "pg_statistic_ext",
    "pg_statistic_ext_data",
    "pg_stats",
    "pg_stats_ext",
    "pg_stats_ext_exprs",
    "pg_subscription",
    "pg_subscription_rel",
    "pg_transform",
    "pg_trigger",
    "pg_ts_config",
    "pg_ts_config_map",
    "pg_ts_dict",
    "pg_ts_parser",
    "pg_ts_template",
    "pg_user_mapping",
    "pg_user_mappings",
    "referential_constraints",
    "role_routine_grants",
    "routine_column_usage",
    "routine_privileges",
    "routine_routine_usage",
    "routine_sequence_usage",
    "routine_table_usage",
    "routines",
    "sequences",
    "transforms",
    "triggered_update_columns",
    "triggers",
    "udt_privileges",
    "usage_privileges",
    "user_defined_types",
    "user_mapping_options",
    "user_mappings",
    "view_column_usage",
    "view_routine_usage",
    "view_table_usage",
    "views",
    "attributes",
    "check_constraint_routine_usage",
    "pg_available_extension_versions",
    "pg_available_extensions",
    "role_udt_grants",
    "role_usage_grants",
];

fn content(relation: &Relation) -> Option<Content> {
    let name = relation.name;
    if EMPTY.contains(&name) {
        return Some(Content::Empty);
    }
    if relation.schema == "information_schema" {
        return information::content(name);
    }
    builtin::content(name)
        .or_else(|| tables::content(name))
        .or_else(|| cluster::content(name))
}

/// Returns whether the rows of a relation are known here.
pub fn is_served(relation: &Relation) -> bool {
    content(relation).is_some()
}

thread_local! {
    /// The relations whose rows are always the same.
    static FIXED: RefCell<HashMap<Oid, Rc<Stored>>> = RefCell::new(HashMap::new());
}

/// Returns the rows of a relation.
///
/// # Errors
///
/// Fails if the session can't tell them.
pub fn stored(
    relation: &'static Relation,
    world: &World,
    session: &dyn Session,
) -> Result<Rc<Stored>, Failure> {
    let mut rows = Rows::new(relation);
    match content(relation) {
        Some(Content::Fixed(fill)) => {
            let known = FIXED.with(|fixed| fixed.borrow().get(&relation.oid).map(Rc::clone));
            if let Some(stored) = known {
                return Ok(stored);
            }
            fill(&mut rows);
            let stored = Rc::new(Stored::new(rows.rows));
            FIXED.with(|fixed| fixed.borrow_mut().insert(relation.oid, Rc::clone(&stored)));
            return Ok(stored);
        }
        Some(Content::Made(fill)) => fill(&mut rows, world, session)?,
        Some(Content::Empty) | None => {}
    }
    Ok(Rc::new(Stored::new(rows.rows)))
}

/// The rows of a relation while they are made.
struct Rows {
    relation: &'static Relation,
    /// What a column has that nobody names.
    defaults: Vec<Value>,
    rows: Vec<Row>,
}

impl Rows {
    fn new(relation: &'static Relation) -> Rows {
        let defaults = relation
            .columns
            .iter()
            .map(|column| {
                if column.is_required {
                    zero(column.oid)
                } else {
                    Value::Null
                }
            })
            .collect();
        Rows {
            relation,
            defaults,
            rows: Vec::new(),
        }
    }

    /// Adds a row of these columns. The others are NULL, or 0, false or empty where they may not be NULL.
    fn add(&mut self, columns: &[(&str, Value)]) {
        let mut row = self.defaults.clone();
        for (name, value) in columns {
            let place = self.relation.place(name);
            debug_assert!(place.is_some(), "{}.{}", self.relation.name, name);
            if let Some(place) = place {
                row[place] = value.clone();
            }
        }
        self.rows.push(row.into());
    }
}

/// Returns what a column has that may not be NULL.
fn zero(oid: Oid) -> Value {
    match oid {
        oid::BOOL => Value::Bool(false),
        oid::FLOAT4 | oid::FLOAT8 => Value::Float(0.0),
        oid if types::range(oid).is_some() => Value::Integer(0),
        oid if types::element(oid).is_some() => Value::Array(Vec::new().into()),
        _ => Value::text(""),
    }
}

#[cfg(test)]
mod tests {
    use super::*;
    use crate::catalog::system;

    #[test]
    fn what_is_empty_is_a_relation() {
        for name in EMPTY.iter() {
            let is_known = ["pg_catalog", "information_schema"]
                .iter()
                .any(|schema| system::by_name(Some(schema), name).is_some());
            assert!(is_known, "{}", name);
        }
    }

    #[test]
    fn fixed_rows_have_the_types_of_their_columns() {
        for relation in system::all() {
            if let Some(Content::Fixed(fill)) = content(relation) {
                let mut rows = Rows::new(relation);
                fill(&mut rows);
                assert!(!rows.rows.is_empty(), "{}", relation.name);
                for (value, column) in rows
                    .rows
                    .iter()
                    .flat_map(|row| row.iter().zip(&relation.columns))
                {
                    assert!(
                        fits(value, column.oid),
                        "{}.{}: {:?}",
                        relation.name,
                        column.name,
                        value
                    );
                }
            }
        }
    }

    /// Returns whether a value is one of this type.
    pub fn fits(value: &Value, oid: Oid) -> bool {
        match value {
            Value::Null => true,
            Value::Bool(_) => oid == oid::BOOL,
            Value::Integer(_) => types::range(oid).is_some(),
            Value::Float(_) => matches!(oid, oid::FLOAT4 | oid::FLOAT8),
            Value::Time(_) => oid == oid::TIMESTAMPTZ,
            Value::Array(elements) => match types::element(oid) {
                Some(element) => elements.iter().all(|value| fits(value, element)),
                None => false,
            },
            _ => types::is_text(oid) || matches!(oid, 194 | 869),
        }
    }
}
