//! The functions of queries of the catalog.

mod arrays;
mod objects;
mod session;
mod texts;

pub use objects::RESERVABLE;
pub use session::UTF8;

use std::collections::HashMap;

use once_cell::sync::Lazy;
use postgres_protocol::Oid;

use crate::catalog::execution::Executor;
use crate::catalog::missing;
use crate::catalog::plan::Call;
use crate::catalog::procedures::{self, Procedure};
use crate::catalog::types::oid;
use crate::catalog::value::Value;
use crate::sqlstate::Failure;

/// What computes a function of its arguments. A strict function gets no NULL.
pub type Body = fn(&mut Executor<'_>, &Call, &[Value]) -> Result<Value, Failure>;

/// Functions with the types of their arguments, and what computes them.
type Table = &'static [(&'static str, Body)];

static BODIES: Lazy<HashMap<Oid, Body>> = Lazy::new(|| {
    let tables = [
        arrays::BODIES,
        objects::BODIES,
        session::BODIES,
        texts::BODIES,
    ];
    let bodies: HashMap<&str, Body> = tables
        .iter()
        .flat_map(|table| table.iter().copied())
        .collect();
    procedures::all()
        .iter()
        .filter_map(|procedure| {
            let body = bodies.get(procedure.signature().as_str()).copied();
            body.or_else(|| objects::by_name(procedure.name))
                .map(|body| (procedure.oid, body))
        })
        .collect()
});

/// Returns whether a function is computed here.
pub fn is_served(procedure: &Procedure) -> bool {
    BODIES.contains_key(&procedure.oid)
}

/// Returns what computes a function. None: it is no function that a call may mean.
///
/// What is not served here is refused as soon as it would be computed, so a query that never does is answered.
pub fn body(procedure: &Procedure) -> Option<Body> {
    (procedure.kind == 'f').then(|| BODIES.get(&procedure.oid).copied().unwrap_or(refused))
}

fn refused(_: &mut Executor<'_>, call: &Call, _: &[Value]) -> Result<Value, Failure> {
    Err(missing(&format!("the function {}", call.name)))
}

/// Returns the fields of the rows that a function gives.
pub fn fields(name: &str) -> Option<&'static [(&'static str, Oid)]> {
    Some(match name {
        "_pg_expandarray" => &[("x", oid::INT2), ("n", oid::INT4)],
        "aclexplode" => &[
            ("grantor", oid::OID),
            ("grantee", oid::OID),
            ("privilege_type", oid::TEXT),
            ("is_grantable", oid::BOOL),
        ],
        "pg_options_to_table" => &[("option_name", oid::TEXT), ("option_value", oid::TEXT)],
        _ => return None,
    })
}

#[cfg(test)]
mod tests {
    use super::*;

    #[test]
    fn each_function_is_one_of_postgresql_15() {
        let known: Vec<String> = procedures::all().iter().map(Procedure::signature).collect();
        for table in [
            arrays::BODIES,
            objects::BODIES,
            session::BODIES,
            texts::BODIES,
        ] {
            for (signature, _) in table {
                assert!(
                    known.iter().any(|known| known == signature),
                    "{}",
                    signature
                );
            }
        }
    }
}
