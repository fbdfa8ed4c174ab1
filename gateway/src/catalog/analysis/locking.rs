//! FOR UPDATE and its like. A query of the catalog locks nothing, but it is refused where PostgreSQL refuses it
//! (`transformLockingClause`, `CheckSelectLocking`).

use std::rc::Rc;

use crate::catalog::analysis::scope::Item;
use crate::catalog::analysis::Named;
use crate::catalog::plan::{Body, Distinct, Plan, Source, Step};
use crate::sqlstate::{Failure, Report, SqlState};
use crate::statement::query::Locking;

/// A relation of a query, as far as rows of it could be locked.
enum Lockable<'p> {
    Relation,
    Query(&'p Rc<Plan>),
    Function,
}

/// Checks the clauses that lock rows of a query with this body. `items` are the relations that it reads, and `named` the
/// queries that WITH names.
///
/// # Errors
///
/// Fails at a name that is no relation of FROM, and at a query whose rows are no rows of relations.
pub(super) fn check(
    clauses: &[Locking],
    body: &Body,
    items: &[Item],
    named: &[Named],
) -> Result<(), Failure> {
    clauses.iter().try_for_each(|clause| {
        if let Body::Values(_) = body {
            return Err(refused(clause, "cannot be applied to VALUES"));
        }
        check_body(clause, body, named)?;
        let steps = match body {
            Body::Select(select) => &select.steps,
            _ => return Ok(()),
        };
        clause.names().try_for_each(|name| {
            let name = name?;
            let place = name.span.start;
            let item = items.iter().find(|item| item.name == name.text);
            let found = item.and_then(|item| lockable(steps, item.slot));
            match found.ok_or_else(|| clause.unknown(name))? {
                Lockable::Relation => Ok(()),
                Lockable::Query(plan) if is_named(plan, named) => {
                    Err(refused(clause, "cannot be applied to a WITH query").at(place))
                }
                Lockable::Query(plan) => check_body(clause, &plan.body, named),
                Lockable::Function => {
                    Err(refused(clause, "cannot be applied to a function").at(place))
                }
            }
        })
    })
}

/// Refuses what makes other rows of those that are read, in a query and in the queries that it reads.
fn check_body(clause: &Locking, body: &Body, named: &[Named]) -> Result<(), Failure> {
    let select = match body {
        Body::Values(_) => return Ok(()),
        Body::Set { .. } => {
            return Err(refused(
                clause,
                "is not allowed with UNION/INTERSECT/EXCEPT",
            ))
        }
        Body::Select(select) => select,
    };
    let grouping = select.grouping.as_ref();
    let has_keys = grouping.map_or(false, |grouping| !grouping.keys.is_empty());
    let has_having = grouping.map_or(false, |grouping| grouping.having.is_some());
    let obstacles = [
        (!matches!(select.distinct, Distinct::No), "DISTINCT clause"),
        (has_keys, "GROUP BY clause"),
        (has_having, "HAVING clause"),
        (grouping.is_some(), "aggregate functions"),
        (!select.windows.is_empty(), "window functions"),
        (
            !select.sets.is_empty(),
            "set-returning functions in the target list",
        ),
    ];
    if let Some((_, what)) = obstacles.iter().find(|(is_there, _)| *is_there) {
        return Err(refused(clause, &format!("is not allowed with {}", what)));
    }
    if clause.of.is_empty() {
        check_steps(clause, &select.steps, false, named)?;
    }
    Ok(())
}

/// Refuses what cannot be locked of all that is read. `is_nullable`: an outer join may have no row of it.
fn check_steps(
    clause: &Locking,
    steps: &[Step],
    is_nullable: bool,
    named: &[Named],
) -> Result<(), Failure> {
    steps.iter().try_for_each(|step| {
        let is_nullable = is_nullable || step.is_outer;
        match &step.source {
            Source::Joined(steps) => check_steps(clause, steps, is_nullable, named),
            Source::Functions { .. } => Ok(()),
            Source::Query { plan, .. } if is_named(plan, named) => Ok(()),
            _ if is_nullable => {
                let text = "cannot be applied to the nullable side of an outer join";
                Err(refused(clause, text))
            }
            Source::Query { plan, .. } => check_body(clause, &plan.body, named),
            Source::Relation { .. } => Ok(()),
        }
    })
}

/// Returns what is read into a slot.
fn lockable(steps: &[Step], wanted: usize) -> Option<Lockable<'_>> {
    steps.iter().find_map(|step| match &step.source {
        Source::Relation { slot, .. } if *slot == wanted => Some(Lockable::Relation),
        Source::Query { slot, plan, .. } if *slot == wanted => Some(Lockable::Query(plan)),
        Source::Functions { slot, .. } if *slot == wanted => Some(Lockable::Function),
        Source::Joined(steps) => lockable(steps, wanted),
        _ => None,
    })
}

fn is_named(plan: &Rc<Plan>, named: &[Named]) -> bool {
    named.iter().any(|named| Rc::ptr_eq(&named.plan, plan))
}

fn refused(clause: &Locking, why: &str) -> Failure {
    let text = format!("FOR {} {}", clause.strength, why);
    Report::error(SqlState::FEATURE_NOT_SUPPORTED, text)
}
