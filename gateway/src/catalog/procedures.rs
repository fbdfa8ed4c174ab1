//! The functions of PostgreSQL 15, as pg_proc has them, and which of them a call means.

use std::collections::HashMap;

use once_cell::sync::Lazy;
use postgres_protocol::Oid;

use crate::catalog::types::{self, oid};

/// A row of pg_proc.
#[derive(Debug)]
pub struct Procedure {
    /// Its Oid.
    pub oid: Oid,
    /// The name of its schema.
    pub schema: &'static str,
    /// proname
    pub name: &'static str,
    /// prokind: `f` a function, `a` an aggregate, `w` a window function, `p` a procedure.
    pub kind: char,
    /// proisstrict: NULL among its arguments gives NULL.
    pub is_strict: bool,
    /// proretset
    pub returns_set: bool,
    /// provolatile
    pub volatility: char,
    /// prorettype
    pub result: Oid,
    /// provariadic: the type of the arguments that may be repeated. 0: there are none.
    pub variadic: Oid,
    /// proargtypes
    pub arguments: Vec<Oid>,
    /// pronargdefaults: how many of the last arguments may be left out.
    pub defaults: usize,
}

/// The functions of PostgreSQL 15, in order of their Oids.
static PROCEDURES: Lazy<Vec<Procedure>> = Lazy::new(|| {
    include_str!("data/functions.tsv")
        .lines()
        .filter_map(read)
        .collect()
});

static BY_NAME: Lazy<HashMap<&'static str, Vec<usize>>> = Lazy::new(|| {
    let mut names: HashMap<&'static str, Vec<usize>> = HashMap::new();
    for (place, procedure) in PROCEDURES.iter().enumerate() {
        names.entry(procedure.name).or_default().push(place);
    }
    names
});

fn read(line: &'static str) -> Option<Procedure> {
    let fields: Vec<&str> = line.split('\t').collect();
    let mark = |place: usize| fields[place].chars().next();
    Some(Procedure {
        oid: fields[0].parse().ok()?,
        schema: fields[1],
        name: fields[2],
        kind: mark(3)?,
        is_strict: fields[4] == "t",
        returns_set: fields[5] == "t",
        volatility: mark(6)?,
        result: fields[7].parse().ok()?,
        variadic: fields[8].parse().ok()?,
        arguments: fields[9]
            .split(' ')
            .filter_map(|oid| oid.parse().ok())
            .collect(),
        defaults: fields[10].parse().ok()?,
    })
}

impl Procedure {
    /// Returns its name with the internal names of its arguments' types: `lower(text)`.
    pub fn signature(&self) -> String {
        let arguments: Vec<&str> = self
            .arguments
            .iter()
            .map(|&oid| types::by_oid(oid).map_or("?", |known| known.name))
            .collect();
        format!("{}({})", self.name, arguments.join(","))
    }

    /// Returns the type of its argument at this place, in a call with so many of them. None: it takes fewer, or more.
    fn argument(&self, place: usize, count: usize) -> Option<Oid> {
        let fixed = self.arguments.len();
        if self.variadic == 0 {
            return (fixed - self.defaults..=fixed)
                .contains(&count)
                .then(|| self.arguments[place]);
        }
        let element = if self.variadic == oid::ANY {
            oid::ANY
        } else {
            self.variadic
        };
        match place {
            _ if count < fixed => None,
            place if place + 1 < fixed => Some(self.arguments[place]),
            _ => Some(element),
        }
    }
}

/// Returns all functions, in order of their Oids.
pub fn all() -> &'static [Procedure] {
    &PROCEDURES
}

/// Returns the function of this Oid.
pub fn by_oid(oid: Oid) -> Option<&'static Procedure> {
    PROCEDURES
        .binary_search_by_key(&oid, |procedure| procedure.oid)
        .ok()
        .map(|place| &PROCEDURES[place])
}

/// Returns the functions of this name, in order of their Oids.
pub fn by_name(name: &str) -> impl Iterator<Item = &'static Procedure> {
    BY_NAME
        .get(name)
        .into_iter()
        .flatten()
        .map(|&place| &PROCEDURES[place])
}

/// What a name and the types of arguments mean.
#[derive(Debug)]
pub enum Choice {
    /// This function, whose arguments have these types.
    One(&'static Procedure, Vec<Oid>),
    /// No function.
    None,
    /// Several functions, none of them better than the others.
    Several,
}

/// A function that a call may mean.
struct Candidate {
    procedure: &'static Procedure,
    arguments: Vec<Oid>,
}

fn is_polymorphic_array(oid: Oid) -> bool {
    matches!(oid, oid::ANYARRAY | oid::ANYCOMPATIBLEARRAY)
}

fn is_polymorphic(oid: Oid) -> bool {
    is_polymorphic_array(oid)
        || matches!(
            oid,
            oid::ANY
                | oid::ANYELEMENT
                | oid::ANYNONARRAY
                | oid::ANYCOMPATIBLE
                | oid::ANYCOMPATIBLENONARRAY
        )
}

fn is_open(oid: Oid) -> bool {
    matches!(oid, oid::UNKNOWN | oid::UNSPECIFIED)
}

/// Returns whether an argument of a type is taken where a function has another.
fn is_taken(given: Oid, wanted: Oid) -> bool {
    if is_open(given) {
        return true;
    }
    match wanted {
        oid::ANY | oid::ANYELEMENT | oid::ANYCOMPATIBLE => true,
        oid::ANYNONARRAY | oid::ANYCOMPATIBLENONARRAY => types::element(given).is_none(),
        wanted if is_polymorphic_array(wanted) => types::element(given).is_some(),
        wanted => types::is_implicit(given, wanted),
    }
}

fn candidates(name: &str, schema: Option<&str>, given: &[Oid]) -> Vec<Candidate> {
    by_name(name)
        .filter(|procedure| procedure.schema == schema.unwrap_or("pg_catalog"))
        .filter_map(|procedure| {
            let arguments: Option<Vec<Oid>> = (0..given.len())
                .map(|place| procedure.argument(place, given.len()))
                .collect();
            let fits_none = given.is_empty() && procedure.arguments.len() == procedure.defaults;
            let arguments = arguments.filter(|_| !given.is_empty() || fits_none)?;
            let fits = given
                .iter()
                .zip(&arguments)
                .all(|(&given, &wanted)| is_taken(given, wanted));
            fits.then_some(Candidate {
                procedure,
                arguments,
            })
        })
        .collect()
}

/// Keeps the candidates with the highest count.
fn keep_best(candidates: &mut Vec<Candidate>, count: impl Fn(&Candidate) -> usize) {
    let best = candidates.iter().map(&count).max().unwrap_or(0);
    candidates.retain(|candidate| count(candidate) == best);
}

fn is_preferred(oid: Oid) -> bool {
    types::by_oid(oid).map_or(false, |known| known.is_preferred)
}

/// Chooses what an argument without a type may be, by the categories of types that the candidates take there.
fn settle_open(candidates: &mut Vec<Candidate>, place: usize) {
    let category = |candidate: &Candidate| {
        types::by_oid(candidate.arguments[place]).map_or('X', |known| known.category)
    };
    if candidates
        .iter()
        .any(|candidate| category(candidate) == 'S')
    {
        candidates.retain(|candidate| category(candidate) == 'S');
        if candidates
            .iter()
            .any(|candidate| is_preferred(candidate.arguments[place]))
        {
            candidates.retain(|candidate| is_preferred(candidate.arguments[place]));
        }
    }
}

/// Returns the function that a call means, by the rules of PostgreSQL's documentation, "Function Type Resolution".
///
/// An argument without a type is given as 0 or unknown.
pub fn choose(name: &str, schema: Option<&str>, given: &[Oid]) -> Choice {
    let mut candidates = candidates(name, schema, given);
    if candidates.len() > 1 {
        keep_best(&mut candidates, |candidate| {
            let pairs = given.iter().zip(&candidate.arguments);
            pairs.filter(|(given, wanted)| given == wanted).count()
        });
    }
    if candidates.len() > 1 {
        keep_best(&mut candidates, |candidate| {
            let pairs = given.iter().zip(&candidate.arguments);
            pairs
                .filter(|(&given, &wanted)| {
                    given == wanted || (!is_open(given) && is_preferred(wanted))
                })
                .count()
        });
    }
    for place in (0..given.len()).filter(|&place| is_open(given[place])) {
        if candidates.len() > 1 {
            settle_open(&mut candidates, place);
        }
    }
    let known: Vec<Oid> = given.iter().copied().filter(|&oid| !is_open(oid)).collect();
    if candidates.len() > 1 && !known.is_empty() && known.iter().all(|&oid| oid == known[0]) {
        let fits = |candidate: &Candidate| {
            candidate
                .arguments
                .iter()
                .all(|&wanted| is_taken(known[0], wanted))
        };
        if candidates
            .iter()
            .filter(|candidate| fits(candidate))
            .count()
            == 1
        {
            candidates.retain(fits);
        }
    }
    match candidates.len() {
        0 => Choice::None,
        1 => {
            let candidate = candidates.remove(0);
            Choice::One(candidate.procedure, candidate.arguments)
        }
        _ => Choice::Several,
    }
}

/// Returns the types that the arguments of a call get, and that of its result, where a function takes any type.
///
/// None: a type of its arguments is missing.
pub fn settle(procedure: &Procedure, wanted: &[Oid], given: &[Oid]) -> Option<(Vec<Oid>, Oid)> {
    let mut element = None;
    for (&wanted, &given) in wanted
        .iter()
        .zip(given)
        .filter(|(_, &given)| !is_open(given))
    {
        if is_polymorphic_array(wanted) {
            element = element.or_else(|| types::element(given));
        } else if is_polymorphic(wanted) && wanted != oid::ANY {
            element = element.or(Some(given));
        }
    }
    let pairs = wanted.iter().zip(given);
    let arguments: Option<Vec<Oid>> = pairs
        .map(|(&wanted, &given)| match wanted {
            oid::ANY if given == oid::UNSPECIFIED => Some(oid::TEXT),
            oid::ANY => Some(given),
            wanted if is_polymorphic_array(wanted) && is_open(given) => types::array_of(element?),
            wanted if is_polymorphic_array(wanted) => Some(given),
            wanted if is_polymorphic(wanted) && is_open(given) => {
                Some(element.unwrap_or(oid::TEXT))
            }
            oid::ANYCOMPATIBLE | oid::ANYCOMPATIBLENONARRAY => element,
            wanted if is_polymorphic(wanted) => Some(given),
            wanted => Some(wanted),
        })
        .collect();
    let result = match procedure.result {
        result if is_polymorphic_array(result) => types::array_of(element?)?,
        result if is_polymorphic(result) => element.unwrap_or(oid::TEXT),
        result => result,
    };
    Some((arguments?, result))
}

#[cfg(test)]
mod tests {
    use super::*;

    fn chosen(name: &str, given: &[Oid]) -> String {
        match choose(name, None, given) {
            Choice::One(procedure, _) => procedure.signature(),
            other => format!("{:?}", other),
        }
    }

    #[test]
    fn calls_are_resolved_as_in_postgresql_15() {
        for (name, given, expected) in [
            ("lower", &[oid::UNKNOWN][..], "lower(text)"),
            ("lower", &[oid::NAME], "lower(text)"),
            (
                "format_type",
                &[oid::OID, oid::INT4],
                "format_type(oid,int4)",
            ),
            (
                "pg_get_expr",
                &[194, oid::OID],
                "pg_get_expr(pg_node_tree,oid)",
            ),
            (
                "array_to_string",
                &[oid::TEXT_ARRAY, oid::UNKNOWN],
                "array_to_string(anyarray,text)",
            ),
            (
                "generate_series",
                &[oid::INT4, oid::INT4],
                "generate_series(int4,int4)",
            ),
            ("unnest", &[oid::INT2VECTOR], "unnest(anyarray)"),
            ("current_setting", &[oid::UNKNOWN], "current_setting(text)"),
            ("length", &[oid::NAME], "length(text)"),
            (
                "pg_get_constraintdef",
                &[oid::OID, oid::BOOL],
                "pg_get_constraintdef(oid,bool)",
            ),
            (
                "pg_relation_is_publishable",
                &[oid::UNKNOWN],
                "pg_relation_is_publishable(regclass)",
            ),
            (
                "has_table_privilege",
                &[oid::UNKNOWN, oid::UNKNOWN],
                "has_table_privilege(text,text)",
            ),
            ("count", &[], "count()"),
            ("max", &[oid::NAME], "max(text)"),
            ("abs", &[oid::INT2], "abs(int2)"),
            ("nothing", &[], "None"),
            ("version", &[oid::INT4], "None"),
            (
                "pg_terminate_backend",
                &[oid::INT4],
                "pg_terminate_backend(int4,int8)",
            ),
        ] {
            assert_eq!(chosen(name, given), expected, "{}", name);
        }
    }

    #[test]
    fn types_follow_from_arguments() {
        let settled = |name: &str, given: &[Oid]| match choose(name, None, given) {
            Choice::One(procedure, wanted) => settle(procedure, &wanted, given).unwrap().1,
            _ => 0,
        };
        assert_eq!(settled("unnest", &[oid::INT2VECTOR]), oid::INT2);
        assert_eq!(settled("array_agg", &[oid::NAME]), 1003);
        assert_eq!(
            settled("array_remove", &[oid::TEXT_ARRAY, oid::UNKNOWN]),
            oid::TEXT_ARRAY
        );
    }
}
