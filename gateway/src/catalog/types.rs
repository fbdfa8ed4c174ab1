//! The types of PostgreSQL 15, as its catalog has them.

use once_cell::sync::Lazy;
use postgres_protocol::Oid;
use std::collections::HashMap;

/// The Oids of types beside those of [`crate::value::oid`] that the catalog's queries meet.
pub mod oid {
    pub use crate::value::oid::*;
    use postgres_protocol::Oid;

    /// "char"
    pub const CHAR: Oid = 18;
    /// int2vector
    pub const INT2VECTOR: Oid = 22;
    /// regproc
    pub const REGPROC: Oid = 24;
    /// xid
    pub const XID: Oid = 28;
    /// oidvector
    pub const OIDVECTOR: Oid = 30;
    /// real
    pub const FLOAT4: Oid = 700;
    /// double precision
    pub const FLOAT8: Oid = 701;
    /// text[]
    pub const TEXT_ARRAY: Oid = 1009;
    /// timestamp with time zone
    pub const TIMESTAMPTZ: Oid = 1184;
    /// regprocedure
    pub const REGPROCEDURE: Oid = 2202;
    /// regclass
    pub const REGCLASS: Oid = 2205;
    /// regtype
    pub const REGTYPE: Oid = 2206;
    /// record
    pub const RECORD: Oid = 2249;
    /// "any"
    pub const ANY: Oid = 2276;
    /// anyarray
    pub const ANYARRAY: Oid = 2277;
    /// void
    pub const VOID: Oid = 2278;
    /// anyelement
    pub const ANYELEMENT: Oid = 2283;
    /// anynonarray
    pub const ANYNONARRAY: Oid = 2776;
    /// regnamespace
    pub const REGNAMESPACE: Oid = 4089;
    /// regrole
    pub const REGROLE: Oid = 4096;
    /// anycompatible
    pub const ANYCOMPATIBLE: Oid = 5077;
    /// anycompatiblearray
    pub const ANYCOMPATIBLEARRAY: Oid = 5078;
    /// anycompatiblenonarray
    pub const ANYCOMPATIBLENONARRAY: Oid = 5079;
}

/// A row of pg_type.
#[derive(Debug)]
pub struct Type {
    /// Its Oid.
    pub oid: Oid,
    /// typname
    pub name: &'static str,
    /// typlen: the bytes of a value; -1: they vary.
    pub size: i16,
    /// typtype
    pub kind: char,
    /// typcategory
    pub category: char,
    /// typispreferred
    pub is_preferred: bool,
    /// typelem: the type of an array's elements. 0: it is none.
    pub element: Oid,
    /// typarray: the type of arrays of it. 0: there is none.
    pub array: Oid,
    /// typcollation
    pub collation: Oid,
    /// typsubscript
    pub subscript: &'static str,
    /// All columns of the data, as text.
    pub fields: Vec<&'static str>,
}

/// The types of PostgreSQL 15 below Oid 10,000, in order of their Oids.
static TYPES: Lazy<Vec<Type>> = Lazy::new(|| {
    include_str!("data/types.tsv")
        .lines()
        .filter_map(read)
        .collect()
});

static BY_NAME: Lazy<HashMap<&'static str, usize>> = Lazy::new(|| {
    TYPES
        .iter()
        .enumerate()
        .map(|(place, known)| (known.name, place))
        .collect()
});

fn read(line: &'static str) -> Option<Type> {
    let fields: Vec<&str> = line.split('\t').collect();
    let mark = |place: usize| fields[place].chars().next();
    Some(Type {
        oid: fields[0].parse().ok()?,
        name: fields[1],
        size: fields[2].parse().ok()?,
        kind: mark(4)?,
        category: mark(5)?,
        is_preferred: fields[6] == "t",
        element: fields[11].parse().ok()?,
        array: fields[12].parse().ok()?,
        collation: fields[22].parse().ok()?,
        subscript: fields[10],
        fields,
    })
}

/// Returns all types, in order of their Oids.
pub fn all() -> &'static [Type] {
    &TYPES
}

/// Returns the type of this Oid.
pub fn by_oid(oid: Oid) -> Option<&'static Type> {
    TYPES
        .binary_search_by_key(&oid, |known| known.oid)
        .ok()
        .map(|place| &TYPES[place])
}

/// Returns the type of this name, in PostgreSQL's internal spelling.
pub fn by_name(name: &str) -> Option<&'static Type> {
    BY_NAME.get(name).map(|&place| &TYPES[place])
}

/// Returns the type of an array's elements. None: it is no type of arrays.
pub fn element(oid: Oid) -> Option<Oid> {
    by_oid(oid)
        .filter(|known| known.element != 0 && known.subscript == "array_subscript_handler")
        .map(|known| known.element)
}

/// Returns the type of arrays of this type. None: there is none.
pub fn array_of(oid: Oid) -> Option<Oid> {
    by_oid(oid)
        .map(|known| known.array)
        .filter(|&array| array != 0)
}

/// Returns whether values of the type are texts.
pub fn is_text(oid: Oid) -> bool {
    matches!(
        oid,
        oid::TEXT | oid::VARCHAR | oid::NAME | oid::BPCHAR | oid::CHAR
    )
}

/// Returns whether values of the type are oids, with or without names.
pub fn is_oid(oid: Oid) -> bool {
    oid == oid::OID || is_named_oid(oid)
}

/// Returns whether values of the type are oids that are printed as names.
pub fn is_named_oid(oid: Oid) -> bool {
    matches!(
        oid,
        oid::REGPROC
            | oid::REGPROCEDURE
            | oid::REGCLASS
            | oid::REGTYPE
            | oid::REGNAMESPACE
            | oid::REGROLE
    )
}

/// Returns the range of a type of whole numbers. None: it is no such type.
pub fn range(oid: Oid) -> Option<(i64, i64)> {
    Some(match oid {
        oid::INT2 => (i64::from(i16::MIN), i64::from(i16::MAX)),
        oid::INT4 => (i64::from(i32::MIN), i64::from(i32::MAX)),
        oid::INT8 => (i64::MIN, i64::MAX),
        oid::XID => (0, i64::from(u32::MAX)),
        other if is_oid(other) => (0, i64::from(u32::MAX)),
        _ => return None,
    })
}

/// Returns whether values of the type are numbers that are not oids.
pub fn is_number(oid: Oid) -> bool {
    is_integer(oid) || matches!(oid, oid::NUMERIC | oid::FLOAT4 | oid::FLOAT8)
}

/// Returns whether values of the type are whole numbers that are not oids.
pub fn is_integer(oid: Oid) -> bool {
    matches!(oid, oid::INT2 | oid::INT4 | oid::INT8)
}

/// Returns whether a value of one type is taken for one of another where nobody asks for a cast, as pg_cast has it.
pub fn is_implicit(from: Oid, to: Oid) -> bool {
    const NUMBERS: [Oid; 6] = [
        oid::INT2,
        oid::INT4,
        oid::INT8,
        oid::NUMERIC,
        oid::FLOAT4,
        oid::FLOAT8,
    ];
    let rank = |oid: Oid| NUMBERS.iter().position(|&number| number == oid);
    if from == to {
        return true;
    }
    match (rank(from), rank(to)) {
        (Some(from), Some(to)) => return from < to,
        (Some(_), None) => return is_integer(from) && is_oid(to),
        _ => {}
    }
    match (from, to) {
        (oid::OID, to) => is_named_oid(to),
        (oid::REGPROC, oid::REGPROCEDURE) | (oid::REGPROCEDURE, oid::REGPROC) => true,
        (from, oid::OID) => is_named_oid(from),
        (oid::TEXT, to) => matches!(to, oid::BPCHAR | oid::VARCHAR | oid::NAME | oid::REGCLASS),
        (oid::VARCHAR, to) => matches!(to, oid::BPCHAR | oid::TEXT | oid::NAME | oid::REGCLASS),
        (oid::BPCHAR, to) => matches!(to, oid::VARCHAR | oid::TEXT | oid::NAME),
        (oid::NAME | oid::CHAR, oid::TEXT) => true,
        _ => is_text(to) && from == 194,
    }
}

/// Returns the name of a type as PostgreSQL's messages have it: `integer`, `text[]`.
pub fn display(oid: Oid) -> String {
    format(oid, None)
}

/// Returns the name of a type in a report, as [`display`] has it. A type that nothing tells is unknown.
pub fn name(oid: Oid) -> String {
    match oid {
        oid::UNKNOWN | oid::UNSPECIFIED => "unknown".to_owned(),
        oid => display(oid),
    }
}

/// Returns the name of a type with its modifier, as format_type has it. A type that nobody knows is `???`.
pub fn format(oid: Oid, modifier: Option<i32>) -> String {
    if let Some(element) = element(oid).filter(|_| !matches!(oid, oid::INT2VECTOR | oid::OIDVECTOR))
    {
        return format!("{}[]", format(element, modifier));
    }
    let known = match by_oid(oid) {
        Some(known) => known,
        None => return "???".to_owned(),
    };
    let sizes = modifier.filter(|&modifier| modifier >= 0);
    let sized = |name: &str, header: i32| match sizes {
        Some(size) if size > header => format!("{}({})", name, size - header),
        _ => name.to_owned(),
    };
    let precise = |name: &str, behind: &str| match sizes {
        Some(digits) => format!("{}({}){}", name, digits, behind),
        None => format!("{}{}", name, behind),
    };
    match known.name {
        "bool" => "boolean".to_owned(),
        "int2" => "smallint".to_owned(),
        "int4" => "integer".to_owned(),
        "int8" => "bigint".to_owned(),
        "float4" => "real".to_owned(),
        "float8" => "double precision".to_owned(),
        "char" => "\"char\"".to_owned(),
        "bpchar" => match modifier {
            None => "character".to_owned(),
            Some(-1) => "bpchar".to_owned(),
            Some(_) => sized("character", 4),
        },
        "varchar" => sized("character varying", 4),
        "bit" => match sizes {
            Some(bits) => format!("bit({})", bits),
            None if modifier.is_some() => "\"bit\"".to_owned(),
            None => "bit".to_owned(),
        },
        "varbit" => precise("bit varying", ""),
        "numeric" => match sizes {
            Some(modifier) if modifier >= 4 => {
                let modifier = modifier - 4;
                format!(
                    "numeric({},{})",
                    modifier >> 16 & 0xffff,
                    (modifier & 0x7ff ^ 1024) - 1024
                )
            }
            _ => "numeric".to_owned(),
        },
        "time" => precise("time", " without time zone"),
        "timetz" => precise("time", " with time zone"),
        "timestamp" => precise("timestamp", " without time zone"),
        "timestamptz" => precise("timestamp", " with time zone"),
        name => name.to_owned(),
    }
}

/// Returns the internal name of a type that PostgreSQL's grammar or users spell in another way.
pub fn internal_name(name: &str) -> &str {
    match name {
        "int" | "integer" => "int4",
        "bigint" => "int8",
        "smallint" => "int2",
        "boolean" => "bool",
        "real" => "float4",
        "double precision" => "float8",
        "decimal" => "numeric",
        "character varying" => "varchar",
        "character" => "bpchar",
        "timestamp without time zone" => "timestamp",
        "timestamp with time zone" => "timestamptz",
        "time without time zone" => "time",
        "time with time zone" => "timetz",
        "bit varying" => "varbit",
        "\"char\"" => "char",
        other => other,
    }
}

#[cfg(test)]
mod tests {
    use super::*;

    #[test]
    fn types_are_those_of_postgresql_15() {
        assert_eq!(all().len(), 198);
        let text = by_name("text").unwrap();
        assert_eq!((text.oid, text.array, text.category), (25, 1009, 'S'));
        assert_eq!(element(1009), Some(25));
        assert_eq!(element(oid::INT2VECTOR), Some(21));
        assert_eq!(element(oid::NAME), None);
        assert_eq!(array_of(oid::OID), Some(1028));
        assert!(all().windows(2).all(|pair| pair[0].oid < pair[1].oid));
    }

    #[test]
    fn types_are_named_as_format_type_does() {
        for (oid, modifier, name) in [
            (20, Some(-1), "bigint"),
            (1700, Some(524_294), "numeric(8,2)"),
            (1700, None, "numeric"),
            (1043, Some(24), "character varying(20)"),
            (1043, Some(-1), "character varying"),
            (1184, Some(2), "timestamp(2) with time zone"),
            (1009, None, "text[]"),
            (18, None, "\"char\""),
            (1042, Some(-1), "bpchar"),
            (1042, None, "character"),
            (22, None, "int2vector"),
            (2205, None, "regclass"),
            (4, None, "???"),
        ] {
            assert_eq!(format(oid, modifier), name);
        }
    }
}
