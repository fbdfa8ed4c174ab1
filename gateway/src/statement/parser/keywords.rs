//! The keywords of statements, and which of PostgreSQL 15 may not stand where any name may (manual, appendix C).

use crate::statement::words::Words;

/// All keywords that a statement may have here, in capitals.
#[rustfmt::skip]
static KEYWORDS: Words = Words::new(&[
    "AS", "AT", "ADD", "ALL", "AND", "ANY", "ASC", "ABORT", "ALTER", "ARRAY", "ANALYSE", "ANALYZE",
    "ABSOLUTE", "ASENSITIVE", "ASYMMETRIC", "AUTHORIZATION", "BY", "BIT", "BOTH", "BEGIN", "BIGINT",
    "BINARY", "BOUNDS", "BETWEEN", "BOOLEAN", "BACKWARD", "CALL", "CASE", "CAST", "CHAR", "COPY",
    "CUBE", "CHAIN", "CHECK", "CLOSE", "CROSS", "CYCLE", "COLUMN", "COMMIT", "CREATE", "CURSOR",
    "CASCADE", "CLUSTER", "COLLATE", "COMMENT", "CURRENT", "COALESCE", "CHARACTER", "COLLATION",
    "COMMITTED", "CHECKPOINT", "CONSTRAINT", "CONSTRAINTS", "CONCURRENTLY", "CURRENT_DATE",
    "CURRENT_ROLE", "CURRENT_TIME", "CURRENT_USER", "CURRENT_SCHEMA", "CHARACTERISTICS",
    "CURRENT_CATALOG", "CURRENT_TIMESTAMP", "DO", "DAY", "DEC", "DESC", "DROP", "DELETE", "DOUBLE",
    "DECIMAL", "DECLARE", "DEFAULT", "DISCARD", "DEFERRED", "DISTINCT", "DEALLOCATE", "DEFERRABLE",
    "END", "ELSE", "ESCAPE", "EXCEPT", "EXISTS", "EXCLUDE", "EXECUTE", "EXPLAIN", "EXTRACT", "FOR",
    "FROM", "FULL", "FALSE", "FETCH", "FIRST", "FLOAT", "FILTER", "FREEZE", "FOREIGN", "FORWARD",
    "GRANT", "GROUP", "GROUPS", "GREATEST", "GROUPING", "GENERATED", "HOLD", "HOUR", "HAVING", "IF",
    "IN", "IS", "INT", "INTO", "ILIKE", "INNER", "INOUT", "IMPORT", "INSERT", "ISNULL", "INHERIT",
    "INTEGER", "INHERITS", "INTERVAL", "IMMEDIATE", "INITIALLY", "INTERSECT", "ISOLATION",
    "INSENSITIVE", "JOIN", "JOURNAL", "KEY", "LAST", "LEFT", "LIKE", "LOAD", "LOCK", "LEAST",
    "LEVEL", "LIMIT", "LOCAL", "LISTEN", "LOCKED", "LATERAL", "LEADING", "LOCALTIME",
    "LOCALTIMESTAMP", "MOVE", "MERGE", "MONTH", "MINUTE", "MATERIALIZED", "NO", "NOT", "NEXT",
    "NONE", "NULL", "NAMES", "NCHAR", "NULLS", "NOTIFY", "NOWAIT", "NULLIF", "NUMBER", "NATURAL",
    "NOTNULL", "NUMERIC", "NATIONAL", "NORMALIZE", "OF", "ON", "OR", "OUT", "ONLY", "OVER", "ORDER",
    "OUTER", "OFFSET", "OVERLAY", "OPERATOR", "OVERLAPS", "ORDINALITY", "OVERRIDING", "PLANS",
    "PRIOR", "PLACING", "PREPARE", "PRIMARY", "POSITION", "PREPARED", "PARTITION", "PRECISION",
    "ROW", "READ", "REAL", "ROLE", "ROWS", "RANGE", "RESET", "RIGHT", "REVOKE", "ROLLUP", "REFRESH",
    "REINDEX", "RELEASE", "REASSIGN", "RELATIVE", "RESTRICT", "ROLLBACK", "RECURSIVE", "RETURNING",
    "REFERENCES", "REPEATABLE", "RESERVABLE", "SET", "SHOW", "SKIP", "SOME", "SETOF", "SHARE",
    "START", "SCROLL", "SEARCH", "SECOND", "SELECT", "SESSION", "SIMILAR", "SECURITY", "SMALLINT",
    "SAVEPOINT", "SEQUENCES", "SUBSTRING", "SYMMETRIC", "STATISTICS", "SERIALIZABLE",
    "SESSION_USER", "TO", "TEMP", "THEN", "TIES", "TIME", "TRIM", "TRUE", "TABLE", "TREAT",
    "TRAILING", "TRUNCATE", "TEMPORARY", "TIMESTAMP", "TABLESPACE", "TABLESAMPLE", "TRANSACTION",
    "USER", "UNION", "USING", "UNIQUE", "UPDATE", "UNKNOWN", "UNLISTEN", "UNCOMMITTED", "VALID",
    "VACUUM", "VALUES", "VARCHAR", "VARYING", "VERBOSE", "VARIADIC", "WHEN", "WITH", "WORK",
    "WHERE", "WRITE", "WINDOW", "WITHIN", "WITHOUT", "XMLPI", "XMLROOT", "XMLPARSE", "XMLTABLE",
    "XMLCONCAT", "XMLEXISTS", "XMLFOREST", "XMLELEMENT", "XMLSERIALIZE", "XMLATTRIBUTES",
    "XMLNAMESPACES", "YEAR", "ZONE",
]);

/// The words that are never a name without quotes.
#[rustfmt::skip]
static RESERVED: Words = Words::new(&[
    "as", "all", "and", "any", "asc", "array", "analyse", "analyze", "asymmetric", "both", "case",
    "cast", "check", "column", "create", "collate", "constraint", "current_date", "current_role",
    "current_time", "current_user", "current_catalog", "current_timestamp", "do", "desc", "default",
    "distinct", "deferrable", "end", "else", "except", "for", "from", "false", "fetch", "foreign",
    "grant", "group", "having", "in", "into", "initially", "intersect", "limit", "lateral",
    "leading", "localtime", "localtimestamp", "not", "null", "on", "or", "only", "order", "offset",
    "placing", "primary", "returning", "references", "some", "select", "symmetric", "session_user",
    "to", "then", "true", "table", "trailing", "user", "union", "using", "unique", "variadic",
    "when", "with", "where", "window",
]);

/// The words that may name a function or a type, and nothing else.
#[rustfmt::skip]
static OF_FUNCTIONS: Words = Words::new(&[
    "authorization", "binary", "cross", "collation", "concurrently", "current_schema", "full",
    "freeze", "is", "ilike", "inner", "isnull", "join", "left", "like", "natural", "notnull",
    "outer", "overlaps", "right", "similar", "tablesample", "verbose",
]);

/// The words that may name anything but a function or a type.
#[rustfmt::skip]
static OF_COLUMNS: Words = Words::new(&[
    "bit", "bigint", "between", "boolean", "char", "coalesce", "character", "dec", "decimal",
    "exists", "extract", "float", "greatest", "grouping", "int", "inout", "integer", "interval",
    "least", "none", "nchar", "nullif", "numeric", "national", "normalize", "out", "overlay",
    "position", "precision", "row", "real", "setof", "smallint", "substring", "time", "trim",
    "treat", "timestamp", "values", "varchar", "xmlpi", "xmlroot", "xmlparse", "xmltable",
    "xmlconcat", "xmlexists", "xmlforest", "xmlelement", "xmlserialize", "xmlattributes",
    "xmlnamespaces",
]);

/// The words that name a column of a result only behind AS.
#[rustfmt::skip]
static BEHIND_AS: Words = Words::new(&[
    "as", "array", "char", "create", "character", "day", "except", "for", "from", "fetch", "filter",
    "grant", "group", "hour", "having", "into", "isnull", "intersect", "limit", "month", "minute",
    "notnull", "on", "over", "order", "offset", "overlaps", "precision", "returning", "second",
    "to", "union", "varying", "with", "where", "window", "within", "without", "year",
]);

/// Returns the keyword that a word is, in capitals. None: it is none, and so it may be any name.
pub fn find(word: &str) -> Option<&'static str> {
    KEYWORDS.find(word)
}

/// Returns whether a word in lower case may be the name of a column or a table (`ColId` of PostgreSQL's grammar).
pub fn may_name_column(word: &str) -> bool {
    !RESERVED.has(word) && !OF_FUNCTIONS.has(word)
}

/// Returns whether a word in lower case may be the name of a function or a type (`type_function_name`).
pub fn may_name_function(word: &str) -> bool {
    !RESERVED.has(word) && !OF_COLUMNS.has(word)
}

/// Returns whether a word in lower case may be the first of an expression's names.
pub fn may_be_name(word: &str) -> bool {
    !RESERVED.has(word)
}

/// Returns whether a word in lower case may name a column of a result without AS (`BareColLabel`).
pub fn may_be_bare_label(word: &str) -> bool {
    !BEHIND_AS.has(word)
}
