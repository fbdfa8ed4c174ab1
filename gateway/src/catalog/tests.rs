//! Queries of the catalog over the tables of a test, each with the rows that PostgreSQL 15 gives.

use super::*;
use crate::sqlstate::{Report, SqlState};
use crate::statement::parser::parse_query;

/// A session whose settings are few.
struct Test {
    settings: Vec<(String, String)>,
}

impl Session for Test {
    fn setting(&self, name: &str) -> Result<String, Failure> {
        let known = self.settings.iter().rev().find(|(known, _)| known == name);
        known.map(|(_, value)| value.clone()).ok_or_else(|| {
            let text = format!("unrecognized configuration parameter \"{}\"", name);
            Report::error(SqlState::UNDEFINED_OBJECT, text)
        })
    }

    fn set(&mut self, name: &str, value: Option<&str>, _: bool) -> Result<(), Failure> {
        self.settings
            .push((name.to_owned(), value.unwrap_or("").to_owned()));
        Ok(())
    }

    fn settings(&self) -> Vec<SettingRow> {
        Vec::new()
    }

    fn activities(&self) -> &[Activity] {
        &[]
    }

    fn terminate(&mut self, _: i32) {}

    fn warn(&mut self, _: Failure) {}

    fn now(&self) -> i64 {
        0
    }

    fn transaction_start(&self) -> i64 {
        0
    }
}

fn world() -> World {
    let printed = [
        "CREATE TABLE STOCK (ID NUMBER(15) PRIMARY KEY, PIECES NUMBER(15) RESERVABLE, PRICE NUMBER(8,2), \
         NAME VARCHAR2(20), CONSTRAINT IN_STOCK CHECK (PIECES >= 0))",
        "CREATE TABLE ORDERS (K VARCHAR2(10) PRIMARY KEY, N NUMBER(15) RESERVABLE, \
         CONSTRAINT ORDERS_N_CHECK CHECK (N <= 100))",
    ];
    let tables = printed
        .iter()
        .map(|printed| Rc::new(Definition::parse(printed).unwrap()))
        .collect();
    World::new(
        tables,
        &["bank".to_owned(), "shop".to_owned()],
        "bank",
        "clerk",
        7,
    )
}

/// Names and types of columns.
type Columns = Vec<(String, Oid)>;

/// Runs a query, and returns its columns and its rows, each with `|` between values and `~` for NULL.
fn answer(text: &str) -> Result<(Columns, Vec<String>), Failure> {
    let query = parse_query(text)?;
    let world = world();
    let version = ("server_version".to_owned(), "15.0 (escrowd 1.1)".to_owned());
    let mut session = Test {
        settings: vec![version],
    };
    let answer = run(&query, &[], &[], |_| Format::Text, &world, &mut session)?;
    let columns = answer
        .columns
        .iter()
        .map(|column| (column.name.clone(), column.oid))
        .collect();
    let rows = answer
        .rows
        .iter()
        .map(|row| values(row).join("|"))
        .collect();
    Ok((columns, rows))
}

fn values(mut row: &[u8]) -> Vec<String> {
    let mut values = Vec::new();
    while row.len() >= 4 {
        let length = i32::from_be_bytes([row[0], row[1], row[2], row[3]]);
        row = &row[4..];
        values.push(match usize::try_from(length) {
            Ok(length) => {
                let (value, rest) = row.split_at(length);
                row = rest;
                String::from_utf8(value.to_vec()).unwrap()
            }
            Err(_) => "~".to_owned(),
        });
    }
    values
}

fn rows(text: &str) -> Vec<String> {
    answer(text).map_or_else(|report| panic!("{}: {:?}", text, report), |answer| answer.1)
}

fn columns(text: &str) -> Vec<(String, Oid)> {
    answer(text).map_or_else(|report| panic!("{}: {:?}", text, report), |answer| answer.0)
}

fn refusal(text: &str) -> Failure {
    match answer(text) {
        Ok(answer) => panic!("{}: {:?}", text, answer),
        Err(report) => report,
    }
}

fn state(text: &str) -> SqlState {
    refusal(text).state
}

#[test]
fn values_are_those_of_postgresql_15() {
    for (text, expected) in [
        ("SELECT 1", "1"),
        (
            "SELECT true, true::text, 'a' || true, ARRAY[]::int[], pg_typeof('a')",
            "t|true|atrue|{}|unknown",
        ),
        ("SELECT 1+1 AS result", "2"),
        ("SELECT -2147483648, 1.50, .5, 'it''s', true, NULL", "-2147483648|1.50|0.5|it's|t|~"),
        ("SELECT version()", "PostgreSQL 15.0 (escrowd 1.1)"),
        ("SELECT * FROM current_schema()", "public"),
        ("SELECT current_user, current_database(), pg_backend_pid()", "clerk|bank|7"),
        ("SELECT 7 / 2, -7 / 2, 7 % 3, 5 & 1, 'a' || 1, 1.5 * 2", "3|-3|1|1|a1|3.0"),
        ("SELECT NULL = 1, NULL AND false, NULL OR true, NOT NULL::bool", "~|f|t|~"),
        ("SELECT 1 IN (1, 2), 3 IN (1, NULL), 3 NOT IN (1, 2), NULL IN (1)", "t|~|t|~"),
        ("SELECT 1 = ANY('{1,2}'), 3 <> ALL(ARRAY[1,2]), 'a' = ANY(current_schemas(false))", "t|t|f"),
        ("SELECT CASE 2 WHEN 1 THEN 'a' WHEN 2 THEN 'b' END, CASE WHEN false THEN 1 END", "b|~"),
        ("SELECT COALESCE(NULL, 2), NULLIF(1, 1), GREATEST(1, NULL, 3), LEAST(2, 1)", "2|~|3|1"),
        ("SELECT 2 BETWEEN 1 AND 3, 2 NOT BETWEEN 1 AND 3, NULL IS NULL, true IS NOT TRUE", "t|f|t|f"),
        ("SELECT 1 IS DISTINCT FROM NULL, NULL IS NOT DISTINCT FROM NULL", "t|t"),
        ("SELECT (ARRAY[1,2])[2], (ARRAY[1,2])[3], ARRAY['a', NULL]", "2|~|{a,NULL}"),
        ("SELECT ARRAY(SELECT x FROM generate_series(1, 3) x WHERE x <> 2)", "{1,3}"),
        ("SELECT (SELECT max(x) FROM generate_series(1, 3) x), EXISTS (SELECT 1)", "3|t"),
        ("SELECT '2.55'::numeric(5,1), 2.5::int, 'abc'::varchar(2), '7'::int8 + 1", "2.6|3|ab|8"),
        ("SELECT 'stock'::regclass, 'integer'::regtype, 'pg_class'::regclass::oid", "stock|integer|1259"),
        ("SELECT (1, 2) = (1, 2), (1, 2) IN ((1, 3), (1, 2)), (1, NULL) = (1, 2)", "t|t|~"),
        ("SELECT lower('A'), length('ab'), substring('abc' from 2 for 1), trim(both 'x' from 'xax')", "a|2|b|a"),
        ("SELECT position('b' in 'abc'), quote_ident('a b'), replace('aba', 'a', 'c')", "2|\"a b\"|cbc"),
        ("SELECT array_to_string('{a,NULL,b}'::text[], ','), array_length('{1,2}'::int[], 1)", "a,b|2"),
        ("SELECT 1 UNION SELECT 1 UNION ALL SELECT 1 LIMIT 1 OFFSET 1", "1"),
        ("SELECT count(*), sum(x), min(x), string_agg(x::text, '-' ORDER BY x DESC) FROM generate_series(1, 3) x", "3|6|1|3-2-1"),
        ("SELECT count(*), max(x) FROM generate_series(1, 0) x", "0|~"),
        ("WITH a AS (SELECT 1 AS x), b(y) AS (SELECT x + 1 FROM a) SELECT x, y FROM a, b", "1|2"),
        ("SELECT * FROM (VALUES (1, 'a'), (2, 'b')) v(n, t) WHERE n = 2", "2|b"),
        ("SELECT to_regclass('none'), to_regtype('hstore')", "~|~"),
        ("SELECT has_table_privilege('stock', 'SELECT'), has_schema_privilege('public', 'USAGE')", "t|t"),
        ("SELECT set_config('a.b', 'c', false), current_setting('a.b'), current_setting('a.x', true)", "c|c|~"),
        ("SELECT 'a' LIKE 'A', 'a' ILIKE 'A', 'ab' NOT LIKE 'a%', 'ab' ~ '^a', 'ab' !~* 'B$'", "f|t|f|t|f"),
    ] {
        assert_eq!(rows(text), [expected], "{}", text);
    }
}

#[test]
fn columns_have_the_names_and_types_of_postgresql_15() {
    let expected = |columns: &[(&str, Oid)]| -> Vec<(String, Oid)> {
        columns
            .iter()
            .map(|&(name, oid)| (name.to_owned(), oid))
            .collect()
    };
    for (text, names) in [
        (
            "SELECT 1, 2147483648, 1.5, 'a', NULL, true",
            &[
                ("?column?", 23),
                ("?column?", 20),
                ("?column?", 1700),
                ("?column?", 25),
                ("?column?", 25),
                ("?column?", 16),
            ][..],
        ),
        (
            "SELECT CAST('a' AS VARCHAR(60)) AS x, '5'::int4, 'a'::text",
            &[("x", 1043), ("int4", 23), ("text", 25)],
        ),
        (
            "SELECT CASE WHEN true THEN 1 END, COALESCE(1, 2), EXISTS (SELECT 1), ARRAY[1]",
            &[
                ("case", 23),
                ("coalesce", 23),
                ("exists", 16),
                ("array", 1007),
            ],
        ),
        (
            "SELECT oid::regclass, relname::text, c.relkind FROM pg_class c LIMIT 0",
            &[("oid", 2205), ("relname", 25), ("relkind", 18)],
        ),
        (
            "SELECT current_user, current_schemas(true), now(), pg_advisory_unlock_all()",
            &[
                ("current_user", 19),
                ("current_schemas", 1003),
                ("now", 1184),
                ("pg_advisory_unlock_all", 2278),
            ],
        ),
        (
            "SELECT nspname FROM pg_namespace UNION SELECT NULL::text LIMIT 0",
            &[("nspname", 19)],
        ),
    ] {
        assert_eq!(columns(text), expected(names), "{}", text);
    }
}

#[test]
fn tables_are_told_truly() {
    for (text, expected) in [
        (
            "SELECT relname, relkind, relchecks FROM pg_class WHERE relnamespace = 2200 ORDER BY 1",
            &["orders|r|1", "orders_pkey|i|0", "stock|r|1", "stock_pkey|i|0"][..],
        ),
        (
            "SELECT a.attname, format_type(a.atttypid, a.atttypmod), a.attnotnull, col_description(a.attrelid, a.attnum) \
             FROM pg_attribute a WHERE a.attrelid = 'stock'::regclass AND a.attnum > 0 ORDER BY a.attnum",
            &["id|bigint|t|~", "pieces|bigint|t|RESERVABLE", "price|numeric(8,2)|t|~", "name|character varying(20)|t|~"],
        ),
        (
            "SELECT conname, contype, conkey, pg_get_constraintdef(oid), pg_get_constraintdef(oid, true) \
             FROM pg_constraint WHERE conrelid = '\"stock\"'::regclass ORDER BY 1",
            &["in_stock|c|{2}|CHECK ((pieces >= 0))|CHECK (pieces >= 0)", "stock_pkey|p|{1}|PRIMARY KEY (id)|PRIMARY KEY (id)"],
        ),
        (
            "SELECT indexdef FROM pg_indexes WHERE tablename = 'orders'",
            &["CREATE UNIQUE INDEX orders_pkey ON public.orders USING btree (k)"],
        ),
        (
            "SELECT c.relname, n.nspname FROM pg_class c LEFT JOIN pg_namespace n ON n.oid = c.relnamespace \
             WHERE c.relname ~ '^(stock)$' AND pg_table_is_visible(c.oid)",
            &["stock|public"],
        ),
        (
            "SELECT column_name, data_type, numeric_precision, character_maximum_length FROM information_schema.columns \
             WHERE table_name = 'stock' ORDER BY ordinal_position",
            &["id|bigint|64|~", "pieces|bigint|64|~", "price|numeric|8|~", "name|character varying|~|20"],
        ),
        ("SELECT datname FROM pg_database ORDER BY 1", &["bank", "shop"]),
        ("SELECT rolname FROM pg_roles", &["clerk"]),
        ("SELECT polname FROM pg_policy", &[]),
    ] {
        assert_eq!(rows(text), expected, "{}", text);
    }
}

#[test]
fn joins_keep_what_they_have_to() {
    for (text, expected) in [
        (
            "SELECT a.x, b.x FROM generate_series(1, 2) a(x) LEFT JOIN generate_series(2, 3) b(x) ON a.x = b.x ORDER BY 1",
            &["1|~", "2|2"][..],
        ),
        (
            "SELECT a.x, b.x FROM generate_series(1, 2) a(x) RIGHT JOIN generate_series(2, 3) b(x) ON a.x = b.x ORDER BY 2",
            &["2|2", "~|3"],
        ),
        (
            "SELECT a.x FROM generate_series(1, 3) a(x) LEFT JOIN generate_series(2, 3) b(x) ON a.x = b.x WHERE b.x IS NULL",
            &["1"],
        ),
        (
            "SELECT a.x, b.x, c.x FROM generate_series(1, 2) a(x) LEFT JOIN (generate_series(1, 2) b(x) JOIN \
             generate_series(2, 3) c(x) ON b.x = c.x) ON a.x = b.x ORDER BY 1",
            &["1|~|~", "2|2|2"],
        ),
        ("SELECT * FROM (SELECT 1 a, 2 b) l JOIN (SELECT 1 a, 3 c) r USING (a)", &["1|2|3"]),
        ("SELECT * FROM (SELECT 1 a, 2 b) l NATURAL JOIN (SELECT 1 a, 3 c) r", &["1|2|3"]),
        ("SELECT x, o FROM unnest('{a,b}'::text[]) WITH ORDINALITY u(x, o) ORDER BY o DESC", &["b|2", "a|1"]),
        ("SELECT a, b FROM unnest('{1,2}'::int[], '{x}'::text[]) u(a, b)", &["1|x", "2|~"]),
        ("SELECT DISTINCT x % 2 FROM generate_series(1, 4) x ORDER BY 1", &["0", "1"]),
        ("SELECT x % 2 AS m, array_agg(x ORDER BY x DESC) FROM generate_series(1, 4) x GROUP BY m HAVING count(*) > 1 ORDER BY m", &["0|{4,2}", "1|{3,1}"]),
        ("SELECT DISTINCT ON (x % 2) x FROM generate_series(1, 4) x ORDER BY x % 2, x DESC", &["4", "3"]),
        ("SELECT unnest('{a,b}'::text[]), generate_subscripts('{a,b}'::text[], 1)", &["a|1", "b|2"]),
        ("SELECT x, row_number() OVER (PARTITION BY x % 2 ORDER BY x DESC) FROM generate_series(1, 3) x ORDER BY x", &["1|2", "2|1", "3|1"]),
        ("SELECT (information_schema._pg_expandarray('{7,8}'::int2[])).n", &["1", "2"]),
        ("SELECT x FROM generate_series(1, 4) x EXCEPT SELECT 2 ORDER BY 1 DESC LIMIT 2", &["4", "3"]),
        ("SELECT x FROM generate_series(1, 2) x WHERE x IN (SELECT y FROM generate_series(2, 9) y WHERE y = x)", &["2"]),
    ] {
        assert_eq!(rows(text), expected, "{}", text);
    }
}

#[test]
fn what_is_not_known_is_refused_by_name() {
    for (text, expected) in [
        (
            "SELECT * FROM pg_operator",
            "the relation pg_catalog.pg_operator is not supported",
        ),
        (
            "SELECT pg_sleep(1)",
            "the function pg_sleep is not supported",
        ),
        (
            "WITH RECURSIVE t AS (SELECT 1) SELECT * FROM t",
            "WITH RECURSIVE is not supported",
        ),
        (
            "SELECT 'a' ~ '(?i)A'",
            "the regular expression (?i)A is not supported",
        ),
        ("SELECT 1.0 / 3", "a division of numeric is not supported"),
    ] {
        let report = answer(text).unwrap_err();
        assert_eq!(
            (report.state, &*report.message),
            (SqlState::FEATURE_NOT_SUPPORTED, expected)
        );
    }
}

#[test]
fn faults_have_the_codes_of_postgresql_15() {
    for (text, expected) in [
        ("SELECT nothing", SqlState::UNDEFINED_COLUMN),
        (
            "SELECT c.nothing FROM pg_class c",
            SqlState::UNDEFINED_COLUMN,
        ),
        ("SELECT x.oid FROM pg_class c", SqlState::UNDEFINED_TABLE),
        (
            "SELECT * FROM pg_catalog.nothing",
            SqlState::UNDEFINED_TABLE,
        ),
        (
            "SELECT oid FROM pg_class a, pg_class b",
            SqlState::AMBIGUOUS_COLUMN,
        ),
        ("SELECT nothing(1)", SqlState::UNDEFINED_FUNCTION),
        ("SELECT - 'a'::text", SqlState::UNDEFINED_FUNCTION),
        ("SELECT - NULL", SqlState::AMBIGUOUS_FUNCTION),
        ("SELECT + NULL", SqlState::FEATURE_NOT_SUPPORTED),
        ("SELECT 'a'::text = 1", SqlState::UNDEFINED_FUNCTION),
        ("SELECT 'x'::int", SqlState::INVALID_TEXT_REPRESENTATION),
        ("SELECT 'none'::regclass", SqlState::UNDEFINED_TABLE),
        ("SELECT 'hstore'::regtype", SqlState::UNDEFINED_OBJECT),
        ("SELECT 1 / 0", SqlState::DIVISION_BY_ZERO),
        ("SELECT 2147483647 + 1", SqlState::NUMBER_OUT_OF_RANGE),
        (
            "SELECT (SELECT oid FROM pg_class)",
            SqlState::CARDINALITY_VIOLATION,
        ),
        (
            "SELECT relname, count(*) FROM pg_class",
            SqlState::GROUPING_ERROR,
        ),
        ("SELECT 1 WHERE count(*) > 1", SqlState::GROUPING_ERROR),
        ("SELECT CASE WHEN 1 THEN 2 END", SqlState::DATATYPE_MISMATCH),
        ("SELECT 1 UNION SELECT true", SqlState::DATATYPE_MISMATCH),
        ("SELECT 1 UNION SELECT 1, 2", SqlState::SYNTAX_ERROR),
        ("SELECT 1 ORDER BY 2", SqlState::INVALID_COLUMN_REFERENCE),
        ("SELECT ARRAY[]", SqlState::INDETERMINATE_TYPE),
        ("SELECT 1 LIMIT -1", SqlState::INVALID_ROW_COUNT_IN_LIMIT),
        (
            "SELECT * FROM pg_class a, pg_type a",
            SqlState::DUPLICATE_ALIAS,
        ),
    ] {
        assert_eq!(state(text), expected, "{}", text);
    }
}

#[test]
fn operators_that_are_missing_are_refused_by_their_names() {
    for text in ["SELECT @ 1", "SELECT |/ 25", "SELECT ~ 5", "SELECT 2 ^ 3"] {
        assert_eq!(state(text), SqlState::FEATURE_NOT_SUPPORTED, "{}", text);
    }
}

#[test]
fn subscripts_stand_where_the_grammar_has_them() {
    for text in [
        "SELECT 1[1]",
        "SELECT 'a'[1]",
        "SELECT NULL[1]",
        "SELECT ARRAY[1][1]",
        "SELECT current_schemas(true)[1]",
        "SELECT (1, 2)[1]",
        "SELECT (1)::int.a",
    ] {
        assert_eq!(state(text), SqlState::SYNTAX_ERROR, "{}", text);
    }
    assert_eq!(state("SELECT (1)[1]"), SqlState::DATATYPE_MISMATCH);
    assert_eq!(
        rows("SELECT (ARRAY[7, 8])[2], (SELECT ARRAY[9])[1]"),
        ["8|9"]
    );
    assert_eq!(
        rows("SELECT indkey[0] FROM pg_index WHERE indkey[0] = 1 LIMIT 1"),
        ["1"]
    );
}

#[test]
fn rows_are_locked_only_where_postgresql_would_lock_them() {
    for text in [
        "SELECT 1 FOR UPDATE",
        "SELECT 1 FROM pg_class c, pg_type t FOR UPDATE OF t FOR SHARE OF c LIMIT 1",
        "SELECT 1 FROM (pg_class a CROSS JOIN pg_type b) FOR UPDATE OF b LIMIT 1",
        "SELECT 1 FROM (VALUES (1)) g FOR UPDATE OF g",
        "WITH g AS (SELECT count(*)) SELECT 1 FROM g FOR UPDATE",
        "SELECT 1 FROM pg_class c LEFT JOIN generate_series(1, 1) ON true FOR UPDATE LIMIT 1",
    ] {
        assert_eq!(rows(text), ["1"], "{}", text);
    }
    for (text, expected) in [
        (
            "SELECT (1) FOR UPDATE OF t$1",
            "42P01 relation \"t$1\" in FOR UPDATE clause not found in FROM clause",
        ),
        (
            "SELECT 1 FROM pg_class c FOR SHARE OF pg_class",
            "42P01 relation \"pg_class\" in FOR SHARE clause not found in FROM clause",
        ),
        (
            "SELECT (SELECT 1 FOR UPDATE OF c) FROM pg_class c",
            "42P01 relation \"c\" in FOR UPDATE clause not found in FROM clause",
        ),
        (
            "SELECT 1 FROM pg_class c FOR UPDATE OF pg_catalog.c",
            "42601 FOR UPDATE must specify unqualified relation names",
        ),
        (
            "VALUES (1) FOR UPDATE",
            "0A000 FOR UPDATE cannot be applied to VALUES",
        ),
        (
            "SELECT 1 UNION SELECT 2 FOR UPDATE",
            "0A000 FOR UPDATE is not allowed with UNION/INTERSECT/EXCEPT",
        ),
        (
            "SELECT DISTINCT 1 FOR UPDATE",
            "0A000 FOR UPDATE is not allowed with DISTINCT clause",
        ),
        (
            "SELECT 1 GROUP BY 1 FOR NO KEY UPDATE",
            "0A000 FOR NO KEY UPDATE is not allowed with GROUP BY clause",
        ),
        (
            "SELECT 1 HAVING true FOR UPDATE",
            "0A000 FOR UPDATE is not allowed with HAVING clause",
        ),
        (
            "SELECT 1 FROM (SELECT count(*)) g FOR UPDATE",
            "0A000 FOR UPDATE is not allowed with aggregate functions",
        ),
        (
            "SELECT 1 FROM (SELECT count(*)) g FOR UPDATE OF g",
            "0A000 FOR UPDATE is not allowed with aggregate functions",
        ),
        (
            "SELECT row_number() OVER () FOR UPDATE",
            "0A000 FOR UPDATE is not allowed with window functions",
        ),
        (
            "SELECT generate_series(1, 2) FOR UPDATE",
            "0A000 FOR UPDATE is not allowed with set-returning functions in the target list",
        ),
        (
            "SELECT 1 FROM generate_series(1, 2) g FOR UPDATE OF g",
            "0A000 FOR UPDATE cannot be applied to a function",
        ),
        (
            "WITH g AS (SELECT 1) SELECT 1 FROM g FOR UPDATE OF g",
            "0A000 FOR UPDATE cannot be applied to a WITH query",
        ),
        (
            "SELECT 1 FROM pg_class a LEFT JOIN pg_type b ON true FOR UPDATE",
            "0A000 FOR UPDATE cannot be applied to the nullable side of an outer join",
        ),
    ] {
        let report = refusal(text);
        let shown = format!("{} {}", report.state.code(), report.message);
        assert_eq!(shown, expected, "{}", text);
    }
}

#[test]
fn steps_and_memory_are_bounded() {
    let many = "pg_attribute a, pg_attribute b, pg_attribute c";
    // Each replacement makes a text sixteen times as long.
    let long = (0..6).fold("'a'".to_owned(), |text, _| {
        format!("replace({}, 'a', 'aaaaaaaaaaaaaaaa')", text)
    });
    for (text, expected) in [
        (
            format!("SELECT count(*) FROM {}", many),
            SqlState::STATEMENT_TOO_COMPLEX,
        ),
        (
            "SELECT count(*) FROM generate_series(1, 1000000000)".to_owned(),
            SqlState::STATEMENT_TOO_COMPLEX,
        ),
        (format!("SELECT {}", long), SqlState::OUT_OF_MEMORY),
    ] {
        assert_eq!(state(&text), expected, "{}", text);
    }
}
