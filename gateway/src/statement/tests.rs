//! Texts of clients, what is read of them, and the lines of the program that come of them.

use super::constant::{Datum, Input};
use super::parser::next_statement;
use super::query::{Body, Target};
use super::served::{Served, Verb};
use super::*;
use crate::rows::Definition;
use crate::sqlstate::Failure;
use crate::value::{oid, Number, Value};
use proptest::prelude::*;

const PURSE: &str = "CREATE TABLE PURSE (ID NUMBER(15) PRIMARY KEY, NAME VARCHAR2(4), \
                     CASH NUMBER(5,2) RESERVABLE, CARDS NUMBER(3) RESERVABLE)";

fn purse() -> Definition {
    Definition::parse(PURSE).unwrap()
}

fn read(text: &str) -> Result<Statement, Failure> {
    let parsed = next_statement(text, &mut 0)?.unwrap();
    Ok(parsed.statement.clone())
}

fn served(text: &str) -> Result<Served, Failure> {
    match read(text)? {
        Statement::Served(served) => Ok(served),
        statement => panic!("{}: {:?}", text, statement),
    }
}

/// Returns the lines of a statement of the table `purse`, or of one that names no column.
fn lines_with(text: &str, input: Input<'_>) -> Result<Vec<String>, Failure> {
    let served = served(text)?;
    let definition = purse();
    let rows = match &served {
        Served::Select(select) => {
            let mut out = Vec::new();
            let count = line::write_select(select, &definition, input, &mut out)?;
            let lines = String::from_utf8(out).unwrap();
            let lines: Vec<String> = lines.split_terminator('\n').map(str::to_owned).collect();
            assert_eq!(lines.len(), count);
            return Ok(lines);
        }
        Served::Insert(insert) => insert.rows.len(),
        _ => 1,
    };
    let definition = Some(&definition).filter(|_| text.contains("purse"));
    let line = |row| {
        let mut out = b"before\n".to_vec();
        line::write(&served, row, definition, input, &mut out)?;
        Ok(String::from_utf8(out.split_off(7)).unwrap())
    };
    (0..rows).map(line).collect()
}

fn lines(text: &str) -> Result<Vec<String>, Failure> {
    lines_with(text, Input::default())
}

/// Returns the SQLSTATE of the refusal of a text, and what is behind its place.
fn refused(text: &str) -> (&'static str, &str) {
    let report = match lines(text) {
        Err(report) => report,
        Ok(lines) => panic!("{}: {:?}", text, lines),
    };
    let place = report.place.unwrap_or(text.len());
    (report.state.code(), &text[place..])
}

#[test]
#[rustfmt::skip]
fn lines_are_what_was_written() {
    for (text, line) in [
        // Words, blanks, comments and quotes.
        ("select -- all; '\n *\r\n/* of /* this */ */FROM\tpurse;", "SELECT * FROM purse"),
        ("SELECT * FROM public.\"purse\" AS p WHERE (p.\"id\" = +1)", "SELECT * FROM purse WHERE id = 1"),
        ("DELETE FROM \"purse\"s WHERE id = 15", "DELETE FROM purse WHERE id = 15"),
        ("DELETE FROM purse * WHERE ((1 = purse.id))", "DELETE FROM purse WHERE id = 1"),
        ("DELETE FROM ONLY purse WHERE 1 = id", "DELETE FROM purse WHERE id = 1"),
        ("SHOW BOUNDS purse WHERE id = '7'", "SHOW BOUNDS purse WHERE id = 7"),
        ("show table public.purse", "SHOW TABLE purse"),
        ("SHOW JOURNAL", "SHOW JOURNAL"),
        ("SHOW JOURNAL purse", "SHOW JOURNAL purse"),
        ("SHOW STATISTICS", "SHOW STATISTICS"),
        // Changes: signs, sides, values of nothing.
        ("UPDATE purse SET cash=cash - -5 WHERE id=-5", "UPDATE purse SET cash = cash + 5 WHERE id = -5"),
        (
            "UPDATE purse p SET cash = (cash - (-5)), cards = 3 + p.cards WHERE (id = 1)",
            "UPDATE purse SET cash = cash + 5, cards = cards + 3 WHERE id = 1",
        ),
        (
            "UPDATE purse SET cash = COALESCE(cash, 0) - '0.50' WHERE id IN (1)",
            "UPDATE purse SET cash = cash - 0.5 WHERE id = 1",
        ),
        ("UPDATE purse SET cash = cash - 1e1 WHERE id = 1", "UPDATE purse SET cash = cash - 10 WHERE id = 1"),
        // Casts, as PostgreSQL applies them.
        ("UPDATE purse SET cards = cards + 1.5::int WHERE id = 1", "UPDATE purse SET cards = cards + 2 WHERE id = 1"),
        ("UPDATE purse SET cards = cards - 2.55::int WHERE id = 1", "UPDATE purse SET cards = cards - 3 WHERE id = 1"),
        (
            "UPDATE purse SET cash = cash + 2.55::numeric(5,1) WHERE id = 1",
            "UPDATE purse SET cash = cash + 2.6 WHERE id = 1",
        ),
        (
            "UPDATE purse SET name = 'abcdef'::varchar(3) WHERE id = CAST('1' AS bigint)",
            "UPDATE purse SET name = 'abc' WHERE id = 1",
        ),
        // Texts of all kinds.
        ("UPDATE purse SET name = 'a''b' WHERE id = 1", "UPDATE purse SET name = 'a''b' WHERE id = 1"),
        ("UPDATE purse SET name = E'\\x41\\'' WHERE id = 1", "UPDATE purse SET name = 'A''' WHERE id = 1"),
        ("UPDATE purse SET name = $$it's$$ WHERE id = 1", "UPDATE purse SET name = 'it''s' WHERE id = 1"),
        ("UPDATE purse SET name = 'a'\n'b' WHERE id = 1", "UPDATE purse SET name = 'ab' WHERE id = 1"),
        // Values take the type of their column.
        ("INSERT INTO purse VALUES ('1', 'x', '-3.50', 007)", "INSERT INTO purse VALUES (1, 'x', -3.5, 7)"),
        (
            "INSERT INTO purse AS p (name, cash, id, cards) VALUES (('5'), ('-9.99'::numeric), (1), 5.)",
            "INSERT INTO purse (name, cash, id, cards) VALUES ('5', -9.99, 1, 5)",
        ),
        // Definitions.
        ("DROP TABLE public.purse CASCADE", "DROP TABLE purse"),
        ("ALTER TABLE ONLY t DROP CONSTRAINT c RESTRICT", "ALTER TABLE t DROP CONSTRAINT c"),
        (
            "ALTER TABLE t ADD CONSTRAINT c CHECK (((a - (b - 2 * c)) >= -1.50) AND a*2 BETWEEN (-5) AND '7'::int)",
            "ALTER TABLE t ADD CONSTRAINT c CHECK (a - b + 2 * c >= -1.5 AND 2 * a BETWEEN -5 AND 7)",
        ),
        (
            "CREATE TABLE IF NOT EXISTS t (a INT PRIMARY KEY, b SMALLINT RESERVABLE CONSTRAINT z CHECK (b > 0) NOT NULL, \
             c bigint, d NUMERIC(8,2), e DECIMAL(4), f character varying(9), g TEXT, h number, i NUMBER(3,1), \
             j VARCHAR2(7), k numeric, CHECK (b <= 9))",
            "CREATE TABLE t (a INTEGER PRIMARY KEY, b NUMBER(5) RESERVABLE CONSTRAINT z CHECK (b > 0) NOT NULL, \
             c NUMBER(15), d NUMBER(8,2), e NUMBER(4,0), f VARCHAR2(9), g VARCHAR2(255), h NUMBER, i NUMBER(3,1), \
             j VARCHAR2(7), k NUMBER(15,6), CHECK (b <= 9))",
        ),
    ] {
        assert_eq!(lines(text).unwrap(), [line], "{}", text);
    }
    assert_eq!(
        lines("SELECT id FROM purse WHERE id IN (3, '1', 20, 3.0)").unwrap(),
        [
            "SELECT * FROM purse WHERE id = 1",
            "SELECT * FROM purse WHERE id = 3",
            "SELECT * FROM purse WHERE id = 20"
        ]
    );
    assert_eq!(
        lines("INSERT INTO purse VALUES (1, 'a', 0, 0), (2, 'b', 0, 0)").unwrap(),
        [
            "INSERT INTO purse VALUES (1, 'a', 0, 0)",
            "INSERT INTO purse VALUES (2, 'b', 0, 0)"
        ]
    );
}

#[test]
#[rustfmt::skip]
fn what_is_no_statement_or_is_missing_is_refused() {
    for (text, state, place) in [
        // Glued, joined and bracketed tokens: each was another statement once.
        ("UPDATE purse SET cards = cards - 1..5 WHERE id = 1", "42601", "..5 WHERE id = 1"),
        ("DELETE FROM purse WHERE id = 1$1", "42601", "$1"),
        ("UPDATE purse SET name = 'a'E'b' WHERE id = 1", "42601", "E'b' WHERE id = 1"),
        ("UPDATE purse SET name = $1$2 WHERE id = 1", "42601", "$2 WHERE id = 1"),
        ("UPDATE purse SET name = $2'x' WHERE id = 1", "42601", "'x' WHERE id = 1"),
        ("CREATE TABLE t (n INT CHECK (n >= -1..5))", "42601", "..5))"),
        ("DELETE FROM t () WHERE id = 12", "42601", "() WHERE id = 12"),
        ("INSERT INTO purse VALUES ((3,4,'k'))", "0A000", "(3,4,'k'))"),
        ("UPDATE purse SET cards = cards - (3,4) WHERE id = 1", "0A000", "(3,4) WHERE id = 1"),
        ("DELETE FROM purse WHERE (id =) 15", "42601", ") 15"),
        ("DELETE FROM purse p. WHERE id = 1", "42601", ". WHERE id = 1"),
        ("SELECT * FROM purse WHERE (id = (1)", "42601", ""),
        ("DELETE FROM purse SET WHERE id = 1", "42601", "SET WHERE id = 1"),
        ("DELETE FROM purse id = 1", "42601", "= 1"),
        ("DELETE FROM WHERE = 1", "42601", "WHERE = 1"),
        ("INSERT INTO VALUES (1)", "42601", "1)"),
        ("INSERT INTO t ($1, $1)", "42601", "$1, $1)"),
        ("SELEC 1", "42601", "SELEC 1"),
        ("SAVEPOINT a b", "42601", "b"),
        // Names of other tables and columns.
        ("DELETE FROM public.public.purse WHERE id = 1", "0A000", "public.public.purse WHERE id = 1"),
        ("SELECT * FROM other.purse", "42P01", "other.purse"),
        ("SELECT * FROM \"PURSE\"", "42P01", "\"PURSE\""),
        ("DELETE FROM purse WHERE \"ID\" = 1", "42703", "\"ID\" = 1"),
        ("DELETE FROM purse WHERE public.id = 1", "42P01", "public.id = 1"),
        ("DELETE FROM purse p WHERE purse.id = 1", "42P01", "purse.id = 1"),
        ("UPDATE purse SET purse.cash = 1 WHERE id = 1", "0A000", ".cash = 1 WHERE id = 1"),
        (
            "DELETE FROM a234567890123456789012345678901 WHERE id = 1",
            "42P01",
            "a234567890123456789012345678901 WHERE id = 1",
        ),
        ("CREATE TABLE a234567890123456789012345678901 (a INT)", "42622", "a234567890123456789012345678901 (a INT)"),
        ("CREATE TABLE \"My table\" (a INT)", "42602", "\"My table\" (a INT)"),
        ("CREATE TABLE t (\"key\" INT)", "42602", "\"key\" INT)"),
        ("CREATE TABLE journal (a INT)", "42602", "journal (a INT)"),
        // What PostgreSQL has and the program doesn't.
        ("SET TRANSACTION", "42601", ""),
        ("SET SESSION CHARACTERISTICS AS TRANSACTION", "42601", ""),
        ("DELETE FROM purse", "0A000", "DELETE FROM purse"),
        ("DELETE FROM purse USING t WHERE id = 1", "0A000", "USING t WHERE id = 1"),
        ("DELETE FROM purse WHERE id > 1", "0A000", "id > 1"),
        ("DELETE FROM purse WHERE id = 1 AND cash = 2", "0A000", "id = 1 AND cash = 2"),
        ("DELETE FROM purse WHERE id = cash", "0A000", "cash"),
        ("UPDATE purse SET cash = cards + 1 WHERE id = 1", "0A000", "cards + 1 WHERE id = 1"),
        ("UPDATE purse SET cash = cash + 1, name = 'x' WHERE id = 1", "0A000", "'x' WHERE id = 1"),
        ("UPDATE purse SET (cash, cards) = (1, 2) WHERE id = 1", "0A000", "(cash, cards) = (1, 2) WHERE id = 1"),
        ("UPDATE purse SET name = DEFAULT WHERE id = 1", "0A000", "DEFAULT WHERE id = 1"),
        ("INSERT INTO purse SELECT 1", "0A000", "SELECT 1"),
        ("INSERT INTO purse VALUES (1, 'x', 0, 0) ON CONFLICT DO NOTHING", "0A000", "ON CONFLICT DO NOTHING"),
        ("CREATE TABLE t (a INT DEFAULT 5)", "0A000", "DEFAULT 5)"),
        ("CREATE TABLE t (a INT REFERENCES u)", "0A000", "REFERENCES u)"),
        ("CREATE TABLE t (a INT, CONSTRAINT u UNIQUE (a))", "0A000", "UNIQUE (a))"),
        ("CREATE TABLE t (a BOOLEAN)", "0A000", "BOOLEAN)"),
        ("CREATE TABLE t (a NUMERIC(16,2))", "0A000", "NUMERIC(16,2))"),
        ("CREATE TABLE t (a INT NULL)", "0A000", "NULL)"),
        ("CREATE TABLE t (a INT CHECK (a <> 5))", "0A000", "a <> 5))"),
        ("CREATE TABLE t (a INT CHECK (a < $1))", "42P02", "$1))"),
        ("CREATE TABLE t (a INT CHECK (a < 0::varchar))", "42883", "0::varchar))"),
        ("UPDATE purse SET cards = cards + + '1' WHERE id = 1", "0A000", "+ '1' WHERE id = 1"),
        ("SELECT id FROM purse FETCH FIRST 2::int ROWS ONLY", "42601", "::int ROWS ONLY"),
        ("DELETE FROM ONLY purse * WHERE id = 1", "42601", "* WHERE id = 1"),
        ("SELECT id FROM purse OFFSET 2::int ROWS", "42601", "ROWS"),
        ("CREATE INDEX i ON t (a)", "0A000", "CREATE INDEX i ON t (a)"),
        ("ALTER TABLE t ADD COLUMN b INT", "0A000", "COLUMN b INT"),
        ("ALTER TABLE t RENAME TO u", "0A000", "RENAME TO u"),
        ("DROP TABLE a, b", "0A000", ", b"),
        // Values.
        ("INSERT INTO purse VALUES (1, 'x', NULL, 0)", "23502", "NULL, 0)"),
        ("INSERT INTO purse VALUES (1, 'x', 0)", "23502", ""),
        ("INSERT INTO purse VALUES (1, 'x', 0, 0, 5)", "42601", "5)"),
        ("INSERT INTO purse (id, name, cash, cards) VALUES (1, 'x', 0)", "42601", "cards) VALUES (1, 'x', 0)"),
        (
            "INSERT INTO purse (id, id, cash, cards) VALUES (1, 'x', 0, 0)",
            "42701",
            "id, cash, cards) VALUES (1, 'x', 0, 0)",
        ),
        ("INSERT INTO purse (id, b) VALUES (1, 'x')", "42703", "b) VALUES (1, 'x')"),
        ("INSERT INTO purse VALUES (1), (2, 3)", "42601", "2, 3)"),
        ("INSERT INTO purse VALUES (1, 'a\nb', 0, 0)", "22021", "'a\nb', 0, 0)"),
        ("DELETE FROM purse WHERE id = 'x'", "22P02", "'x'"),
        ("DELETE FROM purse WHERE id = '1.5'", "22P02", "'1.5'"),
        ("DELETE FROM purse WHERE id = '5'::text", "42883", "'5'::text"),
        ("DELETE FROM purse WHERE id = 1e15", "22003", "1e15"),
        ("UPDATE purse SET cards = '5'::text WHERE id = 1", "42804", "'5'::text WHERE id = 1"),
        ("UPDATE purse SET cards = 70000::smallint WHERE id = 1", "22003", "70000::smallint WHERE id = 1"),
        ("UPDATE purse SET name = 'x'::bigint::text WHERE id = 1", "22P02", "'x'::bigint::text WHERE id = 1"),
        ("UPDATE purse SET name = 'x'::date WHERE id = 1", "0A000", "date WHERE id = 1"),
        ("UPDATE purse SET cards = - '5' WHERE id = 1", "42725", "- '5' WHERE id = 1"),
    ] {
        assert_eq!(refused(text), (state, place), "{}", text);
    }
}

#[test]
fn a_column_of_a_narrower_type_has_a_notice() {
    let text = "CREATE TABLE t (a INT, b SMALLINT, c BIGINT, d NUMERIC, e DECIMAL(8,2), f TEXT, g VARCHAR(9), h VARCHAR(300))";
    let define = match served(text).unwrap() {
        Served::Define(define) => define,
        other => panic!("{:?}", other),
    };
    assert_eq!(
        define.notices,
        [
            "column \"c\": bigint has at most 15 digits",
            "column \"d\": numeric has at most 15 digits, 6 of them behind the point",
            "column \"f\": a text has at most 255 bytes",
            "column \"h\": a text has at most 255 bytes",
        ]
    );
}

#[test]
#[rustfmt::skip]
fn values_are_explained_by_the_definition() {
    for (text, state, place) in [
        ("INSERT INTO purse VALUES (1, 'abcde', 0, 0)", "22001", "'abcde', 0, 0)"),
        ("INSERT INTO purse (cash, id, name, cards) VALUES (-1000, 1, '\u{e4}', 0)", "22003", "-1000, 1, '\u{e4}', 0)"),
        ("UPDATE purse SET cash = cash - 0.005 WHERE id = 1", "22023", "0.005 WHERE id = 1"),
        ("UPDATE purse SET name = '' WHERE id = 1", "22023", "'' WHERE id = 1"),
        ("UPDATE purse SET name = 'a', name = 'b' WHERE id = 1", "42601", "name = 'b' WHERE id = 1"),
        ("UPDATE purse SET x = 'a' WHERE id = 1", "42703", "x = 'a' WHERE id = 1"),
        ("DELETE FROM purse WHERE x = 1", "42703", "x = 1"),
        ("DELETE FROM purse WHERE id = 1.5", "22023", "1.5"),
        ("DELETE FROM purse WHERE name = 1", "42883", "1"),
    ] {
        let served = served(text).unwrap();
        let report = explain::refusal(&purse(), &served, 0, Input::default()).unwrap();
        let behind = report.place.map(|place| &text[place..]);
        assert_eq!(
            (report.state.code(), behind),
            (state, Some(place)),
            "{}",
            text
        );
    }
    let fits = served("INSERT INTO purse VALUES (1, 'abc', 1.5, 3)").unwrap();
    assert_eq!(explain::refusal(&purse(), &fits, 0, Input::default()), None);
}

#[test]
#[rustfmt::skip]
fn parameters_become_values() {
    let number = |digits: &str| Value::Number(Number::from_text(digits).unwrap());
    let text = |text: &str| Value::Text(text.to_owned());
    for (statement, values, types, expected) in [
        (
            "UPDATE purse SET cash = cash - $1, cards = cards + $2 WHERE id = $3",
            vec![number("-5"), number("-2"), number("-1")],
            vec![oid::NUMERIC, oid::INT8, oid::INT8],
            Ok("UPDATE purse SET cash = cash + 5, cards = cards - 2 WHERE id = -1"),
        ),
        (
            "UPDATE purse SET cards = cards - $1::int WHERE id = -$2",
            vec![number("2.55"), number("-7")],
            vec![oid::NUMERIC, oid::INT4],
            Ok("UPDATE purse SET cards = cards - 3 WHERE id = 7"),
        ),
        (
            "INSERT INTO purse VALUES ($1,$2 , $1, $1)",
            vec![number("1"), text("a;'$")],
            vec![oid::INT4, oid::VARCHAR],
            Ok("INSERT INTO purse VALUES (1, 'a;''$', 1, 1)"),
        ),
        ("DELETE FROM purse WHERE id = $1", vec![Value::Null], vec![oid::INT8], Err("23502")),
        ("DELETE FROM purse WHERE id = $2", vec![number("1")], vec![oid::INT8], Err("42P02")),
        ("DELETE FROM purse WHERE id = $1", vec![text("1")], vec![oid::TEXT], Err("42883")),
        ("DELETE FROM purse WHERE id = -$1", vec![number("-32768")], vec![oid::INT2], Err("22003")),
    ] {
        let input = Input {
            values: &values,
            types: &types,
        };
        let got = lines_with(statement, input);
        let got = got.as_ref().map(|lines| lines[0].as_str());
        assert_eq!(
            got.map_err(|report| report.state.code()),
            expected,
            "{}",
            statement
        );
    }
}

#[test]
#[rustfmt::skip]
fn an_array_of_keys_is_a_line_for_each() {
    let list = Value::List(vec![
        Value::Number(Number::from_text("30").unwrap()),
        Value::Null,
        Value::Number(Number::from_text("4").unwrap()),
    ]);
    let lines_of = |condition: &str, values: &[Value], types: &[u32]| {
        let input = Input { values, types };
        let text = format!("SELECT * FROM purse WHERE {}", condition);
        let lines = lines_with(&text, input).map_err(|report| report.state.code())?;
        let keys: Vec<String> = lines
            .iter()
            .map(|line| line["SELECT * FROM purse WHERE id = ".len()..].to_owned())
            .collect();
        Ok(keys.join(" "))
    };
    let thousand: Vec<String> = (0..1_001).map(|key| key.to_string()).collect();
    let too_many = format!("id = ANY ('{{{}}}')", thousand.join(","));
    for (condition, expected) in [
        ("id = ANY ('{3, 1,NULL,1}')", Ok("1 3")),
        ("id = SOME (ARRAY[2, '1'])", Ok("1 2")),
        ("id = ANY ('{}')", Ok("")),
        ("id = ANY ('{2.5}'::numeric[]::int[])", Ok("3")),
        ("id = ANY ($1)", Ok("4 30")),
        ("id = ANY ($1::bigint[])", Ok("4 30")),
        ("id = ANY ('{x}')", Err("22P02")),
        ("id = ANY ('1')", Err("22P02")),
        ("id = ANY ($2)", Err("42809")),
        ("id = ALL ('{1}')", Err("0A000")),
        ("id = $1", Err("0A000")),
        (&too_many, Err("54000")),
    ] {
        let values = [list.clone(), Value::Text("1".to_owned())];
        let types = [1016, oid::TEXT];
        let got = lines_of(condition, &values, &types);
        assert_eq!(
            got.as_deref().map_err(|code| *code),
            expected,
            "{}",
            condition
        );
    }
}

#[test]
fn a_line_has_at_most_4083_bytes() {
    let insert = |count: usize| format!("INSERT INTO t VALUES ('{}')", "x".repeat(count));
    let least = insert(0).len();
    let longest = insert(line::LONGEST_LINE - least);
    assert_eq!(lines(&longest).unwrap(), [longest]);
    assert_eq!(refused(&insert(line::LONGEST_LINE - least + 1)).0, "54000");
}

#[test]
#[rustfmt::skip]
fn constants_are_those_of_postgresql_15() {
    for (text, expected) in [
        ("1", "1 int4"),
        ("-2147483648", "-2147483648 int4"),
        ("2147483648", "2147483648 int8"),
        ("9223372036854775808", "9223372036854775808 numeric"),
        ("1.50", "1.50 numeric"),
        (".5", "0.5 numeric"),
        ("1e3", "1000 numeric"),
        ("'x'", "x unknown"),
        ("true", "t bool"),
        ("-1::int", "-1 int4"),
        ("(-2.5)::int", "-3 int4"),
        ("- 2.55::int", "-3 int4"),
        ("2.55::numeric(5,1)", "2.6 numeric"),
        ("5::numeric(5,2)", "5.00 numeric"),
        ("0.0125::numeric(2,3)", "0.013 numeric"),
        ("0.1::numeric(2,3)", "22003"),
        ("'abcdef'::varchar(3)", "abc varchar"),
        ("'\u{e4}\u{e4}'::varchar(1)", "\u{e4} varchar"),
        ("1.50::text", "1.50 text"),
        ("' 12 '::int2", "12 int2"),
        ("CAST('1.5' AS numeric)::int8", "2 int8"),
        ("int '5'", "5 int4"),
        ("numeric(4,1) '2.25'", "2.3 numeric"),
        ("70000::smallint", "22003"),
        ("'70000'::smallint", "22003"),
        ("123456::numeric(5,2)", "22003"),
        ("'1.5'::int", "22P02"),
        ("'x'::numeric", "22P02"),
        ("2147483648::int", "22003"),
        ("-(-32768)::int2", "22003"),
        ("'a'::varchar(0)", "22023"),
        ("1::numeric(0)", "22023"),
        ("-'5'::text", "42883"),
        ("- '5'", "42725"),
        ("1::date", "0A000"),
        ("true::int", "0A000"),
    ] {
        let query = parser::parse_query(&format!("SELECT {}", text)).unwrap();
        let target = match query.body {
            Body::Select(mut select) => select.targets.remove(0),
            body => panic!("{:?}", body),
        };
        let expression = match target {
            Target::Expression(expression, None) => expression,
            target => panic!("{:?}", target),
        };
        let value = constant::check(&expression, Verb::Select)
            .and_then(|()| constant::evaluate(&expression, Input::default()));
        let got = match value {
            Ok(datum) => {
                let name = match constant::type_of(&expression, &[]).0 {
                    oid::INT2 => "int2",
                    oid::INT4 => "int4",
                    oid::INT8 => "int8",
                    oid::NUMERIC => "numeric",
                    oid::VARCHAR => "varchar",
                    oid::TEXT => "text",
                    oid::BOOL => "bool",
                    _ => "unknown",
                };
                assert_ne!(datum, Datum::Null);
                format!("{} {}", datum.text().unwrap(), name)
            }
            Err(report) => report.state.code().to_owned(),
        };
        assert_eq!(got, expected, "{}", text);
    }
}

#[test]
#[rustfmt::skip]
fn statements_that_need_no_program_are_read() {
    let name = |name: &str, start: usize| Name {
        text: name.to_owned(),
        span: query::Span {
            start,
            end: start + name.len(),
        },
    };
    let set = |name: &str, value: Option<&str>, local| {
        Statement::Set(Setting {
            name: name.to_owned(),
            value: value.map(str::to_owned),
            local,
            reset: false,
        })
    };
    let begin = |start, read_only, isolation| Statement::Begin {
        start,
        modes: Modes {
            read_only,
            isolation,
        },
    };
    let committed = Some(session::Isolation::ReadCommitted);
    for (text, expected) in [
        ("BEGIN", begin(false, None, None)),
        ("begin work", begin(false, None, None)),
        ("BEGIN TRANSACTION ISOLATION LEVEL READ COMMITTED, READ WRITE", begin(false, Some(false), committed)),
        ("START TRANSACTION READ ONLY NOT DEFERRABLE", begin(true, Some(true), None)),
        ("COMMIT TRANSACTION AND NO CHAIN", Statement::Commit { chain: false }),
        ("END WORK", Statement::Commit { chain: false }),
        ("ABORT AND CHAIN", Statement::Rollback { chain: true }),
        ("ROLLBACK WORK TO SAVEPOINT a", Statement::RollbackTo(name("a", 27))),
        ("ROLLBACK TO savepoint", Statement::RollbackTo(name("savepoint", 12))),
        ("RELEASE SAVEPOINT a", Statement::Release(name("a", 18))),
        ("RELEASE savepoint", Statement::Release(name("savepoint", 8))),
        ("SAVEPOINT a", Statement::Savepoint(name("a", 10))),
        ("SET Statement_Timeout = 5000", set("statement_timeout", Some("5000"), false)),
        ("SET SESSION x TO 'a b'", set("x", Some("a b"), false)),
        ("SET LOCAL x.y = -1", set("x.y", Some("-1"), true)),
        ("SET search_path TO a, \"B\"", set("search_path", Some("a, \"B\""), false)),
        ("SET x TO on", set("x", Some("on"), false)),
        ("SET x TO DEFAULT", set("x", None, false)),
        ("SET TIME ZONE 'UTC'", set("timezone", Some("UTC"), false)),
        ("SET NAMES 'utf8'", set("client_encoding", Some("utf8"), false)),
        ("SET ROLE NONE", Statement::SetRole { name: None, is_reset: false }),
        ("SET SESSION AUTHORIZATION 'x'", Statement::SetRole { name: Some("x".to_owned()), is_reset: false }),
        ("RESET SESSION AUTHORIZATION", Statement::SetRole { name: None, is_reset: true }),
        ("SET CONSTRAINTS ALL IMMEDIATE", Statement::SetConstraints),
        ("SHOW TIME ZONE", Statement::ShowSetting("timezone".to_owned())),
        ("show transaction isolation level", Statement::ShowSetting("transaction_isolation".to_owned())),
        ("DISCARD TEMPORARY", Statement::Discard(Discard::Temporary)),
        ("DEALLOCATE PREPARE ALL", Statement::Deallocate(None)),
        ("DEALLOCATE a", Statement::Deallocate(Some(name("a", 11)))),
        ("UNLISTEN *", Statement::Unlisten),
        ("CLOSE ALL", Statement::Close(None)),
        ("CLOSE a", Statement::Close(Some(name("a", 6)))),
    ] {
        assert_eq!(read(text), Ok(expected), "{}", text);
    }
    for (text, expected, is_move) in [
        ("FETCH c", Step::Rows(1), false),
        ("FETCH NEXT FROM c", Step::Rows(1), false),
        ("FETCH 5 IN c", Step::Rows(5), false),
        ("FETCH FORWARD 5 FROM c", Step::Rows(5), false),
        ("FETCH FORWARD ALL c", Step::All, false),
        ("MOVE ALL FROM c", Step::All, true),
        ("FETCH -1 FROM c", Step::Back, false),
        ("FETCH BACKWARD 1 c", Step::Back, false),
        ("FETCH PRIOR c", Step::Back, false),
        ("FETCH ABSOLUTE 1 c", Step::Other, false),
        ("FETCH next", Step::Rows(1), false),
    ] {
        match read(text) {
            Ok(Statement::Fetch {
                step, is_move: it, ..
            }) => {
                assert_eq!((step, it), (expected, is_move), "{}", text);
            }
            other => panic!("{}: {:?}", text, other),
        }
    }
    for text in [
        "COPY t FROM STDIN",
        "LISTEN x",
        "PREPARE a AS SELECT 1",
        "PREPARE TRANSACTION 'x'",
        "COMMIT PREPARED 'x'",
        "EXPLAIN SELECT 1",
        "VACUUM t",
        "TRUNCATE t",
        "LOCK TABLE t",
        "DROP VIEW v",
        "DECLARE c SCROLL CURSOR FOR SELECT 1",
        "DECLARE c CURSOR WITH HOLD FOR SELECT 1",
        "WITH a AS (SELECT * FROM t) SELECT * FROM a",
        "SELECT * FROM t UNION SELECT * FROM u",
        "SELECT DISTINCT a FROM t",
        "SELECT max(a) FROM t",
        "SELECT a + 1 FROM t",
        "SELECT a FROM t GROUP BY a",
    ] {
        assert_eq!(read(text).unwrap_err().state.code(), "0A000", "{}", text);
    }
    for text in [
        "1",
        "'x'",
        "COMMIT x",
        "SAVEPOINT",
        "BEGIN x",
        "SET x",
        "RELEASE",
        "FETCH",
        "SHOW",
    ] {
        assert_eq!(read(text).unwrap_err().state.code(), "42601", "{}", text);
    }
}

#[test]
fn the_size_of_a_statement_follows_its_text() {
    let size = |text: &str| next_statement(text, &mut 0).unwrap().unwrap().size;
    let values = vec!["1"; 1_000].join(", ");
    let insert = size(&format!("INSERT INTO t VALUES ({})", values));
    let expression = std::mem::size_of::<query::Expression>();
    assert!(
        (1_000 * expression..6_000 * expression).contains(&insert),
        "{}",
        insert
    );
    assert!(size(&format!("DELETE FROM t WHERE a = '{}'", "x".repeat(9_000))) > 9_000);
    let parsed = std::mem::size_of::<Parsed>();
    assert!((parsed..parsed + 100).contains(&size("BEGIN")));
}

#[test]
fn kinds_are_in_order() {
    for (place, kind) in Kind::ALL.iter().enumerate() {
        assert_eq!(*kind as usize, place);
    }
}

/// Pieces of statements, of which many fit together.
fn pieces() -> impl Strategy<Value = String> {
    let pieces = prop::sample::select(vec![
        "UPDATE",
        "purse",
        "SET",
        "cash",
        "=",
        "cash",
        "+",
        "-",
        "1",
        "1.5",
        "'2'",
        "$1",
        "WHERE",
        "id",
        "(",
        ")",
        ",",
        "DELETE",
        "FROM",
        "INSERT",
        "INTO",
        "VALUES",
        "SELECT",
        "*",
        "IN",
        "::",
        "int",
        "AS",
        "p",
        ".",
        "ORDER",
        "BY",
        "LIMIT",
        "RETURNING",
        "CREATE",
        "TABLE",
        "NUMBER",
        "CHECK",
        ">=",
        "AND",
        "PRIMARY",
        "KEY",
        "name",
        "'x'",
        "-- c\n",
    ]);
    prop::collection::vec(pieces, 0..14).prop_map(|pieces| pieces.join(" "))
}

proptest! {
    #![proptest_config(ProptestConfig::with_cases(1_024))]

    #[test]
    fn any_text_is_read_or_refused(text in ".{0,120}", more in pieces()) {
        for text in [text, more] {
            let mut at = 0;
            while let Ok(Some(_)) = next_statement(&text, &mut at) {}
            prop_assert!(at <= text.len());
        }
    }

    #[test]
    fn what_is_printed_is_read_as_the_same(
        begin in prop::sample::select(vec![
            "UPDATE purse SET cash = cash - ", "UPDATE purse SET name = ", "DELETE FROM purse WHERE id = ",
            "INSERT INTO purse VALUES (1, 'x', 1, ", "SELECT * FROM purse WHERE id IN (1, ", "CREATE TABLE t (a INT CHECK (",
        ]),
        more in pieces(),
        end in prop::sample::select(vec!["", ")", " WHERE id = 1", "))"]),
    ) {
        let text = format!("{}{}{}", begin, more, end);
        if let Ok(printed) = served(&text).and_then(|_| lines(&text)) {
            for line in printed {
                prop_assert!(line.len() <= line::LONGEST_LINE);
                prop_assert!(!line.bytes().any(|byte| byte < 0x20 || byte == 0x7f));
                prop_assert_eq!(lines(&line).unwrap(), [line.clone()], "{}", text);
            }
        }
    }
}
