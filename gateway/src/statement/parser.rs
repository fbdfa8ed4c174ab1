//! Reads statements into trees, by the names and the rules of PostgreSQL's grammar (`gram.y` of version 15).

mod command;
mod definition;
mod expression;
mod keywords;
pub mod lexer;
mod query;
mod types;

use std::mem::size_of;
use std::rc::Rc;

use crate::sqlstate::{Failure, Report, SqlState};
use crate::statement::parameters::{self, Place};
use crate::statement::query::{FoundUpdates, Name, Outline, QualifiedName, Query, Span};
use crate::statement::{literal, Parsed};
pub use lexer::TokenKind;
use lexer::{Token, Tokens};

/// How many pieces of a statement may be inside of each other.
const MOST_DEPTH: usize = 100;

/// What reads one statement.
#[derive(Debug)]
pub struct Parser<'a> {
    text: &'a str,
    tokens: &'a Tokens,
    at: usize,
    depth: usize,
    /// How many bytes the tree takes that was read so far.
    size: usize,
}

/// Reads a text that is one query.
///
/// # Errors
///
/// Fails at what PostgreSQL's grammar doesn't have, and at what is missing here.
pub fn parse_query(text: &str) -> Result<Query, Failure> {
    let mut at = 0;
    let tokens = match lexer::next_statement(text, &mut at) {
        Some(tokens) => tokens,
        None => return Err(Report::syntax(text, text.len(), text.len())),
    };
    let mut parser = Parser::new(text, &tokens);
    let query = parser.query()?;
    parser.expect_end()?;
    Ok(query)
}

/// Reads a text that is one UPDATE of one table, or one statement that has WITH in front. Returns the UPDATEs in it, and the
/// numbers of all its parameters. None: it is another statement, or several.
///
/// # Errors
///
/// Fails at what PostgreSQL's grammar doesn't have, and at what is missing here.
pub fn parse_updates(text: &str) -> Result<Option<FoundUpdates>, Failure> {
    let mut at = 0;
    let tokens = match lexer::next_statement(text, &mut at) {
        Some(tokens) => tokens,
        None => return Ok(None),
    };
    let mut parser = Parser::new(text, &tokens);
    let is_read = parser.at_keyword("UPDATE") || parser.at_keyword("WITH");
    if !is_read || lexer::next_statement(text, &mut at).is_some() {
        return Ok(None);
    }
    let updates = parser.updates()?;
    parser.expect_end()?;
    let parameters = tokens.list.iter().filter_map(|token| match token.kind {
        TokenKind::Parameter(number) => Some(number),
        _ => None,
    });
    let parameters = parameters.collect();
    Ok(Some(FoundUpdates {
        updates,
        parameters,
    }))
}

/// Reads what the next statement of `text` is, whatever of it is served, and where it is written. It begins at the byte
/// `at`, which is moved behind its semicolon. None: there is none.
///
/// # Errors
///
/// Fails at what PostgreSQL's grammar doesn't have, at what is missing here, and at parameters.
pub fn next_outline(text: &str, at: &mut usize) -> Result<Option<(Span, Outline)>, Failure> {
    let tokens = match lexer::next_statement(text, at) {
        Some(tokens) => tokens,
        None => return Ok(None),
    };
    let mut parser = Parser::new(text, &tokens);
    let start = parser.start();
    let is_parameter = |token: &&Token| matches!(token.kind, TokenKind::Parameter(_));
    if let Some(parameter) = tokens.list.iter().find(is_parameter) {
        return Err(Report::missing("a parameter in a string").at(parameter.span().start));
    }
    let outline = parser.outline()?;
    parser.expect_end()?;
    Ok(Some((parser.span_from(start), outline)))
}

/// Reads the next statement of `text`, from the byte `at`, and moves `at` behind it and its semicolon. None: there is none.
///
/// # Errors
///
/// Fails at what PostgreSQL's grammar doesn't have, and at what is missing here.
pub fn next_statement(text: &str, at: &mut usize) -> Result<Option<Rc<Parsed>>, Failure> {
    let tokens = match lexer::next_statement(text, at) {
        Some(tokens) => tokens,
        None => return Ok(None),
    };
    let mut parser = Parser::new(text, &tokens);
    let statement = parser.statement()?;
    let parameter = tokens.list.iter().find_map(|token| match token.kind {
        TokenKind::Parameter(number) => Some((number, token.span().start)),
        _ => None,
    });
    let places = match parameter {
        Some(_) => parameters::places(&statement, &tokens.list),
        None => Vec::new(),
    };
    let names = places.iter().map(Place::size).sum::<usize>();
    let size = parser.size + names + size_of::<Parsed>();
    Ok(Some(Rc::new(Parsed {
        statement,
        places,
        parameter,
        size,
    })))
}

impl<'a> Parser<'a> {
    /// Begins at the first token of a statement.
    pub fn new(text: &'a str, tokens: &'a Tokens) -> Parser<'a> {
        Parser {
            text,
            tokens,
            at: 0,
            depth: 0,
            size: 0,
        }
    }

    /// Returns the next token.
    fn peek(&self) -> Option<&'a Token> {
        self.tokens.list.get(self.at)
    }

    /// Returns the token at this distance behind the next one.
    fn peek_at(&self, ahead: usize) -> Option<&'a Token> {
        self.tokens.list.get(self.at + ahead)
    }

    /// Returns the kind of the next token.
    fn kind(&self) -> Option<TokenKind> {
        self.peek().map(|token| token.kind)
    }

    /// Returns where the next token begins.
    fn start(&self) -> usize {
        self.peek()
            .map_or(self.tokens.end.start, |token| token.span().start)
    }

    /// Returns the piece of the text from this byte up to the last token that was read.
    fn span_from(&self, start: usize) -> Span {
        let end = match self.at.checked_sub(1) {
            Some(last) => self.tokens.list[last].span().end,
            None => start,
        };
        Span { start, end }
    }

    /// Returns the next token if it is a word, as it is written.
    fn word(&self) -> Option<&'a str> {
        self.word_at(0)
    }

    fn word_at(&self, ahead: usize) -> Option<&'a str> {
        self.peek_at(ahead)
            .filter(|token| token.kind == TokenKind::Word)
            .map(|token| token.text(self.text))
    }

    /// Returns the keyword that the token at this distance is, in capitals.
    fn keyword_at(&self, ahead: usize) -> Option<&'static str> {
        self.peek_at(ahead)?.keyword
    }

    /// Returns whether the next token is this keyword.
    #[inline]
    fn at_keyword(&self, keyword: &str) -> bool {
        self.at_keyword_ahead(0, keyword)
    }

    #[inline]
    fn at_keyword_ahead(&self, ahead: usize, keyword: &str) -> bool {
        debug_assert_eq!(keywords::find(keyword), Some(keyword));
        self.keyword_at(ahead) == Some(keyword)
    }

    /// Returns whether the next tokens are these keywords.
    fn at_keywords(&self, keywords: &[&str]) -> bool {
        keywords
            .iter()
            .enumerate()
            .all(|(ahead, keyword)| self.at_keyword_ahead(ahead, keyword))
    }

    /// Moves behind the next token if it is this keyword, and returns whether it was.
    #[inline]
    fn keyword(&mut self, keyword: &str) -> bool {
        let found = self.at_keyword(keyword);
        self.at += usize::from(found);
        found
    }

    /// Moves behind the next tokens if they are these keywords, and returns whether they were.
    fn keywords(&mut self, keywords: &[&str]) -> bool {
        let found = self.at_keywords(keywords);
        if found {
            self.at += keywords.len();
        }
        found
    }

    /// Moves behind the next token if it is one of these keywords, and returns which.
    fn keyword_of(&mut self, keywords: &[&str]) -> Option<&'static str> {
        let found = self
            .keyword_at(0)
            .filter(|found| keywords.contains(found))?;
        self.at += 1;
        Some(found)
    }

    /// Moves behind the next token, which has to be this keyword.
    fn expect_keyword(&mut self, keyword: &str) -> Result<(), Failure> {
        if self.keyword(keyword) {
            Ok(())
        } else {
            Err(self.fault())
        }
    }

    /// Returns whether the token at this distance is this character.
    #[inline]
    fn at_symbol(&self, ahead: usize, symbol: u8) -> bool {
        self.peek_at(ahead)
            .map_or(false, |token| token.kind == TokenKind::Symbol(symbol))
    }

    /// Moves behind the next token if it is this character, and returns whether it was.
    #[inline]
    fn symbol(&mut self, symbol: u8) -> bool {
        let found = self.at_symbol(0, symbol);
        self.at += usize::from(found);
        found
    }

    /// Moves behind the next token, which has to be this character.
    fn expect_symbol(&mut self, symbol: u8) -> Result<(), Failure> {
        if self.symbol(symbol) {
            Ok(())
        } else {
            Err(self.fault())
        }
    }

    /// Returns the next token as it is written, if it is an operator.
    fn operator(&self) -> Option<&'a str> {
        self.operator_at(0)
    }

    fn operator_at(&self, ahead: usize) -> Option<&'a str> {
        self.peek_at(ahead)
            .filter(|token| token.kind == TokenKind::Operator)
            .map(|token| token.text(self.text))
    }

    /// Moves behind the next token if it is this operator, and returns whether it was.
    fn take_operator(&mut self, operator: &str) -> bool {
        let found = self.operator() == Some(operator);
        self.at += usize::from(found);
        found
    }

    /// Fails unless all tokens were read.
    fn expect_end(&self) -> Result<(), Failure> {
        if self.at == self.tokens.list.len() && self.tokens.fault.is_none() {
            Ok(())
        } else {
            Err(self.fault())
        }
    }

    /// Makes the report of a syntax error at the next token.
    fn fault(&self) -> Failure {
        let span = match (self.peek(), &self.tokens.fault) {
            (Some(token), _) => token.span(),
            (None, Some(fault)) => return fault.clone(),
            (None, None) => self.tokens.end,
        };
        Report::syntax(self.text, span.start, span.end)
    }

    /// Makes the report of something at the next token that PostgreSQL has and that is missing here.
    fn missing(&self, what: &str) -> Failure {
        Report::missing(what).at(self.start())
    }

    /// Reads a piece that may have others of its kind inside of it.
    #[inline]
    fn nested<T>(
        &mut self,
        read: impl FnOnce(&mut Self) -> Result<T, Failure>,
    ) -> Result<T, Failure> {
        self.enter()?;
        let result = read(self);
        self.depth -= 1;
        result
    }

    /// Begins a piece that may have others of its kind inside of it. Where it ends, `depth` is one less again.
    fn enter(&mut self) -> Result<(), Failure> {
        if self.depth == MOST_DEPTH {
            let text = "stack depth limit exceeded";
            let detail = "The pieces of a statement may be 100 deep inside of each other.";
            let report = Report::error(SqlState::STATEMENT_TOO_COMPLEX, text).detail(detail);
            return Err(report.at(self.start()));
        }
        self.depth += 1;
        Ok(())
    }

    /// Reads one or several pieces with commas between them.
    fn list<T>(
        &mut self,
        mut read: impl FnMut(&mut Self) -> Result<T, Failure>,
    ) -> Result<Vec<T>, Failure> {
        let first = read(self)?;
        let usual = if self.at_symbol(0, b',') { 4 } else { 1 };
        let mut list = Vec::with_capacity(usual);
        list.push(first);
        while self.symbol(b',') {
            list.push(read(self)?);
        }
        self.size += list.capacity() * size_of::<T>();
        Ok(list)
    }

    /// Reads one or several pieces with commas between them, and parentheses around them.
    fn list_in_parentheses<T>(
        &mut self,
        read: impl FnMut(&mut Self) -> Result<T, Failure>,
    ) -> Result<Vec<T>, Failure> {
        self.expect_symbol(b'(')?;
        let list = self.list(read)?;
        self.expect_symbol(b')')?;
        Ok(list)
    }

    /// Reads a name, of which `may_be` says whether a keyword in lower case is one.
    fn name_if(&mut self, may_be: fn(&str) -> bool) -> Result<Name, Failure> {
        match self.optional_name_if(may_be) {
            Some(name) => Ok(name),
            None => Err(self.fault()),
        }
    }

    /// Reads a name, if the next token is one.
    fn optional_name_if(&mut self, may_be: fn(&str) -> bool) -> Option<Name> {
        let token = self.peek()?;
        let is_quoted = match token.kind {
            TokenKind::Word => false,
            TokenKind::QuotedName => true,
            _ => return None,
        };
        let text = literal::folded(token.text(self.text), is_quoted);
        if token.keyword.is_some() && !may_be(&text) {
            return None;
        }
        self.at += 1;
        self.size += text.capacity();
        Some(Name {
            text,
            span: token.span(),
        })
    }

    /// Reads the name of a column or a table.
    fn name(&mut self) -> Result<Name, Failure> {
        self.name_if(keywords::may_name_column)
    }

    /// Reads a name behind a point or behind AS, where every word is one.
    fn label(&mut self) -> Result<Name, Failure> {
        self.name_if(|_| true)
    }

    /// Reads the name of a column or a table, if the next token is one.
    fn optional_name(&mut self) -> Option<Name> {
        self.optional_name_if(keywords::may_name_column)
    }

    /// Reads a name that may have its schema in front, and in front of that the database.
    fn qualified_name(&mut self) -> Result<QualifiedName, Failure> {
        let first = self.name()?;
        self.qualified_by(first)
    }

    /// Reads what may follow the first name of a qualified one.
    fn qualified_by(&mut self, first: Name) -> Result<QualifiedName, Failure> {
        if !self.at_symbol(0, b'.') {
            return Ok(QualifiedName {
                schema: None,
                name: first,
            });
        }
        let mut names = vec![first];
        while self.symbol(b'.') {
            names.push(self.label()?);
        }
        self.qualified(names)
    }

    /// Makes a name of its parts.
    fn qualified(&self, mut names: Vec<Name>) -> Result<QualifiedName, Failure> {
        let start = names.first().map_or(0, |name| name.span.start);
        match (names.pop(), names.pop(), names.is_empty()) {
            (Some(name), schema, true) => Ok(QualifiedName { schema, name }),
            _ => Err(Report::missing("a name with its database in front").at(start)),
        }
    }
}

#[cfg(test)]
mod tests {
    use super::*;
    use crate::statement::query::{Body, ExpressionKind, Target};
    use proptest::prelude::*;

    /// Writes an expression with parentheses around each operation.
    fn grouped(text: &str) -> String {
        fn write(kind: &ExpressionKind) -> String {
            match kind {
                ExpressionKind::Number(written) => written.clone(),
                ExpressionKind::Text(text) => format!("'{}'", text),
                ExpressionKind::Column(column) => {
                    let names = column.names().iter();
                    let names: Vec<&str> = names.map(|name| name.text.as_str()).collect();
                    names.join(".")
                }
                ExpressionKind::Unary(operator, operand) => {
                    format!("({} {})", operator, write(&operand.kind))
                }
                ExpressionKind::Binary(left, operator, right) => {
                    format!(
                        "({} {} {})",
                        write(&left.kind),
                        operator,
                        write(&right.kind)
                    )
                }
                ExpressionKind::Cast(operand, to) => {
                    format!(
                        "({}::{}{:?})",
                        write(&operand.kind),
                        to.name.name.text,
                        to.modifiers
                    )
                }
                ExpressionKind::Is(operand, what, not) => {
                    format!(
                        "({} is {}{:?})",
                        write(&operand.kind),
                        if *not { "not " } else { "" },
                        what
                    )
                }
                ExpressionKind::Between(operand, low, high, _) => {
                    format!(
                        "({} in {}..{})",
                        write(&operand.kind),
                        write(&low.kind),
                        write(&high.kind)
                    )
                }
                other => format!("{:?}", other),
            }
        }
        let query = parse_query(&format!("SELECT {}", text)).unwrap();
        match query.body {
            Body::Select(select) => match &select.targets[..] {
                [Target::Expression(expression, None)] => write(&expression.kind),
                targets => panic!("{:?}", targets),
            },
            body => panic!("{:?}", body),
        }
    }

    fn fault(text: &str) -> (&'static str, Option<usize>, String) {
        let report = parse_query(text).unwrap_err();
        (
            report.state.code(),
            report.place,
            report.message.to_string(),
        )
    }

    #[test]
    fn operators_bind_as_in_postgresql() {
        for (text, expected) in [
            ("1 + 2 * 3 ^ 4 ^ 5", "(1 + (2 * ((3 ^ 4) ^ 5)))"),
            ("- 1 ^ 2", "((- 1) ^ 2)"),
            ("-1::int", "(- (1::int4[]))"),
            ("@ -5 + 3 || 'a'", "((@ ((- 5) + 3)) || 'a')"),
            ("NOT a = b OR c AND d", "((NOT (a = b)) OR (c AND d))"),
            ("a = b IS NULL", "((a = b) is Null)"),
            ("a IS NOT NULL = b", "((a is not Null) = b)"),
            ("a BETWEEN 1 AND 2 + 3 AND c", "((a in 1..(2 + 3)) AND c)"),
            ("a NOT LIKE b || c", "(a !~~ (b || c))"),
            ("a OPERATOR(pg_catalog.~) 'x'", "(a ~ 'x')"),
            ("1 =-1", "(1 = (- 1))"),
            ("1@-1", "(1 @- 1)"),
            ("a!=b", "(a <> b)"),
            ("CAST('1' AS NUMERIC(5,2))", "('1'::numeric[5, 2])"),
            ("character varying(3) 'x'", "('x'::varchar[3])"),
            ("A.\"B\".c", "a.B.c"),
            ("E'\\x41' -- it's\n'b'", "'Ab'"),
            ("$a$it's$$a$", "'it's$'"),
        ] {
            assert_eq!(grouped(text), expected, "{}", text);
        }
    }

    #[test]
    fn faults_are_shown_where_postgresql_15_shows_them() {
        let syntax = |piece: &str| format!("syntax error at or near \"{}\"", piece);
        for (text, place, message) in [
            ("SELECT 1..5", 8, syntax("..")),
            ("SELECT 1$1", 8, syntax("$1")),
            ("SELECT 1.5.6", 10, syntax(".6")),
            ("SELECT 'a'E'b'", 10, syntax("E'b'")),
            ("SELECT a < b < c", 13, syntax("<")),
            ("SELECT * FROM a b c", 18, syntax("c")),
            ("SELECT * FROM select", 14, syntax("select")),
            ("SELECT f(", 9, "syntax error at end of input".to_owned()),
            ("SELECT (1;", 9, syntax(";")),
            ("((1))", 2, syntax("1")),
            (
                "SELECT 12abc",
                7,
                "trailing junk after numeric literal at or near \"12abc\"".to_owned(),
            ),
            (
                "SELECT $1a",
                7,
                "trailing junk after parameter at or near \"$1a\"".to_owned(),
            ),
            (
                "SELECT 1 'x",
                9,
                "unterminated quoted string at or near \"'x\"".to_owned(),
            ),
        ] {
            assert_eq!(fault(text), ("42601", Some(place), message), "{}", text);
        }
    }

    #[test]
    fn an_operator_has_at_most_63_bytes() {
        assert_eq!(fault(&format!("SELECT 1 {} 2", "~".repeat(64))).0, "42601");
        assert!(parse_query(&format!("SELECT 1 {} 2", "~".repeat(63))).is_ok());
    }

    #[test]
    fn what_is_missing_is_named() {
        for text in [
            "SELECT N'a'",
            "SELECT B'1'",
            "SELECT U&'a'",
            "SELECT row_number() OVER w FROM t",
            "SELECT row_number() OVER (ORDER BY a ROWS 1 PRECEDING) FROM t",
            "SELECT * INTO b FROM a",
            "SELECT a.b.c.d.e()",
        ] {
            assert_eq!(fault(text).0, "0A000", "{}", text);
        }
    }

    #[test]
    fn depth_and_length_are_bounded() {
        let deep = |open: &str, close: &str, count| {
            format!("SELECT {}1{}", open.repeat(count), close.repeat(count))
        };
        let check = move || {
            assert!(parse_query(&deep("(", ")", 40)).is_ok());
            for text in [
                deep("(", ")", 2_000),
                deep("(SELECT ", ")", 1_000),
                deep("- ", "", 4_000),
                deep("CASE WHEN ", "", 2_000),
                format!("SELECT * FROM {}a", "(".repeat(4_000)),
                format!("SELECT 1 {}", "UNION (SELECT 1 ".repeat(1_000)),
            ] {
                assert_eq!(fault(&text).0, "54001", "{}", &text[..20]);
            }
            assert_eq!(
                fault(&format!("SELECT 1{}", " + 1".repeat(4_000))).0,
                "54000"
            );
            assert!(parse_query(&format!("SELECT 1{}", " + 1".repeat(2_000))).is_ok());
        };
        // The stack of a program's first thread; without optimization calls take more of it.
        let thread = std::thread::Builder::new().stack_size(8 << 20);
        thread.spawn(check).unwrap().join().unwrap();
    }

    proptest! {
        #[test]
        fn any_words_are_read_or_refused(
            words in prop::collection::vec(
                prop::sample::select(vec![
                    "SELECT", "FROM", "t", "*", "(", ")", "=", "'x'", "1", "$1", ",", "-", "::", "int", "CAST", "AS",
                    "AND", "NOT", "IN", "IS", "NULL", "JOIN", "ON", "LEFT", "UNION", "VALUES", "ORDER", "BY", "LIMIT",
                    "FOR", "UPDATE", "CASE", "WHEN", "THEN", "END", ".", "[", "]", "ARRAY", "EXISTS", "BETWEEN",
                ]),
                0..14,
            )
        ) {
            let text = format!("SELECT {}", words.join(" "));
            if let Err(report) = parse_query(&text) {
                prop_assert!(report.place.map_or(false, |place| place <= text.len()), "{}", text);
            }
        }
    }

    #[test]
    fn outlines_are_read_as_postgresql_does() {
        let read = |text: &str| {
            let mut at = 0;
            let mut found = Vec::new();
            while let Some((span, outline)) = next_outline(text, &mut at)? {
                let is_data = outline == Outline::Data;
                found.push((text[span.start..span.end].to_owned(), is_data));
            }
            Ok::<_, Failure>(found)
        };
        let text = "BEGIN; /* a; */ INSERT INTO t VALUES (1, ';', DEFAULT) ;; COMMIT AND CHAIN";
        let expected = [
            ("BEGIN".to_owned(), false),
            ("INSERT INTO t VALUES (1, ';', DEFAULT)".to_owned(), true),
            ("COMMIT AND CHAIN".to_owned(), false),
        ];
        assert_eq!(read(text).unwrap(), expected);
        for text in [
            "INSERT INTO s.t AS x (a, b) SELECT 1, now() FROM u WHERE a = ANY ('{1}') RETURNING *",
            "INSERT INTO t DEFAULT VALUES ON CONFLICT DO NOTHING",
            "INSERT INTO t (a) VALUES (1) ON CONFLICT (a) DO UPDATE SET b = t.b + excluded.b WHERE t.b > 0 RETURNING a AS x",
            "INSERT INTO t (a) VALUES (1) ON CONFLICT ON CONSTRAINT k DO NOTHING",
            "DELETE FROM ONLY t AS x WHERE a IN (SELECT 1) RETURNING x.a",
            "UPDATE t SET a = 1",
            "WITH x (a) AS MATERIALIZED (DELETE FROM t RETURNING a), y AS (SELECT 1) UPDATE t SET a = 2 WHERE a = 1 RETURNING a",
            "WITH x AS (WITH y AS (SELECT 1) SELECT * FROM y) INSERT INTO t SELECT * FROM x",
            "SAVEPOINT a",
            "SET a.b = 'c'",
            "(SELECT 1) UNION SELECT 2",
        ] {
            assert_eq!(read(text).unwrap().len(), 1, "{text}");
        }
        for text in [
            "SELEC 1",
            "INSERT t VALUES (1)",
            "INSERT INTO t VALUES (1) ON CONFLICT",
            "INSERT INTO t VALUES (1) ON CONFLICT DO UPDATE",
            "INSERT INTO t VALUES (1,)",
            "INSERT INTO t VALUES (1) RETURNING",
            "DELETE t",
            "DELETE FROM t WHERE",
            "UPDATE t SET a = 1 WHERE a = 1 b",
            "WITH x AS (DELETE FROM t) ",
            "WITH x AS DELETE FROM t SELECT 1",
            "COMMIT 1",
            "SELECT 1; SELECT (",
            // Read by PostgreSQL, and not sent with others.
            "VACUUM",
            "COPY t FROM STDIN",
            "SELECT $1",
            "CALL p()",
        ] {
            assert!(read(text).is_err(), "{text}");
        }
    }
}
