//! Expressions (manual 4.2; `a_expr` and `c_expr` of PostgreSQL's grammar).

use std::borrow::Cow;
use std::mem::size_of;

use crate::sqlstate::{Failure, Report};
use crate::statement::literal;
use crate::statement::parser::lexer::Token;
use crate::statement::parser::{keywords, Parser, TokenKind};
use crate::statement::query::{
    ColumnName, Expression, ExpressionKind, FunctionCall, IsWhat, Name, Operator, QualifiedName,
    Query, Span, TypeName, Window,
};

/// About what an expression takes beside itself: the name of its operator, and what the memory needs to know of it.
const OVERHEAD: usize = 48;

/// How tightly an operator binds what is around it, as PostgreSQL's grammar orders them.
#[derive(Clone, Copy, Debug, PartialEq, Eq, PartialOrd, Ord)]
pub(super) enum Binding {
    Or,
    And,
    Not,
    Is,
    Comparison,
    Membership,
    Operator,
    Sum,
    Product,
    Power,
    TimeZone,
    Collate,
    Sign,
    Subscript,
}

impl Binding {
    /// Returns the next tighter one.
    fn tighter(self) -> Binding {
        match self {
            Binding::Or => Binding::And,
            Binding::And => Binding::Not,
            Binding::Not => Binding::Is,
            Binding::Is => Binding::Comparison,
            Binding::Comparison => Binding::Membership,
            Binding::Membership => Binding::Operator,
            Binding::Operator => Binding::Sum,
            Binding::Sum => Binding::Product,
            Binding::Product => Binding::Power,
            Binding::Power => Binding::TimeZone,
            Binding::TimeZone => Binding::Collate,
            Binding::Collate => Binding::Sign,
            Binding::Sign | Binding::Subscript => Binding::Subscript,
        }
    }
}

/// The name of an operator.
type OperatorName = Cow<'static, str>;

/// Returns the name of an operator that is written with signs, and how tightly it binds. None: no operands are around it.
fn operator_of(written: &str) -> (OperatorName, Option<Binding>) {
    let (name, binding) = match written {
        "=" => ("=", Binding::Comparison),
        "<" => ("<", Binding::Comparison),
        ">" => (">", Binding::Comparison),
        "<=" => ("<=", Binding::Comparison),
        ">=" => (">=", Binding::Comparison),
        "<>" | "!=" => ("<>", Binding::Comparison),
        "+" => ("+", Binding::Sum),
        "-" => ("-", Binding::Sum),
        "*" => ("*", Binding::Product),
        "/" => ("/", Binding::Product),
        "%" => ("%", Binding::Product),
        "^" => ("^", Binding::Power),
        "=>" => return (written.to_owned().into(), None),
        _ => return (written.to_owned().into(), Some(Binding::Operator)),
    };
    (name.into(), Some(binding))
}

/// What was read in parentheses.
pub(super) enum Parenthesized {
    /// A query.
    Query(Box<Query>),
    /// An expression.
    Expression(Expression),
}

/// An operator between two expressions.
enum Infix {
    /// It is written with signs, or as AND, OR, LIKE.
    Binary(OperatorName),
    /// OPERATOR()
    Named,
    /// IS and what follows.
    Is,
    /// ISNULL; true: NOTNULL.
    IsNull(bool),
    /// IN; true: NOT IN.
    In(bool),
    /// BETWEEN; true: NOT BETWEEN.
    Between(bool),
    /// AT TIME ZONE
    TimeZone,
    /// COLLATE
    Collate,
}

impl<'a> Parser<'a> {
    pub(super) fn expression_of(&mut self, kind: ExpressionKind, start: usize) -> Expression {
        self.size += size_of::<Expression>() + OVERHEAD;
        // What these have in a box of its own.
        self.size += match kind {
            ExpressionKind::Cast(..) => size_of::<TypeName>() + OVERHEAD,
            ExpressionKind::Function(_) => size_of::<FunctionCall>() + OVERHEAD,
            ExpressionKind::Collate(..) => size_of::<QualifiedName>() + OVERHEAD,
            _ => 0,
        };
        let span = self.span_from(start);
        Expression { kind, span }
    }

    /// Reads an expression.
    pub(super) fn expression(&mut self) -> Result<Expression, Failure> {
        self.expression_bound(Binding::Or)
    }

    /// Reads an expression of operators that bind at least so tightly.
    pub(super) fn expression_bound(&mut self, least: Binding) -> Result<Expression, Failure> {
        self.enter()?;
        let expression = match self.prefixed() {
            Ok(left) if self.at_infix() => self.continued(left, least),
            operand => operand,
        };
        self.depth -= 1;
        expression
    }

    /// Reads an operand with what may be in front of it.
    fn prefixed(&mut self) -> Result<Expression, Failure> {
        let token = match self.peek() {
            Some(token) => token,
            None => return Err(self.fault()),
        };
        let is_prefix =
            token.kind == TokenKind::Operator || matches!(token.keyword, Some("NOT" | "OPERATOR"));
        if !is_prefix {
            return self.primary();
        }
        let span = token.span();
        if self.keyword("NOT") {
            return self.unary("NOT".into(), Binding::Not, span);
        }
        let (name, binding) = match self.operator().map(operator_of) {
            Some((sign, Some(Binding::Sum))) => (sign, Binding::Sign),
            Some((operator, Some(Binding::Operator))) => (operator, Binding::Sum),
            Some(_) => return Err(self.fault()),
            None if self.at_keyword("OPERATOR") && self.at_symbol(1, b'(') => {
                let name = self.named_operator()?;
                return self.unary(name, Binding::Sum, span);
            }
            None => return self.primary(),
        };
        self.at += 1;
        self.unary(name, binding, span)
    }

    /// Reads the operand of an operator in front.
    fn unary(
        &mut self,
        name: OperatorName,
        binding: Binding,
        span: Span,
    ) -> Result<Expression, Failure> {
        let operand = Box::new(self.expression_bound(binding)?);
        let kind = ExpressionKind::Unary(Operator { name, span }, operand);
        Ok(self.expression_of(kind, span.start))
    }

    /// Returns whether an operator may be here.
    fn at_infix(&self) -> bool {
        self.peek().map_or(false, |token| {
            token.kind == TokenKind::Operator || token.keyword.is_some()
        })
    }

    /// Returns the operator that follows an operand, how tightly it binds, and how many tokens it has.
    fn infix(&mut self) -> Option<(Infix, Binding, usize)> {
        if let Some(written) = self.operator() {
            let (operator, binding) = operator_of(written);
            return Some((Infix::Binary(operator), binding?, 1));
        }
        let binary = |name| Infix::Binary(Cow::Borrowed(name));
        Some(match self.keyword_at(0)? {
            "AND" => (binary("AND"), Binding::And, 1),
            "OR" => (binary("OR"), Binding::Or, 1),
            "IS" => (Infix::Is, Binding::Is, 1),
            "IN" => (Infix::In(false), Binding::Membership, 1),
            "LIKE" => (binary("~~"), Binding::Membership, 1),
            "ILIKE" => (binary("~~*"), Binding::Membership, 1),
            "BETWEEN" => (Infix::Between(false), Binding::Membership, 1),
            "ISNULL" => (Infix::IsNull(false), Binding::Is, 1),
            "NOTNULL" => (Infix::IsNull(true), Binding::Is, 1),
            "COLLATE" => (Infix::Collate, Binding::Collate, 1),
            "OPERATOR" if self.at_symbol(1, b'(') => (Infix::Named, Binding::Operator, 0),
            "AT" if self.at_keywords(&["AT", "TIME", "ZONE"]) => {
                (Infix::TimeZone, Binding::TimeZone, 3)
            }
            "NOT" => match self.keyword_at(1)? {
                "IN" => (Infix::In(true), Binding::Membership, 2),
                "LIKE" => (binary("!~~"), Binding::Membership, 2),
                "ILIKE" => (binary("!~~*"), Binding::Membership, 2),
                "BETWEEN" => (Infix::Between(true), Binding::Membership, 2),
                _ => return None,
            },
            _ => return None,
        })
    }

    /// Reads the operators behind an operand that bind at least so tightly, with their right sides.
    pub(super) fn continued(
        &mut self,
        mut left: Expression,
        least: Binding,
    ) -> Result<Expression, Failure> {
        // Of operators like these PostgreSQL's grammar takes only one.
        let mut last = None;
        while let Some((infix, binding, tokens)) = self.infix() {
            if binding < least {
                break;
            }
            if last == Some(binding) {
                return Err(self.fault());
            }
            let span = self.peek().map_or_else(Span::default, Token::span);
            self.at += tokens;
            let is_closed;
            (left, is_closed) = self.infix_applied(left, infix, binding, span)?;
            let is_single = matches!(
                binding,
                Binding::Is | Binding::Comparison | Binding::Membership
            );
            last = (is_single && !is_closed).then_some(binding);
        }
        if self.at_keyword_ahead(usize::from(self.at_keyword("NOT")), "SIMILAR") {
            return Err(self.missing("SIMILAR TO"));
        }
        Ok(left)
    }

    /// Reads what follows an operator. Also returns whether it ends without an operand, or with one in parentheses.
    fn infix_applied(
        &mut self,
        left: Expression,
        infix: Infix,
        binding: Binding,
        span: Span,
    ) -> Result<(Expression, bool), Failure> {
        let start = left.span.start;
        let left = Box::new(left);
        let kind = match infix {
            Infix::Binary(_) | Infix::Named => {
                let name = match infix {
                    Infix::Binary(name) => name,
                    _ => self.named_operator()?,
                };
                let operator = Operator { name, span };
                if let Some(word) = self.keyword_of(&["ANY", "SOME", "ALL"]) {
                    let right = Box::new(self.in_parentheses()?);
                    let kind = ExpressionKind::Quantified(left, operator, word == "ALL", right);
                    return Ok((self.expression_of(kind, start), true));
                }
                let right = self.expression_bound(binding.tighter())?;
                if self.at_keyword("ESCAPE") && binding == Binding::Membership {
                    return Err(self.missing("ESCAPE"));
                }
                ExpressionKind::Binary(left, operator, Box::new(right))
            }
            Infix::Is => {
                let kind = self.is_what(left, span)?;
                let is_closed = matches!(kind, ExpressionKind::Is(..));
                return Ok((self.expression_of(kind, start), is_closed));
            }
            Infix::IsNull(not) => {
                let kind = ExpressionKind::Is(left, IsWhat::Null, not);
                return Ok((self.expression_of(kind, start), true));
            }
            Infix::In(not) => {
                let kind = self.members(left, not)?;
                return Ok((self.expression_of(kind, start), true));
            }
            Infix::Between(not) => {
                if self.at_keyword("SYMMETRIC") {
                    return Err(self.missing("BETWEEN SYMMETRIC"));
                }
                self.keyword("ASYMMETRIC");
                let low = self.expression_bound(Binding::Operator)?;
                self.expect_keyword("AND")?;
                let high = self.expression_bound(Binding::Operator)?;
                ExpressionKind::Between(left, Box::new(low), Box::new(high), not)
            }
            Infix::TimeZone => {
                let zone = self.expression_bound(Binding::Collate)?;
                self.call_of("timezone", vec![zone, *left], start)
            }
            Infix::Collate => {
                let collation = self.qualified_name()?;
                ExpressionKind::Collate(left, Box::new(collation))
            }
        };
        Ok((self.expression_of(kind, start), false))
    }

    fn is_what(&mut self, left: Box<Expression>, span: Span) -> Result<ExpressionKind, Failure> {
        let not = self.keyword("NOT");
        if self.keywords(&["DISTINCT", "FROM"]) {
            let name = if not {
                "IS NOT DISTINCT FROM".into()
            } else {
                "IS DISTINCT FROM".into()
            };
            let right = Box::new(self.expression_bound(Binding::Comparison)?);
            let operator = Operator { name, span };
            return Ok(ExpressionKind::Binary(left, operator, right));
        }
        let what = match self.keyword_of(&["NULL", "TRUE", "FALSE", "UNKNOWN"]) {
            Some("NULL") => IsWhat::Null,
            Some("TRUE") => IsWhat::True,
            Some("FALSE") => IsWhat::False,
            Some(_) => IsWhat::Unknown,
            None => return Err(self.fault()),
        };
        Ok(ExpressionKind::Is(left, what, not))
    }

    /// Reads what is behind IN.
    fn members(&mut self, left: Box<Expression>, not: bool) -> Result<ExpressionKind, Failure> {
        if self.at_query(1) && self.at_symbol(0, b'(') {
            if let Parenthesized::Query(query) = self.parenthesized()? {
                return Ok(ExpressionKind::InQuery(left, query, not));
            }
        }
        let members = self.list_in_parentheses(Self::expression)?;
        Ok(ExpressionKind::In(left, members, not))
    }

    /// Reads one expression, or a query, in parentheses.
    fn in_parentheses(&mut self) -> Result<Expression, Failure> {
        let start = self.start();
        if !self.at_symbol(0, b'(') {
            return Err(self.fault());
        }
        Ok(match self.parenthesized()? {
            Parenthesized::Query(query) => {
                self.expression_of(ExpressionKind::Subquery(query), start)
            }
            Parenthesized::Expression(expression) => expression,
        })
    }

    /// Reads `OPERATOR(schema.operator)`.
    fn named_operator(&mut self) -> Result<OperatorName, Failure> {
        let start = self.start();
        self.at += 2;
        if self.operator().is_none() {
            let schema = self.name()?;
            self.expect_symbol(b'.')?;
            if schema.text != "pg_catalog" {
                let text = format!("an operator of the schema {}", schema.text);
                return Err(Report::missing(&text).at(start));
            }
        }
        let operator = match self.operator() {
            Some(written) => operator_of(written).0,
            None => return Err(self.fault()),
        };
        self.at += 1;
        self.expect_symbol(b')')?;
        Ok(operator)
    }

    /// Returns how far the first token is, from this distance on, that opens no parenthesis.
    pub(super) fn behind_parentheses(&self, ahead: usize) -> usize {
        let is_open = |token: &&Token| token.kind == TokenKind::Symbol(b'(');
        let rest = self.tokens.list.get(self.at + ahead..).unwrap_or(&[]);
        ahead + rest.iter().take_while(is_open).count()
    }

    /// Returns whether a query begins at this distance, behind parentheses perhaps.
    pub(super) fn at_query(&self, ahead: usize) -> bool {
        let first = self.behind_parentheses(ahead);
        matches!(
            self.keyword_at(first),
            Some("SELECT" | "VALUES" | "WITH" | "TABLE")
        )
    }

    /// Reads what is in parentheses: an expression, several (a row), or a query.
    pub(super) fn parenthesized(&mut self) -> Result<Parenthesized, Failure> {
        self.nested(|parser| {
            let start = parser.start();
            parser.expect_symbol(b'(')?;
            let first = if parser.at_symbol(0, b'(') {
                let inner = parser.start();
                match parser.parenthesized()? {
                    Parenthesized::Query(query)
                        if parser.at_symbol(0, b')') || parser.at_query_end() =>
                    {
                        let query = parser.query_from(*query)?;
                        parser.expect_symbol(b')')?;
                        return Ok(Parenthesized::Query(Box::new(query)));
                    }
                    Parenthesized::Query(query) => {
                        let kind = ExpressionKind::Subquery(query);
                        let operand = parser.expression_of(kind, inner);
                        let operand = parser.postfixed(operand)?;
                        parser.continued(operand, Binding::Or)?
                    }
                    Parenthesized::Expression(operand) => {
                        let operand = parser.postfixed(operand)?;
                        parser.continued(operand, Binding::Or)?
                    }
                }
            } else if parser.at_query(0) {
                let query = parser.query()?;
                parser.expect_symbol(b')')?;
                return Ok(Parenthesized::Query(Box::new(query)));
            } else {
                parser.expression()?
            };
            let kind = if parser.symbol(b',') {
                let mut row = vec![first];
                row.append(&mut parser.list(Self::expression)?);
                parser.size += row.capacity() * size_of::<Expression>();
                ExpressionKind::Row(row)
            } else {
                first.kind
            };
            parser.expect_symbol(b')')?;
            let span = parser.span_from(start);
            Ok(Parenthesized::Expression(Expression { kind, span }))
        })
    }

    /// Reads an operand, with the casts and subscripts behind it.
    fn primary(&mut self) -> Result<Expression, Failure> {
        let operand = self.operand()?;
        self.postfixed(operand)
    }

    /// Reads the casts and subscripts behind an operand. Only a column, a parameter and what is in parentheses has
    /// subscripts and fields (`c_expr` of PostgreSQL's grammar).
    pub(super) fn postfixed(&mut self, mut operand: Expression) -> Result<Expression, Failure> {
        let start = operand.span.start;
        let is_in_parentheses = self.text.as_bytes().get(start) == Some(&b'(')
            && !matches!(operand.kind, ExpressionKind::Row(_));
        let mut may_be_indirected = is_in_parentheses
            || matches!(
                operand.kind,
                ExpressionKind::Column(_) | ExpressionKind::Parameter(_)
            );
        loop {
            let kind = match self.kind() {
                Some(TokenKind::Cast) => {
                    self.at += 1;
                    may_be_indirected = false;
                    ExpressionKind::Cast(Box::new(operand), Box::new(self.type_name()?))
                }
                Some(TokenKind::Symbol(b'[')) if may_be_indirected => {
                    self.at += 1;
                    let subscript = self.expression()?;
                    if self.at_symbol(0, b':') {
                        return Err(self.missing("a slice of an array"));
                    }
                    self.expect_symbol(b']')?;
                    ExpressionKind::Subscript(Box::new(operand), Box::new(subscript))
                }
                Some(TokenKind::Symbol(b'.')) if may_be_indirected => {
                    self.at += 1;
                    ExpressionKind::Field(Box::new(operand), self.label()?)
                }
                _ => return Ok(operand),
            };
            operand = self.expression_of(kind, start);
        }
    }

    /// Reads an operand without casts and subscripts.
    pub(super) fn operand(&mut self) -> Result<Expression, Failure> {
        let start = self.start();
        let token = match self.peek() {
            Some(token) => token,
            None => return Err(self.fault()),
        };
        let kind = match token.kind {
            TokenKind::Number => {
                self.at += 1;
                let number = token.text(self.text).to_owned();
                self.size += number.len();
                ExpressionKind::Number(number)
            }
            TokenKind::Text | TokenKind::EscapedText | TokenKind::DollarText => {
                ExpressionKind::Text(self.text_value()?)
            }
            TokenKind::Parameter(number) => {
                self.at += 1;
                ExpressionKind::Parameter(number)
            }
            TokenKind::Symbol(b'(') => {
                return match self.parenthesized()? {
                    Parenthesized::Expression(expression) => Ok(expression),
                    Parenthesized::Query(query) => {
                        Ok(self.expression_of(ExpressionKind::Subquery(query), start))
                    }
                };
            }
            TokenKind::Word => match self.special_form()? {
                Some(kind) => kind,
                None => self.named()?,
            },
            TokenKind::QuotedName => self.named()?,
            _ => return Err(self.fault()),
        };
        Ok(self.expression_of(kind, start))
    }

    /// Returns whether the next token is a text in quotes.
    pub(super) fn at_text(&self) -> bool {
        matches!(
            self.kind(),
            Some(TokenKind::Text | TokenKind::EscapedText | TokenKind::DollarText)
        )
    }

    /// Reads a text in quotes.
    pub(super) fn text_value(&mut self) -> Result<String, Failure> {
        let token = match self.peek() {
            Some(token) if self.at_text() => token,
            _ => return Err(self.fault()),
        };
        let value = literal::text_of(token.kind, token.text(self.text))
            .map_err(|report| report.at(token.span().start))?;
        self.at += 1;
        self.size += value.capacity();
        Ok(value)
    }

    /// Makes a call of a function of the catalog that has words of its own in the grammar.
    fn call_of(&mut self, name: &str, arguments: Vec<Expression>, start: usize) -> ExpressionKind {
        self.size += name.len();
        let call = FunctionCall::plain(name, arguments, self.span_from(start));
        ExpressionKind::Function(Box::new(call))
    }

    /// Reads an operand that begins with a keyword. None: the next word is a name.
    fn special_form(&mut self) -> Result<Option<ExpressionKind>, Failure> {
        let start = self.start();
        let word = match self.keyword_at(0) {
            Some(word) => word,
            None => return Ok(None),
        };
        let is_call = self.at_symbol(1, b'(');
        let kind = match word {
            "NULL" => ExpressionKind::Null,
            "TRUE" => ExpressionKind::Boolean(true),
            "FALSE" => ExpressionKind::Boolean(false),
            "DEFAULT" => return Err(self.missing("DEFAULT")),
            "CURRENT_USER" | "CURRENT_ROLE" | "SESSION_USER" | "USER" | "CURRENT_CATALOG"
            | "CURRENT_DATE" | "CURRENT_TIME" | "CURRENT_TIMESTAMP" | "LOCALTIME"
            | "LOCALTIMESTAMP" => self.call_of(&word.to_ascii_lowercase(), Vec::new(), start),
            "CURRENT_SCHEMA" if !is_call => self.call_of("current_schema", Vec::new(), start),
            "CASE" => return self.case().map(Some),
            "ARRAY" => return self.array().map(Some),
            "EXISTS" if is_call => {
                self.at += 1;
                return match self.parenthesized()? {
                    Parenthesized::Query(query) => Ok(Some(ExpressionKind::Exists(query))),
                    Parenthesized::Expression(expression) => Err(Report::syntax(
                        self.text,
                        expression.span.start + 1,
                        expression.span.end,
                    )),
                };
            }
            "CAST" if is_call => return self.cast().map(Some),
            "ROW" if is_call => {
                self.at += 2;
                let row = if self.at_symbol(0, b')') {
                    Vec::new()
                } else {
                    self.list(Self::expression)?
                };
                self.expect_symbol(b')')?;
                return Ok(Some(ExpressionKind::Row(row)));
            }
            "COALESCE" | "NULLIF" | "GREATEST" | "LEAST" if is_call => {
                self.at += 1;
                let arguments = self.list_in_parentheses(Self::expression)?;
                if word == "NULLIF" && arguments.len() != 2 {
                    self.at -= 1;
                    return Err(self.fault());
                }
                return Ok(Some(self.call_of(
                    &word.to_ascii_lowercase(),
                    arguments,
                    start,
                )));
            }
            "EXTRACT" | "POSITION" | "SUBSTRING" | "TRIM" if is_call => {
                self.at += 2;
                let kind = self.call_with_words(word, start)?;
                self.expect_symbol(b')')?;
                return Ok(Some(kind));
            }
            "OVERLAY" | "NORMALIZE" | "TREAT" | "GROUPING" | "XMLCONCAT" | "XMLELEMENT"
            | "XMLEXISTS" | "XMLFOREST" | "XMLPARSE" | "XMLPI" | "XMLROOT" | "XMLSERIALIZE"
                if is_call =>
            {
                return Err(self.missing(word));
            }
            _ => return self.typed_text(),
        };
        self.at += 1;
        Ok(Some(kind))
    }

    /// Reads `type 'text'` of a type that has words of its own. None: the next word is a name.
    fn typed_text(&mut self) -> Result<Option<ExpressionKind>, Failure> {
        let at = self.at;
        let type_name = match self.built_in_type()? {
            Some(type_name) if self.at_text() => type_name,
            Some(_) if self.at > at + 1 => return Err(self.fault()),
            _ => {
                self.at = at;
                return Ok(None);
            }
        };
        self.cast_text(type_name).map(Some)
    }

    fn cast_text(&mut self, type_name: TypeName) -> Result<ExpressionKind, Failure> {
        let start = self.start();
        let text = self.text_value()?;
        let text = self.expression_of(ExpressionKind::Text(text), start);
        Ok(ExpressionKind::Cast(Box::new(text), Box::new(type_name)))
    }

    /// Reads CASE.
    fn case(&mut self) -> Result<ExpressionKind, Failure> {
        self.at += 1;
        let operand = if self.at_keyword("WHEN") {
            None
        } else {
            Some(Box::new(self.expression()?))
        };
        let mut branches = Vec::new();
        while self.keyword("WHEN") {
            let condition = self.expression()?;
            self.expect_keyword("THEN")?;
            branches.push((condition, self.expression()?));
        }
        if branches.is_empty() {
            return Err(self.fault());
        }
        self.size += branches.capacity() * size_of::<(Expression, Expression)>();
        let otherwise = if self.keyword("ELSE") {
            Some(Box::new(self.expression()?))
        } else {
            None
        };
        self.expect_keyword("END")?;
        Ok(ExpressionKind::Case {
            operand,
            branches,
            otherwise,
        })
    }

    /// Reads `ARRAY[..]` and `ARRAY(SELECT ..)`.
    fn array(&mut self) -> Result<ExpressionKind, Failure> {
        self.at += 1;
        if self.at_symbol(0, b'(') && self.at_query(1) {
            if let Parenthesized::Query(query) = self.parenthesized()? {
                return Ok(ExpressionKind::ArrayQuery(query));
            }
        }
        self.expect_symbol(b'[')?;
        let elements = if self.at_symbol(0, b']') {
            Vec::new()
        } else {
            self.list(Self::expression)?
        };
        self.expect_symbol(b']')?;
        Ok(ExpressionKind::Array(elements))
    }

    /// Reads `CAST(a AS type)`.
    fn cast(&mut self) -> Result<ExpressionKind, Failure> {
        self.at += 2;
        let operand = self.expression()?;
        self.expect_keyword("AS")?;
        let type_name = self.type_name()?;
        self.expect_symbol(b')')?;
        Ok(ExpressionKind::Cast(Box::new(operand), Box::new(type_name)))
    }

    /// Reads the arguments of a function that may have words between them, from behind its parenthesis.
    fn call_with_words(&mut self, word: &str, start: usize) -> Result<ExpressionKind, Failure> {
        match word {
            "EXTRACT" => {
                let field_start = self.start();
                let field = if self.at_text() {
                    self.text_value()?
                } else {
                    self.label()?.text
                };
                let field = self.expression_of(ExpressionKind::Text(field), field_start);
                self.expect_keyword("FROM")?;
                let source = self.expression()?;
                Ok(self.call_of("extract", vec![field, source], start))
            }
            "POSITION" => {
                let piece = self.expression_bound(Binding::Operator)?;
                self.expect_keyword("IN")?;
                let text = self.expression_bound(Binding::Operator)?;
                Ok(self.call_of("position", vec![text, piece], start))
            }
            "SUBSTRING" => {
                let mut arguments = vec![self.expression()?];
                while self.keyword_of(&["FROM", "FOR"]).is_some() || self.symbol(b',') {
                    arguments.push(self.expression()?);
                }
                if self.at_keyword("SIMILAR") {
                    return Err(self.missing("SUBSTRING .. SIMILAR"));
                }
                Ok(self.call_of("substring", arguments, start))
            }
            _ => {
                let side = self.keyword_of(&["BOTH", "LEADING", "TRAILING"]);
                let name = match side {
                    Some("LEADING") => "ltrim",
                    Some("TRAILING") => "rtrim",
                    _ => "btrim",
                };
                let mut arguments = Vec::new();
                if !self.at_keyword("FROM") {
                    arguments = self.list(Self::expression)?;
                }
                if self.keyword("FROM") {
                    let mut texts = self.list(Self::expression)?;
                    texts.append(&mut arguments);
                    arguments = texts;
                }
                Ok(self.call_of(name, arguments, start))
            }
        }
    }

    /// Reads an operand that begins with a name: a column, a call, or a text of a type.
    fn named(&mut self) -> Result<ExpressionKind, Failure> {
        let start = self.start();
        let is_keyword = self.keyword_at(0).is_some();
        let first = self.name_if(keywords::may_be_name)?;
        let column = if self.at_symbol(0, b'.') && !self.at_star(1) {
            let mut names = vec![first];
            while self.at_symbol(0, b'.') && !self.at_star(1) {
                self.at += 1;
                names.push(self.label()?);
            }
            self.size += names.capacity() * size_of::<Name>();
            ColumnName::Qualified(names)
        } else {
            ColumnName::Plain(first)
        };
        let only = |may_be: fn(&str) -> bool| !is_keyword || may_be(&column.names()[0].text);
        if self.at_symbol(0, b'(') || self.at_text() {
            let may_be = match &column {
                ColumnName::Plain(_) => keywords::may_name_function,
                ColumnName::Qualified(_) => keywords::may_name_column,
            };
            if !only(may_be) {
                return Err(self.fault());
            }
            let name = match column {
                ColumnName::Plain(name) => QualifiedName { schema: None, name },
                ColumnName::Qualified(names) => self.qualified(names)?,
            };
            if self.at_symbol(0, b'(') {
                return self.call(name).map(Box::new).map(ExpressionKind::Function);
            }
            return self.cast_text(TypeName {
                name,
                modifiers: Vec::new(),
                is_array: false,
                span: self.span_from(start),
            });
        }
        if !only(keywords::may_name_column) {
            return Err(self.fault());
        }
        Ok(ExpressionKind::Column(column))
    }

    fn at_star(&self, ahead: usize) -> bool {
        self.operator_at(ahead) == Some("*")
    }

    /// Reads the arguments of a function, with their parentheses.
    pub(super) fn call(&mut self, name: QualifiedName) -> Result<FunctionCall, Failure> {
        self.expect_symbol(b'(')?;
        let mut call = FunctionCall {
            name,
            arguments: Vec::new(),
            is_star: false,
            is_distinct: false,
            order: Vec::new(),
            over: None,
        };
        if self.take_operator("*") {
            call.is_star = true;
        } else if !self.at_symbol(0, b')') {
            call.is_distinct = self.keyword("DISTINCT");
            if !call.is_distinct {
                self.keyword("ALL");
            }
            call.arguments = self.list(|parser| {
                if parser.at_keyword("VARIADIC") {
                    return Err(parser.missing("VARIADIC"));
                }
                let argument = parser.expression()?;
                if parser.operator() == Some("=>") || parser.kind() == Some(TokenKind::Pair) {
                    return Err(parser.missing("an argument by its name"));
                }
                Ok(argument)
            })?;
            call.order = self.order_by()?;
        }
        self.expect_symbol(b')')?;
        if self.at_keywords(&["WITHIN", "GROUP"]) {
            return Err(self.missing("WITHIN GROUP"));
        }
        if self.at_keyword("FILTER") && self.at_symbol(1, b'(') {
            return Err(self.missing("FILTER"));
        }
        if self.keyword("OVER") {
            call.over = Some(self.window()?);
        }
        Ok(call)
    }

    /// Reads `(PARTITION BY a ORDER BY b)`.
    fn window(&mut self) -> Result<Window, Failure> {
        if !self.at_symbol(0, b'(') {
            return Err(self.missing("a window by its name"));
        }
        self.at += 1;
        let partition = if self.at_keywords(&["PARTITION", "BY"]) {
            self.at += 2;
            self.list(Self::expression)?
        } else {
            Vec::new()
        };
        let order = self.order_by()?;
        if ["ROWS", "RANGE", "GROUPS"]
            .iter()
            .any(|word| self.at_keyword(word))
        {
            return Err(self.missing("a frame of a window"));
        }
        self.expect_symbol(b')')?;
        Ok(Window { partition, order })
    }
}
