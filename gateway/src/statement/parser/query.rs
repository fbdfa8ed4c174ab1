//! Queries (manual 7 and SELECT; `SelectStmt` of PostgreSQL's grammar).

use std::mem::size_of;

use crate::sqlstate::{Failure, Report, SqlState};
use crate::statement::parser::expression::{Binding, Parenthesized};
use crate::statement::parser::{keywords, Parser, TokenKind};
use crate::statement::query::{
    Alias, Body, Expression, ExpressionKind, FunctionCall, JoinCondition, JoinKind, Locking, Name,
    OrderBy, QualifiedName, Query, Relation, Select, Target, With,
};

/// Makes a query of a body alone.
fn query_of(body: Body) -> Query {
    Query {
        with: Vec::new(),
        is_recursive: false,
        body,
        order: Vec::new(),
        limit: None,
        offset: None,
        locking: Vec::new(),
        span: Default::default(),
    }
}

impl<'a> Parser<'a> {
    /// Returns whether what is here may follow a query in parentheses and make it a part of a longer one.
    pub(super) fn at_query_end(&self) -> bool {
        self.at_query_end_ahead(0)
    }

    fn at_query_end_ahead(&self, ahead: usize) -> bool {
        matches!(
            self.keyword_at(ahead),
            Some("UNION" | "INTERSECT" | "EXCEPT" | "ORDER" | "LIMIT" | "OFFSET" | "FETCH" | "FOR")
        )
    }

    /// Reads a query.
    pub(super) fn query(&mut self) -> Result<Query, Failure> {
        self.nested(|parser| {
            let start = parser.start();
            let (with, is_recursive) = parser.with()?;
            let body = parser.set_operation(1)?;
            parser.query_of(body, with, is_recursive, start)
        })
    }

    /// Reads what follows a query in parentheses, if it is the first part of a longer one.
    pub(super) fn query_from(&mut self, first: Query) -> Result<Query, Failure> {
        let start = first.span.start;
        let left = self.body_of(first);
        let body = self.set_operation_from(left, 1)?;
        self.query_of(body, Vec::new(), false, start)
    }

    /// Makes a body of a query in parentheses.
    fn body_of(&mut self, query: Query) -> Body {
        let is_plain = query.with.is_empty()
            && query.order.is_empty()
            && query.limit.is_none()
            && query.offset.is_none()
            && query.locking.is_empty();
        if is_plain {
            query.body
        } else {
            self.size += size_of::<Query>();
            Body::Query(Box::new(query))
        }
    }

    /// Reads what may stand behind the body of a query. Behind one in parentheses it belongs to that.
    fn query_of(
        &mut self,
        body: Body,
        with: Vec<With>,
        is_recursive: bool,
        start: usize,
    ) -> Result<Query, Failure> {
        let mut query = match body {
            Body::Query(query) => *query,
            body => query_of(body),
        };
        self.size += size_of::<Query>();
        let twice = |what: &str, place| {
            let text = format!("multiple {} clauses not allowed", what);
            Err(Report::error(SqlState::SYNTAX_ERROR, text).at(place))
        };
        if !with.is_empty() {
            if !query.with.is_empty() {
                return twice("WITH", start);
            }
            query.with = with;
            query.is_recursive = is_recursive;
        }
        let order_start = self.start();
        let order = self.order_by()?;
        if !order.is_empty() {
            if !query.order.is_empty() {
                return twice("ORDER BY", order_start);
            }
            query.order = order;
        }
        let (mut has_limit, mut has_offset) = (query.limit.is_some(), query.offset.is_some());
        loop {
            let start = self.start();
            if self.at_keyword("FOR") {
                self.locking(&mut query.locking)?;
            } else if self.at_keyword("LIMIT") || self.at_keyword("FETCH") {
                let limit = self.limit()?;
                if has_limit {
                    return twice("LIMIT", start);
                }
                has_limit = true;
                query.limit = limit;
            } else if self.keyword("OFFSET") {
                let offset = self.nested(Parser::offset)?;
                if has_offset {
                    return twice("OFFSET", start);
                }
                has_offset = true;
                query.offset = Some(offset);
            } else {
                break;
            }
        }
        query.span = self.span_from(start);
        Ok(query)
    }

    /// Reads WITH and its queries.
    fn with(&mut self) -> Result<(Vec<With>, bool), Failure> {
        if !self.keyword("WITH") {
            return Ok((Vec::new(), false));
        }
        let is_recursive = self.keyword("RECURSIVE");
        let with = self.list(|parser| {
            let alias = parser.with_name()?;
            if let Some(word) = ["INSERT", "UPDATE", "DELETE"]
                .iter()
                .find(|word| parser.at_keyword(word))
            {
                return Err(parser.missing(&format!("{} in WITH", word)));
            }
            let query = parser.query()?;
            parser.with_end()?;
            Ok(With { alias, query })
        })?;
        Ok((with, is_recursive))
    }

    /// Reads what is in front of a statement of WITH, with its parenthesis.
    pub(super) fn with_name(&mut self) -> Result<Alias, Failure> {
        let name = self.name()?;
        let columns = self.column_names()?;
        self.expect_keyword("AS")?;
        if self.keyword("NOT") {
            self.expect_keyword("MATERIALIZED")?;
        } else {
            self.keyword("MATERIALIZED");
        }
        self.expect_symbol(b'(')?;
        Ok(Alias { name, columns })
    }

    /// Reads what is behind a statement of WITH, from its parenthesis.
    pub(super) fn with_end(&mut self) -> Result<(), Failure> {
        self.expect_symbol(b')')?;
        if self.at_keyword("SEARCH") || self.at_keyword("CYCLE") {
            return Err(self.missing("SEARCH and CYCLE"));
        }
        Ok(())
    }

    /// Reads the names of columns in parentheses, if there are any.
    pub(super) fn column_names(&mut self) -> Result<Vec<Name>, Failure> {
        if self.at_symbol(0, b'(') {
            self.list_in_parentheses(Self::name)
        } else {
            Ok(Vec::new())
        }
    }

    /// Reads bodies with UNION, EXCEPT (1) and INTERSECT (2) between them, which bind at least so tightly.
    fn set_operation(&mut self, least: u8) -> Result<Body, Failure> {
        let left = self.body()?;
        self.set_operation_from(left, least)
    }

    fn set_operation_from(&mut self, mut left: Body, least: u8) -> Result<Body, Failure> {
        loop {
            let (word, binding) = match self.keyword_at(0) {
                Some(word @ "INTERSECT") => (word, 2),
                Some(word @ ("UNION" | "EXCEPT")) => (word, 1),
                _ => return Ok(left),
            };
            if binding < least {
                return Ok(left);
            }
            self.at += 1;
            let all = self.keyword("ALL");
            if !all {
                self.keyword("DISTINCT");
            }
            let right = self.nested(|parser| parser.set_operation(binding + 1))?;
            self.size += 2 * size_of::<Body>();
            left = Body::Set(Box::new(left), word.to_owned(), all, Box::new(right));
        }
    }

    fn body(&mut self) -> Result<Body, Failure> {
        let start = self.start();
        if self.at_symbol(0, b'(') {
            if !self.at_query(0) {
                self.at += self.behind_parentheses(0);
                return Err(self.fault());
            }
            return match self.parenthesized()? {
                Parenthesized::Query(query) => Ok(self.body_of(*query)),
                Parenthesized::Expression(expression) => {
                    Err(self.fault_in(expression.span.start + 1))
                }
            };
        }
        if self.keyword("VALUES") {
            let rows = self.list(|parser| parser.list_in_parentheses(Self::expression))?;
            return Ok(Body::Values(rows));
        }
        if self.keyword("TABLE") {
            let name = self.qualified_name()?;
            let span = self.span_from(start);
            return Ok(Body::Select(Box::new(Select {
                targets: vec![Target::Star(None, span)],
                from: vec![Relation::Table {
                    is_only: false,
                    name,
                    alias: None,
                }],
                span,
                ..Select::default()
            })));
        }
        self.expect_keyword("SELECT")?;
        self.select(start).map(Box::new).map(Body::Select)
    }

    /// Makes the report of a syntax error at the token that begins at this byte, or behind it.
    fn fault_in(&self, start: usize) -> Failure {
        let token = self
            .tokens
            .list
            .iter()
            .find(|token| token.span().start >= start);
        match token {
            Some(token) => Report::syntax(self.text, token.span().start, token.span().end),
            None => self.fault(),
        }
    }

    fn select(&mut self, start: usize) -> Result<Select, Failure> {
        self.size += size_of::<Select>();
        let mut select = Select::default();
        if self.keyword("DISTINCT") {
            select.is_distinct = true;
            if self.keyword("ON") {
                select.distinct_on = self.list_in_parentheses(Self::expression)?;
            }
        } else {
            self.keyword("ALL");
        }
        let has_targets = self.tokens.list.get(self.at).map_or(false, |token| {
            let is_clause = matches!(
                token.keyword,
                Some("FROM" | "WHERE" | "GROUP" | "HAVING" | "WINDOW" | "INTO")
            );
            token.kind != TokenKind::Symbol(b')') && !is_clause && !self.at_query_end()
        });
        if has_targets || select.is_distinct || self.peek().is_none() && self.tokens.fault.is_some()
        {
            select.targets = self.targets()?;
        }
        if self.at_keyword("INTO") {
            return Err(self.missing("SELECT INTO"));
        }
        if self.keyword("FROM") {
            select.from = self.list(Self::relation)?;
        }
        if self.keyword("WHERE") {
            select.condition = Some(self.expression()?);
        }
        if self.keywords(&["GROUP", "BY"]) {
            if self.keyword_of(&["DISTINCT", "ALL"]) == Some("DISTINCT") {
                return Err(self.missing("GROUP BY DISTINCT"));
            }
            if self.at_keyword("GROUPING") || self.at_keyword("ROLLUP") || self.at_keyword("CUBE") {
                return Err(self.missing("a set of groupings"));
            }
            select.group = self.list(Self::expression)?;
        }
        if self.keyword("HAVING") {
            select.having = Some(self.expression()?);
        }
        if self.at_keyword("WINDOW") {
            return Err(self.missing("WINDOW"));
        }
        select.span = self.span_from(start);
        Ok(select)
    }

    /// Reads what a result shows: behind SELECT or RETURNING.
    pub(super) fn targets(&mut self) -> Result<Vec<Target>, Failure> {
        self.list(Self::target)
    }

    fn target(&mut self) -> Result<Target, Failure> {
        let start = self.start();
        if self.take_operator("*") {
            return Ok(Target::Star(None, self.span_from(start)));
        }
        if let Some(name) = self.star_of()? {
            return Ok(Target::Star(Some(name), self.span_from(start)));
        }
        let expression = self.expression()?;
        let name = if self.keyword("AS") {
            Some(self.label()?)
        } else {
            self.optional_name_if(keywords::may_be_bare_label)
        };
        Ok(Target::Expression(expression, name))
    }

    /// Reads `t.*`. None: here is something else.
    fn star_of(&mut self) -> Result<Option<QualifiedName>, Failure> {
        let is_name = |ahead| {
            matches!(
                self.peek_at(ahead).map(|token| token.kind),
                Some(TokenKind::Word | TokenKind::QuotedName)
            )
        };
        let mut ahead = 0;
        while is_name(ahead) && self.at_symbol(ahead + 1, b'.') {
            ahead += 2;
        }
        if ahead == 0 || self.operator_at(ahead) != Some("*") {
            return Ok(None);
        }
        let mut names = vec![self.name()?];
        while self.symbol(b'.') {
            if self.take_operator("*") {
                break;
            }
            names.push(self.label()?);
        }
        self.qualified(names).map(Some)
    }

    /// Reads ORDER BY, if it is here.
    pub(super) fn order_by(&mut self) -> Result<Vec<OrderBy>, Failure> {
        if !self.keyword("ORDER") {
            return Ok(Vec::new());
        }
        self.expect_keyword("BY")?;
        self.list(|parser| {
            let expression = parser.expression()?;
            if parser.at_keyword("USING") {
                return Err(parser.missing("ORDER BY .. USING"));
            }
            let is_descending = parser.keyword_of(&["ASC", "DESC"]) == Some("DESC");
            let nulls_first = if parser.keyword("NULLS") {
                match parser.keyword_of(&["FIRST", "LAST"]) {
                    Some(word) => Some(word == "FIRST"),
                    None => return Err(parser.fault()),
                }
            } else {
                None
            };
            Ok(OrderBy {
                expression,
                is_descending,
                nulls_first,
            })
        })
    }

    /// Reads what is behind OFFSET. In front of ROW and ROWS it is an operand alone, without an operator or a cast.
    fn offset(&mut self) -> Result<Expression, Failure> {
        if self.operator().is_some() || self.at_keyword("NOT") || self.at_keyword("OPERATOR") {
            return self.expression();
        }
        let operand = self.operand()?;
        if self.keyword_of(&["ROW", "ROWS"]).is_some() {
            return Ok(operand);
        }
        let operand = self.postfixed(operand)?;
        self.continued(operand, Binding::Or)
    }

    /// Reads LIMIT or FETCH FIRST. None: all rows.
    fn limit(&mut self) -> Result<Option<Expression>, Failure> {
        if self.keyword("LIMIT") {
            if self.keyword("ALL") {
                return Ok(None);
            }
            let limit = self.expression()?;
            if self.at_symbol(0, b',') {
                let text = "LIMIT #,# syntax is not supported";
                let report = Report::error(SqlState::SYNTAX_ERROR, text);
                return Err(report
                    .hint("Use separate LIMIT and OFFSET clauses.")
                    .at(limit.span.start));
            }
            let is_all = matches!(limit.kind, ExpressionKind::Null);
            return Ok(Some(limit).filter(|_| !is_all));
        }
        self.expect_keyword("FETCH")?;
        if self.keyword_of(&["FIRST", "NEXT"]).is_none() {
            return Err(self.fault());
        }
        let start = self.start();
        let limit = if self.at_keyword("ROW") || self.at_keyword("ROWS") {
            self.expression_of(ExpressionKind::Number("1".to_owned()), start)
        } else {
            self.operand()?
        };
        if self.keyword_of(&["ROW", "ROWS"]).is_none() {
            return Err(self.fault());
        }
        if self.at_keywords(&["WITH", "TIES"]) {
            return Err(self.missing("WITH TIES"));
        }
        self.expect_keyword("ONLY")?;
        Ok(Some(limit))
    }

    /// Reads FOR UPDATE and its like.
    fn locking(&mut self, locking: &mut Vec<Locking>) -> Result<(), Failure> {
        let start = self.start();
        self.expect_keyword("FOR")?;
        if self.keywords(&["READ", "ONLY"]) {
            return Ok(());
        }
        let strength = if self.keyword("UPDATE") {
            "UPDATE"
        } else if self.keywords(&["NO", "KEY", "UPDATE"]) {
            "NO KEY UPDATE"
        } else if self.keywords(&["KEY", "SHARE"]) {
            "KEY SHARE"
        } else if self.keyword("SHARE") {
            "SHARE"
        } else {
            return Err(self.fault());
        };
        let of = if self.keyword("OF") {
            self.list(Self::qualified_name)?
        } else {
            Vec::new()
        };
        let wait = if self.keyword("NOWAIT") {
            Some("NOWAIT".to_owned())
        } else if self.keywords(&["SKIP", "LOCKED"]) {
            Some("SKIP LOCKED".to_owned())
        } else {
            None
        };
        self.size += size_of::<Locking>() + strength.len();
        let span = self.span_from(start);
        locking.push(Locking {
            strength: strength.to_owned(),
            of,
            wait,
            span,
        });
        Ok(())
    }

    /// Reads a relation with its joins.
    fn relation(&mut self) -> Result<Relation, Failure> {
        self.nested(|parser| {
            let mut left = parser.single_relation()?;
            while parser.at_join() {
                left = parser.join(left)?;
            }
            Ok(left)
        })
    }

    fn at_join(&self) -> bool {
        matches!(
            self.keyword_at(0),
            Some("JOIN" | "INNER" | "LEFT" | "RIGHT" | "FULL" | "CROSS" | "NATURAL")
        )
    }

    fn join(&mut self, left: Relation) -> Result<Relation, Failure> {
        self.size += 2 * size_of::<Relation>();
        if self.keyword("CROSS") {
            self.expect_keyword("JOIN")?;
            return Ok(Relation::Join {
                kind: JoinKind::Cross,
                left: Box::new(left),
                right: Box::new(self.single_relation()?),
                condition: JoinCondition::None,
            });
        }
        let is_natural = self.keyword("NATURAL");
        let kind = match self.keyword_of(&["INNER", "LEFT", "RIGHT", "FULL"]) {
            Some("LEFT") => JoinKind::Left,
            Some("RIGHT") => JoinKind::Right,
            Some("FULL") => JoinKind::Full,
            _ => JoinKind::Inner,
        };
        if kind != JoinKind::Inner {
            self.keyword("OUTER");
        }
        self.expect_keyword("JOIN")?;
        let mut right = self.single_relation()?;
        if is_natural {
            return Ok(Relation::Join {
                kind,
                left: Box::new(left),
                right: Box::new(right),
                condition: JoinCondition::Natural,
            });
        }
        // `a JOIN b JOIN c ON x ON y`: b and c belong together.
        while self.at_join() {
            right = self.nested(|parser| parser.join(right))?;
        }
        let condition = if self.keyword("ON") {
            JoinCondition::On(self.expression()?)
        } else if self.keyword("USING") {
            let columns = self.list_in_parentheses(Self::name)?;
            if self.at_keyword("AS") {
                return Err(self.missing("a name for the columns of USING"));
            }
            JoinCondition::Using(columns)
        } else {
            return Err(self.fault());
        };
        Ok(Relation::Join {
            kind,
            left: Box::new(left),
            right: Box::new(right),
            condition,
        })
    }

    fn single_relation(&mut self) -> Result<Relation, Failure> {
        let is_lateral = self.keyword("LATERAL");
        if self.at_symbol(0, b'(') {
            return self.relation_in_parentheses(is_lateral);
        }
        if self.at_keywords(&["ROWS", "FROM"]) {
            return Err(self.missing("ROWS FROM"));
        }
        if self.at_keyword("XMLTABLE") {
            return Err(self.missing("XMLTABLE"));
        }
        let is_only = self.keyword("ONLY");
        if is_only && self.symbol(b'(') {
            let name = self.qualified_name()?;
            self.expect_symbol(b')')?;
            return self.table(true, name);
        }
        let start = self.start();
        let is_keyword = self.keyword_at(0).is_some();
        if let Some(call) = self.keyword_call() {
            return self.function(call, is_lateral);
        }
        let first = self.name_if(keywords::may_be_name)?;
        let may_be_table = !is_keyword || keywords::may_name_column(&first.text);
        let name = self.qualified_by(first)?;
        if self.at_symbol(0, b'(') && !is_only {
            let call = self.call(name)?;
            return self.function(call, is_lateral);
        }
        if !may_be_table {
            return Err(self.fault_in(start));
        }
        if is_lateral {
            return Err(self.fault());
        }
        self.table(is_only, name)
    }

    /// Reads a keyword that calls a function without parentheses. None: here is something else.
    fn keyword_call(&mut self) -> Option<FunctionCall> {
        let is_call = self.at_symbol(1, b'(');
        let span = self.peek()?.span();
        let word = self.keyword_of(&[
            "CURRENT_USER",
            "CURRENT_ROLE",
            "SESSION_USER",
            "USER",
            "CURRENT_CATALOG",
            "CURRENT_DATE",
            "CURRENT_TIMESTAMP",
        ]);
        let word = match word {
            None if !is_call => self.keyword_of(&["CURRENT_SCHEMA"])?,
            word => word?,
        };
        Some(FunctionCall::plain(
            &word.to_ascii_lowercase(),
            Vec::new(),
            span,
        ))
    }

    fn table(&mut self, is_only: bool, name: QualifiedName) -> Result<Relation, Failure> {
        // `t *` is the table with what inherits from it.
        if !is_only {
            self.take_operator("*");
        }
        let alias = self.alias()?;
        if self.at_keyword("TABLESAMPLE") {
            return Err(self.missing("TABLESAMPLE"));
        }
        Ok(Relation::Table {
            is_only,
            name,
            alias,
        })
    }

    fn function(&mut self, call: FunctionCall, is_lateral: bool) -> Result<Relation, Failure> {
        let with_ordinality = self.keywords(&["WITH", "ORDINALITY"]);
        if self.at_keyword("AS") && self.at_symbol(1, b'(') {
            return Err(self.missing("a list of types of columns"));
        }
        let alias = self.alias()?;
        Ok(Relation::Function {
            call,
            with_ordinality,
            is_lateral,
            alias,
        })
    }

    /// Reads a query or a join in parentheses.
    fn relation_in_parentheses(&mut self, is_lateral: bool) -> Result<Relation, Failure> {
        let start = self.start();
        if !self.at_query(0) || self.is_join_in_parentheses() {
            if is_lateral {
                return Err(self.fault());
            }
            self.at += 1;
            let relation = self.relation()?;
            if !matches!(relation, Relation::Join { .. }) {
                return Err(self.fault());
            }
            self.expect_symbol(b')')?;
            if self.at_keyword("AS") || self.name().is_ok() {
                return Err(self.missing("a name for a join"));
            }
            return Ok(relation);
        }
        match self.parenthesized()? {
            Parenthesized::Query(query) => {
                let alias = self.alias()?;
                if alias.is_none() {
                    let text = "subquery in FROM must have an alias";
                    let report = Report::error(SqlState::SYNTAX_ERROR, text);
                    return Err(report
                        .hint("For example, FROM (SELECT ...) [AS] foo.")
                        .at(start));
                }
                Ok(Relation::Subquery {
                    query,
                    is_lateral,
                    alias,
                })
            }
            Parenthesized::Expression(_) => Err(self.fault_in(start + 1)),
        }
    }

    /// Returns whether the parenthesis here is around a join whose first relation is a query in parentheses.
    fn is_join_in_parentheses(&self) -> bool {
        if !self.at_symbol(1, b'(') {
            return false;
        }
        let mut depth = 0_usize;
        for ahead in 1.. {
            match self.peek_at(ahead).map(|token| token.kind) {
                Some(TokenKind::Symbol(b'(')) => depth += 1,
                Some(TokenKind::Symbol(b')')) => depth -= 1,
                None => return false,
                _ => {}
            }
            if depth == 0 {
                // Behind a query in parentheses that is a relation its name follows.
                let next = self.peek_at(ahead + 1);
                let is_word = next.map_or(false, |next| {
                    matches!(next.kind, TokenKind::Word | TokenKind::QuotedName)
                });
                return is_word && !self.at_query_end_ahead(ahead + 1);
            }
        }
        false
    }

    /// Reads the name that a relation has in a query, and perhaps those of its columns.
    pub(super) fn alias(&mut self) -> Result<Option<Alias>, Failure> {
        let name = if self.keyword("AS") {
            self.name()?
        } else {
            match self.optional_name() {
                Some(name) => name,
                None => return Ok(None),
            }
        };
        let columns = self.column_names()?;
        self.size += size_of::<Alias>();
        Ok(Some(Alias { name, columns }))
    }
}
