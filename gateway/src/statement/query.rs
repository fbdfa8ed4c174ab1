//! The tree of a query and of its expressions, by the names of PostgreSQL's grammar.
//!
//! The parser makes it. What a query means depends on what it reads: nothing or the catalog (then it is evaluated here),
//! or a table of the database (then it has to have a form that the program serves).

use std::borrow::Cow;
use std::fmt;
use std::ops::Deref;
use std::slice;

use crate::sqlstate::{Failure, Report, SqlState};

/// The bytes of a piece in the client's text, for the position of an error.
#[derive(Clone, Copy, Debug, Default, PartialEq, Eq)]
pub struct Span {
    /// Its first byte, from 0.
    pub start: usize,
    /// The byte behind its last one.
    pub end: usize,
}

/// A name as PostgreSQL reads it: folded to lower case unless it is quoted, and cut to 63 bytes.
#[derive(Clone, Debug, PartialEq, Eq)]
pub struct Name {
    /// The name.
    pub text: String,
    /// Where it is written.
    pub span: Span,
}

/// A name that may have its schema in front. A database in front of that is refused by the parser unless it is the
/// client's own.
#[derive(Clone, Debug, PartialEq, Eq)]
pub struct QualifiedName {
    /// The schema, if it is written.
    pub schema: Option<Name>,
    /// The name itself.
    pub name: Name,
}

/// The names of a column.
#[derive(Clone, Debug, PartialEq, Eq)]
pub enum ColumnName {
    /// `a`
    Plain(Name),
    /// With names in front: `t.a`, `public.t.a`.
    Qualified(Vec<Name>),
}

impl ColumnName {
    /// Returns all of its names. The column's own is the last one.
    pub fn names(&self) -> &[Name] {
        match self {
            ColumnName::Plain(name) => slice::from_ref(name),
            ColumnName::Qualified(names) => names,
        }
    }
}

/// A type as a cast names it.
#[derive(Clone, Debug, PartialEq, Eq)]
pub struct TypeName {
    /// Its name in lower case, in PostgreSQL's internal spelling: `integer` is `int4`, `character varying` is `varchar`.
    pub name: QualifiedName,
    /// What stands in parentheses behind it: the length of a text, the precision and scale of a number.
    pub modifiers: Vec<i32>,
    /// Whether it is an array of that type.
    pub is_array: bool,
    /// Where it is written.
    pub span: Span,
}

/// An operator: signs, or words in capitals.
#[derive(Clone, Debug, PartialEq, Eq)]
pub struct Operator {
    /// Its name. Those that the grammar knows by themselves take no memory.
    pub name: Cow<'static, str>,
    /// Where it is written.
    pub span: Span,
}

impl Deref for Operator {
    type Target = str;

    fn deref(&self) -> &str {
        &self.name
    }
}

impl fmt::Display for Operator {
    fn fmt(&self, formatter: &mut fmt::Formatter<'_>) -> fmt::Result {
        self.name.fmt(formatter)
    }
}

impl PartialEq<str> for Operator {
    fn eq(&self, name: &str) -> bool {
        self.name == name
    }
}

impl PartialEq<&str> for Operator {
    fn eq(&self, name: &&str) -> bool {
        self.name == *name
    }
}

/// A value that is computed.
#[derive(Clone, Debug, PartialEq, Eq)]
pub struct Expression {
    /// What it is.
    pub kind: ExpressionKind,
    /// Where it is written, with its parentheses.
    pub span: Span,
}

/// The kinds of expressions.
#[derive(Clone, Debug, PartialEq, Eq)]
pub enum ExpressionKind {
    /// NULL
    Null,
    /// TRUE, FALSE
    Boolean(bool),
    /// A number without a sign, as it is written.
    Number(String),
    /// A text in quotes of any kind, as it is meant.
    Text(String),
    /// `$1`: 1 is the first one.
    Parameter(u16),
    /// A column.
    Column(ColumnName),
    /// `-a`, `NOT a`: an operator in front, its name as written or in capitals if it is a word.
    Unary(Operator, Box<Expression>),
    /// `a + b`, `a AND b`, `a ~ b`, `a OPERATOR(pg_catalog.~) b`, `a LIKE b` (`~~`): left, operator, right. Words are in
    /// capitals.
    Binary(Box<Expression>, Operator, Box<Expression>),
    /// `a::type`, `CAST(a AS type)`, `type 'text'`.
    Cast(Box<Expression>, Box<TypeName>),
    /// `a IS NULL`, `a IS NOT NULL` (true), `a IS TRUE` and so on: operand, the word that follows, whether NOT is there.
    Is(Box<Expression>, IsWhat, bool),
    /// `a IN (b, c)`, `a NOT IN (b, c)` (true).
    In(Box<Expression>, Vec<Expression>, bool),
    /// `a IN (SELECT ..)`, `a NOT IN (SELECT ..)` (true).
    InQuery(Box<Expression>, Box<Query>, bool),
    /// `a BETWEEN b AND c`, `a NOT BETWEEN b AND c` (true).
    Between(Box<Expression>, Box<Expression>, Box<Expression>, bool),
    /// `a = ANY (b)`, `a <> ALL (b)`: left, operator, whether it is ALL, right, which is an array.
    Quantified(Box<Expression>, Operator, bool, Box<Expression>),
    /// `f(a, b)`, `count(*)`, `current_user`, `COALESCE(a, b)`: special forms of the grammar come as functions of that name.
    Function(Box<FunctionCall>),
    /// CASE.
    Case {
        /// What is compared, if something stands behind CASE.
        operand: Option<Box<Expression>>,
        /// WHEN and THEN.
        branches: Vec<(Expression, Expression)>,
        /// ELSE.
        otherwise: Option<Box<Expression>>,
    },
    /// `(SELECT ..)` as a value.
    Subquery(Box<Query>),
    /// `EXISTS (SELECT ..)`.
    Exists(Box<Query>),
    /// `ARRAY[a, b]`.
    Array(Vec<Expression>),
    /// `ARRAY(SELECT ..)`.
    ArrayQuery(Box<Query>),
    /// `(a, b)`, `ROW(a, b)`.
    Row(Vec<Expression>),
    /// `a[b]`.
    Subscript(Box<Expression>, Box<Expression>),
    /// `(a).b`: a field of a row.
    Field(Box<Expression>, Name),
    /// `a COLLATE "C"`.
    Collate(Box<Expression>, Box<QualifiedName>),
}

/// What an expression is tested for by IS.
#[derive(Clone, Copy, Debug, PartialEq, Eq)]
pub enum IsWhat {
    /// NULL
    Null,
    /// TRUE
    True,
    /// FALSE
    False,
    /// UNKNOWN
    Unknown,
}

/// A call of a function.
#[derive(Clone, Debug, PartialEq, Eq)]
pub struct FunctionCall {
    /// Its name.
    pub name: QualifiedName,
    /// Its arguments. `count(*)` has none.
    pub arguments: Vec<Expression>,
    /// Whether its argument is `*`.
    pub is_star: bool,
    /// DISTINCT, in front of the arguments.
    pub is_distinct: bool,
    /// ORDER BY, behind the arguments.
    pub order: Vec<OrderBy>,
    /// OVER: it is a window function.
    pub over: Option<Window>,
}

/// The rows that a window function is computed over.
#[derive(Clone, Debug, PartialEq, Eq)]
pub struct Window {
    /// PARTITION BY.
    pub partition: Vec<Expression>,
    /// ORDER BY.
    pub order: Vec<OrderBy>,
}

impl FunctionCall {
    /// Makes a call of a function of the catalog, without its schema in front.
    pub fn plain(name: &str, arguments: Vec<Expression>, span: Span) -> FunctionCall {
        let text = name.to_owned();
        FunctionCall {
            name: QualifiedName {
                schema: None,
                name: Name { text, span },
            },
            arguments,
            is_star: false,
            is_distinct: false,
            order: Vec::new(),
            over: None,
        }
    }
}

/// A column of a query's result.
#[derive(Clone, Debug, PartialEq, Eq)]
pub enum Target {
    /// `*`, or `t.*`.
    Star(Option<QualifiedName>, Span),
    /// An expression, and the name behind AS.
    Expression(Expression, Option<Name>),
}

/// What a query reads.
#[derive(Clone, Debug, PartialEq, Eq)]
pub enum Relation {
    /// A table or view.
    Table {
        /// ONLY.
        is_only: bool,
        /// Its name.
        name: QualifiedName,
        /// The name that it has in the query, if another one is given.
        alias: Option<Alias>,
    },
    /// A query in parentheses.
    Subquery {
        /// The query.
        query: Box<Query>,
        /// LATERAL.
        is_lateral: bool,
        /// Its name.
        alias: Option<Alias>,
    },
    /// A function that gives rows.
    Function {
        /// The call.
        call: FunctionCall,
        /// WITH ORDINALITY.
        with_ordinality: bool,
        /// LATERAL.
        is_lateral: bool,
        /// Its name.
        alias: Option<Alias>,
    },
    /// `a JOIN b ON c` and its like.
    Join {
        /// The kind.
        kind: JoinKind,
        /// On the left.
        left: Box<Relation>,
        /// On the right.
        right: Box<Relation>,
        /// ON, USING or nothing.
        condition: JoinCondition,
    },
}

/// The name that a relation has in a query.
#[derive(Clone, Debug, PartialEq, Eq)]
pub struct Alias {
    /// The name.
    pub name: Name,
    /// The names of its columns, if some are given.
    pub columns: Vec<Name>,
}

/// The kinds of joins.
#[derive(Clone, Copy, Debug, PartialEq, Eq)]
pub enum JoinKind {
    /// JOIN, INNER JOIN.
    Inner,
    /// LEFT JOIN.
    Left,
    /// RIGHT JOIN.
    Right,
    /// FULL JOIN.
    Full,
    /// CROSS JOIN.
    Cross,
}

/// Which rows a join brings together.
#[derive(Clone, Debug, PartialEq, Eq)]
pub enum JoinCondition {
    /// CROSS JOIN has none.
    None,
    /// ON
    On(Expression),
    /// USING
    Using(Vec<Name>),
    /// NATURAL
    Natural,
}

/// A sort key.
#[derive(Clone, Debug, PartialEq, Eq)]
pub struct OrderBy {
    /// What is sorted by: a number is a column of the result.
    pub expression: Expression,
    /// DESC.
    pub is_descending: bool,
    /// NULLS FIRST (true) or NULLS LAST, if it is written.
    pub nulls_first: Option<bool>,
}

/// FOR UPDATE and its like.
#[derive(Clone, Debug, PartialEq, Eq)]
pub struct Locking {
    /// UPDATE, NO KEY UPDATE, SHARE or KEY SHARE.
    pub strength: String,
    /// The tables behind OF.
    pub of: Vec<QualifiedName>,
    /// NOWAIT or SKIP LOCKED, if it is written.
    pub wait: Option<String>,
    /// Where it is written.
    pub span: Span,
}

impl Locking {
    /// Returns the names behind OF. Each fails if a schema is in front of it.
    pub fn names(&self) -> impl Iterator<Item = Result<&Name, Failure>> + '_ {
        self.of.iter().map(move |of| match &of.schema {
            None => Ok(&of.name),
            Some(schema) => {
                let text = format!(
                    "FOR {} must specify unqualified relation names",
                    self.strength
                );
                Err(Report::error(SqlState::SYNTAX_ERROR, text).at(schema.span.start))
            }
        })
    }

    /// Makes the report of a name behind OF that is no relation of FROM.
    pub fn unknown(&self, name: &Name) -> Failure {
        let text = format!(
            "relation \"{}\" in FOR {} clause not found in FROM clause",
            name.text, self.strength
        );
        Report::error(SqlState::UNDEFINED_TABLE, text).at(name.span.start)
    }
}

/// One SELECT or VALUES of a query.
#[derive(Clone, Debug, PartialEq, Eq)]
pub enum Body {
    /// SELECT
    Select(Box<Select>),
    /// VALUES
    Values(Vec<Vec<Expression>>),
    /// A query in parentheses that has more than a body, as one side of UNION.
    Query(Box<Query>),
    /// UNION, INTERSECT or EXCEPT of two: the word in capitals, whether ALL is there.
    Set(Box<Body>, String, bool, Box<Body>),
}

/// SELECT, without what may stand behind all of a query.
#[derive(Clone, Debug, Default, PartialEq, Eq)]
pub struct Select {
    /// DISTINCT.
    pub is_distinct: bool,
    /// DISTINCT ON.
    pub distinct_on: Vec<Expression>,
    /// What the result shows.
    pub targets: Vec<Target>,
    /// What is read: relations with commas between them.
    pub from: Vec<Relation>,
    /// WHERE.
    pub condition: Option<Expression>,
    /// GROUP BY.
    pub group: Vec<Expression>,
    /// HAVING.
    pub having: Option<Expression>,
    /// Where it is written.
    pub span: Span,
}

/// WITH: a query with a name.
#[derive(Clone, Debug, PartialEq, Eq)]
pub struct With {
    /// Its name, and perhaps those of its columns.
    pub alias: Alias,
    /// The query.
    pub query: Query,
}

/// A query.
#[derive(Clone, Debug, PartialEq, Eq)]
pub struct Query {
    /// WITH.
    pub with: Vec<With>,
    /// RECURSIVE.
    pub is_recursive: bool,
    /// What gives the rows.
    pub body: Body,
    /// ORDER BY.
    pub order: Vec<OrderBy>,
    /// LIMIT, or FETCH FIRST. LIMIT ALL and LIMIT NULL are none.
    pub limit: Option<Expression>,
    /// OFFSET.
    pub offset: Option<Expression>,
    /// FOR UPDATE and its like.
    pub locking: Vec<Locking>,
    /// Where it is written.
    pub span: Span,
}

/// UPDATE of one table, as it is written, whatever of it is served.
#[derive(Clone, Debug, PartialEq, Eq)]
pub struct Update {
    /// The table's name.
    pub table: QualifiedName,
    /// The name that it has in the statement, if another one is given.
    pub alias: Option<Name>,
    /// Each column, and what it becomes.
    pub changes: Vec<(Name, Expression)>,
    /// WHERE.
    pub condition: Option<Expression>,
    /// RETURNING.
    pub returning: Vec<Target>,
}

/// The UPDATEs in a statement.
#[derive(Clone, Debug, PartialEq, Eq)]
pub struct FoundUpdates {
    /// The UPDATEs.
    pub updates: Vec<FoundUpdate>,
    /// The numbers of all parameters of the statement, in the order in which they are written.
    pub parameters: Vec<u16>,
}

/// An UPDATE of one table in a statement.
#[derive(Clone, Debug, PartialEq, Eq)]
pub struct FoundUpdate {
    /// The UPDATE.
    pub update: Update,
    /// Where it is written.
    pub span: Span,
    /// What it is in the statement.
    pub place: Place,
}

/// What a part is in a statement.
#[derive(Clone, Copy, Debug, PartialEq, Eq)]
pub enum Place {
    /// All of it.
    Whole,
    /// What is behind its WITH.
    BehindWith,
    /// A statement of its WITH: the first one is 0.
    InWith(usize),
}

/// What a statement is, as far as it has to be known to send it with others.
#[derive(Clone, Debug, PartialEq, Eq)]
pub enum Outline {
    /// It begins, ends or marks a transaction, or sets a setting.
    Control(Box<super::Statement>),
    /// A query, an INSERT, an UPDATE or a DELETE.
    Data,
}
