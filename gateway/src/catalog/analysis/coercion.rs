//! Values of one type where another is wanted.

use postgres_protocol::Oid;

use crate::catalog::analysis::{Analyser, Typed};
use crate::catalog::casts;
use crate::catalog::missing;
use crate::catalog::plan::Node;
use crate::catalog::types::{self, oid};
use crate::catalog::value::Value;
use crate::sqlstate::{Failure, Report, SqlState};
use crate::statement::query::{Span, TypeName};

impl Analyser<'_> {
    /// Gives a value another type, where PostgreSQL does so by itself.
    pub(super) fn implicit(&mut self, typed: Typed, to: Oid, span: Span) -> Result<Typed, Failure> {
        if typed.oid == to {
            return Ok(typed);
        }
        if !typed.is_open() && !types::is_implicit(typed.oid, to) {
            let text = format!(
                "cannot cast type {} to {}",
                types::display(typed.oid),
                types::display(to)
            );
            return Err(Report::error(SqlState::DATATYPE_MISMATCH, text).at(span.start));
        }
        self.cast(typed, to, -1, span)
    }

    /// Gives a value another type.
    pub(super) fn cast(
        &mut self,
        typed: Typed,
        to: Oid,
        modifier: i32,
        span: Span,
    ) -> Result<Typed, Failure> {
        if let Node::Parameter(place) = typed.node {
            if self.parameters[place] == oid::UNSPECIFIED {
                self.parameters[place] = to;
                let parameter = Typed::new(Node::Parameter(place), to);
                return self.cast(parameter, to, modifier, span);
            }
        }
        if typed.oid == to && (modifier < 0 || modifier == typed.modifier) {
            return Ok(Typed {
                modifier: typed.modifier.max(modifier),
                ..typed
            });
        }
        let node = match typed.node {
            Node::Constant(value) if typed.oid == oid::UNKNOWN => Node::Constant(
                casts::cast(value, oid::UNKNOWN, to, modifier, self.world)
                    .map_err(|report| report.or_at(typed.span.unwrap_or(span).start))?,
            ),
            node => {
                let from = if typed.oid == oid::UNKNOWN {
                    oid::TEXT
                } else {
                    typed.oid
                };
                casts::check(from, to).map_err(|report| report.or_at(span.start))?;
                if from == to && modifier < 0 {
                    node
                } else {
                    Node::Cast {
                        value: Box::new(node),
                        from,
                        to,
                        modifier,
                    }
                }
            }
        };
        Ok(Typed {
            node,
            oid: to,
            modifier,
            span: typed.span,
        })
    }

    /// Gives a value whose type is open the type of texts.
    pub(super) fn settled(&mut self, typed: Typed, span: Span) -> Result<Typed, Failure> {
        if typed.is_open() {
            self.cast(typed, oid::TEXT, -1, span)
        } else {
            Ok(typed)
        }
    }

    /// Gives several values one type, as CASE, UNION and ARRAY do.
    pub(super) fn common(
        &mut self,
        values: Vec<Typed>,
        what: &str,
        span: Span,
    ) -> Result<(Vec<Typed>, Oid), Failure> {
        let types = values.iter().map(|typed| (typed.oid, typed.span));
        let to = common_type(types, what).map_err(|report| report.or_at(span.start))?;
        let values: Result<Vec<Typed>, Failure> = values
            .into_iter()
            .map(|typed| self.implicit(typed, to, span))
            .collect();
        Ok((values?, to))
    }

    /// Returns the Oid and the modifier of a type that is written.
    pub(super) fn type_of(&self, name: &TypeName) -> Result<(Oid, i32), Failure> {
        let schema = name.name.schema.as_ref().map(|schema| schema.text.as_str());
        let written = &name.name.name.text;
        let missing = || {
            let text = match schema {
                Some(schema) => format!("type \"{}.{}\" does not exist", schema, written),
                None => format!("type \"{}\" does not exist", written),
            };
            Report::error(SqlState::UNDEFINED_OBJECT, text).at(name.span.start)
        };
        if !matches!(schema, None | Some("pg_catalog")) {
            return Err(missing());
        }
        let found = types::by_name(written).ok_or_else(missing)?;
        let modifier =
            modifier(found.oid, &name.modifiers).map_err(|report| report.at(name.span.start))?;
        if name.is_array {
            let array = types::array_of(found.oid).ok_or_else(missing)?;
            return Ok((array, modifier));
        }
        Ok((found.oid, modifier))
    }
}

/// Returns the modifier that the numbers behind a type mean.
fn modifier(oid: Oid, numbers: &[i32]) -> Result<i32, Failure> {
    const HEADER: i32 = 4;
    let invalid = |text: String| Report::error(SqlState::INVALID_PARAMETER_VALUE, text);
    match (oid, numbers) {
        (_, []) => Ok(-1),
        (oid::VARCHAR, [length]) if (1..=10_485_760).contains(length) => Ok(length + HEADER),
        (oid::VARCHAR, [length]) if *length < 1 => Err(invalid(
            "length for type varchar must be at least 1".to_owned(),
        )),
        (oid::NUMERIC, [precision, rest @ ..]) if rest.len() <= 1 => {
            let scale = rest.first().copied().unwrap_or(0);
            if !(1..=1_000).contains(precision) {
                return Err(invalid(format!(
                    "NUMERIC precision {} must be between 1 and 1000",
                    precision
                )));
            }
            if !(0..=*precision).contains(&scale) {
                return Err(missing("a scale below zero or above the precision"));
            }
            Ok((precision << 16 | scale) + HEADER)
        }
        (oid, _) => Err(missing(&format!(
            "a size of the type {} in a query of the catalog",
            types::display(oid)
        ))),
    }
}

/// Returns the type that several values have in common, by PostgreSQL's rules for UNION and CASE. Each value is its type
/// and where it is written.
///
/// # Errors
///
/// Fails at the first value whose type is of another kind than those before it.
pub fn common_type(
    values: impl Iterator<Item = (Oid, Option<Span>)>,
    what: &str,
) -> Result<Oid, Failure> {
    let mut common: Option<Oid> = None;
    for (next, span) in values.filter(|it| !matches!(it.0, oid::UNKNOWN | oid::UNSPECIFIED)) {
        let before = match common {
            None => {
                common = Some(next);
                continue;
            }
            Some(before) if before == next => continue,
            Some(before) => before,
        };
        let known = |oid: Oid| types::by_oid(oid);
        let (category, is_preferred) =
            known(before).map_or(('X', false), |known| (known.category, known.is_preferred));
        if known(next).map_or('X', |known| known.category) != category {
            let text = format!(
                "{} types {} and {} cannot be matched",
                what,
                types::display(before),
                types::display(next)
            );
            let report = Report::error(SqlState::DATATYPE_MISMATCH, text);
            return Err(match span {
                Some(span) => report.at(span.start),
                None => report,
            });
        }
        if !is_preferred && types::is_implicit(before, next) && !types::is_implicit(next, before) {
            common = Some(next);
        }
    }
    Ok(common.unwrap_or(oid::TEXT))
}

/// Makes a constant of a text.
pub fn text_constant(text: &str) -> Typed {
    Typed::new(Node::Constant(Value::text(text)), oid::UNKNOWN)
}
