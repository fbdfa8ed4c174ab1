//! What the parameters of a statement stand for.

use std::rc::Rc;

use postgres_protocol::Oid;

use crate::rows::Definition;
use crate::sqlstate::{Failure, Report, SqlState};
use crate::statement::constant;
use crate::statement::parser::lexer::Token;
use crate::statement::parser::TokenKind;
use crate::statement::query::{Expression, ExpressionKind};
use crate::statement::select::{Shown, What};
use crate::statement::served::{Served, Show, Update};
use crate::statement::{Parsed, Statement};
use crate::value::{array, oid};

/// What a parameter stands for.
#[derive(Clone, Debug, PartialEq, Eq)]
pub enum Place {
    /// A value of this column, or what is added to it.
    Column(String),
    /// What this column is compared with.
    Compared(String),
    /// An array of what this column is compared with.
    Elements(String),
    /// The value at this place of an INSERT that lists no columns.
    Inserted(usize),
    /// What is cast to this type.
    Cast(Oid),
    /// How many rows: LIMIT, OFFSET.
    Bound,
    /// What has this sign in front, at this byte: so its type follows from nothing.
    Signed(char, usize),
    /// A value by itself, or one of a query that reads no table.
    Alone,
    /// A value by itself, and something else behind it. PostgreSQL settles what is by itself last, as a text, and refuses
    /// what has another type by then.
    AloneFirst,
    /// Nothing: the text doesn't have it.
    Unused,
}

impl Place {
    /// Returns how many bytes it takes.
    pub fn size(&self) -> usize {
        let name = match self {
            Place::Column(name) | Place::Compared(name) | Place::Elements(name) => name.capacity(),
            _ => 0,
        };
        std::mem::size_of::<Place>() + name
    }
}

/// Returns what `$1`, `$2` and so on stand for.
pub fn places(statement: &Statement, tokens: &[Token]) -> Vec<Place> {
    let numbers = tokens.iter().filter_map(|token| match token.kind {
        TokenKind::Parameter(number) => Some(usize::from(number)),
        _ => None,
    });
    let count = match numbers.max() {
        Some(count) => count,
        None => return Vec::new(),
    };
    let mut places = vec![Place::Unused; count];
    match statement {
        Statement::Served(served) => note_served(&mut places, served),
        Statement::Declare(cursor) => match &*cursor.read {
            Statement::Served(served) => note_served(&mut places, served),
            _ => places.fill(Place::Alone),
        },
        Statement::Query(_) => {
            for token in tokens {
                if let TokenKind::Parameter(number) = token.kind {
                    places[usize::from(number) - 1] = Place::Alone;
                }
            }
        }
        _ => {}
    }
    places
}

fn note_served(places: &mut [Place], served: &Served) {
    let shown_first = match served {
        Served::Select(select) => &select.shown[..],
        _ => &[],
    };
    let alone = note_shown_first(places, shown_first);
    if let Some(keys) = served.keys() {
        for value in &keys.values {
            let column = keys.column.text.clone();
            // Several members have the type of what they are compared with.
            let place = match keys.values.len() {
                _ if keys.is_array => Place::Elements(column),
                1 => Place::Compared(column),
                _ => Place::Column(column),
            };
            note(places, value, place);
        }
    }
    match served {
        Served::Select(select) => {
            for bound in select.bounds() {
                note(places, bound, Place::Bound);
            }
        }
        Served::Insert(insert) => {
            for row in &insert.rows {
                for (at, value) in row.iter().enumerate() {
                    let place = match insert.columns.get(at) {
                        Some(column) => Place::Column(column.text.clone()),
                        None => Place::Inserted(at),
                    };
                    note(places, value, place);
                }
            }
        }
        Served::Update(Update { assignments, .. }) => {
            for assignment in assignments {
                let place = Place::Column(assignment.column.text.clone());
                note(places, &assignment.value, place);
            }
        }
        Served::Delete(_)
        | Served::Define(_)
        | Served::Show(Show::Bounds(..))
        | Served::Show(_) => {}
    }
    for constant in constants(served.returning()) {
        note(places, constant, Place::Alone);
    }
    for place in alone {
        places[place] = match places[place] {
            Place::Unused | Place::Alone => Place::Alone,
            Place::Cast(oid::TEXT) => Place::Cast(oid::TEXT),
            _ => Place::AloneFirst,
        };
    }
}

fn constants(shown: &[Shown]) -> impl Iterator<Item = &Expression> {
    shown.iter().filter_map(|shown| match &shown.what {
        What::Constant(expression) => Some(expression),
        _ => None,
    })
}

/// Notes what is cast in what a SELECT shows. Returns the parameters that stand there by themselves, before anything tells
/// their types.
fn note_shown_first(places: &mut [Place], shown: &[Shown]) -> Vec<usize> {
    let mut alone = Vec::new();
    for constant in constants(shown) {
        match constant.kind {
            ExpressionKind::Parameter(number) => {
                let place = usize::from(number) - 1;
                if places[place] == Place::Unused {
                    alone.push(place);
                }
            }
            _ => note(places, constant, Place::Alone),
        }
    }
    alone
}

/// Notes what the parameter of a value stands for, if it is one and nothing is known of it before.
fn note(places: &mut [Place], value: &Expression, place: Place) {
    match &value.kind {
        ExpressionKind::Parameter(number) => {
            let known = &mut places[usize::from(*number) - 1];
            if *known == Place::Unused {
                *known = place;
            }
        }
        ExpressionKind::Unary(sign, operand) => {
            let sign = if sign == "-" { '-' } else { '+' };
            note(places, operand, Place::Signed(sign, value.span.start));
        }
        ExpressionKind::Cast(operand, to) => {
            let oid = constant::parameter_cast(to).or_else(|| constant::array_cast(to));
            let place = oid.map_or(Place::Alone, Place::Cast);
            note(places, operand, place);
        }
        _ => {}
    }
}

/// Settles what members of `key IN (..)` are compared as: if one is numeric, all are.
pub fn settle_members(parsed: &mut Rc<Parsed>, types: &[Oid]) {
    let keys = match parsed.statement.served().and_then(Served::keys) {
        Some(keys) if keys.values.len() > 1 => keys,
        _ => return,
    };
    let is_numeric = |value: &Expression| constant::type_of(value, types).0 == oid::NUMERIC;
    if !keys.values.iter().any(is_numeric) {
        return;
    }
    let members = keys.values.iter().filter_map(|value| match value.kind {
        ExpressionKind::Parameter(number) => Some(usize::from(number) - 1),
        _ => None,
    });
    let members: Vec<usize> = members.collect();
    let places = &mut Rc::make_mut(parsed).places;
    for place in members {
        if matches!(places[place], Place::Column(_)) {
            places[place] = Place::Cast(oid::NUMERIC);
        }
    }
}

/// Returns whether the client leaves a type open.
pub fn is_open(oid: Oid) -> bool {
    oid == oid::UNSPECIFIED || oid == oid::UNKNOWN
}

/// Checks that the type of a parameter is told by the client or follows from its place.
///
/// # Errors
///
/// Fails if neither is so.
pub fn check_type(number: usize, place: &Place, oid: Oid) -> Result<(), Failure> {
    match place {
        _ if !is_open(oid) => Ok(()),
        Place::Signed(sign, place) => Err(constant::sign_of_unknown(*sign).at(*place)),
        Place::AloneFirst => {
            let what = format!(
                "parameter ${} by itself and elsewhere, without a type,",
                number
            );
            Err(Report::missing(&what).hint("Use two parameters."))
        }
        Place::Unused => {
            let text = format!("could not determine data type of parameter ${}", number);
            Err(Report::error(SqlState::INDETERMINATE_TYPE, text))
        }
        _ => Ok(()),
    }
}

/// Returns whether the type of a parameter is that of a column, so that the table's definition has to be known.
pub fn needs_definition(place: &Place, oid: Oid) -> bool {
    is_open(oid)
        && matches!(
            place,
            Place::Column(_) | Place::Compared(_) | Place::Elements(_) | Place::Inserted(_)
        )
}

/// Returns the type of a parameter: the one that the client tells, otherwise the one that follows from its place.
pub fn parameter_type(place: &Place, oid: Oid, definition: Option<&Definition>) -> Oid {
    if !is_open(oid) {
        return oid;
    }
    let column = definition.and_then(|definition| match place {
        Place::Column(name) | Place::Compared(name) | Place::Elements(name) => {
            definition.column(name)
        }
        Place::Inserted(at) => definition.columns.get(*at),
        _ => None,
    });
    match (column, place) {
        (Some(column), Place::Elements(_)) => {
            let element = match column.is_number() {
                true => column.result_column().oid,
                false => oid::TEXT,
            };
            array::of(element).unwrap_or(oid::TEXT)
        }
        // Texts of all types are compared as text.
        (Some(column), Place::Compared(_)) if !column.is_number() => oid::TEXT,
        (Some(column), _) => column.result_column().oid,
        (None, Place::Cast(oid)) => *oid,
        (None, Place::Bound) => oid::INT8,
        (None, _) => oid::TEXT,
    }
}

#[cfg(test)]
mod tests {
    use super::*;
    use crate::statement::parser::next_statement;

    fn places_of(text: &str) -> Vec<Place> {
        next_statement(text, &mut 0)
            .unwrap()
            .unwrap()
            .places
            .clone()
    }

    fn column(name: &str) -> Place {
        Place::Column(name.to_owned())
    }

    fn key() -> Place {
        Place::Compared("id".to_owned())
    }

    #[test]
    fn finds_what_each_parameter_stands_for() {
        for (text, expected) in [
            (
                "UPDATE t SET Free = t.free - $2, \"sold\" = sold + $3 WHERE id = $1",
                vec![key(), column("free"), column("sold")],
            ),
            (
                "UPDATE t SET a = (a - ($1)) WHERE $2 = (t.id)",
                vec![column("a"), key()],
            ),
            (
                "UPDATE t SET a = a - $1::int WHERE id = 1",
                vec![Place::Cast(oid::INT4)],
            ),
            (
                "UPDATE t SET a = -$1 WHERE id = 1",
                vec![Place::Signed('-', 17)],
            ),
            ("DELETE FROM t WHERE id = $2", vec![Place::Unused, key()]),
            ("SHOW BOUNDS t WHERE id = $1", vec![key()]),
            (
                "INSERT INTO t VALUES (($1::numeric(8, 2)), 'a,b', $2)",
                vec![Place::Cast(oid::NUMERIC), Place::Inserted(2)],
            ),
            (
                "INSERT INTO t (b, A) VALUES ($2, $1)",
                vec![column("a"), column("b")],
            ),
            (
                "SELECT $1 FROM t WHERE id IN ($2, $3) LIMIT $4",
                vec![Place::Alone, column("id"), column("id"), Place::Bound],
            ),
            (
                "SELECT $1, $2::text, $3, $3::text FROM t WHERE id IN ($1, $2) LIMIT $3",
                vec![
                    Place::AloneFirst,
                    Place::Cast(oid::TEXT),
                    Place::Cast(oid::TEXT),
                ],
            ),
            (
                "SELECT $1::int, $1, $2 FROM t LIMIT $2",
                vec![Place::Cast(oid::INT4), Place::AloneFirst],
            ),
            (
                "DELETE FROM t WHERE id = $1 RETURNING $1, $2",
                vec![key(), Place::Alone],
            ),
            ("SELECT $2", vec![Place::Unused, Place::Alone]),
            ("SELECT $1, $1 FROM t", vec![Place::Alone]),
        ] {
            assert_eq!(places_of(text), expected, "{}", text);
        }
    }
}
