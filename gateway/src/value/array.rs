//! Arrays of one dimension, as parameters have them.

use postgres_protocol::Oid;

use crate::catalog::types;
use crate::sqlstate::{Failure, Report, SqlState};
use crate::value::{is_blank, no_binary, oid};

/// The types of arrays that are understood, each with the type of its elements.
const TYPES: [(Oid, Oid); 6] = [
    (1005, oid::INT2),
    (1007, oid::INT4),
    (1016, oid::INT8),
    (1231, oid::NUMERIC),
    (1009, oid::TEXT),
    (1015, oid::VARCHAR),
];

/// Returns the type of an array's elements. None: it is no type of arrays that are understood.
pub fn element(array: Oid) -> Option<Oid> {
    TYPES
        .iter()
        .find(|(it, _)| *it == array)
        .map(|(_, element)| *element)
}

/// Returns the type of arrays of an element's type. None: there is none that is understood.
pub fn of(element: Oid) -> Option<Oid> {
    TYPES
        .iter()
        .find(|(_, it)| *it == element)
        .map(|(array, _)| *array)
}

fn malformed(text: &str) -> Failure {
    let text = format!("malformed array literal: \"{}\"", text);
    Report::error(SqlState::INVALID_TEXT_REPRESENTATION, text)
}

fn too_deep() -> Failure {
    Report::missing("an array of several dimensions")
}

/// Reads the elements of an array in text (PostgreSQL's manual 8.15.6). None: NULL.
///
/// # Errors
///
/// Fails if the text is no array, or one of several dimensions.
pub fn elements(text: &str) -> Result<Vec<Option<String>>, Failure> {
    let inner = text
        .trim_matches(is_blank)
        .strip_prefix('{')
        .and_then(|rest| rest.strip_suffix('}'))
        .ok_or_else(|| malformed(text))?;
    let mut elements = Vec::new();
    if inner.trim_matches(is_blank).is_empty() {
        return Ok(elements);
    }
    let mut rest = inner.chars().peekable();
    loop {
        let (mut element, mut is_quoted) = (String::new(), false);
        while rest.next_if(|&next| is_blank(next)).is_some() {}
        if rest.next_if_eq(&'"').is_some() {
            is_quoted = true;
            loop {
                match rest.next() {
                    Some('"') => break,
                    Some('\\') => element.push(rest.next().ok_or_else(|| malformed(text))?),
                    Some(next) => element.push(next),
                    None => return Err(malformed(text)),
                }
            }
            while rest.next_if(|&next| is_blank(next)).is_some() {}
        } else {
            // An escaped blank is a letter, and what has an escape is no NULL.
            let mut end = 0;
            while let Some(next) = rest.next_if(|next| *next != ',') {
                match next {
                    '{' => return Err(too_deep()),
                    '}' | '"' => return Err(malformed(text)),
                    '\\' => {
                        element.push(rest.next().ok_or_else(|| malformed(text))?);
                        is_quoted = true;
                        end = element.len();
                    }
                    next => {
                        element.push(next);
                        if !is_blank(next) {
                            end = element.len();
                        }
                    }
                }
            }
            element.truncate(end);
            if element.is_empty() {
                return Err(malformed(text));
            }
        }
        let is_null = !is_quoted && element.eq_ignore_ascii_case("null");
        elements.push(Some(element).filter(|_| !is_null));
        match rest.next() {
            None => return Ok(elements),
            Some(',') => {}
            Some(_) => return Err(malformed(text)),
        }
    }
}

/// Reads the elements of an array in binary, which is the parameter `$number`, each as its type has it. None: NULL.
///
/// # Errors
///
/// Fails if the bytes are no array, one of another type, or one of several dimensions.
pub fn binary_elements(
    number: usize,
    element: Oid,
    mut bytes: &[u8],
) -> Result<Vec<Option<&[u8]>>, Failure> {
    let wrong = || no_binary(number);
    let word = |bytes: &mut &[u8]| -> Result<i32, Failure> {
        let (first, rest) = (bytes.get(..4), bytes.get(4..));
        let first = first.and_then(|first| <[u8; 4]>::try_from(first).ok());
        *bytes = rest.unwrap_or(&[]);
        first.map(i32::from_be_bytes).ok_or_else(wrong)
    };
    let (dimensions, _, of) = (word(&mut bytes)?, word(&mut bytes)?, word(&mut bytes)?);
    let of = of as Oid;
    if of != element {
        let text = format!(
            "binary data has array element type {} ({}) instead of expected {} ({})",
            of,
            types::display(of),
            element,
            types::display(element)
        );
        return Err(Report::error(SqlState::DATATYPE_MISMATCH, text));
    }
    let count = match dimensions {
        0 => 0,
        1 => {
            let (count, _) = (word(&mut bytes)?, word(&mut bytes)?);
            count
        }
        _ => return Err(too_deep()),
    };
    let mut elements = Vec::new();
    for _ in 0..count {
        elements.push(match usize::try_from(word(&mut bytes)?) {
            Err(_) => None,
            Ok(length) if length <= bytes.len() => {
                let (value, rest) = bytes.split_at(length);
                bytes = rest;
                Some(value)
            }
            Ok(_) => return Err(wrong()),
        });
    }
    if !bytes.is_empty() {
        return Err(wrong());
    }
    Ok(elements)
}

#[cfg(test)]
mod tests {
    use super::*;

    #[test]
    fn reads_arrays_as_postgresql_15_does() {
        let read = |text: &str| {
            let elements = elements(text).map_err(|report| report.state.code())?;
            let names: Vec<String> = elements
                .into_iter()
                .map(|it| it.unwrap_or_else(|| "-".to_owned()))
                .collect();
            Ok(names.join("|"))
        };
        for (text, expected) in [
            ("{}", Ok("")),
            (" { 1 ,2, -3 } ", Ok("1|2|-3")),
            (
                "{a b,\"x,\\\"y\\\\\",NULL,\"NULL\",\\n}",
                Ok("a b|x,\"y\\|-|NULL|n"),
            ),
            ("{a\\ ,\\ b , c\\\\ }", Ok("a | b|c\\")),
            (
                "{\\NULL,N\\ull,\u{a0}a\u{a0}}",
                Ok("NULL|Null|\u{a0}a\u{a0}"),
            ),
            ("\x0b{\x0b1\x0b}\x0b", Ok("1")),
            ("\u{a0}{1}", Err("22P02")),
            ("{1,}", Err("22P02")),
            ("{,1}", Err("22P02")),
            ("1,2", Err("22P02")),
            ("{\"a}", Err("22P02")),
            ("{\"a\"b}", Err("22P02")),
            ("{{1},{2}}", Err("0A000")),
        ] {
            assert_eq!(
                read(text).as_deref().map_err(|code| *code),
                expected,
                "{}",
                text
            );
        }
    }

    #[test]
    fn reads_arrays_in_binary() {
        let array = |words: &[i32]| -> Vec<u8> {
            words.iter().flat_map(|word| word.to_be_bytes()).collect()
        };
        let int4 = oid::INT4 as i32;
        let bytes = array(&[1, 0, int4, 2, 1, 4, 7, -1]);
        let seven = 7_i32.to_be_bytes();
        assert_eq!(
            binary_elements(1, oid::INT4, &bytes).unwrap(),
            [Some(&seven[..]), None]
        );
        assert!(binary_elements(1, oid::INT4, &array(&[0, 0, int4]))
            .unwrap()
            .is_empty());
        for wrong in [
            &[1, 0, int4, 2, 1, 4, 7][..],
            &[1, 0, int4, i32::MAX, 1, i32::MAX],
            &[1, 0, int4, 1, 1, 4, 7, 9],
            &[0, 0, int4, 9],
            &[1],
        ] {
            let report = binary_elements(1, oid::INT4, &array(wrong)).unwrap_err();
            assert_eq!(report.state.code(), "22P03");
        }
        for (other, state) in [
            (&[2, 0, int4, 1, 1, 1, 1][..], "0A000"),
            (&[1, 0, int4 + 1, 0, 1], "42804"),
            (&[0, 0, int4 + 1], "42804"),
        ] {
            let report = binary_elements(1, oid::INT4, &array(other)).unwrap_err();
            assert_eq!(report.state.code(), state);
        }
    }
}
