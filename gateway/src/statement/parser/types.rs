//! The names of types (manual 8; `Typename` of PostgreSQL's grammar).

use crate::sqlstate::{Failure, Report, SqlState};
use crate::statement::parser::{keywords, Parser, TokenKind};
use crate::statement::query::{Name, QualifiedName, TypeName};

impl<'a> Parser<'a> {
    /// Reads the name of a type.
    pub(super) fn type_name(&mut self) -> Result<TypeName, Failure> {
        if self.at_keyword("SETOF") {
            return Err(self.missing("SETOF"));
        }
        let start = self.start();
        let mut type_name = match self.built_in_type()? {
            Some(type_name) => type_name,
            None => self.generic_type()?,
        };
        if self.keyword("ARRAY") {
            type_name.is_array = true;
            if self.symbol(b'[') {
                self.integer()?;
                self.expect_symbol(b']')?;
            }
        } else {
            while self.symbol(b'[') {
                type_name.is_array = true;
                if !self.symbol(b']') {
                    self.integer()?;
                    self.expect_symbol(b']')?;
                }
            }
        }
        type_name.span = self.span_from(start);
        Ok(type_name)
    }

    /// Reads a type that has words of its own in the grammar. None: the next words are none of these.
    pub(super) fn built_in_type(&mut self) -> Result<Option<TypeName>, Failure> {
        let start = self.start();
        let word = match self.keyword_at(0) {
            Some(word) => word,
            None => return Ok(None),
        };
        let is_timed = |parser: &Self| parser.at_keywords(&["WITH", "TIME", "ZONE"]);
        let (name, takes_modifiers) = match word {
            "INT" | "INTEGER" => ("int4", false),
            "SMALLINT" => ("int2", false),
            "BIGINT" => ("int8", false),
            "REAL" => ("float4", false),
            "BOOLEAN" => ("bool", false),
            "DECIMAL" | "DEC" | "NUMERIC" => ("numeric", true),
            "FLOAT" => ("float8", true),
            "VARCHAR" => ("varchar", true),
            "CHAR" | "CHARACTER" | "NCHAR" => ("bpchar", true),
            "BIT" => ("bit", true),
            "TIMESTAMP" => ("timestamp", true),
            "TIME" => ("time", true),
            "INTERVAL" => ("interval", true),
            "NATIONAL"
                if self.at_keyword_ahead(1, "CHAR") || self.at_keyword_ahead(1, "CHARACTER") =>
            {
                self.at += 1;
                ("bpchar", true)
            }
            "DOUBLE" if self.at_keyword_ahead(1, "PRECISION") => {
                self.at += 1;
                ("float8", false)
            }
            _ => return Ok(None),
        };
        self.at += 1;
        let mut name = name.to_owned();
        if self.keyword("VARYING") {
            name = match name.as_str() {
                "bpchar" if word != "VARCHAR" => "varchar".to_owned(),
                "bit" => "varbit".to_owned(),
                _ => {
                    self.at -= 1;
                    return Err(self.fault());
                }
            };
        }
        let modifiers = if takes_modifiers {
            self.modifiers()?
        } else {
            Vec::new()
        };
        if matches!(name.as_str(), "time" | "timestamp") {
            if is_timed(self) {
                self.at += 3;
                name.push_str("tz");
            } else {
                self.keywords(&["WITHOUT", "TIME", "ZONE"]);
            }
        }
        // CHARACTER alone is one character long.
        let is_one = matches!(name.as_str(), "bpchar" | "bit") && modifiers.is_empty();
        let modifiers = if is_one { vec![1] } else { modifiers };
        let span = self.span_from(start);
        Ok(Some(TypeName {
            name: QualifiedName {
                schema: None,
                name: Name { text: name, span },
            },
            modifiers,
            is_array: false,
            span,
        }))
    }

    fn generic_type(&mut self) -> Result<TypeName, Failure> {
        let start = self.start();
        let first = self.name_if(keywords::may_name_function)?;
        let name = self.qualified_by(first)?;
        let modifiers = self.modifiers()?;
        Ok(TypeName {
            name,
            modifiers,
            is_array: false,
            span: self.span_from(start),
        })
    }

    /// Reads what may stand in parentheses behind a type.
    fn modifiers(&mut self) -> Result<Vec<i32>, Failure> {
        if !self.at_symbol(0, b'(') {
            return Ok(Vec::new());
        }
        self.list_in_parentheses(|parser| {
            let is_negative = parser.take_operator("-");
            let modifier = parser.integer()?;
            Ok(if is_negative { -modifier } else { modifier })
        })
    }

    /// Reads a whole number without a sign.
    pub(super) fn integer(&mut self) -> Result<i32, Failure> {
        match self.peek() {
            Some(token) if token.kind == TokenKind::Number => {
                let written = token.text(self.text);
                if !written.bytes().all(|byte| byte.is_ascii_digit()) {
                    return Err(self.fault());
                }
                let report = || {
                    let text = format!("value \"{}\" is out of range for type integer", written);
                    Report::error(SqlState::NUMBER_OUT_OF_RANGE, text).at(token.span().start)
                };
                let number = written.parse().map_err(|_| report())?;
                self.at += 1;
                Ok(number)
            }
            _ => Err(self.fault()),
        }
    }
}
