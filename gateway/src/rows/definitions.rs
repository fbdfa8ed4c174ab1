//! The definitions of all tables of a database.

use std::cell::RefCell;
use std::collections::BTreeMap;
use std::rc::Rc;

use crate::reply::Question;
use crate::rows::Definition;

/// The definitions of a database's tables, as its program has told them. Clones of this share them.
///
/// Statements that define tables come through the gateway alone, and behind each of them it asks for the definition. The
/// program answers in the order of the statements. So when a reply comes, these are the definitions by which the program
/// served its statement.
#[derive(Clone, Debug, Default)]
pub struct Definitions(Rc<RefCell<BTreeMap<String, Rc<Definition>>>>);

impl Definitions {
    /// Returns the definition of the table of this name, in lower case, if it is known.
    pub fn get(&self, table: &str) -> Option<Rc<Definition>> {
        self.0.borrow().get(table).map(Rc::clone)
    }

    /// Returns all definitions, in order of the tables' names.
    pub fn all(&self) -> Vec<Rc<Definition>> {
        self.0.borrow().values().map(Rc::clone).collect()
    }

    /// Forgets a table, which is asked for again when it is needed.
    pub fn forget(&self, table: &str) {
        self.0.borrow_mut().remove(table);
    }

    /// Takes note of a line of a reply, without its prefix and its line feed.
    pub fn note(&self, question: Question, line: &[u8]) {
        match question {
            Question::Table => {
                let printed = std::str::from_utf8(line).ok();
                if let Some(definition) = printed.and_then(Definition::parse) {
                    self.learn(definition);
                }
            }
            Question::Order => {
                let name = [&b"OK dropped "[..], b"OK created ", b"OK altered "]
                    .iter()
                    .find_map(|words| line.strip_prefix(*words));
                if let Some(name) = name.and_then(|name| std::str::from_utf8(name).ok()) {
                    self.forget(&name.to_ascii_lowercase());
                }
            }
            _ => {}
        }
    }

    /// Keeps a definition. One that is kept already stays the same one.
    fn learn(&self, definition: Definition) {
        let mut known = self.0.borrow_mut();
        match known.get(&definition.table) {
            Some(same) if **same == definition => {}
            _ => {
                known.insert(definition.table.clone(), Rc::new(definition));
            }
        }
    }
}

#[cfg(test)]
mod tests {
    use super::*;

    #[test]
    fn definitions_follow_what_the_program_answers() {
        let known = Definitions::default();
        let names = || -> Vec<String> { known.all().iter().map(|it| it.table.clone()).collect() };
        for table in ["T", "A"] {
            let printed =
                format!("CREATE TABLE {table} (K NUMBER(5) PRIMARY KEY, N NUMBER(5) RESERVABLE)");
            known.note(Question::Table, printed.as_bytes());
            known.note(Question::Table, b"OK table");
        }
        assert_eq!(names(), ["a", "t"]);
        known.note(Question::Order, b"OK altered A");
        assert_eq!(names(), ["t"], "SHOW TABLE is asked behind it");
        known.note(Question::Order, b"ERR 21 no such table");
        known.note(Question::Rows, b"OK dropped T");
        let before = known.get("t").unwrap();
        known.note(
            Question::Table,
            b"CREATE TABLE T (K NUMBER(5) PRIMARY KEY, N NUMBER(5) RESERVABLE)",
        );
        assert!(Rc::ptr_eq(&before, &known.get("t").unwrap()));
        known.note(Question::Order, b"OK dropped T");
        assert!(names().is_empty());
    }
}
