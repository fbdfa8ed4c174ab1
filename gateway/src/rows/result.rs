//! Rows that were read out of replies.

use std::ops::Range;
use std::rc::Rc;

use crate::reply::Question;
use crate::rows::shape::{Output, Shape};
use crate::rows::Definition;
use crate::value::{append_cell, oid, NumberFault};
use crate::wire::backend::{self, Column, Format};
use postgres_protocol::Oid;

/// The rows of a result, each value as text.
#[derive(Clone, Debug, PartialEq, Eq)]
pub struct ResultSet {
    columns: Rc<[Column]>,
    /// The values of all rows: the length of each, -1 for NULL, and its bytes.
    values: Vec<u8>,
    /// Where the next row begins that nobody has taken.
    at: usize,
    /// How many rows there are that nobody has taken.
    left: usize,
    /// Whether the values are already in the format that the client asked for.
    is_encoded: bool,
}

/// The length that stands for NULL in a DataRow.
const NULL: [u8; 4] = (-1_i32).to_be_bytes();

impl ResultSet {
    /// Begins a result without rows.
    pub fn new(columns: impl Into<Rc<[Column]>>) -> ResultSet {
        ResultSet {
            columns: columns.into(),
            values: Vec::new(),
            at: 0,
            left: 0,
            is_encoded: false,
        }
    }

    /// Takes rows whose values are in the format that the client asked for: the length of each value, -1 for NULL, and
    /// its bytes.
    pub fn encoded(columns: Rc<[Column]>, rows: Vec<Vec<u8>>) -> ResultSet {
        ResultSet {
            columns,
            left: rows.len(),
            values: rows.concat(),
            at: 0,
            is_encoded: true,
        }
    }

    /// Returns what describes its columns.
    pub fn columns(&self) -> &Rc<[Column]> {
        &self.columns
    }

    /// Returns how many rows nobody has taken.
    pub fn left(&self) -> usize {
        self.left
    }

    fn push_value(&mut self, value: Option<&str>) {
        match value {
            Some(value) => {
                self.values
                    .extend_from_slice(&(value.len() as i32).to_be_bytes());
                self.values.extend_from_slice(value.as_bytes());
            }
            None => self.values.extend_from_slice(&NULL),
        }
    }

    /// Adds a row, which has a value for each column.
    pub fn push_row(&mut self, values: &[Option<&str>]) {
        debug_assert_eq!(values.len(), self.columns.len());
        for value in values {
            self.push_value(*value);
        }
        self.left += 1;
    }

    /// Writes the next row that nobody has taken as a DataRow. Returns whether there was one.
    ///
    /// # Errors
    ///
    /// Fails if a value is none of its column's type.
    pub fn take_row(
        &mut self,
        format: impl Fn(usize) -> Format,
        out: &mut Vec<u8>,
    ) -> Result<bool, NumberFault> {
        if self.left == 0 {
            return Ok(false);
        }
        let columns = Rc::clone(&self.columns);
        let (values, mut at) = (&self.values, self.at);
        if self.is_encoded {
            let end = columns.iter().fold(at, |at, _| end_of_value(values, at));
            backend::data_row(out, columns.len(), |out| {
                out.extend_from_slice(&values[at..end]);
            });
            self.at = end;
            self.left -= 1;
            return Ok(true);
        }
        let cells = columns.iter().map(|_| {
            let (value, next) = value_at(values, at);
            at = next;
            value
        });
        append_row(out, &columns, format, cells)?;
        self.at = at;
        self.left -= 1;
        Ok(true)
    }
}

/// Writes a DataRow of these values.
fn append_row<'a>(
    out: &mut Vec<u8>,
    columns: &[Column],
    format: impl Fn(usize) -> Format,
    values: impl Iterator<Item = Option<&'a str>>,
) -> Result<(), NumberFault> {
    let mut result = Ok(());
    backend::data_row(out, columns.len(), |out| {
        for (place, (column, value)) in columns.iter().zip(values).enumerate() {
            match value {
                None => out.extend_from_slice(&NULL),
                Some(value) => {
                    if let Err(fault) = append_cell(out, value, column.oid, format(place)) {
                        result = Err(fault);
                    }
                }
            }
        }
    });
    result
}

/// Returns where the value at a place ends.
fn end_of_value(values: &[u8], at: usize) -> usize {
    let mut length = [0; 4];
    length.copy_from_slice(&values[at..at + 4]);
    at + 4 + usize::try_from(i32::from_be_bytes(length)).unwrap_or(0)
}

/// Returns the value at a place, and the place of the next one.
fn value_at(values: &[u8], at: usize) -> (Option<&str>, usize) {
    let mut length = [0; 4];
    length.copy_from_slice(&values[at..at + 4]);
    match usize::try_from(i32::from_be_bytes(length)) {
        Ok(length) => {
            let end = at + 4 + length;
            (std::str::from_utf8(&values[at + 4..end]).ok(), end)
        }
        Err(_) => (None, at + 4),
    }
}

/// Reads the value that `line` begins with: a text in quotes, or a number. Returns it and what is behind it.
///
/// A text comes as it is meant, with each quote once; `scratch` has it then.
fn read_value<'a, 'l: 'a>(line: &'l str, scratch: &'a mut String) -> Option<(&'a str, &'l str)> {
    let quoted = match line.strip_prefix('\'') {
        Some(quoted) => quoted,
        None => {
            let end = line.find(' ').unwrap_or(line.len());
            return Some((&line[..end], &line[end..]));
        }
    };
    scratch.clear();
    let mut rest = quoted;
    loop {
        let end = rest.find('\'')?;
        scratch.push_str(&rest[..end]);
        rest = &rest[end + 1..];
        match rest.strip_prefix('\'') {
            Some(more) => {
                scratch.push('\'');
                rest = more;
            }
            None => return Some((scratch, rest)),
        }
    }
}

/// The values of a row, each as text.
#[derive(Debug, Default)]
struct Cells {
    text: String,
    /// Where each of them is. None: NULL.
    places: Vec<Option<Range<usize>>>,
}

impl Cells {
    fn clear(&mut self) {
        self.text.clear();
        self.places.clear();
    }

    fn push(&mut self, value: Option<&str>) {
        let start = self.text.len();
        self.places.push(value.map(|value| {
            self.text.push_str(value);
            start..self.text.len()
        }));
    }

    fn push_name(&mut self, name: &str) {
        self.push(Some(name));
        let start = self.text.len() - name.len();
        self.text[start..].make_ascii_lowercase();
    }

    fn get(&self, place: usize) -> Option<&str> {
        let place = self.places.get(place)?.clone()?;
        self.text.get(place)
    }
}

/// Makes rows of the lines of a reply, as they come.
#[derive(Debug)]
pub struct Reader {
    question: Question,
    shape: Shape,
    /// Of a SELECT: the definition by which its rows are read.
    definition: Option<Rc<Definition>>,
    /// Whether the line with the names of the columns has come.
    has_names: bool,
    /// How many lines the reply has, that one left out.
    lines: u64,
    cells: Cells,
    scratch: String,
}

/// Why a line gives no rows.
#[derive(Clone, Copy, Debug, PartialEq, Eq)]
pub enum LineFault {
    /// The table has other columns.
    OtherColumns,
    /// It is not understood.
    Unknown,
}

/// Returns what is behind a name with which a line begins, in any case. None: it begins otherwise.
fn behind_name<'l>(line: &'l str, name: &str) -> Option<&'l str> {
    let first = line.get(..name.len())?;
    first
        .eq_ignore_ascii_case(name)
        .then(|| &line[name.len()..])
}

impl Reader {
    /// Returns one for the replies to SELECT of a table.
    pub fn of_table(definition: Rc<Definition>, shape: Shape) -> Reader {
        Reader {
            definition: Some(definition),
            ..Reader::new(Question::Rows, shape)
        }
    }

    /// Returns one for the reply to a SHOW.
    pub fn of_show(question: Question) -> Reader {
        Reader::new(question, Shape::all(shown_columns(question)))
    }

    fn new(question: Question, shape: Shape) -> Reader {
        Reader {
            question,
            shape,
            definition: None,
            has_names: false,
            lines: 0,
            cells: Cells::default(),
            scratch: String::new(),
        }
    }

    /// Returns what the result has of what is read.
    pub fn shape(&self) -> &Shape {
        &self.shape
    }

    /// Returns the definition by which rows are read.
    pub fn definition(&self) -> Option<&Rc<Definition>> {
        self.definition.as_ref()
    }

    /// Reads a line of a reply, which is not its last one. Hands each row that it gives to `take`, which writes it.
    ///
    /// # Errors
    ///
    /// Fails if the line isn't one of such a reply.
    pub fn read(&mut self, line: &str, mut take: impl FnMut(&Row<'_>)) -> Result<(), LineFault> {
        if self.question == Question::Rows && !self.has_names {
            self.has_names = true;
            return self.check_names(line);
        }
        self.lines += 1;
        self.cells.clear();
        match self.question {
            Question::Rows => self.read_row(line),
            Question::Table => self.read_table(line),
            Question::Bounds => self.read_bounds(line),
            Question::Journal => return self.read_journal(line, take).ok_or(LineFault::Unknown),
            Question::Order | Question::Statistics => None,
        }
        .ok_or(LineFault::Unknown)?;
        take(&self.row());
        Ok(())
    }

    /// Is told of the end of a reply that says how many lines there were. The next one may begin.
    ///
    /// # Errors
    ///
    /// Fails if it is another number.
    pub fn end(&mut self, lines: Option<u64>) -> Result<(), LineFault> {
        let is_right = lines.map_or(true, |lines| lines == self.lines);
        self.has_names = false;
        self.lines = 0;
        if is_right {
            Ok(())
        } else {
            Err(LineFault::Unknown)
        }
    }

    fn row(&self) -> Row<'_> {
        Row {
            shape: &self.shape,
            cells: &self.cells,
        }
    }

    fn check_names(&self, line: &str) -> Result<(), LineFault> {
        let definition = self.definition.as_ref().ok_or(LineFault::Unknown)?;
        let mut columns = definition.columns.iter().enumerate();
        let rest = columns.try_fold(line, |rest, (place, column)| {
            let rest = match place {
                0 => rest,
                _ => rest.strip_prefix(" | ")?,
            };
            behind_name(rest, &column.name)
        });
        match rest {
            Some("") => Ok(()),
            _ => Err(LineFault::OtherColumns),
        }
    }

    /// Reads a row of a table.
    fn read_row(&mut self, line: &str) -> Option<()> {
        let count = self.definition.as_ref()?.columns.len();
        let mut rest = line;
        for place in 0..count {
            if place > 0 {
                rest = rest.strip_prefix(" | ")?;
            }
            let (value, behind) = read_value(rest, &mut self.scratch)?;
            self.cells.push(Some(value));
            rest = behind;
        }
        rest.is_empty().then_some(())
    }

    /// Reads a line of SHOW TABLE: the table's name, and the statement that makes it again.
    fn read_table(&mut self, line: &str) -> Option<()> {
        let table = line.strip_prefix("CREATE TABLE ")?.split(' ').next()?;
        self.cells.push_name(table);
        self.cells.push(Some(line));
        Some(())
    }

    /// Reads a line of SHOW BOUNDS.
    fn read_bounds(&mut self, line: &str) -> Option<()> {
        let words: Vec<&str> = line.split(' ').collect();
        let limit = |word| if word == "none" { None } else { Some(word) };
        let (name, values) = match words[..] {
            ["CHECK", name, "least", least, "greatest", greatest, "low", low, "high", high] => {
                let bounds = [Some(least), Some(greatest), limit(low), limit(high)];
                (name, [&[Some("check"), None], &bounds[..]].concat())
            }
            [name, "value", value, "inf", inf, "sup", sup] => {
                let bounds = [Some(inf), Some(sup), None, None];
                (name, [&[Some("column"), Some(value)], &bounds[..]].concat())
            }
            _ => return None,
        };
        self.cells.push_name(name);
        values.into_iter().for_each(|value| self.cells.push(value));
        Some(())
    }

    /// Reads a line of SHOW JOURNAL: it gives a row for each column that the reservation changes.
    fn read_journal(&mut self, line: &str, mut take: impl FnMut(&Row<'_>)) -> Option<()> {
        let mut words = line.splitn(5, ' ');
        let reservation = words.next()?;
        if words.next()? != "session" {
            return None;
        }
        let (session, table) = (words.next()?, words.next()?);
        let (key, rest) = read_value(words.next()?, &mut self.scratch)?;
        let mut changes = rest.strip_prefix(' ')?.split(' ');
        while let Some(name) = changes.next() {
            let change = changes.next()?;
            self.cells.clear();
            self.cells.push(Some(reservation));
            self.cells.push(Some(session));
            self.cells.push_name(table);
            self.cells.push(Some(key));
            self.cells.push_name(name);
            self.cells
                .push(Some(change.strip_prefix('+').unwrap_or(change)));
            take(&Row {
                shape: &self.shape,
                cells: &self.cells,
            });
        }
        Some(())
    }
}

/// A row that was read.
#[derive(Debug)]
pub struct Row<'a> {
    shape: &'a Shape,
    cells: &'a Cells,
}

impl Row<'_> {
    /// Writes what the result has of it as a DataRow.
    ///
    /// # Errors
    ///
    /// Fails if a value is none of its column's type.
    pub fn append(
        &self,
        format: impl Fn(usize) -> Format,
        out: &mut Vec<u8>,
    ) -> Result<(), NumberFault> {
        let values = self.shape.outputs.iter().map(|output| match output {
            Output::Column(place) => self.cells.get(*place),
            Output::Constant(text) => text.as_deref(),
            Output::Count | Output::Exists => None,
        });
        append_row(out, &self.shape.columns, format, values)
    }
}

/// Writes the row of a result that only counts: `count` where it is asked for, beside constants.
///
/// # Errors
///
/// Fails if a value is none of its column's type.
pub fn append_count(
    shape: &Shape,
    count: u64,
    format: impl Fn(usize) -> Format,
    out: &mut Vec<u8>,
) -> Result<(), NumberFault> {
    let exists = if count > 0 { "t" } else { "f" };
    let count = count.to_string();
    let values = shape.outputs.iter().map(|output| match output {
        Output::Count => Some(count.as_str()),
        Output::Exists => Some(exists),
        Output::Constant(text) => text.as_deref(),
        Output::Column(_) => None,
    });
    append_row(out, &shape.columns, format, values)
}

/// The totals of SHOW STATISTICS, in its order.
const TOTALS: [&str; 8] = [
    "served",
    "granted",
    "broken",
    "refused",
    "commits",
    "rollbacks",
    "writes",
    "queries",
];

/// Makes the result of SHOW STATISTICS: how many statements were served, and the other totals in their order.
pub fn statistics(served: u64, others: [u64; 7]) -> ResultSet {
    let totals: Vec<String> = [served].iter().chain(&others).map(u64::to_string).collect();
    let row: Vec<Option<&str>> = totals.iter().map(|total| Some(total.as_str())).collect();
    let mut result = ResultSet::new(shown_columns(Question::Statistics));
    result.push_row(&row);
    result
}

/// Returns the columns of a SHOW of the program's. Other questions have none.
pub fn shown_columns(question: Question) -> Rc<[Column]> {
    let columns: &[(&str, Oid)] = match question {
        Question::Table => &[("table_name", oid::TEXT), ("definition", oid::TEXT)],
        Question::Bounds => &[
            ("name", oid::TEXT),
            ("kind", oid::TEXT),
            ("value", oid::NUMERIC),
            ("least", oid::NUMERIC),
            ("greatest", oid::NUMERIC),
            ("low", oid::NUMERIC),
            ("high", oid::NUMERIC),
        ],
        Question::Journal => &[
            ("reservation", oid::INT8),
            ("session", oid::INT4),
            ("table_name", oid::TEXT),
            ("key", oid::TEXT),
            ("column_name", oid::TEXT),
            ("change", oid::NUMERIC),
        ],
        Question::Statistics => {
            return TOTALS
                .iter()
                .map(|name| Column::plain(name, oid::INT8))
                .collect()
        }
        Question::Rows | Question::Order => &[],
    };
    columns
        .iter()
        .map(|(name, oid)| Column::plain(name, *oid))
        .collect()
}

/// Makes a result of columns that are told by name and type, with these rows.
pub fn constants(columns: &[(&str, Oid)], rows: &[Vec<Option<String>>]) -> ResultSet {
    let described: Vec<Column> = columns
        .iter()
        .map(|(name, oid)| Column::plain(name, *oid))
        .collect();
    let mut result = ResultSet::new(described);
    for row in rows {
        let values: Vec<Option<&str>> = row.iter().map(Option::as_deref).collect();
        result.push_row(&values);
    }
    result
}

#[cfg(test)]
mod tests {
    use super::*;
    use crate::rows::shape::Order;

    fn shop() -> Rc<Definition> {
        let printed = "CREATE TABLE SHOP (CODE VARCHAR2(8) PRIMARY KEY, PRICE NUMBER(8,2), \
                       STOCK NUMBER(4) RESERVABLE)";
        Rc::new(Definition::parse(printed).unwrap())
    }

    fn all_of_shop() -> Reader {
        Reader::of_table(shop(), Shape::all(shop().result_columns()))
    }

    /// Reads lines, and returns what the cells of each row show.
    fn all(reader: &mut Reader, lines: &str) -> Result<Vec<Vec<String>>, LineFault> {
        let mut rows = Vec::new();
        for line in lines.lines() {
            reader.read(line, |row| {
                let cell = |place| row.cells.get(place).unwrap_or("NULL").to_owned();
                rows.push((0..row.cells.places.len()).map(cell).collect());
            })?;
        }
        Ok(rows)
    }

    #[test]
    fn reads_rows_whose_texts_have_bars_and_quotes() {
        let lines = "CODE | PRICE | STOCK\n'a'' | ''b' | -0.50 | 3\n'' | 1.00 | 0\n";
        let mut reader = all_of_shop();
        assert_eq!(
            all(&mut reader, lines).unwrap(),
            [["a' | 'b", "-0.50", "3"], ["", "1.00", "0"]]
        );
        assert_eq!(reader.end(Some(2)), Ok(()));
        assert_eq!(reader.end(Some(2)), Err(LineFault::Unknown));
    }

    #[test]
    fn rows_of_another_table_are_none() {
        for names in [
            "CODE | PRICE",
            "CODE | PRICE | STOCK | X",
            "CODE | PRICE | COUNT",
            "",
        ] {
            let told = all(&mut all_of_shop(), &format!("{names}\n\n"));
            assert_eq!(told, Err(LineFault::OtherColumns), "{names}");
        }
        for row in [
            "'a' | 1.00",
            "'a | 1.00 | 2",
            "'a' | 1.00 | 2 | 3",
            "'a'|1.00|2",
        ] {
            let told = all(
                &mut all_of_shop(),
                &format!("CODE | PRICE | STOCK\n{row}\n"),
            );
            assert_eq!(told, Err(LineFault::Unknown), "{row}");
        }
    }

    #[test]
    fn reads_bounds_with_null_where_there_is_no_limit() {
        let lines = "STOCK value 12 inf 4 sup 12\nCHECK FREE least 0 greatest 4 low 0 high none\n\
                     CHECK CAP least 0 greatest 4 low none high 9\n";
        assert_eq!(
            all(&mut Reader::of_show(Question::Bounds), lines).unwrap(),
            [
                ["stock", "column", "12", "4", "12", "NULL", "NULL"],
                ["free", "check", "NULL", "0", "4", "0", "NULL"],
                ["cap", "check", "NULL", "0", "4", "NULL", "9"],
            ]
        );
    }

    #[test]
    fn reads_a_journal_of_several_columns() {
        let lines = "3 session 2 FLIGHT 'EX 1''04' SOLD +10 HELD -12\n4 session 12 T -1 A +0\n";
        let mut reader = Reader::of_show(Question::Journal);
        assert_eq!(
            all(&mut reader, lines).unwrap(),
            [
                ["3", "2", "flight", "EX 1'04", "sold", "10"],
                ["3", "2", "flight", "EX 1'04", "held", "-12"],
                ["4", "12", "t", "-1", "a", "0"],
            ]
        );
        assert_eq!(reader.end(Some(2)), Ok(()));
    }

    #[test]
    fn reads_a_definition() {
        let printed = "CREATE TABLE T (A NUMBER(15) RESERVABLE)";
        let told = all(&mut Reader::of_show(Question::Table), printed).unwrap();
        assert_eq!(told, [["t", printed]]);
    }

    #[test]
    fn a_shape_shows_columns_constants_and_the_count() {
        let columns = vec![
            Column::plain("one", oid::TEXT),
            Column::plain("stock", oid::INT8),
        ];
        let shape = Shape {
            columns: columns.into(),
            outputs: vec![Output::Constant(None), Output::Column(2)],
            order: Order::Rising,
            offset: 0,
            limit: None,
        };
        let mut reader = Reader::of_table(shop(), shape.clone());
        let mut out = Vec::new();
        for line in ["CODE | PRICE | STOCK", "'a' | 1.00 | 7"] {
            let append = |row: &Row<'_>| row.append(|_| Format::Text, &mut out).unwrap();
            reader.read(line, append).unwrap();
        }
        assert_eq!(out, b"D\0\0\0\x0f\0\x02\xff\xff\xff\xff\0\0\0\x017");
        let outputs = vec![Output::Constant(Some("x".to_owned())), Output::Count];
        let counted = Shape { outputs, ..shape };
        out.clear();
        append_count(&counted, 12, |_| Format::Text, &mut out).unwrap();
        assert_eq!(out, b"D\0\0\0\x11\0\x02\0\0\0\x01x\0\0\0\x0212");
    }

    #[test]
    fn takes_rows_one_by_one() {
        let mut result = constants(
            &[("a", oid::TEXT)],
            &[vec![Some("x".to_owned())], vec![None]],
        );
        let mut out = Vec::new();
        assert_eq!(result.take_row(|_| Format::Text, &mut out), Ok(true));
        assert_eq!(out, b"D\0\0\0\x0b\0\x01\0\0\0\x01x");
        assert_eq!(result.take_row(|_| Format::Text, &mut out), Ok(true));
        assert_eq!(result.take_row(|_| Format::Text, &mut out), Ok(false));
    }
}
