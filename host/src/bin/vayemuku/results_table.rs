//! sage's results table, or a list: a line with the names of the columns, then rows with one cell per column,
//! separated by tabs.

use crate::cells::shown;
use crate::problem::Problem;
use std::collections::HashSet;
use std::fmt::Display;
use std::path::Path;
use vayemuku::LONGEST;

/// The text of a table, split into lines.
pub struct ResultsTable {
    name: String,
    text: Vec<u8>,
    /// the number of columns
    width: usize,
    /// the end of each line; the first line has the names
    ends: Vec<usize>,
}

impl ResultsTable {
    /// Reads a table. Its number of rows and its header are checked here, its rows by [`ResultsTable::cells`].
    pub fn read(path: &Path) -> Result<ResultsTable, Problem> {
        let name = path.display().to_string();
        let text = std::fs::read(path).map_err(|why| Problem::with_file(&name, why))?;
        ResultsTable::from_text(name, text)
    }

    /// The table of a text.
    pub fn from_text(name: String, text: Vec<u8>) -> Result<ResultsTable, Problem> {
        if text.is_empty() {
            return Err(Problem::with_file(&name, "the header (line 1): the file is empty"));
        }
        let line_ends = text.iter().filter(|byte| **byte == b'\n').count();
        let lines = line_ends + usize::from(text.last() != Some(&b'\n'));
        let mut table = ResultsTable { name, text, width: 0, ends: Vec::new() };
        if lines - 1 > LONGEST {
            return Err(table.problem(LONGEST + 1, "a list has at most 16,777,215 rows"));
        }
        table.ends.reserve_exact(lines);
        table.ends.extend((0..table.text.len()).filter(|&at| table.text[at] == b'\n'));
        if table.ends.len() < lines {
            table.ends.push(table.text.len());
        }
        table.check_header()?;
        table.width = table.columns().count();
        Ok(table)
    }

    /// Err for a header that follows a byte order mark, or that names a column twice.
    fn check_header(&self) -> Result<(), Problem> {
        self.check_text(0)?;
        if self.text.starts_with("\u{feff}".as_bytes()) {
            return Err(self.problem(0, "the file begins with a byte order mark: take it out, as by tail -c +4"));
        }
        let mut names = HashSet::new();
        match self.columns().find(|name| !names.insert(*name)) {
            Some(name) => Err(self.problem(0, format!("column '{}' is there twice", shown(name)))),
            None => Ok(()),
        }
    }

    /// Err for a line that is empty or has a carriage return.
    fn check_text(&self, row: usize) -> Result<(), Problem> {
        let line = self.line(row);
        if line.contains(&b'\r') {
            let why = "the line has a carriage return: take Windows line ends out, as by tr -d '\\r'";
            return Err(self.problem(row, why));
        }
        match line.is_empty() {
            true => Err(self.problem(row, "the line is empty")),
            false => Ok(()),
        }
    }

    /// The name of the file.
    pub fn name(&self) -> &str {
        &self.name
    }

    /// The number of rows.
    pub fn rows(&self) -> usize {
        self.ends.len() - 1
    }

    /// The line of a row, from 1; row 0 is the header.
    fn line(&self, row: usize) -> &[u8] {
        let start = match row {
            0 => 0,
            _ => self.ends[row - 1] + 1,
        };
        &self.text[start..self.ends[row]]
    }

    /// The names of the columns.
    pub fn columns(&self) -> impl Iterator<Item = &[u8]> {
        self.line(0).split(|byte| *byte == b'\t')
    }

    /// The place of a column.
    pub fn column(&self, name: &str) -> Result<usize, Problem> {
        let place = self.columns().position(|column| column == name.as_bytes());
        place.ok_or_else(|| self.problem(0, format!("column {name} is missing")))
    }

    /// Puts the cells of a row, from 1, into `cells`, which then has one per column.
    pub fn cells<'a>(&'a self, row: usize, cells: &mut Vec<&'a [u8]>) -> Result<(), Problem> {
        self.check_text(row)?;
        cells.clear();
        cells.extend(self.line(row).split(|byte| *byte == b'\t'));
        match cells.len() == self.width {
            true => Ok(()),
            false => Err(self.problem(row, format!("it has {} cells, and the header {}", cells.len(), self.width))),
        }
    }

    /// A problem in a row, from 1, or in the header, which is row 0.
    pub fn problem(&self, row: usize, why: impl Display) -> Problem {
        Problem::File(format!("{}: {}: {why}", self.name, place(row)))
    }
}

/// A row in words.
pub fn place(row: usize) -> String {
    match row {
        0 => "the header (line 1)".to_string(),
        _ => format!("row {row} (line {})", row + 1),
    }
}

#[cfg(test)]
mod tests {
    use super::*;

    /// The table of a text.
    fn table(text: &str) -> Result<ResultsTable, Problem> {
        ResultsTable::from_text("x.tsv".to_string(), text.into())
    }

    /// The cells of a row.
    fn cells(table: &ResultsTable, row: usize) -> Result<Vec<&[u8]>, Problem> {
        let mut cells = Vec::new();
        table.cells(row, &mut cells).map(|_| cells)
    }

    #[test]
    fn a_last_line_end_is_optional() {
        for text in ["a\tb\n1\t2\n\t4\n", "a\tb\n1\t2\n\t4"] {
            let table = table(text).ok().unwrap();
            assert_eq!(table.rows(), 2);
            assert_eq!(table.column("b"), Ok(1));
            assert_eq!(cells(&table, 1), Ok(vec![&b"1"[..], b"2"]));
            assert_eq!(cells(&table, 2), Ok(vec![&b""[..], b"4"]));
        }
        assert_eq!(table("a").ok().unwrap().rows(), 0);
        assert_eq!(table("a\n").ok().unwrap().rows(), 0);
    }

    #[test]
    fn an_error_names_its_row() {
        let why = |text: &str, row| match table(text) {
            Ok(table) => cells(&table, row).unwrap_err(),
            Err(problem) => problem,
        };
        let file = |text: &str| Problem::File(format!("x.tsv: {text}"));
        assert_eq!(why("a\tb\n1\n", 1), file("row 1 (line 2): it has 1 cells, and the header 2"));
        assert_eq!(why("a\tb\n1\t2\n\n", 2), file("row 2 (line 3): the line is empty"));
        assert_eq!(why("a\ta\n", 0), file("the header (line 1): column 'a' is there twice"));
        assert_eq!(why("\n", 0), file("the header (line 1): the line is empty"));
    }
}
