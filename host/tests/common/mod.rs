//! Runs the program in a folder of its own.
#![allow(dead_code)] // each test file uses its part

use std::path::PathBuf;
use std::process::{Command, Output};

/// The result of a run of the program.
#[derive(Debug)]
pub struct Ran {
    pub status: Option<i32>,
    pub stdout: String,
    pub stderr: String,
}

impl Ran {
    /// The result of a process.
    pub fn of(output: Output) -> Ran {
        Ran {
            status: output.status.code(),
            stdout: String::from_utf8(output.stdout).unwrap(),
            stderr: String::from_utf8(output.stderr).unwrap(),
        }
    }

    /// Asserts that the program ended with this status and one line on standard error, and printed nothing else.
    pub fn failed(&self, status: i32, line: &str) {
        assert_eq!((self.status, self.stderr.as_str()), (Some(status), format!("vayemuku: {line}\n").as_str()));
        assert_eq!(self.stdout, "");
    }
}

/// The program, to be run.
pub fn program() -> Command {
    Command::new(env!("CARGO_BIN_EXE_vayemuku"))
}

/// A folder that is removed when it is dropped.
pub struct Folder(PathBuf);

impl Folder {
    /// A fresh folder for the test of this name.
    pub fn new(test: &str) -> Folder {
        let path = PathBuf::from(env!("CARGO_TARGET_TMPDIR")).join(format!("{test}-{}", std::process::id()));
        let _ = std::fs::remove_dir_all(&path);
        std::fs::create_dir_all(&path).unwrap();
        Folder(path)
    }

    /// The path of a file.
    pub fn path(&self, name: &str) -> PathBuf {
        self.0.join(name)
    }

    /// Writes a file.
    pub fn write(&self, name: &str, text: impl AsRef<[u8]>) {
        std::fs::write(self.path(name), text).unwrap();
    }

    /// Reads a file.
    pub fn read(&self, name: &str) -> String {
        std::fs::read_to_string(self.path(name)).unwrap()
    }

    /// The names of all files, in order.
    pub fn files(&self) -> Vec<String> {
        let entries = std::fs::read_dir(&self.0).unwrap();
        let mut names: Vec<String> = entries.map(|entry| entry.unwrap().file_name().into_string().unwrap()).collect();
        names.sort();
        names
    }

    /// Removes a file.
    pub fn remove(&self, name: &str) {
        std::fs::remove_file(self.path(name)).unwrap();
    }

    /// Runs the program in the folder, on words without blanks in them.
    pub fn run(&self, words: &str) -> Ran {
        self.run_words(&words.split(' ').collect::<Vec<_>>())
    }

    /// Runs the program in the folder.
    pub fn run_words(&self, words: &[&str]) -> Ran {
        Ran::of(program().current_dir(&self.0).args(words).output().unwrap())
    }

    /// Runs the words of a shell in the folder; `$0` is the program.
    pub fn run_shell(&self, words: &str) -> Ran {
        let program = env!("CARGO_BIN_EXE_vayemuku");
        Ran::of(Command::new("sh").current_dir(&self.0).args(["-c", words, program]).output().unwrap())
    }

    /// Runs the generator in the folder, and gives the first rows of its first table.
    pub fn sample(&self, rows: usize) -> Cells {
        let generator = Command::new(env!("CARGO_BIN_EXE_vayemuku-sample")).current_dir(&self.0).arg("sample").status();
        assert!(generator.unwrap().success());
        let cells = Cells::of(&self.read("sample/good.tsv"), rows);
        std::fs::remove_dir_all(self.0.join("sample")).unwrap();
        cells
    }
}

impl Drop for Folder {
    fn drop(&mut self) {
        let _ = std::fs::remove_dir_all(&self.0);
    }
}

/// A table in cells; row 0 is the header.
#[derive(Clone, Debug, PartialEq)]
pub struct Cells(pub Vec<Vec<String>>);

impl Cells {
    /// The cells of a text, up to a number of rows.
    pub fn of(text: &str, rows: usize) -> Cells {
        Cells(text.lines().take(rows + 1).map(|line| line.split('\t').map(String::from).collect()).collect())
    }

    /// The text of the cells.
    pub fn text(&self) -> String {
        self.0.iter().map(|line| line.join("\t") + "\n").collect()
    }

    /// The place of a column.
    fn place(&self, column: &str) -> usize {
        self.0[0].iter().position(|name| name == column).unwrap_or_else(|| panic!("no column {column}"))
    }

    /// The cells of a column.
    pub fn column(&self, column: &str) -> Vec<&str> {
        let place = self.place(column);
        self.0[1..].iter().map(|line| line[place].as_str()).collect()
    }

    /// The cells of a column, as numbers.
    pub fn numbers<T: std::str::FromStr<Err: std::fmt::Debug>>(&self, column: &str) -> Vec<T> {
        self.column(column).iter().map(|cell| cell.parse().unwrap()).collect()
    }

    /// The table with another cell in a row, from 1.
    pub fn with(&self, row: usize, column: &str, cell: &str) -> Cells {
        let mut cells = self.clone();
        let place = self.place(column);
        cells.0[row][place] = cell.to_string();
        cells
    }

    /// The table with a column whose cells are all this one.
    pub fn with_all(&self, column: &str, cell: &str) -> Cells {
        let mut cells = self.clone();
        let place = self.place(column);
        cells.0[1..].iter_mut().for_each(|line| line[place] = cell.to_string());
        cells
    }

    /// The table without a column.
    pub fn without(&self, column: &str) -> Cells {
        let mut cells = self.clone();
        let place = self.place(column);
        cells.0.iter_mut().for_each(|line| drop(line.remove(place)));
        cells
    }

    /// The table with its columns from the last to the first.
    pub fn reversed(&self) -> Cells {
        let mut cells = self.clone();
        cells.0.iter_mut().for_each(|line| line.reverse());
        cells
    }

    /// The table with those rows only whose cell in a column is this one.
    pub fn only(&self, column: &str, cell: &str) -> Cells {
        let place = self.place(column);
        let mut cells = self.clone();
        let mut row = 0;
        cells.0.retain(|line| {
            row += 1;
            row == 1 || line[place] == cell
        });
        cells
    }
}
