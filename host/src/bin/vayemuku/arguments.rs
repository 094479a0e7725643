//! The words of the command line.

use crate::problem::Problem;
use crate::proteins::Decoys;
use std::ffi::OsString;
use std::path::{Path, PathBuf};
use vayemuku::{Rate, Tolerance};

/// What `vayemuku help` prints.
pub const HELP: &str = "vayemuku rescore IN.tsv OUT.tsv [OPTIONS]
    Fits, scores and ranks the rows of sage's results table anew, and writes them with fresh scores, posterior errors
    and q-values. What is stored of these is not read. OUT.tsv must not be there yet.
    --tolerance ppm:LO:HI   sage's precursor tolerance, or da:LO:HI; ppm:-10:10 where it is not given
    --batch NAME            the batch; the name of IN.tsv without .tsv where it is not given
    --decoy-tag TAG         what sage puts before the names of the decoys it generates; rev_ where it is not given
    --fasta-decoys          the decoys stand in the FASTA file: sage's generate_decoys is false
    --progress              tells on standard error how far it is; on a terminal it does so after a second

vayemuku check LIST.tsv --line N [--rate 100|20]
    Ranks the rows of a list by sage_discriminant_score, and tells whether the line after row N is right at one in 100
    (or 20), and whether the list's spectrum_q is what the counting rule gives.

vayemuku help | version

Status: 0 all is well; 1 the line or the q-values are wrong; 2 the command line is not valid; 3 a file cannot be read
or written, or holds what it should not: no list was written; or standard output cannot be written; 4 a call refused: a
list was written with every fresh column empty (rescore), or the line is past the list (check).";

/// What the program is asked to do.
#[derive(Debug, PartialEq)]
pub enum Command {
    Help,
    Version,
    Rescore(Rescore),
    Check(Check),
}

/// A table to rescore.
#[derive(Debug, PartialEq)]
pub struct Rescore {
    pub input: PathBuf,
    pub output: PathBuf,
    pub tolerance: Tolerance,
    pub batch: String,
    pub decoys: Decoys,
    pub progress: bool,
}

/// A line to check.
#[derive(Debug, PartialEq)]
pub struct Check {
    pub list: PathBuf,
    pub line: usize,
    pub rate: Rate,
}

impl Command {
    /// What the words after the program's name ask for.
    pub fn from_words(words: impl Iterator<Item = OsString>) -> Result<Command, Problem> {
        let words: Vec<OsString> = words.collect();
        let Some((first, rest)) = words.split_first() else {
            return usage("no command is given");
        };
        let asks_for_help = rest.iter().any(|word| word == "--help" || word == "-h");
        match first.to_str() {
            Some("help" | "--help" | "-h") => Ok(Command::Help),
            Some("version" | "--version" | "-V") => Ok(Command::Version),
            Some("rescore" | "check") if asks_for_help => Ok(Command::Help),
            Some("rescore") => Ok(Command::Rescore(Rescore::from_words(Words::sorted(rest, &RESCORE)?)?)),
            Some("check") => Ok(Command::Check(Check::from_words(Words::sorted(rest, &CHECK)?)?)),
            _ => usage(format!("there is no command '{}'", first.to_string_lossy())),
        }
    }
}

/// The options of rescore, and whether each is followed by a value.
const RESCORE: [(&str, bool); 5] =
    [("--tolerance", true), ("--batch", true), ("--decoy-tag", true), ("--fasta-decoys", false), ("--progress", false)];

/// The options of check.
const CHECK: [(&str, bool); 2] = [("--line", true), ("--rate", true)];

/// The words of a command: its files, and its options with their values.
struct Words {
    files: Vec<PathBuf>,
    options: Vec<(&'static str, String)>,
}

impl Words {
    /// Separates the options from the files.
    fn sorted(words: &[OsString], known: &[(&'static str, bool)]) -> Result<Words, Problem> {
        let mut words = words.iter();
        let mut sorted = Words { files: Vec::new(), options: Vec::new() };
        while let Some(word) = words.next() {
            let text = word.to_string_lossy();
            if text.is_empty() {
                return usage("the name of a file is empty");
            }
            if !text.starts_with('-') {
                sorted.files.push(word.into());
                continue;
            }
            let Some(&(name, followed)) = known.iter().find(|(name, _)| *name == text) else {
                return usage(format!("there is no option '{text}'"));
            };
            let value = match followed {
                true => words.next().map(|word| word.to_str()),
                false => Some(Some("")),
            };
            match value {
                Some(Some(value)) if sorted.option(name).is_none() => sorted.options.push((name, value.to_string())),
                Some(Some(_)) => return usage(format!("{name} is given twice")),
                Some(None) => return usage(format!("what follows {name} is no text")),
                None => return usage(format!("nothing follows {name}")),
            }
        }
        Ok(sorted)
    }

    /// The value of an option, if it is given.
    fn option(&self, name: &str) -> Option<&str> {
        self.options.iter().find(|(given, _)| *given == name).map(|(_, value)| value.as_str())
    }
}

impl Rescore {
    /// What the words ask for.
    fn from_words(words: Words) -> Result<Rescore, Problem> {
        let [input, output] = words.files.as_slice() else {
            return usage("rescore takes two files, IN.tsv and OUT.tsv");
        };
        if output.as_os_str().to_string_lossy().ends_with('/') {
            return usage(format!("'{}' is the name of a folder, and OUT.tsv is a file", output.display()));
        }
        let tag = words.option("--decoy-tag");
        let decoys = match (words.option("--fasta-decoys"), tag) {
            (None, None) => Decoys::Generated { tag: "rev_".into() },
            (None, Some(tag)) if !tag.is_empty() => Decoys::Generated { tag: tag.into() },
            (None, Some(_)) => return usage("--decoy-tag is empty"),
            (Some(_), None) => Decoys::Fasta,
            (Some(_), Some(_)) => {
                return usage("--decoy-tag is for decoys that sage generates, --fasta-decoys for others")
            }
        };
        Ok(Rescore {
            tolerance: tolerance(words.option("--tolerance").unwrap_or("ppm:-10:10"))?,
            batch: batch(words.option("--batch"), input)?,
            decoys,
            progress: words.option("--progress").is_some(),
            input: input.clone(),
            output: output.clone(),
        })
    }
}

impl Check {
    /// What the words ask for.
    fn from_words(words: Words) -> Result<Check, Problem> {
        let [list] = words.files.as_slice() else {
            return usage("check takes one file, LIST.tsv");
        };
        let Some(line) = words.option("--line") else {
            return usage("check needs --line N");
        };
        let Ok(line) = line.parse() else {
            return usage(format!("--line takes a whole number from 0, and '{line}' is none"));
        };
        let rate = match words.option("--rate") {
            None | Some("100") => Rate::OneIn100,
            Some("20") => Rate::OneIn20,
            Some(other) => return usage(format!("--rate takes 100 or 20, and not '{other}'")),
        };
        Ok(Check { list: list.clone(), line, rate })
    }
}

/// The tolerance that words name.
fn tolerance(words: &str) -> Result<Tolerance, Problem> {
    let parts: Vec<&str> = words.split(':').collect();
    let end = |part: usize| parts.get(part)?.parse().ok().filter(|end: &f32| end.is_finite());
    let (Some(lo), Some(hi), 3) = (end(1), end(2), parts.len()) else {
        return no_tolerance(words);
    };
    if lo > hi {
        return usage(format!("--tolerance takes its low end before its high one, and not '{words}'"));
    }
    match parts[0] {
        "ppm" => Ok(Tolerance::Ppm(lo, hi)),
        "pct" => Ok(Tolerance::Pct(lo, hi)),
        "da" => Ok(Tolerance::Da(lo, hi)),
        _ => no_tolerance(words),
    }
}

/// The problem of words that are no tolerance.
fn no_tolerance<T>(words: &str) -> Result<T, Problem> {
    usage(format!("--tolerance takes ppm:LO:HI or da:LO:HI, and not '{words}'"))
}

/// The batch: the name given, or that of the file.
fn batch(given: Option<&str>, input: &Path) -> Result<String, Problem> {
    let file = input.file_name().unwrap_or_default().to_string_lossy();
    let name = given.unwrap_or(file.strip_suffix(".tsv").unwrap_or(&file)).to_string();
    match name.is_empty() || name.contains(char::is_control) {
        true => usage("the batch needs a name without tabs or line ends: give one by --batch NAME"),
        false => Ok(name),
    }
}

/// A problem with the command line.
fn usage<T>(why: impl Into<String>) -> Result<T, Problem> {
    Err(Problem::Usage(why.into()))
}
