//! A file that gets its name only when it is complete.

use crate::problem::Problem;
use std::fs::File;
use std::io::{BufWriter, Error, ErrorKind, Write};
use std::path::{Path, PathBuf};

/// A file that has another name in the same folder until it is finished; that name is then removed.
pub struct Draft {
    file: BufWriter<File>,
    draft: PathBuf,
    path: PathBuf,
}

/// Err where the path exists.
fn refuse_existing(path: &Path) -> Result<(), Error> {
    match path.symlink_metadata() {
        Ok(_) => Err(ErrorKind::AlreadyExists.into()),
        Err(_) => Ok(()),
    }
}

/// The problem of a file that cannot be written.
fn unwritten(path: &Path, why: Error) -> Problem {
    let why = match why.kind() {
        ErrorKind::AlreadyExists => "it is there already, and no list is written over".to_string(),
        _ => format!("it cannot be written: {why}"),
    };
    Problem::with_file(&path.display().to_string(), why)
}

impl Draft {
    /// Starts a file that will have this path, which does not exist yet.
    pub fn new(path: &Path) -> Result<Draft, Problem> {
        let opened = refuse_existing(path).and_then(|_| open(path));
        let (file, draft) = opened.map_err(|why| unwritten(path, why))?;
        Ok(Draft { file: BufWriter::new(file), draft, path: path.to_path_buf() })
    }

    /// What to write to.
    pub fn file(&mut self) -> &mut impl Write {
        &mut self.file
    }

    /// The problem of a failed write.
    pub fn problem(&self, why: Error) -> Problem {
        unwritten(&self.path, why)
    }

    /// Gives the file its name.
    pub fn finish(mut self) -> Result<(), Problem> {
        let written = self.file.flush().and_then(|_| self.file.get_ref().sync_all());
        written.and_then(|_| name(&self.draft, &self.path)).map_err(|why| self.problem(why))
    }
}

/// Gives a draft a name that does not exist yet. Where the folder allows no second name for a file, it is renamed.
fn name(draft: &Path, path: &Path) -> Result<(), Error> {
    match std::fs::hard_link(draft, path) {
        Err(why) if why.kind() != ErrorKind::AlreadyExists => {
            refuse_existing(path).and_then(|_| std::fs::rename(draft, path))
        }
        named => named,
    }
}

/// Opens a new file beside a path. A killed run can have left one with the same name: then the next number is used.
fn open(path: &Path) -> Result<(File, PathBuf), Error> {
    let mut next = std::process::id();
    loop {
        let draft = path.with_file_name(format!(".vayemuku-{next}.part"));
        match File::create_new(&draft) {
            Err(why) if why.kind() == ErrorKind::AlreadyExists => next = next.wrapping_add(1),
            opened => return Ok((opened?, draft)),
        }
    }
}

impl Drop for Draft {
    fn drop(&mut self) {
        // a draft that is missing was renamed, and one that cannot be removed does not have the list's name
        let _ = std::fs::remove_file(&self.draft);
    }
}

#[cfg(test)]
mod tests {
    use super::*;

    #[test]
    fn a_file_created_during_the_run_is_not_overwritten() {
        let folder = std::env::temp_dir().join(format!("vayemuku-draft-{}", std::process::id()));
        std::fs::create_dir(&folder).unwrap();
        let path = folder.join("out.tsv");
        let mut draft = Draft::new(&path).ok().unwrap();
        draft.file().write_all(b"a later list\n").unwrap();
        std::fs::write(&path, "an earlier list\n").unwrap();
        let why = "it is there already, and no list is written over";
        assert_eq!(draft.finish(), Err(Problem::with_file(&path.display().to_string(), why)));
        assert_eq!(std::fs::read(&path).unwrap(), b"an earlier list\n");
        assert_eq!(std::fs::read_dir(&folder).unwrap().count(), 1);
        std::fs::remove_dir_all(&folder).unwrap();
    }
}
