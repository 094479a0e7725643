//! Progress is shown on a terminal after a second, and not where standard error is no terminal.
#![cfg(target_os = "linux")]

mod common;

use common::{program, Folder};
use std::ffi::{c_char, c_int, CStr, OsStr};
use std::fs::{File, OpenOptions};
use std::io::{Read, Write};
use std::os::fd::{FromRawFd, OwnedFd};
use std::os::unix::ffi::OsStrExt;
use std::os::unix::fs::OpenOptionsExt;
use std::process::Stdio;
use std::time::Duration;

unsafe extern "C" {
    fn posix_openpt(flags: c_int) -> c_int;
    fn grantpt(terminal: c_int) -> c_int;
    fn unlockpt(terminal: c_int) -> c_int;
    fn ptsname(terminal: c_int) -> *const c_char;
}

/// A terminal: the side that the test reads, and the side that a program writes to.
fn terminal() -> (File, File) {
    const READ_AND_WRITE: c_int = 2;
    const OF_NO_SESSION: c_int = 0o400;
    // SAFETY: the number is that of a file which was opened here, and the name is copied at once; only one test opens
    // terminals.
    let (ours, name) = unsafe {
        let number = posix_openpt(READ_AND_WRITE | OF_NO_SESSION);
        assert!(number >= 0 && grantpt(number) == 0 && unlockpt(number) == 0);
        (OwnedFd::from_raw_fd(number), CStr::from_ptr(ptsname(number)).to_owned())
    };
    let theirs = OpenOptions::new().write(true).custom_flags(OF_NO_SESSION).open(OsStr::from_bytes(name.to_bytes()));
    (ours.into(), theirs.unwrap())
}

/// Rescores a table that comes through a pipe, which is closed after a time; gives what was written on standard error.
fn rescored(folder: &Folder, text: &str, time: Duration, on_terminal: bool) -> String {
    let mut command = program();
    command.current_dir(folder.path("")).args(["rescore", "/dev/stdin", "out.tsv"]);
    command.stdin(Stdio::piped()).stdout(Stdio::null()).stderr(Stdio::piped());
    let ours = on_terminal.then(|| {
        let (ours, theirs) = terminal();
        command.stderr(theirs);
        ours
    });
    let mut child = command.spawn().unwrap();
    // this closes the terminal's other side in this process
    drop(command);
    let mut to = child.stdin.take().unwrap();
    to.write_all(text.as_bytes()).unwrap();
    std::thread::sleep(time);
    drop(to);
    let mut written = Vec::new();
    // a terminal whose other side is closed ends with an error
    let _ = match ours {
        Some(mut ours) => ours.read_to_end(&mut written),
        None => child.stderr.take().unwrap().read_to_end(&mut written),
    };
    assert!(child.wait().unwrap().success());
    folder.remove("out.tsv");
    String::from_utf8(written).unwrap()
}

#[test]
fn progress_is_shown_on_a_terminal_after_a_second() {
    let folder = Folder::new("terminal");
    let sample = folder.sample(60).text();
    let long = Duration::from_secs(3);
    assert_eq!(rescored(&folder, &sample, Duration::ZERO, true), "");
    assert_eq!(rescored(&folder, &sample, long, false), "");
    let shown = rescored(&folder, &sample, long, true);
    assert!(shown.starts_with("\rvayemuku: rows read: 1 of 60\x1b[K"), "{shown:?}");
    // the line is cleared at the end
    assert!(shown.ends_with("\r\x1b[K") && !shown.contains('\n'), "{shown:?}");
}
