//! Every bad input: one line with the file and the row, status 3, and no output.

mod common;

use common::{program, Cells, Folder, Ran};
use std::io::Write;
use std::process::Stdio;

/// The columns of numbers that rescore reads, and what the error says of a cell that holds none.
const NUMBERS: [(&str, &str); 23] = [
    ("rank", "no whole number from 0 to 4,294,967,295"),
    ("charge", "no whole number from 0 to 255"),
    ("hyperscore", "no number"),
    ("delta_next", "no number"),
    ("delta_best", "no number"),
    ("precursor_ppm", "no number of 32 bits"),
    ("expmass", "no number of 32 bits"),
    ("calcmass", "no number of 32 bits"),
    ("isotope_error", "no number of 32 bits"),
    ("fragment_ppm", "no number of 32 bits"),
    ("poisson", "no number"),
    ("matched_intensity_pct", "no number of 32 bits"),
    ("matched_peaks", "no whole number from 0 to 4,294,967,295"),
    ("longest_b", "no whole number from 0 to 4,294,967,295"),
    ("longest_y", "no whole number from 0 to 4,294,967,295"),
    ("peptide_len", "no whole number from 0 to 4,294,967,295"),
    ("missed_cleavages", "no whole number from 0 to 255"),
    ("aligned_rt", "no number of 32 bits"),
    ("ion_mobility", "no number of 32 bits"),
    ("delta_rt_model", "no number of 32 bits"),
    ("delta_mobility", "no number of 32 bits"),
    ("num_proteins", "no whole number from 0 to 4,294,967,295"),
    ("label", "no label, which is a whole number of 32 bits, -1 for a decoy"),
];

/// A list in which check finds no error.
const LIST: &str = "label\tsage_discriminant_score\tspectrum_q\n1\t3\t1\n-1\t2\t1\n1\t1\t1\n";

/// Asserts that rescore stops on this table with this line, and writes no file.
fn rescore_fails(folder: &Folder, text: impl AsRef<[u8]>, line: &str) {
    folder.write("in.tsv", text);
    folder.run("rescore in.tsv out.tsv").failed(3, line);
    assert_eq!(folder.files(), ["in.tsv"]);
}

/// Asserts that check stops on this list with this line.
fn check_fails(folder: &Folder, text: impl AsRef<[u8]>, line: &str) {
    folder.write("in.tsv", text);
    folder.run("check in.tsv --line 1").failed(3, line);
}

#[test]
fn the_unchanged_inputs_are_accepted() {
    let folder = Folder::new("well");
    folder.write("in.tsv", folder.sample(60).text());
    assert_eq!(folder.run("rescore in.tsv out.tsv").status, Some(0));
    folder.write("in.tsv", LIST);
    assert_eq!(folder.run("check in.tsv --line 0").status, Some(0));
}

#[test]
fn no_such_file() {
    let folder = Folder::new("no-file");
    let line = "none.tsv: No such file or directory (os error 2)";
    folder.run("rescore none.tsv out.tsv").failed(3, line);
    folder.run("check none.tsv --line 1").failed(3, line);
    assert!(folder.files().is_empty());
}

#[test]
fn a_folder_instead_of_a_file() {
    let folder = Folder::new("a-folder");
    std::fs::create_dir(folder.path("in.tsv")).unwrap();
    let line = "in.tsv: Is a directory (os error 21)";
    folder.run("rescore in.tsv out.tsv").failed(3, line);
    folder.run("check in.tsv --line 1").failed(3, line);
    assert_eq!(folder.files(), ["in.tsv"]);
}

#[test]
fn a_missing_column() {
    let folder = Folder::new("missing-column");
    let sample = folder.sample(5);
    for column in NUMBERS.map(|(column, _)| column).into_iter().chain(["proteins"]) {
        let line = format!("in.tsv: the header (line 1): column {column} is missing");
        rescore_fails(&folder, sample.without(column).text(), &line);
    }
    let list = Cells::of(LIST, 3);
    for column in ["label", "sage_discriminant_score", "spectrum_q"] {
        let line = format!("in.tsv: the header (line 1): column {column} is missing");
        check_fails(&folder, list.without(column).text(), &line);
    }
}

#[test]
fn a_cell_that_is_not_a_number() {
    let folder = Folder::new("no-number");
    let sample = folder.sample(5);
    for (column, none) in NUMBERS {
        for cell in ["abc", "", "NaN", "1.5.", "99999999999999999999x", "-1e400"] {
            let line = format!("in.tsv: row 4 (line 5): column {column}: '{cell}' is {none}");
            rescore_fails(&folder, sample.with(4, column, cell).text(), &line);
        }
    }
}

#[test]
fn a_label_that_is_not_a_whole_number_of_32_bits() {
    let folder = Folder::new("no-label");
    let sample = folder.sample(5);
    let list = Cells::of(LIST, 3);
    for cell in ["decoy", "1.0", "2147483648", "-2147483649", " 1"] {
        let why = "no label, which is a whole number of 32 bits, -1 for a decoy";
        let line = format!("in.tsv: row 2 (line 3): column label: '{cell}' is {why}");
        rescore_fails(&folder, sample.with(2, "label", cell).text(), &line);
        check_fails(&folder, list.with(2, "label", cell).text(), &line);
    }
}

#[test]
fn a_number_out_of_range() {
    let folder = Folder::new("range");
    let sample = folder.sample(5);
    for (column, cell) in [("charge", "256"), ("missed_cleavages", "-1")] {
        let why = "no whole number from 0 to 255";
        let line = format!("in.tsv: row 1 (line 2): column {column}: '{cell}' is {why}");
        rescore_fails(&folder, sample.with(1, column, cell).text(), &line);
    }
}

#[test]
fn a_score_or_q_value_that_is_not_a_number() {
    let folder = Folder::new("no-score");
    let list = Cells::of(LIST, 3);
    for column in ["sage_discriminant_score", "spectrum_q"] {
        for cell in ["", "NaN", "high", "1e39"] {
            let line = format!("in.tsv: row 3 (line 4): column {column}: '{cell}' is no number of 32 bits");
            check_fails(&folder, list.with(3, column, cell).text(), &line);
        }
    }
}

#[test]
fn a_line_past_the_list() {
    let folder = Folder::new("past");
    folder.write("in.tsv", LIST);
    let why = "refused with 9: the line is past the end of the list, which has 3 rows";
    let line = format!("in.tsv: row 4: vayemuku_check_line_100 {why}");
    folder.run("check in.tsv --line 4").failed(4, &line);
    let line = format!("in.tsv: row 18446744073709551615: vayemuku_check_line_20 {why}");
    folder.run("check in.tsv --rate 20 --line 18446744073709551615").failed(4, &line);
}

#[test]
fn an_empty_file() {
    let folder = Folder::new("empty");
    let line = "in.tsv: the header (line 1): the file is empty";
    rescore_fails(&folder, "", line);
    check_fails(&folder, "", line);
    let line = "in.tsv: the header (line 1): the line is empty";
    rescore_fails(&folder, "\n", line);
    check_fails(&folder, "\n", line);
}

#[test]
fn windows_line_ends() {
    let folder = Folder::new("windows");
    let why = "the line has a carriage return: take Windows line ends out, as by tr -d '\\r'";
    let sample = folder.sample(5).text();
    let header = format!("in.tsv: the header (line 1): {why}");
    rescore_fails(&folder, sample.replace('\n', "\r\n"), &header);
    check_fails(&folder, LIST.replace('\n', "\r\n"), &header);
    // one such line among others
    let last = format!("in.tsv: row 5 (line 6): {why}");
    rescore_fails(&folder, sample.trim_end().to_string() + "\r\n", &last);
    let last = format!("in.tsv: row 3 (line 4): {why}");
    check_fails(&folder, LIST.trim_end().to_string() + "\r\n", &last);
}

#[test]
fn a_byte_order_mark() {
    let folder = Folder::new("mark");
    let line = "in.tsv: the header (line 1): the file begins with a byte order mark: take it out, as by tail -c +4";
    rescore_fails(&folder, format!("\u{feff}{}", folder.sample(5).text()), line);
    check_fails(&folder, format!("\u{feff}{LIST}"), line);
}

#[test]
fn rows_that_are_too_short_too_long_or_empty() {
    let folder = Folder::new("cells");
    let sample = folder.sample(5);
    let mut short = sample.clone();
    short.0[3].pop();
    rescore_fails(&folder, short.text(), "in.tsv: row 3 (line 4): it has 39 cells, and the header 40");
    let mut long = sample.clone();
    long.0[3].push("1".to_string());
    rescore_fails(&folder, long.text(), "in.tsv: row 3 (line 4): it has 41 cells, and the header 40");
    rescore_fails(&folder, sample.text() + "\n", "in.tsv: row 6 (line 7): the line is empty");
    check_fails(&folder, LIST.to_string() + "1\t0\n", "in.tsv: row 4 (line 5): it has 2 cells, and the header 3");
}

#[test]
fn a_column_that_is_there_twice() {
    let folder = Folder::new("twice");
    let text = folder.sample(5).text().replacen("psm_id", "rank", 1);
    rescore_fails(&folder, text, "in.tsv: the header (line 1): column 'rank' is there twice");
}

#[test]
fn proteins_that_do_not_match_their_labels() {
    let folder = Folder::new("proteins");
    let sample = folder.sample(40).with_all("num_proteins", "1");
    let row = |label| 1 + sample.column("label").iter().position(|cell| *cell == label).unwrap();
    let (decoy, target) = (row("-1"), row("1"));
    let line = format!(
        "in.tsv: row {decoy} (line {}): column proteins: 'P1' is a decoy by its label, but does not begin with rev_: \
         see --decoy-tag and --fasta-decoys",
        decoy + 1
    );
    rescore_fails(&folder, sample.with(decoy, "proteins", "P1").text(), &line);
    let line = format!(
        "in.tsv: row {target} (line {}): column proteins: 'rev_P1' is a target by its label, but begins with rev_",
        target + 1
    );
    rescore_fails(&folder, sample.with(target, "proteins", "rev_P1").text(), &line);
}

#[test]
fn an_output_that_cannot_be_written() {
    let folder = Folder::new("output");
    folder.write("in.tsv", folder.sample(60).text());
    let line = "none/out.tsv: it cannot be written: No such file or directory (os error 2)";
    folder.run("rescore in.tsv none/out.tsv").failed(3, line);
    assert_eq!(folder.files(), ["in.tsv"]);
    folder.write("out.tsv", "an older list\n");
    let line = "out.tsv: it is there already, and no list is written over";
    folder.run("rescore in.tsv out.tsv").failed(3, line);
    assert_eq!(folder.read("out.tsv"), "an older list\n");
    let line = "in.tsv: it is there already, and no list is written over";
    folder.run("rescore in.tsv in.tsv").failed(3, line);
    assert_eq!(folder.files(), ["in.tsv", "out.tsv"]);
}

/// Rescores under a limit on file sizes that the list exceeds; `before` is run in the shell first.
fn rescored_under_a_limit(folder: &Folder, before: &str) -> Ran {
    folder.write("in.tsv", folder.sample(600).text());
    let words = format!("{before} ulimit -f 8; exec \"$0\" rescore in.tsv out.tsv");
    folder.run_shell(&words)
}

#[test]
fn an_output_that_is_not_completed() {
    let folder = Folder::new("not-whole");
    let ran = rescored_under_a_limit(&folder, "trap '' XFSZ;");
    ran.failed(3, "out.tsv: it cannot be written: File too large (os error 27)");
    assert_eq!(folder.files(), ["in.tsv"]);
    // a program that is killed cannot remove its draft, but the draft does not have the list's name
    let ran = rescored_under_a_limit(&folder, "");
    assert_eq!((ran.status, ran.stdout.as_str()), (None, ""));
    assert!(!folder.files().contains(&"out.tsv".to_string()));
}

#[test]
fn a_run_that_is_killed_while_it_reads_leaves_no_file() {
    let folder = Folder::new("killed");
    let mut command = program();
    let words = ["rescore", "/dev/stdin", "out.tsv"];
    let mut child = command.current_dir(folder.path("")).args(words).stdin(Stdio::piped()).spawn().unwrap();
    // more than a pipe holds: once it is written, the program is reading
    child.stdin.as_mut().unwrap().write_all(&[b'x'; 1 << 20]).unwrap();
    child.kill().unwrap();
    assert_eq!(child.wait().unwrap().code(), None);
    assert!(folder.files().is_empty());
}

#[test]
fn a_draft_of_a_killed_run_does_not_block_the_next() {
    let folder = Folder::new("left");
    folder.write("in.tsv", folder.sample(60).text());
    let ran = folder.run_shell("echo left > .vayemuku-$$.part; exec \"$0\" rescore in.tsv out.tsv");
    assert_eq!((ran.status, ran.stderr.as_str()), (Some(0), ""));
    let files = folder.files();
    assert_eq!(files[1..], ["in.tsv", "out.tsv"]);
    assert_eq!(folder.read(&files[0]), "left\n");
}

#[test]
fn a_refusal_is_reported_when_its_list_cannot_be_completed() {
    let folder = Folder::new("refused-not-whole");
    folder.write("in.tsv", folder.sample(600).with_all("label", "1").with_all("num_proteins", "2").text());
    let ran = folder.run_shell("trap '' XFSZ; ulimit -f 8; exec \"$0\" rescore in.tsv out.tsv");
    let refused = "vayemuku: in.tsv: vayemuku_train refused with 6: the fit needs at least one decoy and one target\n";
    let unwritten = "vayemuku: out.tsv: it cannot be written: File too large (os error 27)\n";
    assert_eq!((ran.status, ran.stdout.as_str(), ran.stderr), (Some(3), "", format!("{refused}{unwritten}")));
    assert_eq!(folder.files(), ["in.tsv"]);
}

#[test]
fn standard_output_that_cannot_be_written() {
    let folder = Folder::new("full");
    folder.write("in.tsv", LIST);
    for words in ["check in.tsv --line 0", "help"] {
        let ran = folder.run_shell(&format!("exec \"$0\" {words} > /dev/full"));
        ran.failed(3, "standard output: No space left on device (os error 28)");
    }
    // the list of a rescoring has been written by then
    folder.write("in.tsv", folder.sample(60).text());
    let ran = folder.run_shell("exec \"$0\" rescore in.tsv out.tsv > /dev/full");
    ran.failed(3, "standard output: No space left on device (os error 28)");
    assert_eq!(folder.files(), ["in.tsv", "out.tsv"]);
}

#[test]
fn help_and_version() {
    let folder = Folder::new("help");
    let help = folder.run("help");
    assert_eq!((help.status, help.stderr.as_str()), (Some(0), ""));
    for words in ["--help", "-h", "rescore --help", "check list.tsv -h"] {
        let ran = folder.run(words);
        assert_eq!((ran.status, ran.stdout.as_str()), (Some(0), help.stdout.as_str()), "{words}");
    }
    let options = ["--tolerance", "--batch", "--decoy-tag", "--fasta-decoys", "--progress", "--line", "--rate"];
    assert!(options.iter().all(|option| help.stdout.contains(option)));
    assert_eq!(folder.run("--version").stdout, concat!("vayemuku ", env!("CARGO_PKG_VERSION"), "\n"));
}

#[test]
fn invalid_command_lines() {
    let folder = Folder::new("words");
    folder.write("in.tsv", LIST);
    let fails = |words: &str, why: &str| folder.run(words).failed(2, &format!("{why}; see `vayemuku help`"));
    fails("rescue in.tsv out.tsv", "there is no command 'rescue'");
    fails("rescore in.tsv", "rescore takes two files, IN.tsv and OUT.tsv");
    fails("rescore in.tsv out.tsv more.tsv", "rescore takes two files, IN.tsv and OUT.tsv");
    fails("rescore in.tsv out.tsv --fast", "there is no option '--fast'");
    fails("rescore in.tsv -o out.tsv", "there is no option '-o'");
    fails("rescore in.tsv out/", "'out/' is the name of a folder, and OUT.tsv is a file");
    fails(
        "rescore in.tsv out.tsv --decoy-tag rev_ --fasta-decoys",
        "--decoy-tag is for decoys that sage generates, \
         --fasta-decoys for others",
    );
    fails("rescore in.tsv out.tsv --tolerance", "nothing follows --tolerance");
    fails("rescore in.tsv out.tsv --progress --progress", "--progress is given twice");
    for tolerance in ["10", "ppm:10", "ppm:-10:ten", "mass:-10:10", "ppm:-10:inf", "ppm:-10:10:10"] {
        let why = format!("--tolerance takes ppm:LO:HI or da:LO:HI, and not '{tolerance}'");
        fails(&format!("rescore in.tsv out.tsv --tolerance {tolerance}"), &why);
    }
    let why = "--tolerance takes its low end before its high one, and not 'ppm:10:-10'";
    fails("rescore in.tsv out.tsv --tolerance ppm:10:-10", why);
    fails("check in.tsv", "check needs --line N");
    fails("check --line 1", "check takes one file, LIST.tsv");
    fails("check in.tsv --line -1", "--line takes a whole number from 0, and '-1' is none");
    fails("check in.tsv --line 1 --rate 50", "--rate takes 100 or 20, and not '50'");
    assert_eq!(folder.files(), ["in.tsv"]);
    let none = folder.run_words(&[]);
    none.failed(2, "no command is given; see `vayemuku help`");
    let unnamed = folder.run_words(&["rescore", "in.tsv", ""]);
    unnamed.failed(2, "the name of a file is empty; see `vayemuku help`");
    let tag = folder.run_words(&["rescore", "in.tsv", "out.tsv", "--decoy-tag", ""]);
    tag.failed(2, "--decoy-tag is empty; see `vayemuku help`");
    let batch = folder.run_words(&["rescore", "in.tsv", "out.tsv", "--batch", "a\tb"]);
    let why = "the batch needs a name without tabs or line ends: give one by --batch NAME";
    batch.failed(2, &format!("{why}; see `vayemuku help`"));
}
