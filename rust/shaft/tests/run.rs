//! Whole runs: the table, the refusals, the statuses, and outputs that cannot be written.
mod common;

use common::{csv, stored, Folder, Said};
use std::fs;
use std::io::Write;
use std::os::fd::OwnedFd;
use std::os::unix::fs::symlink;
use std::os::unix::net::UnixStream;
use std::process::{Command, Stdio};

const REFUSED_12: &str = "shaft: sheets/frame-12.txt: refused, number 1, line 1: line 1 has a carriage return: save it with line feeds alone (LF, not CR LF)";

// A table as it is stored; with SHAFT_STORE set it is stored anew.
fn same_as_stored(name: &str, table: &str) {
    if std::env::var_os("SHAFT_STORE").is_some() {
        fs::write(stored(name), table).unwrap();
    }
    assert_eq!(table, fs::read_to_string(stored(name)).unwrap(), "{name}");
}

#[test]
fn twenty_sheets() {
    let folder = Folder::with_sheets("");
    let said = folder.run("sheets");
    same_as_stored("twenty", &said.out);
    assert_eq!(said.errors().len(), 1, "{}", said.err);
    assert!(said.err.starts_with(REFUSED_12), "{}", said.err);
    assert_eq!(said.status, 1);
    same_as_stored("twenty-all", &folder.run("--all --below 0.25 sheets").out);
}

#[test]
fn tables_of_one_row() {
    // Message 1 by its tails; of the row a little came in turned over, or nothing was sent.
    let sheet = |row: &str| format!("at to sys par par2 sys2\n0 0 {row} -\n1 - 500 -500 -500 500\n2 - 500 500 500 500\n");
    let folder = Folder::new();
    folder.write("silent", sheet("-1 0 0"));
    folder.write("unsent", sheet("- - -"));
    let lines = |args: &str| folder.run(args).out.lines().skip(3).map(str::to_string).collect::<Vec<_>>();
    let silent = lines("silent");
    assert_eq!(silent[0], "no row is marked (and none can be with fewer than 4 frames)");
    assert!(silent[3].starts_with("  0   0.00     1 of 1 "), "{}", silent[3]);
    let unsent = lines("unsent unsent unsent unsent");
    assert_eq!(unsent[0], "no row is marked (and none can be: nothing was heard of any)");
    assert!(unsent[3].starts_with("  0      -     0 of 0 "), "{}", unsent[3]);
    assert!(lines("silent silent silent silent")[0].starts_with("marked: row 0 (heard below 0.5 in at least 4 frames more"));
    let folder = Folder::with_sheets("");
    assert!(folder.run("--below 1.5 sheets").out.contains("and none can be: the rows are heard below 1.5 in half of their frames or more"));
}

#[test]
fn statuses_of_sheets() {
    let folder = Folder::with_sheets("--frames 11");
    let said = folder.run("sheets");
    assert_eq!((said.status, said.err.as_str()), (0, ""));
    folder.write("bad", "at to\n");
    folder.write("worse", "");
    let said = folder.run("sheets/frame-1.txt bad");
    assert_eq!((said.status, said.errors().len()), (1, 1));
    assert!(said.out.starts_with("2 sheets: 1 decoded, 1 refused\n"));
    let said = folder.run("bad worse --svg picture");
    assert_eq!((said.status, said.out.as_str()), (1, "2 sheets: 0 decoded, 2 refused\n"));
    let [bad, worse] = said.errors()[..] else { panic!("{}", said.err) };
    assert!(bad.starts_with("shaft: bad: refused, number 1, line 0") && worse.starts_with("shaft: worse: refused, number 1, line 0"));
    assert_eq!(folder.read("picture").matches("class=\"g\"").count(), 3);
}

#[test]
fn what_cannot_be_read_is_named_and_the_rest_goes_on() {
    let folder = Folder::with_sheets("--frames 11");
    let whole = folder.run("sheets").out;
    let said = folder.run("nowhere sheets sheets/nowhere");
    assert_eq!((said.status, &said.out), (2, &whole));
    let reason = "not read: No such file or directory";
    assert_eq!(said.errors(), [format!("shaft: nowhere: {reason}"), format!("shaft: sheets/nowhere: {reason}")]);
    symlink("gone", folder.path("sheets/frame-3.link")).unwrap();
    let said = folder.run("sheets");
    assert_eq!((said.status, said.errors()), (2, vec![format!("shaft: sheets/frame-3.link: {reason}").as_str()]));
    fs::create_dir(folder.path("empty")).unwrap();
    let said = folder.run("empty");
    assert_eq!((said.status, said.out.as_str()), (2, ""));
    assert_eq!(said.errors(), ["shaft: empty: not read: there is no sheet in the folder", "shaft: there is no sheet to look at"]);
}

#[test]
fn wrong_usage() {
    let folder = Folder::with_sheets("--frames 4");
    let wrong = ["", "--wrong sheets", "-x sheets", "--below sheets", "--below nan sheets", "--below inf sheets", "--below", "sheets --csv"];
    for args in wrong.into_iter().chain(["--csv a --csv b sheets", "--csv a --svg a sheets", "- -"]) {
        let said = folder.run(args);
        assert_eq!((said.status, said.out.as_str()), (2, ""), "{args}");
        assert!(said.err.starts_with("shaft: ") && said.err.contains("usage: shaft"), "{args}: {}", said.err);
    }
    assert_eq!(folder.names(), ["sheets"]);
    let said = folder.run("--help");
    assert!(said.status == 0 && said.err.is_empty() && said.out.starts_with("usage: shaft [--below X]"));
    assert_eq!(folder.run("--below -0.1 -- sheets").status, 0);
}

#[test]
fn outputs_that_cannot_be_written() {
    let folder = Folder::with_sheets("--frames 4");
    let table = folder.run("sheets").out;
    let told = |args: &str, what: &str| {
        let said = folder.run(args);
        assert_eq!((said.status, said.errors()), (2, vec![what]), "{args}");
        assert_eq!(said.out, table, "{args}");
    };
    told("--svg /dev/full sheets", "shaft: /dev/full: not written: No space left on device");
    told("--csv /no/such/folder/x sheets", "shaft: /no/such/folder/x: not written: No such file or directory");
    told("--csv sheets sheets", "shaft: sheets: not written: Is a directory");
    told("--csv sheets/frame-2.txt sheets", "shaft: sheets/frame-2.txt: not written, since it was read as a sheet");
    for args in ["sheets", "--csv - sheets", "--svg - sheets", "--help", "--csv /dev/full sheets"] {
        let full = fs::File::create("/dev/full").unwrap();
        let said = Said::of(folder.shaft(args.split(' ')).stdout(full).output().unwrap());
        assert_eq!((said.status, said.err.as_str()), (2, "shaft: standard output: not written: No space left on device\n"), "{args}");
    }
    assert_eq!(folder.names(), ["sheets"]);
    // A refusal that cannot be told.
    folder.write("bad", "");
    let full = fs::File::create("/dev/full").unwrap();
    assert_eq!(folder.shaft(["sheets/frame-1.txt", "bad"]).stdout(Stdio::null()).stderr(full).status().unwrap().code(), Some(2));
}

#[test]
fn a_reader_who_has_gone_is_not_told() {
    let folder = Folder::with_sheets("");
    for args in [["--csv", "-", "sheets"].as_slice(), &["sheets"], &["--help"]] {
        let (ours, theirs) = UnixStream::pair().unwrap();
        drop(ours);
        let said = Said::of(folder.shaft(args).stdout(Stdio::from(OwnedFd::from(theirs))).output().unwrap());
        assert_eq!(said.status, 2, "{args:?}");
        assert!(said.errors().iter().all(|line| line.starts_with(REFUSED_12)), "{}", said.err);
    }
}

#[test]
fn a_file_is_replaced_whole_or_not_at_all() {
    let folder = Folder::with_sheets("");
    folder.write("out.csv", "as it was");
    symlink("out.csv", folder.path("link.csv")).unwrap();
    // A file larger than the limit cannot be written, and the signal is not to end the program.
    let limited = format!("trap '' XFSZ; ulimit -f 8; exec {} --csv link.csv sheets", common::SHAFT);
    let said = Said::of(Command::new("sh").args(["-c", &limited]).current_dir(folder.path("")).output().unwrap());
    assert!(said.status == 2 && said.errors()[1].ends_with("out.csv: not written: File too large"), "{}", said.err);
    assert_eq!((folder.read("out.csv").as_str(), folder.names()), ("as it was", vec!["link.csv".into(), "out.csv".into(), "sheets".into()]));
    assert_eq!(folder.run("--csv link.csv --svg new.svg sheets").status, 1);
    assert_eq!(csv(&folder.read("out.csv")).len(), 1 + 19 * 64);
    assert!(folder.path("link.csv").is_symlink() && folder.read("new.svg").ends_with("</svg>\n"));
}

#[test]
fn one_output_at_a_time_on_standard_output() {
    let folder = Folder::with_sheets("");
    assert_eq!(folder.run("--csv file.csv sheets").out, folder.run("sheets").out);
    let rows = folder.read("file.csv");
    for name in ["-", "/dev/stdout", "/dev/fd/1"] {
        let said = folder.run(&format!("--csv {name} sheets"));
        assert_eq!((said.status, said.out == rows, said.errors().len()), (1, true, 1), "{name}");
        // Where standard output is a file, a second way to it would write over the first.
        let file = fs::File::create(folder.path("out")).unwrap();
        let status = folder.shaft(["--csv", name, "sheets"]).stdout(file).stderr(Stdio::null()).status().unwrap();
        assert_eq!((status.code(), folder.read("out") == rows), (Some(1), true), "{name}");
    }
    let said = folder.run("--csv - --svg /dev/stdout sheets");
    assert_eq!((said.status, said.out.as_str()), (2, ""));
    assert!(folder.run("--svg - sheets").out.starts_with("<svg "));
}

#[test]
fn which_files_of_a_folder() {
    let folder = Folder::with_sheets("--frames 11");
    let first = folder.read("sheets/frame-1.txt");
    folder.write("sheets/.hidden", "");
    fs::create_dir(folder.path("sheets/subfolder")).unwrap();
    folder.write("sheets/subfolder/frame-0.txt", "");
    folder.write("elsewhere", &first);
    symlink("../elsewhere", folder.path("sheets/frame-10b.txt")).unwrap();
    folder.write("sheets/frame-002.txt", &first);
    let said = folder.run("--csv - sheets");
    assert_eq!((said.status, said.err.as_str()), (0, ""));
    let mut names: Vec<String> = csv(&said.out)[1..].iter().map(|row| row[0].clone()).collect();
    names.dedup();
    let wanted = ["1", "002", "2", "3", "4", "5", "6", "7", "8", "9", "10", "10b", "11"].map(|n| format!("sheets/frame-{n}.txt"));
    assert_eq!(names, wanted);
}

#[test]
fn standard_input_and_long_files() {
    let folder = Folder::with_sheets("--frames 1");
    let mut child = folder.shaft(["--csv", "-", "-"]).stdin(Stdio::piped()).stdout(Stdio::piped()).spawn().unwrap();
    child.stdin.take().unwrap().write_all(folder.read("sheets/frame-1.txt").as_bytes()).unwrap();
    let said = Said::of(child.wait_with_output().unwrap());
    assert_eq!((said.status, csv(&said.out)[1][0].as_str()), (0, "standard input"));
    // A sheet that is right at its start and too long; and one without an end.
    folder.write("long", folder.read("sheets/frame-1.txt") + &"1".repeat(16_384));
    let said = folder.run("long /dev/zero");
    assert_eq!((said.status, said.errors().len()), (1, 2));
    assert!(said.err.starts_with("shaft: long: refused, number 1, line 0"), "{}", said.err);
}
