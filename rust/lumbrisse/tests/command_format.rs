//! The command `format` as a shell runs it: what it prints, what it writes, and what it leaves alone.

mod folder;
mod shell;

use std::fs::{self, Permissions};
use std::os::unix::fs::{symlink, MetadataExt, PermissionsExt};

use folder::Folder;
use shell::{output_on, run, run_on, Ran};

const RAGGED: &str = "examples/ragged.beancount";
const FORMATTED: &str = "examples/ragged-formatted.beancount";
const DAMAGED: &str = "examples/building.beancount";

const RAGGED_TEXT: &str = include_str!("../../../examples/ragged.beancount");
const FORMATTED_TEXT: &str = include_str!("../../../examples/ragged-formatted.beancount");
const PAGE: &str = include_str!("../../../docs/FORMAT.md");
const README: &str = include_str!("../../README.md");

/// What is said of the comments that the example loses.
const DROPPED: &str = "4 comments inside entries are dropped (line 6 is the first)";

/// A ledger, it afresh, and one that a quote in a comment keeps from being formatted.
const ROUGH: &[u8] = b"2024-01-31  close\tA:B\r\n";
const SMOOTH: &[u8] = b"2024-01-31 close A:B\n";
const QUOTED: &[u8] = b"; a\n; the \"big\" one\n2024-01-31  close A:B\n";

#[test]
fn the_example_is_printed_as_it_is_shown() {
    let Ran { status, out, err } = run(&["format", RAGGED]);
    assert_eq!((status, out.as_str()), (0, FORMATTED_TEXT));
    assert_eq!(err, format!("{RAGGED}:6: {DROPPED}\n"));
    // The page for the office shows both; there a carriage return cannot be seen.
    let before = RAGGED_TEXT.replace('\r', "");
    assert!(RAGGED_TEXT.len() == before.len() + 1);
    for shown in [before.as_str(), FORMATTED_TEXT] {
        assert!(PAGE.contains(&format!("```\n{shown}```\n")), "{shown}");
    }
    assert!(PAGE.contains(&format!("\n{RAGGED}:6: {DROPPED}\n")));
    // What is formatted stays as it is.
    let Ran { status, out, err } = run(&["format", FORMATTED]);
    assert_eq!(
        (status, out.as_str(), err.as_str()),
        (0, FORMATTED_TEXT, "")
    );
}

#[test]
fn standard_input_is_formatted_to_standard_output() {
    let output = output_on(ROUGH, &["format", "-"]);
    assert_eq!(output.status.code(), Some(0));
    assert_eq!(
        (output.stdout.as_slice(), output.stderr.as_slice()),
        (SMOOTH, &b""[..])
    );
    // A ledger without bytes has no line, either.
    assert_eq!(output_on(b"", &["format", "-"]).stdout, b"");
    assert_eq!(
        output_on(b"pushtag  #a", &["format", "-"]).stdout,
        b"pushtag #a"
    );
}

#[test]
fn files_that_would_change_are_named_and_left() {
    let folder = Folder::new("format-check");
    let rough = folder.write("rough", ROUGH);
    let smooth = folder.write("smooth", SMOOTH);
    let other = folder.write("other", b"option  \"a\" \"b\"");
    let Ran { status, out, err } = run(&["format", "--check", &rough, &smooth, &other]);
    assert_eq!((status, err.as_str()), (1, ""));
    assert_eq!(out, format!("{rough}\n{other}\n"));
    let Ran { status, out, err } = run(&["format", &smooth, "--check", FORMATTED]);
    assert_eq!((status, out.as_str(), err.as_str()), (0, "", ""));
    let Ran { status, out, .. } = run_on(ROUGH, &["format", "--check", "-"]);
    assert_eq!((status, out.as_str()), (1, "<stdin>\n"));
    // What it would lose is said before it is lost.
    let Ran { status, out, err } = run(&["format", "--check", RAGGED]);
    assert_eq!((status, out), (1, format!("{RAGGED}\n")));
    assert_eq!(err, format!("{RAGGED}:6: {DROPPED}\n"));
    // This folder's page shows it.
    let shown = format!("--check {RAGGED} {FORMATTED}\n    {RAGGED}\n    {err}");
    assert!(README.contains(&shown), "{shown}");
    assert_eq!(folder.names(), ["other", "rough", "smooth"]);
    assert_eq!(
        (folder.read("rough"), folder.read("smooth")),
        (ROUGH.to_vec(), SMOOTH.to_vec())
    );
}

/// What tells a file from another that took its place.
fn identity(path: &str) -> (u64, i64, i64) {
    let about = fs::metadata(path).unwrap();
    (about.ino(), about.mtime(), about.mtime_nsec())
}

#[test]
fn a_file_is_replaced_where_it_changes_and_what_it_was_is_kept() {
    let folder = Folder::new("format-in-place");
    let ragged = folder.write("ragged", RAGGED_TEXT.as_bytes());
    let smooth = folder.write("smooth", SMOOTH);
    fs::set_permissions(&ragged, Permissions::from_mode(0o640)).unwrap();
    let (before, untouched) = (identity(&ragged), identity(&smooth));
    let Ran { status, out, err } = run(&["format", "--in-place", &ragged, &smooth]);
    assert_eq!((status, out.as_str()), (0, ""));
    let said =
        format!("{ragged}: written; what it was before is {ragged}.bak\n{ragged}:6: {DROPPED}\n");
    assert_eq!(err, format!("{said}{smooth}: nothing to change\n"));
    assert_eq!(folder.names(), ["ragged", "ragged.bak", "smooth"]);
    assert_eq!(folder.read("ragged"), FORMATTED_TEXT.as_bytes());
    assert_eq!(folder.read("ragged.bak"), RAGGED_TEXT.as_bytes());
    for path in [&ragged, &format!("{ragged}.bak")] {
        let mode = fs::metadata(path).unwrap().permissions().mode();
        assert_eq!(mode & 0o777, 0o640);
    }
    assert_ne!(identity(&ragged), before);
    assert_eq!(identity(&smooth), untouched);

    // The second time there is nothing to change.
    let after = identity(&ragged);
    let Ran { status, err, .. } = run(&["format", "--in-place", &ragged]);
    assert_eq!((status, err), (0, format!("{ragged}: nothing to change\n")));
    assert_eq!((identity(&ragged), folder.names().len()), (after, 3));
}

#[test]
fn a_link_stays_one() {
    let folder = Folder::new("format-link");
    folder.write("rough", ROUGH);
    let link = folder.word("link");
    symlink("rough", &link).unwrap();
    assert_eq!(run(&["format", "--in-place", &link]).status, 0);
    assert!(fs::symlink_metadata(&link).unwrap().is_symlink());
    assert_eq!(folder.read("rough"), SMOOTH);
}

#[test]
fn a_refused_file_is_left_and_named_as_read_names_it() {
    let folder = Folder::new("format-refused");
    let damaged = fs::read_to_string("../../".to_string() + DAMAGED).unwrap();
    let (bad, rough) = (
        folder.write("bad", damaged.as_bytes()),
        folder.write("rough", ROUGH),
    );
    let said = run(&["read", &bad]).err;
    assert!(
        said.starts_with(&format!("{bad}:56:1: refusal 4: ")),
        "{said}"
    );
    let Ran { status, out, err } = run(&["format", &bad]);
    assert_eq!((status, out.as_str(), &err), (1, "", &said));
    let Ran { status, out, err } = run(&["format", "--check", &bad, &rough]);
    assert_eq!((status, out, &err), (1, format!("{rough}\n"), &said));
    let Ran { status, out, err } = run(&["format", "--in-place", &bad, &rough]);
    assert_eq!((status, out.as_str()), (1, ""));
    let written = format!("{rough}: written; what it was before is {rough}.bak\n");
    assert_eq!(err, format!("{said}{written}"));
    assert_eq!(folder.names(), ["bad", "rough", "rough.bak"]);
    assert_eq!(folder.read("bad"), damaged.as_bytes());
    assert_eq!(folder.read("rough"), SMOOTH);
}

#[test]
fn a_quote_in_a_line_that_no_entry_reads_leaves_the_file() {
    let folder = Folder::new("format-quote");
    let (quoted, rough) = (folder.write("quoted", QUOTED), folder.write("rough", ROUGH));
    let said = format!(
        "{quoted}:2:7: not formatted: this line holds a quote, and no entry reads it\n    \
         2 | ; the \"big\" one\n      |       ^\n      \
         = with such a line nothing is promised of the new text: the quote may open or close a string in it\n"
    );
    for (words, out) in [
        (vec!["format", &quoted], String::new()),
        (
            vec!["format", "--check", &quoted, &rough],
            format!("{rough}\n"),
        ),
        (vec!["format", "--in-place", &quoted], String::new()),
    ] {
        let ran = run(&words);
        assert_eq!(
            (ran.status, ran.out, &ran.err),
            (1, out, &said),
            "{words:?}"
        );
    }
    assert_eq!(folder.names(), ["quoted", "rough"]);
    assert_eq!(folder.read("quoted"), QUOTED);

    // Where the line looks like an entry it is said what to look at; behind a tag it is the rest of the line.
    let Ran { status, err, .. } = run_on(b"2024-3-31 * \"a\"\n", &["format", "-"]);
    assert_eq!(status, 1);
    let end = "      = it starts like an entry or a posting: see read --strict\n";
    assert!(
        err.starts_with("<stdin>:1:13: ") && err.ends_with(end),
        "{err}"
    );
    let Ran { status, err, .. } = run_on(b"\npushtag #a ; \"\n", &["format", "-"]);
    assert!(
        status == 1 && err.starts_with("<stdin>:2:14: not formatted: "),
        "{err}"
    );
    // A quote in a comment inside an entry goes with it.
    let Ran { status, out, .. } = run_on(b"2024-01-31 close A:B ; \"\n", &["format", "-"]);
    assert_eq!((status, out.as_bytes()), (0, SMOOTH));
}

#[test]
fn a_text_that_could_not_be_read_again_is_not_written() {
    let folder = Folder::new("format-long");
    let price = b"2024-01-31 price A 1/3 B\n";
    let comment = |length| [&b";".repeat(length)[..], b"\n"].concat();
    // With five bytes less the text has the most that a ledger may have.
    for (less, status, count) in [(0, 1, 0), (4, 1, 0), (5, 0, 16_777_216)] {
        let ledger = [comment(16_777_216 - price.len() - 1 - less), price.to_vec()].concat();
        let long = folder.write("long", &ledger);
        let output = output_on(b"", &["format", &long]);
        assert_eq!(
            (output.status.code(), output.stdout.len()),
            (Some(status), count)
        );
        if status == 1 {
            let bytes = 16_777_216 + 5 - less;
            let said = format!(
                "{long}: not formatted: it would have {bytes} bytes, and a file over 16777216 is not read again\n"
            );
            assert_eq!(String::from_utf8(output.stderr).unwrap(), said);
            assert_eq!(run(&["format", "--in-place", &long]).status, 1);
            assert_eq!(folder.names(), ["long"]);
        }
    }
}

#[test]
fn the_largest_status_counts_and_other_files_are_done_all_the_same() {
    let folder = Folder::new("format-several");
    let (none, rough) = (folder.word("none"), folder.write("rough", ROUGH));
    let quoted = folder.write("quoted", QUOTED);
    for manner in ["--check", "--in-place"] {
        let Ran { status, err, .. } = run(&["format", manner, &none, &quoted, &rough]);
        assert_eq!(status, 2);
        assert!(
            err.starts_with(&format!("lumbrisse: cannot read {none}: ")),
            "{err}"
        );
        assert!(
            err.contains(&format!("\n{quoted}:2:7: not formatted: ")),
            "{err}"
        );
    }
    assert_eq!(folder.read("rough"), SMOOTH);
    assert_eq!(folder.names(), ["quoted", "rough", "rough.bak"]);
    let Ran { status, out, err } = run(&["format", &none]);
    assert_eq!((status, out.as_str()), (2, ""));
    assert!(
        err.starts_with(&format!("lumbrisse: cannot read {none}: ")),
        "{err}"
    );
}

#[test]
fn a_file_that_cannot_be_written_is_left() {
    let folder = Folder::new("format-fixed");
    // Its comment is not dropped.
    let commented = b"2024-01-31  close A:B ; c\n";
    let fixed = folder.write("fixed", commented);
    fs::set_permissions(&fixed, Permissions::from_mode(0o444)).unwrap();
    // There is no room in a name of so many bytes for that of the file it was.
    let long_name = "n".repeat(255);
    let long = folder.write(&long_name, commented);
    for (path, why) in [(&fixed, "it is read-only"), (&long, "")] {
        let Ran { status, out, err } = run(&["format", "--in-place", path]);
        assert_eq!((status, out.as_str()), (2, ""));
        let start = format!("lumbrisse: cannot write {path}: {why}");
        assert!(err.starts_with(&start) && err.lines().count() == 1, "{err}");
    }
    assert_eq!(folder.names(), ["fixed".to_string(), long_name.clone()]);
    for name in ["fixed", &long_name] {
        assert_eq!(folder.read(name), commented);
    }
}

#[test]
fn a_folder_that_cannot_be_written_to_leaves_the_file() {
    let folder = Folder::new("format-folder");
    let rough = folder.write("rough", ROUGH);
    let permit = |mode| fs::set_permissions(folder.word(""), Permissions::from_mode(mode)).unwrap();
    permit(0o555);
    // Who may write everywhere may write here.
    let may = fs::write(folder.word("probe"), b"").is_ok();
    let Ran { status, err, .. } = run(&["format", "--in-place", &rough]);
    permit(0o755);
    let (expected, text, start) = match may {
        true => (0, SMOOTH, format!("{rough}: written; ")),
        false => (2, ROUGH, format!("lumbrisse: cannot write {rough}: ")),
    };
    assert_eq!((status, folder.read("rough")), (expected, text.to_vec()));
    assert!(err.starts_with(&start), "{err}");
}

#[test]
fn help_says_what_is_dropped_and_wrong_words_end_with_2() {
    let Ran { status, out, .. } = run(&["format", "--help"]);
    assert_eq!(status, 0);
    assert_eq!(run(&["help", "format"]).out, out);
    for said in [
        "DROPPED",
        "expressions become their values",
        "byte by byte",
        "FILE.bak",
        "CR LF",
    ] {
        assert!(out.contains(said), "{said}");
    }
    assert!(run(&["--help"]).out.contains("  lumbrisse format FILE  "));
    for words in [
        &["format"][..],
        &["format", RAGGED, FORMATTED],
        &["format", "--check", "--in-place", FORMATTED],
        &["format", "--in-place", "-"],
        &["format", "--check", FORMATTED, FORMATTED],
        &["format", "--json", FORMATTED],
    ] {
        let Ran { status, out, err } = run(words);
        assert_eq!((status, out.as_str()), (2, ""), "{words:?}");
        assert!(err.starts_with("lumbrisse: "), "{err}");
    }
}
