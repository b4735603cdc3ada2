//! The command `lumbrisse edit` as a shell runs it: what it says, what it writes, and what it leaves.

mod folder;
mod shell;

use folder::Folder;
use shell::{run, run_on, Ran};

const CLEAN: &str = "examples/clean.beancount";
const DAMAGED: &str = "examples/building.beancount";
const SAMPLE: &str = include_str!("../../../examples/building.beancount");

/// The block of the sample that is refused, and the same with its quote closed.
const LINES: &str = "56-58";
const RIGHT: &[u8] = b"2024-03-31 * \"Office\" \"Flat 2, corrected by hand\"
  Meters:Flat-2      (3,021.6 - 2,957.8) KWH @ 0.291 EUR
  Meters:Reference  -63.8 KWH
";

/// The words of an edit: of a ledger's lines, what takes their place, and what else is asked for.
fn edit<'a>(ledger: &'a str, lines: &'a str, with: &'a str, more: &[&'a str]) -> Vec<&'a str> {
    [&["edit", ledger, "--lines", lines, "--with", with], more].concat()
}

#[test]
fn what_would_be_said_is_said_and_nothing_written() {
    let folder = Folder::new("said");
    let ledger = folder.write("a", SAMPLE.as_bytes());
    let Ran { status, out, err } = run_on(RIGHT, &edit(&ledger, LINES, "-", &[]));
    let said = "nothing is written without --output OUT or --in-place";
    assert_eq!((status, err), (0, format!("{ledger}: {said}\n")));
    let kept = "nothing refused, kept 49 entries, dated 2023-12-31 to 2024-04-15";
    assert!(out.starts_with(&format!("{ledger}: {kept}\n")), "{out}");
    assert_eq!(folder.names(), ["a"]);
    assert_eq!(folder.read("a"), SAMPLE.as_bytes());

    // The same from a file, on a ledger from standard input.
    let new = folder.write("new", RIGHT);
    let edited = run_on(SAMPLE.as_bytes(), &edit("-", LINES, &new, &[]));
    assert_eq!(edited.status, 0);
    assert_eq!(edited.out, out.replace(&ledger, "<stdin>"));
}

#[test]
fn postings_that_the_new_text_swallows_are_named() {
    let new = b"2024-03-31 * \"Flat 2, corrected by hand\n  Meters:Flat-2  63.8 KWH\"\n";
    let Ran { status, err, .. } = run_on(new, &edit(DAMAGED, LINES, "-", &[]));
    assert_eq!(status, 0);
    let said =
        "57: this line starts like a posting, but is part of the string that starts in line 56: \
        a quote may have been left open there";
    assert!(err.ends_with(&format!("{DAMAGED}:{said}\n")), "{err}");
}

#[test]
fn a_new_file_is_what_recovering_says_of_it() {
    let folder = Folder::new("output");
    let right = SAMPLE.replace("by hand\n", "by hand\"\n");
    for (name, form) in [("a", &[][..]), ("b", &["--rows"]), ("c", &["--json"])] {
        let path = folder.word(name);
        let to = [&["--output", &path], form].concat();
        let Ran { status, out, err } = run_on(RIGHT, &edit(DAMAGED, LINES, "-", &to));
        assert_eq!((status, err), (0, format!("{path}: written\n")));
        assert_eq!(folder.read(name), right.as_bytes());
        assert_eq!(out, run(&[&["recover", &path], form].concat()).out);
    }
    assert_eq!(folder.names(), ["a", "b", "c"]);
}

#[test]
fn a_file_of_that_name_is_not_overwritten() {
    let folder = Folder::new("taken");
    let (new, taken) = (folder.write("new", RIGHT), folder.write("taken", b"mine"));
    for path in [&taken, &folder.word("none/a")] {
        let Ran { status, out, err } = run(&edit(DAMAGED, LINES, &new, &["--output", path]));
        assert_eq!((status, out.as_str()), (2, ""));
        let start = format!("lumbrisse: cannot write {path}: ");
        assert!(err.starts_with(&start), "{err}");
    }
    assert_eq!(folder.read("taken"), b"mine");
    assert_eq!(folder.names(), ["new", "taken"]);
}

#[test]
fn what_a_ledger_was_is_kept_beside_it() {
    let folder = Folder::new("kept");
    let ledger = folder.write("a", b"; a\n2024-01-31\n2024-02-29 *\n");
    let in_place = edit(&ledger, "2", "-", &["--in-place"]);
    let Ran { status, out, err } = run_on(b"2024-01-31 *\n", &in_place);
    let said = format!("{ledger}: written; what it was before is {ledger}.bak");
    assert_eq!((status, err), (0, format!("{said}\n")));
    assert_eq!(out, run(&["recover", &ledger]).out);

    // Blocks that are refused are written all the same, and said.
    let Ran { status, out, err } = run_on(b"2024-01-31\n2024-02-01 * \"a\n", &in_place);
    assert_eq!((status, err), (1, format!("{said}2\n")));
    assert_eq!(out, run(&["recover", &ledger]).out);
    let kept = ": 2 blocks refused, kept 2 entries, dated 2024-02-29\n";
    assert!(out.contains(kept), "{out}");

    assert_eq!(folder.names(), ["a", "a.bak", "a.bak2"]);
    let now = b"; a\n2024-01-31\n2024-02-01 * \"a\n2024-02-29 *\n";
    assert_eq!(folder.read("a"), now);
    assert_eq!(folder.read("a.bak"), b"; a\n2024-01-31\n2024-02-29 *\n");
    assert_eq!(folder.read("a.bak2"), b"; a\n2024-01-31 *\n2024-02-29 *\n");
}

#[test]
fn lines_that_are_no_block_leave_the_file() {
    let folder = Folder::new("lines");
    let (new, path) = (folder.write("new", RIGHT), folder.word("out"));
    let block = "not a block: the block there is lines 56-58";
    let reach = "not a block: they reach from the block of line 52 to that of lines 56-58";
    let beyond = "not in this file, which has lines 1-73";
    for (lines, said) in [
        ("56-57", format!("lines 56-57 are {block}")),
        ("57", format!("line 57 is {block}")),
        ("52-58", format!("lines 52-58 are {reach}")),
        ("70-74", format!("lines 70-74 are {beyond}")),
        ("99999", format!("line 99999 is {beyond}")),
    ] {
        let Ran { status, out, err } = run(&edit(DAMAGED, lines, &new, &["--output", &path]));
        assert_eq!((status, out.as_str()), (1, ""));
        let refusal = format!("{DAMAGED}: refusal 10: {said}\n      = nothing was written\n");
        assert_eq!(err, refusal);
    }
    let json = edit(DAMAGED, "57", &new, &["--output", &path, "--json"]);
    let Ran { status, out, err } = run(&json);
    assert_eq!((status, err.as_str()), (1, ""));
    let start = format!("{{\"file\":\"{DAMAGED}\",\"accepted\":false,\"refusal\":{{\"number\":10,");
    assert!(out.starts_with(&start), "{out}");
    let end = format!(",\"place\":0,\"count\":0}},\"why\":\"line 57 is {block}\"}}\n");
    assert!(out.ends_with(&end), "{out}");
    assert_eq!(folder.names(), ["new"]);
}

#[test]
fn a_new_text_that_would_join_other_blocks_leaves_the_file() {
    let folder = Folder::new("text");
    let ledger = folder.write("a", b"; a\n2 b\n3 c");
    let start = "start with a digit or small letter";
    let end = "end in a line feed";
    for (lines, new, must) in [
        ("1", &b"; b"[..], end),
        ("2", b"2 d", end),
        ("2", b"2 d\r", end),
        ("2", b"; b\n", start),
        ("2", b"\n2 d\n", start),
        ("2", b"\xef\xbb\xbf2 d\n", start),
        ("3", b" 3 d\n", start),
    ] {
        let Ran { status, out, err } = run_on(new, &edit(&ledger, lines, "-", &["--in-place"]));
        assert_eq!((status, out.as_str()), (1, ""));
        let said = format!("{ledger}: refusal 10: the new text must {must} (only the ");
        assert!(err.starts_with(&said), "{err}");
        assert!(err.ends_with("\n      = nothing was written\n"), "{err}");
    }
    assert_eq!(folder.names(), ["a"]);
    assert_eq!(folder.read("a"), b"; a\n2 b\n3 c");
}

#[test]
fn first_and_last_blocks_carriage_returns_and_nothing_at_all() {
    let folder = Folder::new("edges");
    // The old ledger, the lines, the new text, and the new ledger.
    for (number, [old, lines, new, edited]) in [
        // The first block may start anyhow, the last one end so.
        ["; a\n2 b\n", "1", "; b\n\n", "; b\n\n2 b\n"],
        ["; a\n2 b", "2", "2 c", "; a\n2 c"],
        ["; a\n2 b\n  c", "2-3", "2 d\n", "; a\n2 d\n"],
        // Removed: one between, the first, and all there is.
        ["; a\n2 b\n3 c\n", "2", "", "; a\n3 c\n"],
        ["; a\n2 b\n", "1", "", "2 b\n"],
        ["; a\n\n; b\n", "1-3", "", ""],
        // A ledger without bytes has one line.
        ["", "1", "; a", "; a"],
        [
            "1\r\n2\r\n a\r\n3\r\n",
            "2-3",
            "2\r\n b\r\n",
            "1\r\n2\r\n b\r\n3\r\n",
        ],
        ["1\n2\n3\n", "2", "2\na\nb\n", "1\n2\na\nb\n3\n"],
    ]
    .into_iter()
    .enumerate()
    {
        let name = number.to_string();
        let (new, path) = (folder.write("new", new.as_bytes()), folder.word(&name));
        let words = edit("-", lines, &new, &["--output", &path]);
        let Ran { status, out, err } = run_on(old.as_bytes(), &words);
        assert_eq!(folder.read(&name), edited.as_bytes());
        let recovered = run(&["recover", &path]);
        assert_eq!(err, format!("{path}: written\n{}", recovered.err));
        assert_eq!((status, out), (recovered.status, recovered.out));
    }
}

#[test]
fn a_ledger_that_is_or_gets_too_long_is_refused() {
    let folder = Folder::new("long");
    // It has 16,777,216 bytes, and the new text is one longer than the old.
    let longest = [b"; a\n".repeat(4_194_303), b"2\n;\n".to_vec()].concat();
    let ledger = folder.write("longest", &longest);
    let new = folder.write("new", b"2\n; \n");
    let Ran { status, out, err } = run(&edit(&ledger, "4194304-4194305", &new, &[]));
    assert_eq!((status, out.as_str()), (1, ""));
    let said = "refusal 1: with these lines the file would be longer than 16,777,216 bytes";
    assert_eq!(
        err,
        format!("{ledger}: {said}\n      = nothing was written\n")
    );

    let Ran { status, err, .. } = run(&edit("/dev/zero", "1", &new, &[]));
    assert_eq!(status, 1);
    assert!(err.starts_with("/dev/zero:1:1: refusal 1: "), "{err}");
}

#[test]
fn wrong_words_and_files_end_with_2() {
    let folder = Folder::new("wrong");
    let (new, none) = (folder.write("new", RIGHT), folder.word("none"));
    for words in [
        vec!["edit"],
        vec!["edit", CLEAN],
        vec!["edit", CLEAN, "--with", &new],
        vec!["edit", CLEAN, "--lines", "56"],
        edit(CLEAN, "58-56", &new, &[]),
        edit(CLEAN, "0-3", &new, &[]),
        edit(CLEAN, "some", &new, &[]),
        edit(CLEAN, LINES, &new, &["--output", &none, "--in-place"]),
        edit(CLEAN, LINES, &none, &[]),
        edit(&none, LINES, &new, &[]),
        edit("examples", LINES, &new, &["--in-place"]),
    ] {
        let Ran { status, out, err } = run(&words);
        assert_eq!((status, out.as_str()), (2, ""), "{words:?}");
        assert!(err.starts_with("lumbrisse: "), "{err}");
    }
    assert_eq!(folder.names(), ["new"]);
    let Ran { err, .. } = run(&edit(CLEAN, "58-56", &new, &[]));
    let order = "lumbrisse: --lines \"58-56\": the lines are in the wrong order: 56-58?\n";
    assert!(err.starts_with(order), "{err}");
}
