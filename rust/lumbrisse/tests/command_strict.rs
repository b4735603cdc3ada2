//! `read` and `recover` with and without `--strict`, as a shell runs them: what they say of lines that would be lost in
//! silence, and of lines that lie within a string.

mod shell;

use shell::{run, run_on, Ran};

const CLEAN: &str = "examples/clean.beancount";

/// What every lost line is told.
const LOST: &str =
    "refusal 16: this line is lost: it starts like an entry or a posting, and no entry reads it";
const COMMENT: &str = "without --strict it is taken for a comment";

const NO_DATE: &str =
    "it starts with a digit, but not with a date: one is written 2024-03-31, month 01 to 12, day 01 to 31";
const NO_POSTING: &str = "it is indented like a posting, but no entry above reads it";
const INDENTED: &str =
    "it is indented and starts with a date: an entry starts at the start of its line";
const LEFT_OVER: &str = "it is dated, but has something behind what such an entry takes";
const OPEN_QUOTE: &str = "this line has an odd number of quotes: one may have been left open";

/// An example with a lost line: its name, the number of that line and what it holds, why no entry reads it, and how
/// many lines are lost in all.
type Example = (&'static str, usize, &'static str, &'static str, usize);

const EXAMPLES: [Example; 6] = [
    ("currency", 10, "  Tenants:Flat-02   12 kWh", NO_POSTING, 2),
    (
        "short-date",
        9,
        "2024-3-31 * \"Office\" \"Flat 2, read by hand\"",
        NO_DATE,
        3,
    ),
    (
        "thirteenth-month",
        9,
        "2024-13-31 * \"Module\" \"Flat 2\"",
        NO_DATE,
        3,
    ),
    (
        "indented-date",
        9,
        "  2024-03-31 * \"Module\" \"Flat 2\"",
        INDENTED,
        3,
    ),
    (
        "baland",
        9,
        "2024-04-01 baland Tenants:Flat-02  12 KWH",
        "it is dated, but no entry is named \"baland\"",
        1,
    ),
    (
        "trailing-word",
        9,
        "2024-04-01 balance Tenants:Flat-02  12 KWH estimated",
        LEFT_OVER,
        1,
    ),
];

fn file(name: &str) -> String {
    format!("examples/strict/{name}.beancount")
}

/// A refusal as a person sees it: heading, line and mark, notes.
fn shown(place: &str, line: usize, text: &str, mark: usize, notes: &[&str]) -> String {
    let mut shown = format!("{place}\n{line:>5} | {text}\n      | {:mark$}^\n", "");
    for note in notes {
        shown.push_str(&format!("      = {note}\n"));
    }
    shown
}

/// What is said of lost lines without `--strict`.
fn counted(file: &str, line: usize, lost: usize, command: &str) -> String {
    let said = match lost {
        1 => format!("1 line is taken for a comment though it looks like an entry or a posting (line {line})"),
        _ => format!(
            "{lost} lines are taken for comments though they look like entries or postings (line {line} is the first)"
        ),
    };
    format!("{file}:{line}: {said}: see {command} --strict\n")
}

/// What is said of the first of so many lines within strings, with or without `--strict`.
fn folded(file: &str, line: usize, like: &str, opened: usize, count: usize) -> String {
    let all = match count {
        1 => String::new(),
        _ => format!(
            " (the first of {count} lines within strings that start like entries or postings)"
        ),
    };
    format!(
        "{file}:{line}: this line starts like {like}, but is part of the string that starts in line {opened}: \
         a quote may have been left open there{all}\n"
    )
}

/// Sees to it that plain reading accepts a file and says so much about it.
fn accepted(file: &str, said: &str) {
    let Ran { status, out, err } = run(&["read", file]);
    assert_eq!((status, err.as_str()), (0, said));
    assert!(out.starts_with(&format!("{file}: accepted, ")), "{out}");
}

/// Sees to it that strict reading refuses a file in these words.
fn refused(file: &str, said: &str) {
    let Ran { status, out, err } = run(&["read", "--strict", file]);
    assert_eq!((status, out.as_str(), err.as_str()), (1, "", said));
}

#[test]
fn the_clean_sample_is_strict() {
    for command in ["read", "recover"] {
        let strict = run(&[command, "--strict", CLEAN]);
        let plain = run(&[command, CLEAN]);
        assert_eq!((strict.status, strict.err.as_str()), (0, ""));
        assert_eq!((plain.status, plain.err.as_str()), (0, ""));
        assert_eq!(strict.out, plain.out);
    }
}

#[test]
fn a_lost_line_is_refused_with_its_line() {
    for (name, line, text, why, lost) in EXAMPLES {
        let file = file(name);
        let said = shown(
            &format!("{file}:{line}:1: {LOST}"),
            line,
            text,
            0,
            &[why, COMMENT],
        );
        refused(&file, &said);
        accepted(&file, &counted(&file, line, lost, "read"));

        let Ran { status, out, err } = run(&["recover", "--strict", &file]);
        assert_eq!((status, err.as_str()), (1, ""));
        assert!(
            out.starts_with(&format!("{said}  refused block: line")),
            "{out}"
        );
        assert!(out.contains(&format!("{file}: 1 block refused, kept ")));

        let Ran { status, out, err } = run(&["recover", &file]);
        assert_eq!((status, err), (0, counted(&file, line, lost, "recover")));
        assert!(out.contains(&format!("{file}: nothing refused, kept ")));
    }
}

#[test]
fn a_flag_is_refused_at_its_place() {
    let file = file("flag");
    let heading =
        format!("{file}:9:12: refusal 17: the flag of this transaction is neither * nor !");
    let note = "the flag here is \"P\": without --strict any byte but a small letter is one";
    let said = shown(
        &heading,
        9,
        "2024-03-31 P \"Office\" \"Flat 2\"",
        11,
        &[note],
    );
    refused(&file, &said);
    let one = format!("{file}:9: 1 transaction has a flag other than * and ! (line 9)");
    accepted(&file, &format!("{one}: see read --strict\n"));

    let Ran { status, out, .. } = run(&["recover", "--strict", &file]);
    assert_eq!(status, 1);
    assert!(
        out.starts_with(&format!("{said}  refused block: lines 9 to 11\n")),
        "{out}"
    );
}

#[test]
fn entries_that_an_option_swallowed_are_named() {
    let file = file("folded-option");
    let heading = format!("{file}:8:1: {LOST}");
    let text = "  Tenants:Flat-02   12 KWH";
    let inside = folded(&file, 4, "an entry", 3, 3);
    let said = shown(&heading, 8, text, 0, &[NO_POSTING, COMMENT]);
    refused(&file, &format!("{said}{inside}"));
    accepted(&file, &format!("{}{inside}", counted(&file, 8, 2, "read")));

    // Block by block the option is the lost line: it has an open quote and nothing is in it.
    let Ran { status, out, err } = run(&["recover", "--strict", &file]);
    assert_eq!((status, err.as_str()), (1, ""));
    let option = shown(
        &format!("{file}:3:1: {LOST}"),
        3,
        "option \"title\" \"4 Mill Lane",
        0,
        &[
            "it starts like an option: that is the word, two strings, and a comment at the most",
            OPEN_QUOTE,
            COMMENT,
        ],
    );
    assert!(
        out.starts_with(&format!("{option}  refused block: line 3\n")),
        "{out}"
    );
    assert!(out.contains(&format!("{file}:7:1: refusal 4: ")), "{out}");
    assert!(out.contains("2 blocks refused, kept "), "{out}");
}

#[test]
fn a_month_that_a_narration_swallowed_is_named() {
    let file = file("folded-month");
    let said = folded(&file, 6, "a posting", 5, 3);
    accepted(&file, &said);
    let strict = run(&["read", "--strict", &file]);
    assert_eq!((strict.status, strict.err), (0, said));
    assert_eq!(strict.out, run(&["read", &file]).out);

    for words in [&["recover", &file][..], &["recover", "--strict", &file]] {
        let Ran { status, out, err } = run(words);
        assert_eq!((status, err.as_str()), (1, ""));
        assert!(out.starts_with(&format!("{file}:5:1: refusal 4: ")));
        assert!(out.contains("2 blocks refused, kept 3 entries"), "{out}");
    }
}

#[test]
fn postings_that_a_narration_swallowed_are_named() {
    let file = file("swallowed-postings");
    let said = folded(&file, 6, "a posting", 5, 2);
    for command in ["read", "recover"] {
        let plain = run(&[command, &file]);
        assert_eq!((plain.status, &plain.err), (0, &said));
        let strict = run(&[command, "--strict", &file]);
        assert_eq!((strict.status, &strict.err), (0, &said));
        assert_eq!(strict.out, plain.out);
        assert!(plain.out.contains(" 4 entries, "), "{}", plain.out);
    }
}

#[test]
fn postings_within_a_kept_block_are_named() {
    // A refused block has no rows; the lines of a kept one are those of the ledger.
    let ledger = b"2024-01-31 * \"a\n A:B\n2024-02-29 *\n  key: \"b\n ! A:B\"\n";
    let said = folded("<stdin>", 5, "a posting", 4, 1);
    for form in [&[][..], &["--rows"], &["--json"], &["--strict"]] {
        let Ran { status, err, .. } = run_on(ledger, &[&["recover", "-"], form].concat());
        assert_eq!((status, &err), (1, &said));
    }
}

#[test]
fn prose_within_a_narration_is_not_named() {
    let ledger = b"2024-03-31 * \"Meter changed\n  by the office\n\n  Office: Tenants, Flat 2\"\n  A:B  1 KWH\n";
    for command in ["read", "recover"] {
        for strict in [&[][..], &["--strict"]] {
            let Ran { status, err, .. } = run_on(ledger, &[&[command, "-"], strict].concat());
            assert_eq!((status, err.as_str()), (0, ""), "{command} {strict:?}");
        }
    }
}

#[test]
fn lines_and_flags_are_counted_in_one_line() {
    let ledger = b"2024-01-31 *\n2024-01-31 P\n1\n x\n2024-02-29 Q\npushtag #a x\n";
    let both = "3 lines are taken for comments though they look like entries or postings (line 3 is the first), \
        and 2 transactions have flags other than * and ! (line 2 is the first)";
    for command in ["read", "recover"] {
        // In any form: the answer itself is on standard output.
        for form in [&[][..], &["--rows"], &["--json"]] {
            let Ran { status, err, .. } = run_on(ledger, &[&[command, "-"], form].concat());
            let said = format!("<stdin>:2: {both}: see {command} --strict\n");
            assert_eq!((status, err), (0, said));
        }
    }
    // Recovering reading counts what it kept.
    let damaged = [&ledger[..], b"2024-03-31\n"].concat();
    let Ran { status, err, .. } = run_on(&damaged, &["recover", "-"]);
    assert_eq!(status, 1);
    assert_eq!(err, format!("<stdin>:2: {both}: see recover --strict\n"));
    let Ran { status, err, .. } = run_on(&damaged, &["recover", "--strict", "-"]);
    assert_eq!((status, err.as_str()), (1, ""));
}

#[test]
fn no_string_of_a_block_holds_an_entry() {
    // A line that starts with a digit starts a block, so recovering reading has none to name.
    let ledger = b"2024-01-31 * \"a\n B\n2\"\n";
    let Ran { status, err, .. } = run_on(ledger, &["read", "-"]);
    assert_eq!((status, err), (0, folded("<stdin>", 3, "an entry", 1, 1)));
    let Ran { status, err, .. } = run_on(ledger, &["recover", "-"]);
    assert_eq!((status, err), (1, counted("<stdin>", 3, 1, "recover")));
}

#[test]
fn what_stands_behind_a_tag_is_marked() {
    let Ran { status, err, .. } = run_on(b"pushtag #a x\n", &["read", "--strict", "-"]);
    assert_eq!(status, 1);
    let note = "this stands behind a tag, and no entry reads it";
    let heading = format!("<stdin>:1:11: {LOST}");
    assert_eq!(
        err,
        shown(&heading, 1, "pushtag #a x", 10, &[note, COMMENT])
    );
}

#[test]
fn a_missing_flag_is_marked_behind_its_line() {
    let Ran { status, err, .. } = run_on(b"2024-01-31 \n", &["read", "--strict", "-"]);
    assert_eq!(status, 1);
    let heading = "<stdin>:1:12: refusal 17: the flag of this transaction is neither * nor !";
    let note = "the line ends where the flag should stand";
    assert_eq!(err, shown(heading, 1, "2024-01-31 ", 11, &[note]));
}

#[test]
fn an_indented_date_behind_a_transaction_is_named() {
    let ledger = b"\n2024-02-29 * \"Module\"\n  A:B  1 KWH\n  2024-03-31 * \"Module\"\n";
    let heading = "<stdin>:2:1: refusal 4: a required part of this entry is missing";
    let note = "line 4 is indented and starts with a date";
    let said = shown(heading, 2, "2024-02-29 * \"Module\"", 0, &[note]);
    for strict in [&["read", "-"][..], &["read", "--strict", "-"]] {
        let Ran { status, err, .. } = run_on(ledger, strict);
        assert_eq!((status, &err), (1, &said));
    }
    let Ran { status, out, .. } = run_on(ledger, &["recover", "-"]);
    assert_eq!(status, 1);
    assert!(
        out.starts_with(&format!("{said}  refused block: lines 2 to 4\n")),
        "{out}"
    );
}

#[test]
fn rows_and_json_are_strict_too() {
    let file = file("short-date");
    let Ran { status, out, err } = run(&["read", "--strict", "--json", &file]);
    assert_eq!((status, err.as_str()), (1, ""));
    let place = include_str!("../../../examples/strict/short-date.beancount");
    let place = place.find("2024-3-31").unwrap();
    assert_eq!(
        out,
        format!(
            "{{\"file\":\"{file}\",\"accepted\":false,\"refusal\":{{\"number\":16,\"meaning\":\"{}\",\
             \"place\":{place},\"line\":9,\"column\":1,\"count\":0}}}}\n",
            &LOST["refusal 16: ".len()..]
        )
    );
    let Ran { status, out, err } = run_on(
        b"1\n2024-01-31 *\n",
        &["recover", "--rows", "--strict", "-"],
    );
    assert_eq!((status, err.as_str()), (1, ""));
    assert_eq!(
        out,
        "90 0 2 1 16 0 0\n6 2 15 2 20240131 1 0\n20 13 14 2 0 0 0\n"
    );
}

#[test]
fn strict_is_for_read_and_recover() {
    let wrong: [&[&str]; 4] = [
        &["eval", "--strict", "1"],
        &["packet", "--strict", CLEAN],
        &["packet", "--read", "--strict", CLEAN],
        &["edit", CLEAN, "--lines", "1", "--with", CLEAN, "--strict"],
    ];
    for words in wrong {
        let Ran { status, out, err } = run(words);
        assert_eq!((status, out.as_str()), (2, ""), "{words:?}");
        let said = "lumbrisse: no option of this command is named --strict\n";
        assert!(err.starts_with(said), "{err}");
    }
    for command in ["read", "recover"] {
        let Ran { status, out, .. } = run(&["help", command]);
        assert_eq!(status, 0);
        assert!(out.starts_with(&format!("lumbrisse {command} [--strict] ")));
    }
}
