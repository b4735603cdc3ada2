//! The command `totals` as a shell runs it: what it writes, and its exit status.

mod shell;

use shell::{run, run_on, Ran};

const EXAMPLE: &str = "examples/totals.beancount";
const CLEAN: &str = "examples/clean.beancount";
const DAMAGED: &str = "examples/building.beancount";

/// What the command prints for the example's March, beside its reference meter.
const PRINTED: &str = include_str!("../../../examples/totals.txt");
const README: &str = include_str!("../../README.md");

fn march(words: &[&str]) -> Ran {
    run(&[&["totals", "--month", "2024-03"], words].concat())
}

fn march_on(input: &[u8], words: &[&str]) -> Ran {
    run_on(
        input,
        &[&["totals", "--month", "2024-03", "-"], words].concat(),
    )
}

/// The lines of a text without the blanks that put them in columns.
fn words(text: &str) -> Vec<String> {
    let line = |line: &str| line.split_whitespace().collect::<Vec<_>>().join(" ");
    text.lines()
        .map(line)
        .filter(|line| !line.is_empty())
        .collect()
}

#[test]
fn the_example_is_printed_as_it_is_shown() {
    let Ran { status, out, err } =
        run(&["totals", EXAMPLE, "2024-03", "--meter", "Meters:Reference"]);
    assert_eq!((status, err.as_str()), (0, ""));
    assert_eq!(out, PRINTED);
    // The month may be named by an option, too.
    assert_eq!(march(&[EXAMPLE, "--meter", "Meters:Reference"]).out, out);
    // The page of this folder shows the same.
    let shown: String = PRINTED
        .lines()
        .map(|line| match line {
            "" => "\n".to_string(),
            _ => format!("    {line}\n"),
        })
        .collect();
    assert!(README.contains(&shown), "{shown}");
}

#[test]
fn a_month_has_accounts_parts_and_currencies() {
    let ledger = b"2024-03-31 * \"a\"\n  A:B  1.25 EUR {7 USD}\n  A:C  -1/4 EUR @ 2 USD\n  B:A  12,000 KWH\n  B:A\n  A:C\n  A:C\n\
        2024-03-31 balance A:B 9 EUR\n2024-04-30 *\n  A:B  5 EUR\n";
    let Ran { status, out, err } = march_on(ledger, &[]);
    assert_eq!((status, err.as_str()), (0, ""));
    assert_eq!(
        out,
        "<stdin>: 2024-03, 6 postings\n\
         \n  account               sum      postings\n  \
         A:B                  1.25 EUR         1\n  \
         A:C                 -0.25 EUR         1\n  \
         B:A              12000    KWH         1\n\
         \n  by first part         sum      postings\n  \
         A                    1.00 EUR         2\n  \
         B                12000    KWH         1\n\
         \n  all accounts   above zero  below zero         sum\n  \
         EUR                  1.25       -0.25        1.00\n  \
         KWH              12000           0       12000\n\
         \n  3 postings state no amount, and are in no sum: A:C (2), B:A\n"
    );
}

#[test]
fn a_table_is_not_printed_twice() {
    // No two accounts start alike, and none states an amount.
    let Ran { out, .. } = march_on(b"2024-03-31 *\n  A:B  1 EUR\n  B:B  -1 EUR\n", &[]);
    assert!(!out.contains("by first part"), "{out}");
    let Ran { status, out, .. } = march_on(b"2024-03-31 *\n  A:B\n", &[]);
    let expected =
        "<stdin>: 2024-03, 1 posting\n\n  1 posting states no amount, and is in no sum: A:B\n";
    assert_eq!((status, out.as_str()), (0, expected));
}

#[test]
fn a_month_without_postings_says_so() {
    let Ran { status, out, err } = run(&["totals", CLEAN, "--month", "2024-06"]);
    assert_eq!((status, err.as_str()), (0, ""));
    assert_eq!(
        out,
        "examples/clean.beancount: no postings in 2024-06; its entries are dated 2023-12-31 to 2024-04-15\n"
    );
    let Ran { status, out, .. } = march_on(b"", &[]);
    let expected = "<stdin>: no postings in 2024-03: no entry of it has a date\n";
    assert_eq!((status, out.as_str()), (0, expected));
    let Ran { status, out, .. } = march_on(b"", &["--csv"]);
    assert_eq!(
        (status, out.as_str()),
        (0, "file,month,account,currency,sum,postings\n")
    );
    let Ran { status, out, .. } = march_on(b"", &["--json"]);
    assert_eq!(
        (status, out.as_str()),
        (
            0,
            "{\"month\":\"2024-03\",\"files\":[\n\
             {\"file\":\"<stdin>\",\"accepted\":true,\"postings\":0,\"totals\":[],\"unstated\":[],\"by_first_part\":[],\"all_accounts\":[]}],\n\
             \"all_files\":{\"listed\":1,\"left_out\":0,\"postings\":0,\"unstated_postings\":0,\"by_first_part\":[],\"all_accounts\":[]}}\n"
        )
    );
}

#[test]
fn several_files_are_added_up_and_refused_ones_named() {
    let Ran { status, out, err } = march(&[EXAMPLE, DAMAGED, CLEAN]);
    assert_eq!(status, 1);
    assert!(
        err.starts_with("examples/building.beancount:56:1: refusal 4: "),
        "{err}"
    );
    let lines = words(&out);
    assert_eq!(lines[0], "examples/totals.beancount: 2024-03, 13 postings");
    assert!(lines.contains(&"examples/clean.beancount: 2024-03, 6 postings".to_string()));
    assert!(!out.contains("building"));
    let all = lines
        .iter()
        .position(|line| line == "2 of 3 files: 2024-03, 19 postings");
    assert_eq!(
        lines[all.unwrap() + 1..],
        [
            "by first part sum postings",
            "Income -63.54 EUR 1",
            "Meters -1.3 KWH 13",
            "Stock 500 LITRE 1",
            "Tenants 63.54 EUR 3",
            "all accounts above zero below zero sum",
            "EUR 63.54 -63.54 0.00",
            "KWH 423.6 -424.9 -1.3",
            "LITRE 500 0 500",
            "1 posting states no amount, and is in no sum",
            "1 file is left out: it is in no sum",
        ]
    );

    let Ran { status, out, err } = march(&[EXAMPLE, CLEAN]);
    assert_eq!((status, err.as_str()), (0, ""));
    assert!(
        out.contains("\nall 2 files: 2024-03, 19 postings\n"),
        "{out}"
    );
    assert!(!out.contains("left out"));
}

#[test]
fn a_file_that_cannot_be_read_is_left_out() {
    let Ran { status, out, err } = march(&["no-such-file", CLEAN, DAMAGED]);
    assert_eq!(status, 2);
    assert!(
        err.starts_with("lumbrisse: cannot read no-such-file: "),
        "{err}"
    );
    assert!(
        out.starts_with("examples/clean.beancount: 2024-03, 6 postings\n"),
        "{out}"
    );
    assert!(
        out.contains("\n1 of 3 files: 2024-03, 6 postings\n"),
        "{out}"
    );
    assert!(
        out.ends_with("\n  2 files are left out: they are in no sum\n"),
        "{out}"
    );

    let Ran { status, out, .. } = march(&["no-such-file", DAMAGED, "--json"]);
    assert_eq!(status, 2);
    let start = "{\"month\":\"2024-03\",\"files\":[\n\
        {\"file\":\"no-such-file\",\"accepted\":false,\"trouble\":\"cannot read no-such-file: ";
    assert!(out.starts_with(start), "{out}");
    let next = "\"},\n{\"file\":\"examples/building.beancount\",\"accepted\":false,\"refusal\":{\"number\":4,";
    assert!(out.contains(next), "{out}");
    let end = "}}],\n\"all_files\":{\"listed\":0,\"left_out\":2,\"postings\":0,\"unstated_postings\":0,\"by_first_part\":[],\"all_accounts\":[]}}\n";
    assert!(out.ends_with(end), "{out}");
}

#[test]
fn json_has_every_sum_as_a_string() {
    let ledger = b"2024-03-31 *\n  A:B  999,999,999.999999 EUR\n  A:C  -0.000001 EUR\n  A:C\n";
    let Ran { status, out, err } = march_on(ledger, &["--json", "--meter", "A:B"]);
    assert_eq!((status, err.as_str()), (0, ""));
    let figures = "\"by_first_part\":[{\"part\":\"A\",\"currency\":\"EUR\",\"sum\":\"999999999.999998\",\"postings\":2}],\
        \"all_accounts\":[{\"currency\":\"EUR\",\"above_zero\":\"999999999.999999\",\"below_zero\":\"-0.000001\",\
        \"sum\":\"999999999.999998\",\"postings\":2}]";
    assert_eq!(
        out,
        format!(
            "{{\"month\":\"2024-03\",\"files\":[\n\
             {{\"file\":\"<stdin>\",\"accepted\":true,\"postings\":3,\"totals\":[\n\
             {{\"account\":\"A:B\",\"currency\":\"EUR\",\"sum\":\"999999999.999999\",\"postings\":1}},\n\
             {{\"account\":\"A:C\",\"currency\":\"EUR\",\"sum\":\"-0.000001\",\"postings\":1}}],\"unstated\":[\n\
             {{\"account\":\"A:C\",\"postings\":1}}],{figures},\
             \"meter\":{{\"account\":\"A:B\",\"unstated_postings\":0,\"currencies\":[{{\"currency\":\"EUR\",\"sum\":\"999999999.999999\",\
             \"others\":\"-0.000001\",\"difference\":\"999999999.999998\",\"signs\":\"opposite\"}}]}}}}],\n\
             \"all_files\":{{\"listed\":1,\"left_out\":0,\"postings\":3,\"unstated_postings\":1,{figures}}}}}\n"
        )
    );
}

#[test]
fn csv_has_a_line_for_each_item() {
    let ledger = b"2024-03-31 *\n  A:B  12.5 KWH\n  A:C  -12.50 KWH\n  A:D\n";
    let Ran { status, out, err } = march_on(ledger, &["--csv"]);
    assert_eq!((status, err.as_str()), (0, ""));
    assert_eq!(
        out,
        "file,month,account,currency,sum,postings\n\
         <stdin>,2024-03,A:B,KWH,12.5,1\n\
         <stdin>,2024-03,A:C,KWH,-12.5,1\n\
         <stdin>,2024-03,A:D,,,1\n"
    );
    let Ran { status, out, err } = march_on(ledger, &["--csv", "--meter", "A:C"]);
    assert_eq!((status, err.as_str()), (0, ""));
    assert_eq!(
        out,
        "file,month,account,currency,sum,others,difference,signs,unstated\n\
         <stdin>,2024-03,A:C,KWH,-12.5,12.5,0,opposite,0\n"
    );
    // A list has no place for an account that is not there.
    let Ran { status, out, err } = march_on(ledger, &["--csv", "--meter", "A:D"]);
    assert_eq!(
        (status, out.as_str()),
        (
            0,
            "file,month,account,currency,sum,others,difference,signs,unstated\n"
        )
    );
    assert_eq!(
        err,
        "<stdin>: A:D has no posting with an amount in 2024-03\n"
    );
    // A refused file has no lines, and its refusal is said as `read` says it.
    let Ran { status, out, err } = march(&["--csv", DAMAGED]);
    assert_eq!(
        (status, out.as_str()),
        (1, "file,month,account,currency,sum,postings\n")
    );
    assert!(
        err.starts_with("examples/building.beancount:56:1: refusal 4: "),
        "{err}"
    );
}

/// What is said of an account beside the others, in one currency.
fn beside(ledger: &[u8]) -> String {
    let Ran { status, out, err } = march_on(ledger, &["--meter", "M:R"]);
    assert_eq!((status, err.as_str()), (0, ""));
    let lines = words(&out);
    let heading = lines
        .iter()
        .position(|line| line == "M:R this account all others difference");
    lines[heading.unwrap() + 1].clone()
}

#[test]
fn a_meter_is_held_against_the_others() {
    for (ledger, said) in [
        (
            &b"2024-03-31 *\n  M:R  -5 KWH\n  M:A  2 KWH\n  M:B  3 KWH\n"[..],
            "KWH -5 5 0 equal; signs opposite",
        ),
        (
            b"2024-03-31 *\n  M:R  5.5 KWH\n  M:A  2 KWH\n  M:B  3 KWH\n",
            "KWH 5.5 5.0 0.5 this account is larger by 0.5; signs the same",
        ),
        (
            b"2024-03-31 *\n  M:R  -5 KWH\n  M:A  2 KWH\n  M:B  3.000001 KWH\n",
            "KWH -5.000000 5.000001 -0.000001 the others are larger by 0.000001; signs opposite",
        ),
        (
            b"2024-03-31 *\n  M:R  5 KWH\n  M:A  2 EUR\n",
            "KWH 5 0 5 this account is larger by 5",
        ),
        // Its own part of the name is not another account's.
        (
            b"2024-03-31 *\n  M:R  5 KWH\n  M:R:A  -5 KWH\n",
            "KWH 5 -5 0 equal; signs opposite",
        ),
    ] {
        assert_eq!(beside(ledger), said);
    }
    // What its own postings without amount stand for is on neither side.
    let unstated =
        b"2024-03-31 *\n  M:R  -2 KWH\n  M:A  2 KWH\n2024-03-31 *\n  M:R\n  M:A  3 KWH\n";
    assert_eq!(
        beside(unstated),
        "KWH -2 5 -3 the others are larger by 3; signs opposite"
    );
    let Ran { out, .. } = march_on(unstated, &["--meter", "M:R"]);
    let said = "\n  (1 posting to this account states no amount: a difference may be its)\n";
    assert!(out.ends_with(said), "{out}");
    let Ran { out, .. } = march_on(unstated, &["--meter", "M:R", "--csv"]);
    assert!(out.ends_with("M:R,KWH,-2,5,-3,opposite,1\n"), "{out}");
    // A line for each of its currencies.
    let two = b"2024-03-31 *\n  M:R  -5 KWH\n  M:R  1 EUR\n  M:A  5 KWH\n  M:A  1 USD\n";
    let Ran { out, .. } = march_on(two, &["--meter", "M:R"]);
    let lines = words(&out);
    assert_eq!(
        lines[lines.len() - 2..],
        [
            "EUR 1 0 1 this account is larger by 1",
            "KWH -5 5 0 equal; signs opposite"
        ]
    );
    let Ran { status, out, .. } = march_on(two, &["--meter", "M:X"]);
    assert_eq!(status, 0);
    assert!(
        out.ends_with("\n\n  M:X has no posting with an amount in 2024-03\n"),
        "{out}"
    );
}

#[test]
fn a_sum_that_is_too_large_is_named() {
    let ledger = b"2024-03-31 *\n  A:B  999999999 EUR\n  A:B  1 EUR\n";
    let Ran { status, out, err } = march_on(ledger, &[]);
    assert_eq!((status, out.as_str()), (1, ""));
    assert_eq!(
        err,
        "<stdin>:2:3: refusal 6: a value is larger than 999,999,999.999999\n    \
         2 |   A:B  999999999 EUR\n      |   ^\n      \
         = no value here is so large, but the sum of A:B in 2024-03 is\n"
    );
    // A value of the ledger itself is told as ever.
    let Ran { status, err, .. } = march_on(b"2024-03-31 *\n  A:B  1000000000 EUR\n", &[]);
    assert_eq!(status, 1);
    assert!(!err.contains("no value here"), "{err}");
    let Ran { status, out, .. } = march_on(ledger, &["--json"]);
    assert_eq!(status, 1);
    assert!(out.contains("\"refusal\":{\"number\":6,"), "{out}");
}

#[test]
fn lines_taken_for_comments_are_said() {
    let Ran { status, out, err } = march(&["examples/strict/short-date.beancount"]);
    assert_eq!(status, 0);
    assert!(
        out.starts_with("examples/strict/short-date.beancount: "),
        "{out}"
    );
    assert!(err.contains("taken for comments"), "{err}");
    assert!(err.ends_with(": see read --strict\n"), "{err}");
    let Ran { err, .. } = march(&["examples/strict/folded-month.beancount", "--json"]);
    assert!(err.contains("this line starts like a posting"), "{err}");
}

#[test]
fn wrong_words_end_with_two() {
    let wrong: [&[&str]; 7] = [
        &["totals"],
        &["totals", CLEAN],
        &["totals", CLEAN, "2024-13"],
        &["totals", CLEAN, "--month", "2024-13"],
        &["totals", CLEAN, CLEAN, "--month", "2024-03"],
        &["totals", CLEAN, "--month", "2024-03", "--meter", "Meters"],
        &["totals", CLEAN, "--month", "2024-03", "--csv", "--json"],
    ];
    for words in wrong {
        let Ran { status, out, err } = run(words);
        assert_eq!((status, out.as_str()), (2, ""), "{words:?}");
        assert!(err.starts_with("lumbrisse: "), "{err}");
    }
    let Ran { status, out, .. } = run(&["help", "totals"]);
    assert_eq!(status, 0);
    assert!(out.starts_with("lumbrisse totals FILE.. 2024-03 "), "{out}");
}
