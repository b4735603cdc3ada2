//! The command `lumbrisse` as a shell runs it, `edit` aside (`command_edit.rs`): what it writes, and its exit status.

mod shell;

use std::process::{Output, Stdio};

use shell::{command, output_on, ran, run, run_on, Ran};

const CLEAN: &str = "examples/clean.beancount";
const DAMAGED: &str = "examples/building.beancount";

/// The packet that the command writes, and what it says beside that.
fn written(words: &[&str], input: &[u8]) -> (i32, Vec<u8>, String) {
    let Output {
        status,
        stdout,
        stderr,
    } = output_on(input, words);
    let err = String::from_utf8(stderr).unwrap();
    (status.code().unwrap(), stdout, err)
}

#[test]
fn a_clean_ledger_is_counted() {
    let Ran { status, out, err } = run(&["read", CLEAN]);
    assert_eq!((status, err.as_str()), (0, ""));
    let first = "examples/clean.beancount: accepted, 49 entries, dated 2023-12-31 to 2024-04-15\n";
    assert!(out.starts_with(first), "{out}");
    assert!(out.contains("\n      10 transaction\n"), "{out}");
    assert!(!out.contains('\x1b'));
}

#[test]
fn a_damaged_ledger_is_refused_with_its_line() {
    let Ran { status, out, err } = run(&["read", DAMAGED]);
    assert_eq!((status, out.as_str()), (1, ""));
    assert_eq!(
        err,
        "examples/building.beancount:56:1: refusal 4: a required part of this entry is missing\n   \
         56 | 2024-03-31 * \"Office\" \"Flat 2, corrected by hand\n      \
         | ^\n      \
         = this line has an odd number of quotes: one may have been left open\n"
    );
}

#[test]
fn recovering_names_the_block_and_keeps_the_rest() {
    let Ran { status, out, err } = run(&["recover", DAMAGED]);
    assert_eq!((status, err.as_str()), (1, ""));
    assert!(
        out.starts_with("examples/building.beancount:56:1: refusal 4: "),
        "{out}"
    );
    assert!(out.contains("  refused block: lines 56 to 58\n"), "{out}");
    let kept = "1 block refused, kept 48 entries, dated 2023-12-31 to 2024-04-15\n";
    assert!(out.contains(kept), "{out}");

    let Ran { status, out, .. } = run(&["recover", CLEAN]);
    assert_eq!(status, 0);
    assert!(out.contains(": nothing refused, kept 49 entries,"), "{out}");
}

#[test]
fn many_refused_blocks_are_named_without_delay() {
    let ledger = b"2024-01-31\n".repeat(200_000);
    let Ran { status, out, .. } = run_on(&ledger, &["recover", "-"]);
    assert_eq!(status, 1);
    assert!(out.contains("<stdin>:200000:1: refusal 4: "));
    assert!(out.ends_with("<stdin>: 200000 blocks refused, kept 0 entries\n"));
}

#[test]
fn rows_are_listed_as_the_rules_list_them() {
    let Ran { status, out, .. } = run_on(b"2024-01-31 * \"Jan\"\n", &["read", "--rows", "-"]);
    assert_eq!(status, 0);
    assert_eq!(
        out,
        "6 0 19 1 20240131 2 0\n20 11 12 1 0 0 0\n22 14 17 1 0 0 0\n"
    );

    let Ran { status, out, .. } = run_on(
        b"2024-01-31\n; a\n2024-02-29 *\n",
        &["recover", "-", "--rows"],
    );
    assert_eq!(status, 1);
    assert_eq!(
        out,
        "90 0 15 1 4 0 0\n6 15 28 3 20240229 1 0\n20 26 27 3 0 0 0\n"
    );

    let Ran { status, out, err } = run_on(b"x", &["read", "--rows", "-"]);
    assert_eq!((status, out.as_str()), (1, ""));
    assert!(err.starts_with("<stdin>:1:1: refusal 5: "), "{err}");
}

#[test]
fn json_is_one_object() {
    let Ran { status, out, err } = run_on(b"2024-01-31 close A:B\n", &["read", "--json", "-"]);
    assert_eq!((status, err.as_str()), (0, ""));
    assert_eq!(
        out,
        "{\"file\":\"<stdin>\",\"accepted\":true,\"rows\":[\n\
         {\"kind\":10,\"name\":\"close\",\"start\":0,\"end\":21,\"line\":1,\"p\":20240131,\"q\":1,\"value\":0},\n\
         {\"kind\":25,\"name\":\"account\",\"start\":17,\"end\":20,\"line\":1,\"p\":0,\"q\":0,\"value\":0,\"text\":\"A:B\"}]}\n"
    );

    let Ran { status, out, err } = run_on(b"\n2024-01-31\n", &["read", "--json", "-"]);
    assert_eq!((status, err.as_str()), (1, ""));
    assert_eq!(
        out,
        "{\"file\":\"<stdin>\",\"accepted\":false,\"refusal\":{\"number\":4,\"meaning\":\"a required part of this entry is missing\",\
         \"place\":1,\"line\":2,\"column\":1,\"count\":0}}\n"
    );

    let Ran { status, out, .. } = run(&["recover", "--json", DAMAGED]);
    assert_eq!(status, 1);
    let start = "{\"file\":\"examples/building.beancount\",\"kept\":48,\"refused\":[{\"first_line\":56,\"last_line\":58,";
    assert!(out.starts_with(start), "{out}");
}

#[test]
fn expressions_are_evaluated() {
    for (text, value) in [
        ("(1,204.5 - 1200)/2", "2.25\n"),
        ("-5", "-5\n"),
        ("0.1*0.1", "0.01\n"),
    ] {
        let Ran { status, out, err } = run(&["eval", text]);
        assert_eq!((status, out.as_str(), err.as_str()), (0, value, ""));
    }
    let Ran { status, out, err } = run(&["eval", "-(2)*3"]);
    assert_eq!(
        (status, out.as_str(), err.as_str()),
        (0, "-2\n", "stops at byte 4; not read: *3\n")
    );

    let Ran { status, out, err } = run_on(b"12/4\n", &["eval", "-"]);
    assert_eq!((status, out.as_str(), err.as_str()), (0, "3\n", ""));

    let Ran { status, out, .. } = run(&["eval", "--json", "1/8 KWH"]);
    let object = "{\"file\":\"<expression>\",\"accepted\":true,\"expression\":\"1/8 KWH\",\"value\":\"0.125\",\"millionths\":125000,\"rounded\":false,\"stop\":3}\n";
    assert_eq!((status, out.as_str()), (0, object));

    let Ran { status, out, err } = run(&["eval", "1/0"]);
    assert_eq!((status, out.as_str()), (1, ""));
    assert!(err.starts_with("<expression>:1:1: refusal 8: "), "{err}");
}

#[test]
fn rounding_is_said() {
    for (text, line) in [
        ("100/3", "33.333333 (rounded from 33.333333333..)\n"),
        ("-2/3", "-0.666667 (rounded from -0.666666666..)\n"),
        ("0.000001/2", "0 (rounded from 0.0000005)\n"),
        // Each operation rounds.
        ("1/3*3", "0.999999 (rounded from 1)\n"),
        ("1/3 + 2/3", "1 (rounded on the way)\n"),
        // Exactly, this divides by zero.
        ("1/(1/3*3 - 1)", "-1000000 (rounded)\n"),
        (
            "999999000.000999*1.000001",
            "999999999.999999 (rounded from 999999999.999999000999)\n",
        ),
    ] {
        let Ran { status, out, err } = run(&["eval", text]);
        assert_eq!((status, out.as_str(), err.as_str()), (0, line, ""));
    }
    let Ran { status, out, err } = run(&["eval", "100/3 EUR"]);
    assert_eq!(
        (status, out.as_str(), err.as_str()),
        (
            0,
            "33.333333 (rounded from 33.333333333..)\n",
            "stops at byte 5; not read: EUR\n"
        )
    );
    let Ran { status, out, .. } = run(&["eval", "--json", "2/3"]);
    assert_eq!(status, 0);
    let end = "\"value\":\"0.666667\",\"millionths\":666667,\"rounded\":true,\"stop\":3}\n";
    assert!(out.ends_with(end), "{out}");
}

#[test]
fn an_exact_value_is_not_rounded() {
    let Ran { status, out, err } = run(&["eval", "--exact", "100/8"]);
    assert_eq!((status, out.as_str(), err.as_str()), (0, "12.5\n", ""));

    let Ran { status, out, err } = run(&["eval", "--exact", "100/3"]);
    assert_eq!((status, out.as_str()), (1, ""));
    assert_eq!(
        err,
        "<expression>:1:1: refusal 7: a value is not a whole number of millionths\n    \
         1 | 100/3\n      \
         | ^\n"
    );
    let Ran { status, out, err } = run(&["eval", "100/3", "--json", "--exact"]);
    assert_eq!((status, err.as_str()), (1, ""));
    assert!(
        out.contains("\"accepted\":false,\"refusal\":{\"number\":7,"),
        "{out}"
    );
}

#[test]
fn every_refusal_of_a_ledger_is_shown() {
    let ledgers: [(&[u8], &str); 7] = [
        (b"; M\xc3\xbcller\n", "<stdin>:1:4: refusal 2: "),
        (b"\n2024-01-31\n", "<stdin>:2:1: refusal 4: "),
        (b"; a\n; b", "<stdin>:2:1: refusal 5: "),
        (
            b"2024-01-31 price KWH 9999999999 EUR\n",
            "<stdin>:1:22: refusal 6: ",
        ),
        (
            b"2024-01-31 price KWH 0.0000001 EUR\n",
            "<stdin>:1:22: refusal 7: ",
        ),
        (
            b"2024-01-31 price KWH 1/0 EUR\n",
            "<stdin>:1:22: refusal 8: ",
        ),
        (
            b"2024-01-31 price KWH (((((((((((((((((((((((((((((((((1 EUR\n",
            "<stdin>:1:54: refusal 3: ",
        ),
    ];
    for (ledger, start) in ledgers {
        let Ran { status, out, err } = run_on(ledger, &["read", "-"]);
        assert_eq!((status, out.as_str()), (1, ""));
        assert!(err.starts_with(start), "{err}");
        assert_eq!(err.lines().count(), 3, "{err}");
    }
    // A terminal is not given what the ledger could steer it with.
    let Ran { err, .. } = run_on(b"; \x1b[2J\n", &["read", "-"]);
    assert!(err.contains("(this is byte 0x1B)"), "{err}");
    assert!(!err.contains('\x1b'), "{err}");
}

#[test]
fn a_packet_holds_the_rows_of_a_ledger() {
    for (ledger, words, read, status) in [
        (CLEAN, &["packet", CLEAN][..], "read", 0),
        (CLEAN, &["packet", "--recover", CLEAN], "recover", 0),
        (DAMAGED, &["packet", "--recover", DAMAGED], "recover", 1),
    ] {
        let (ended, packet, err) = written(words, b"");
        assert_eq!(ended, status);
        let blocks = match status {
            0 => "",
            _ => "examples/building.beancount: 1 block refused (kind 90 in the packet)\n",
        };
        assert_eq!(err, blocks);
        let Ran { status, out, err } = run_on(&packet, &["packet", "--read", "--rows", "-"]);
        assert_eq!((status, err.as_str()), (0, ""));
        assert_eq!(out, run(&[read, "--rows", ledger]).out);
    }
}

#[test]
fn a_packet_is_listed_for_a_person() {
    let ledger = b"2024-01-31 *\n  ! A:B  1/3 EUR\npushtag #\n2024-02-29 * \"a\tb\nc\"\n";
    let (status, packet, err) = written(&["packet", "-"], ledger);
    assert_eq!((status, err.as_str()), (0, ""));
    let Ran { status, out, err } = run_on(&packet, &["packet", "--read", "-"]);
    assert_eq!((status, err.as_str()), (0, ""));
    assert_eq!(
        out,
        "\
        \x20   byte  row                     start      end    line\n\
        \x20      0  transaction                 0       30       1  2024-01-31\n\
        \x20     35    flag                     11       12       1  \"*\"\n\
        \x20     74    posting                  17       20       2  \"A:B\"  flag !\n\
        \x20    115    amount                   22       25       2  \"1/3\"  = 0.333333\n\
        \x20    156  pushtag                    30       39       3\n\
        \x20    191    tag                      39       39       3  \"\"\n\
        \x20    229  blank                      39       40       3\n\
        \x20    264  transaction                40       61       4  2024-02-29\n\
        \x20    299    flag                     51       52       4  \"*\"\n\
        \x20    338    narration                54       59       4  \"a\\tb\\nc\"\n\
        <stdin>: whole, 10 rows and 6 texts in 381 bytes\n"
    );

    let Ran { status, out, .. } = run_on(b"", &["packet", "--read", "-"]);
    let empty = "<stdin>: whole, 0 rows and 0 texts in 0 bytes\n";
    assert_eq!((status, out.as_str()), (0, empty));
}

#[test]
fn a_refused_block_is_listed_harmless_and_cut() {
    let ledger = [b"; \x1b[2J\xff", &b"x".repeat(99)[..], b"\n"].concat();
    let (status, packet, err) = written(&["packet", "--recover", "-"], &ledger);
    assert_eq!(status, 1);
    assert_eq!(err, "<stdin>: 1 block refused (kind 90 in the packet)\n");
    let Ran { status, out, .. } = run_on(&packet, &["packet", "--read", "-"]);
    assert_eq!(status, 0);
    let block = out.lines().nth(1).unwrap();
    let text = format!("  \"; \\u{{1b}}[2J\u{fffd}{}\"..  ", "x".repeat(53));
    assert!(block.starts_with("       0  refused block "), "{block}");
    assert!(block.contains(&text), "{block}");
    assert!(block.ends_with("  refusal 2 at byte 2"), "{block}");
}

#[test]
fn a_ledger_without_packet_writes_nothing() {
    let (status, packet, err) = written(&["packet", DAMAGED], b"");
    assert_eq!((status, packet.len()), (1, 0));
    assert_eq!(err, run(&["read", DAMAGED]).err);

    let long = "a".repeat(65_536);
    let ledger = format!("; note\n2024-01-31 * \"Office\" \"{long}\"\n");
    let (status, packet, err) = written(&["packet", "-"], ledger.as_bytes());
    assert_eq!((status, packet.len()), (1, 0));
    let start = "<stdin>:2:24: refusal 18: a text is longer than 65,535 bytes, \
        the most that a field of a packet holds\n    2 | 2024-01-31 * \"Office\" \"aaa";
    assert!(err.starts_with(start), "{err}");
    assert!(
        err.ends_with("\n      = this narration has 65536 bytes\n"),
        "{err}"
    );

    let ledger = format!("\n2024-01-31 * \"{long}\n");
    let (status, packet, err) = written(&["packet", "--recover", "-"], ledger.as_bytes());
    assert_eq!((status, packet.len()), (1, 0));
    assert!(err.starts_with("<stdin>:2:1: refusal 18: "), "{err}");
    assert!(
        err.ends_with("\n      = this refused block has 65551 bytes\n"),
        "{err}"
    );

    let ledger = ledger.replace(&long, &long[..65_520]);
    let (status, packet, _) = written(&["packet", "--recover", "-"], ledger.as_bytes());
    assert_eq!((status, packet.len()), (1, 35 + 35 + 3 + 65_535));
}

#[test]
fn a_damaged_packet_is_read_up_to_the_damage() {
    let (_, packet, _) = written(&["packet", "-"], b"2024-01-31 close A:B\n");
    assert_eq!(packet.len(), 35 + 35 + 6);
    let Ran { status, out, err } = run_on(&packet[..75], &["packet", "--read", "-"]);
    assert_eq!(status, 1);
    assert_eq!(out.lines().count(), 2);
    assert_eq!(
        err,
        "<stdin>: byte 70: refusal 19: this field is cut short, or the packet ends where a text is due\n      \
         = before it: 1 row and 0 texts\n"
    );

    let twice = [&packet[..], &packet[35..], &packet[70..]].concat();
    let Ran { status, out, err } = run_on(&twice, &["packet", "--read", "--rows", "-"]);
    assert_eq!(status, 1);
    assert_eq!(
        out,
        "10 0 21 1 20240131 1 0\n25 17 20 1 0 0 0\n25 17 20 1 0 0 0\n"
    );
    assert_eq!(
        err,
        "<stdin>: byte 117: refusal 20: this field is not the one that is due: \
         its tag, its length or its order is wrong\n      \
         = before it: 3 rows and 2 texts\n"
    );

    let Ran { status, out, err } = run(&["packet", "--read", CLEAN]);
    assert_eq!((status, out.as_str()), (1, ""));
    assert!(
        err.starts_with("examples/clean.beancount: byte 0: refusal "),
        "{err}"
    );
    assert!(
        err.contains(" = there is no row before it: is this a packet "),
        "{err}"
    );
}

#[test]
fn a_packet_is_one_object_of_json() {
    let (_, packet, _) = written(&["packet", "-"], b"2024-01-31 close A:B\n");
    let rows = "\"rows\":[\n\
        {\"place\":0,\"kind\":10,\"name\":\"close\",\"start\":0,\"end\":21,\"line\":1,\"p\":20240131,\"q\":1,\"value\":0}";
    let detail = ",\n\
        {\"place\":35,\"kind\":25,\"name\":\"account\",\"start\":17,\"end\":20,\"line\":1,\"p\":0,\"q\":0,\"value\":0,\"text\":\"A:B\"}";
    let Ran { status, out, err } = run_on(&packet, &["packet", "--read", "--json", "-"]);
    assert_eq!((status, err.as_str()), (0, ""));
    let whole = "{\"file\":\"<stdin>\",\"accepted\":true,\"bytes\":76,";
    assert_eq!(out, format!("{whole}{rows}{detail}]}}\n"));

    let Ran { status, out, err } = run_on(&packet[..70], &["packet", "--json", "-", "--read"]);
    assert_eq!((status, err.as_str()), (1, ""));
    let refused = "{\"file\":\"<stdin>\",\"accepted\":false,\"refusal\":{\"number\":19,\
        \"meaning\":\"this field is cut short, or the packet ends where a text is due\",\"place\":70,\"count\":0},\"bytes\":70,";
    assert_eq!(out, format!("{refused}{rows}]}}\n"));
}

#[test]
fn a_packet_is_not_written_to_a_terminal() {
    // The near end of a new terminal is one too.
    let terminal = std::fs::OpenOptions::new()
        .read(true)
        .write(true)
        .open("/dev/ptmx");
    let output = command(&["packet", CLEAN])
        .stdout(terminal.unwrap())
        .output();
    let Ran { status, err, .. } = ran(output.unwrap());
    assert_eq!(status, 2);
    assert!(
        err.starts_with("lumbrisse: a packet is not for a terminal: "),
        "{err}"
    );
}

#[test]
fn a_file_without_end_is_refused_for_its_size() {
    let Ran { status, err, .. } = run(&["read", "/dev/zero"]);
    assert_eq!(status, 1);
    assert_eq!(
        err,
        "/dev/zero:1:1: refusal 1: the text is longer than 16,777,216 bytes\n"
    );
}

#[test]
fn wrong_words_and_files_end_with_2() {
    let wrong: [&[&str]; 13] = [
        &[],
        &["frob"],
        &["read"],
        &["read", "--frob", CLEAN],
        &["read", "--exact", CLEAN],
        &["read", CLEAN, CLEAN],
        &["read", "--rows", "--json", CLEAN],
        &["read", "examples/none.beancount"],
        &["read", "examples"],
        &["packet"],
        &["packet", "--json", CLEAN],
        &["packet", "--read", "--recover", CLEAN],
        &["packet", "--read", "examples/none.packet"],
    ];
    for words in wrong {
        let Ran { status, out, err } = run(words);
        assert_eq!((status, out.as_str()), (2, ""), "{words:?}");
        assert!(err.starts_with("lumbrisse: "), "{err}");
    }
}

#[test]
fn help_is_for_every_command() {
    for words in [
        &["--help"][..],
        &["help"],
        &["read", "--help"],
        &["help", "recover"],
        &["eval", "-h"],
        &["packet", "--read", "--help"],
        &["edit", "--help"],
        &["--version"],
    ] {
        let Ran { status, out, err } = run(words);
        assert_eq!((status, err.as_str()), (0, ""), "{words:?}");
        assert!(out.starts_with("lumbrisse"), "{out}");
    }
}

#[test]
fn a_reader_that_goes_away_is_no_trouble() {
    let mut child = command(&["read", "--json", CLEAN])
        .stdout(Stdio::piped())
        .stderr(Stdio::piped())
        .spawn()
        .unwrap();
    drop(child.stdout.take());
    let Ran { status, err, .. } = ran(child.wait_with_output().unwrap());
    assert_eq!((status, err.as_str()), (0, ""));
}

#[test]
fn an_answer_that_cannot_be_written_is_trouble() {
    let full = std::fs::OpenOptions::new().write(true).open("/dev/full");
    let output = command(&["read", CLEAN]).stdout(full.unwrap()).output();
    let Ran { status, err, .. } = ran(output.unwrap());
    assert_eq!(status, 2);
    assert!(
        err.starts_with("lumbrisse: cannot write the answer: "),
        "{err}"
    );
}
