//! The words of the command line.

use std::ffi::OsString;

use super::asked::{self, Asked};
use super::change::{self, Change};
use super::formatting::{self, Formatting};
use super::words::{add_only, no_option, wrong, Usage, NO_FILE};

/// What the words ask for.
#[derive(Debug, PartialEq, Eq)]
pub enum Request {
    /// A call of the reader.
    Run(Job),
    /// Monthly totals, of one ledger or of several.
    Totals(Asked),
    /// One ledger or several, written afresh.
    Format(Formatting),
    /// Help on everything, or on one command.
    Help(Option<Verb>),
    /// The program's name and version.
    Version,
}

/// A task, what it is done with, and how its answer is written.
#[derive(Debug, PartialEq, Eq)]
pub struct Job {
    pub task: Task,
    pub input: Input,
    pub form: Form,
}

/// What a command does with its input.
#[derive(Debug, PartialEq, Eq)]
pub enum Task {
    /// Reads a ledger; where `strict`, refuses lost lines and other flags than `*` and `!`.
    Read { strict: bool },
    /// Reads a ledger on behind damage, each block as `Read` does.
    Recover { strict: bool },
    /// Evaluates an expression; where `exact`, refuses what it would round.
    Eval { exact: bool },
    /// Writes a ledger's rows as a packet: those of plain reading, or of recovering reading.
    WritePacket { recovering: bool },
    /// Lists what a packet holds.
    ReadPacket,
    /// Replaces a block of a ledger.
    Edit(Change),
}

/// The commands by name.
#[derive(Clone, Copy, Debug, PartialEq, Eq)]
pub enum Verb {
    Read,
    Recover,
    Eval,
    Packet,
    Edit,
    Totals,
    Format,
}

/// Where a ledger, packet or expression comes from.
#[derive(Debug, PartialEq, Eq)]
pub enum Input {
    /// Standard input, asked for by `-`.
    Standard,
    /// A file.
    File(OsString),
    /// The word itself.
    Word(OsString),
}

/// How an answer is written.
#[derive(Clone, Copy, Debug, PartialEq, Eq)]
pub enum Form {
    Person,
    Rows,
    Json,
}

/// The request that the words after the program's name stand for.
pub fn parse(mut words: impl Iterator<Item = OsString>) -> Result<Request, Usage> {
    let Some(word) = words.next() else {
        return wrong("which command? read, recover, eval, packet, edit, totals or format");
    };
    match word.to_str() {
        Some("-h" | "--help") => Ok(Request::Help(None)),
        Some("-V" | "--version") => Ok(Request::Version),
        Some("help") => match words.next() {
            None => Ok(Request::Help(None)),
            Some(topic) => verb(&topic).map(|verb| Request::Help(Some(verb))),
        },
        _ => match verb(&word)? {
            Verb::Totals => asked::parse(words),
            Verb::Format => formatting::parse(words),
            verb => job(verb, words),
        },
    }
}

fn verb(word: &OsString) -> Result<Verb, Usage> {
    match word.to_str() {
        Some("read") => Ok(Verb::Read),
        Some("recover") => Ok(Verb::Recover),
        Some("eval") => Ok(Verb::Eval),
        Some("packet") => Ok(Verb::Packet),
        Some("edit") => Ok(Verb::Edit),
        Some("totals") => Ok(Verb::Totals),
        Some("format") => Ok(Verb::Format),
        _ => wrong(format!("no command is named {word:?}")),
    }
}

/// The words after a command: options anywhere before `--`, and one file or expression.
fn job(verb: Verb, mut words: impl Iterator<Item = OsString>) -> Result<Request, Usage> {
    let mut options = Options::default();
    let mut target = None;
    let mut behind_dashes = false;
    while let Some(word) = words.next() {
        let option = word
            .to_str()
            .filter(|text| !behind_dashes && is_option(verb, text));
        match option {
            None => {
                if target.replace(word).is_some() {
                    return wrong(one_only(verb));
                }
            }
            Some("--") => behind_dashes = true,
            Some("-h" | "--help") => return Ok(Request::Help(Some(verb))),
            Some(option) if verb == Verb::Edit && change::takes_word(option) => {
                let Some(given) = words.next() else {
                    return wrong(format!("{option} needs a word behind it"));
                };
                options.change.add(option, given)?;
            }
            Some(option) => options.add(verb, option)?,
        }
    }
    let Some(target) = target else {
        return wrong(missing(verb));
    };
    let input = input(verb, target);
    Ok(Request::Run(Job {
        form: options.form.unwrap_or(Form::Person),
        task: options.task(verb, &input)?,
        input,
    }))
}

/// The options that were given.
#[derive(Default)]
struct Options {
    form: Option<Form>,
    strict: bool,
    exact: bool,
    recovering: bool,
    reading: bool,
    change: change::Parts,
}

impl Options {
    /// Adds an option of a command.
    fn add(&mut self, verb: Verb, option: &str) -> Result<(), Usage> {
        match (verb, option) {
            (_, "--json") => return self.add_form(Form::Json),
            (Verb::Read | Verb::Recover | Verb::Packet | Verb::Edit, "--rows") => {
                return self.add_form(Form::Rows)
            }
            (Verb::Read | Verb::Recover, "--strict") => self.strict = true,
            (Verb::Eval, "--exact") => self.exact = true,
            (Verb::Edit, "--in-place") => self.change.in_place = true,
            (Verb::Packet, "--recover") => self.recovering = true,
            (Verb::Packet, "--read") => self.reading = true,
            _ => return no_option(option),
        }
        Ok(())
    }

    fn add_form(&mut self, form: Form) -> Result<(), Usage> {
        let two = "--rows and --json are two forms of one answer";
        add_only(&mut self.form, form, two)
    }

    /// What a command with these options does with its input.
    fn task(self, verb: Verb, input: &Input) -> Result<Task, Usage> {
        let task =
            match verb {
                Verb::Read => Task::Read {
                    strict: self.strict,
                },
                Verb::Recover => Task::Recover {
                    strict: self.strict,
                },
                Verb::Eval => Task::Eval { exact: self.exact },
                Verb::Packet if self.reading && self.recovering => return wrong(
                    "--recover is for writing a packet, --read for a written one: give one of them",
                ),
                Verb::Packet if self.reading => Task::ReadPacket,
                Verb::Packet if self.form.is_some() => {
                    return wrong(
                        "a packet has a form of its own: --rows and --json are for `packet --read`",
                    )
                }
                Verb::Packet => Task::WritePacket {
                    recovering: self.recovering,
                },
                Verb::Edit => Task::Edit(self.change.change(input)?),
                // Their words are taken by `asked` and `formatting`.
                Verb::Totals | Verb::Format => return wrong("it has no single file"),
            };
        Ok(task)
    }
}

/// An expression may start with `-`, so only `-h` and words with two of them are options to `eval`.
fn is_option(verb: Verb, word: &str) -> bool {
    match verb {
        Verb::Eval => word.starts_with("--") || word == "-h",
        _ => word.starts_with('-') && word != "-",
    }
}

fn input(verb: Verb, word: OsString) -> Input {
    match verb {
        Verb::Eval if word != "-" => Input::Word(word),
        _ => file(word),
    }
}

/// A file by its name, or standard input.
pub fn file(word: OsString) -> Input {
    match word == "-" {
        true => Input::Standard,
        false => Input::File(word),
    }
}

fn one_only(verb: Verb) -> &'static str {
    match verb {
        Verb::Eval => "one expression at a time; put it between quotes",
        Verb::Edit => "one ledger at a time; what takes its lines' place stands behind --with",
        Verb::Read | Verb::Recover | Verb::Packet | Verb::Totals | Verb::Format => {
            "one file at a time"
        }
    }
}

fn missing(verb: Verb) -> &'static str {
    match verb {
        Verb::Eval => "which expression? `-` reads it from standard input",
        _ => NO_FILE,
    }
}

#[cfg(test)]
mod tests {
    use super::*;
    use crate::cli::destination::Destination;
    use crate::cli::lines::Lines;

    fn parsed(words: &[&str]) -> Result<Request, Usage> {
        parse(words.iter().map(OsString::from))
    }

    fn run(task: Task, input: Input, form: Form) -> Result<Request, Usage> {
        Ok(Request::Run(Job { task, input, form }))
    }

    #[test]
    fn options_stand_before_or_after_the_file() {
        let file = || Input::File("a".into());
        assert_eq!(
            parsed(&["read", "a"]),
            run(Task::Read { strict: false }, file(), Form::Person)
        );
        assert_eq!(
            parsed(&["read", "--rows", "a"]),
            run(Task::Read { strict: false }, file(), Form::Rows)
        );
        assert_eq!(
            parsed(&["recover", "a", "--json"]),
            run(Task::Recover { strict: false }, file(), Form::Json)
        );
    }

    #[test]
    fn a_ledger_may_be_read_strictly() {
        let file = || Input::File("a".into());
        for words in [["read", "--strict", "a"], ["read", "a", "--strict"]] {
            let expected = run(Task::Read { strict: true }, file(), Form::Person);
            assert_eq!(parsed(&words), expected);
        }
        assert_eq!(
            parsed(&["recover", "--rows", "--strict", "a"]),
            run(Task::Recover { strict: true }, file(), Form::Rows)
        );
    }

    #[test]
    fn a_dash_is_standard_input() {
        let standard = || Input::Standard;
        assert_eq!(
            parsed(&["read", "-"]),
            run(Task::Read { strict: false }, standard(), Form::Person)
        );
        assert_eq!(
            parsed(&["eval", "-"]),
            run(Task::Eval { exact: false }, standard(), Form::Person)
        );
    }

    #[test]
    fn an_expression_may_start_with_a_minus() {
        let word = |text: &str| Input::Word(text.into());
        assert_eq!(
            parsed(&["eval", "-5"]),
            run(Task::Eval { exact: false }, word("-5"), Form::Person)
        );
        assert_eq!(
            parsed(&["eval", "--json", "--", "--5"]),
            run(Task::Eval { exact: false }, word("--5"), Form::Json)
        );
    }

    #[test]
    fn an_expression_may_be_asked_for_exactly() {
        for words in [["eval", "--exact", "1/3"], ["eval", "1/3", "--exact"]] {
            let expected = run(
                Task::Eval { exact: true },
                Input::Word("1/3".into()),
                Form::Person,
            );
            assert_eq!(parsed(&words), expected);
        }
    }

    #[test]
    fn a_packet_is_written_or_read() {
        let file = || Input::File("a".into());
        let written = |recovering| run(Task::WritePacket { recovering }, file(), Form::Person);
        assert_eq!(parsed(&["packet", "a"]), written(false));
        assert_eq!(parsed(&["packet", "a", "--recover"]), written(true));
        let read = |form| run(Task::ReadPacket, file(), form);
        assert_eq!(parsed(&["packet", "--read", "a"]), read(Form::Person));
        assert_eq!(
            parsed(&["packet", "--rows", "a", "--read"]),
            read(Form::Rows)
        );
        assert_eq!(
            parsed(&["packet", "--read", "--json", "a"]),
            read(Form::Json)
        );
        assert_eq!(
            parsed(&["packet", "--read", "-"]),
            run(Task::ReadPacket, Input::Standard, Form::Person)
        );
    }

    #[test]
    fn an_edit_has_lines_and_what_takes_their_place() {
        let file = || Input::File("a".into());
        let edit = |with, to| {
            let lines = Lines { first: 5, last: 6 };
            run(Task::Edit(Change { lines, with, to }), file(), Form::Person)
        };
        let new = || Input::File("new".into());
        assert_eq!(
            parsed(&["edit", "a", "--lines", "5-6", "--with", "new"]),
            edit(new(), Destination::Nowhere)
        );
        assert_eq!(
            parsed(&["edit", "--with", "-", "--lines", "5-6", "--in-place", "a"]),
            edit(Input::Standard, Destination::Own("a".into()))
        );
        assert_eq!(
            parsed(&["edit", "--output", "b", "a", "--lines", "5-6", "--with", "new"]),
            edit(new(), Destination::New("b".into()))
        );
        // A word that belongs to an option is none itself.
        assert_eq!(
            parsed(&["edit", "a", "--lines", "5-6", "--with", "--in-place"]),
            edit(Input::File("--in-place".into()), Destination::Nowhere)
        );
    }

    #[test]
    fn wrong_words_of_an_edit_are_told() {
        let wrong: [&[&str]; 18] = [
            &[],
            &["a"],
            &["a", "--lines", "5"],
            &["a", "--with", "new"],
            &["a", "--with", "new", "--lines"],
            &["--lines", "5", "--with", "new"],
            &["a", "b", "--lines", "5", "--with", "new"],
            &["a", "--lines", "6-5", "--with", "new"],
            &["a", "--lines", "0", "--with", "new"],
            &["a", "--lines", "5", "--lines", "5", "--with", "new"],
            &["a", "--lines", "5", "--with", "new", "--frob"],
            &["a", "--lines", "5", "--with", "new", "--exact"],
            &["a", "--lines", "5", "--with", "new", "--strict"],
            &["a", "--lines", "5", "--with", "new", "--rows", "--json"],
            &["a", "--lines", "5", "--with", "new", "--output", "-"],
            &[
                "a",
                "--lines",
                "5",
                "--with",
                "new",
                "--output",
                "b",
                "--in-place",
            ],
            &["-", "--lines", "5", "--with", "-"],
            &["-", "--lines", "5", "--with", "new", "--in-place"],
        ];
        for words in wrong {
            let words = [&["edit"], words].concat();
            assert!(parsed(&words).is_err(), "{words:?}");
        }
        assert!(parsed(&["read", "a", "--lines", "5"]).is_err());
        assert!(parsed(&["packet", "a", "--in-place"]).is_err());
    }

    #[test]
    fn help_is_for_all_or_for_a_command() {
        assert_eq!(parsed(&["--help"]), Ok(Request::Help(None)));
        assert_eq!(
            parsed(&["help", "recover"]),
            Ok(Request::Help(Some(Verb::Recover)))
        );
        assert_eq!(parsed(&["eval", "-h"]), Ok(Request::Help(Some(Verb::Eval))));
        assert_eq!(
            parsed(&["packet", "--read", "-h"]),
            Ok(Request::Help(Some(Verb::Packet)))
        );
        assert_eq!(
            parsed(&["edit", "--lines", "5", "--help"]),
            Ok(Request::Help(Some(Verb::Edit)))
        );
    }

    #[test]
    fn wrong_words_are_told() {
        let wrong: [&[&str]; 20] = [
            &[],
            &["frob"],
            &["help", "frob"],
            &["read"],
            &["read", "a", "b"],
            &["read", "--frob", "a"],
            &["read", "--exact", "a"],
            &["read", "--rows", "--json", "a"],
            &["read", "--strict"],
            &["eval", "--rows", "1"],
            &["eval", "--strict", "1"],
            &["eval", "1", "+", "2"],
            &["packet"],
            &["packet", "--read"],
            &["packet", "a", "b"],
            &["packet", "--exact", "a"],
            &["packet", "--strict", "a"],
            &["packet", "--rows", "a"],
            &["packet", "--read", "--recover", "a"],
            &["packet", "--read", "--rows", "--json", "a"],
        ];
        for words in wrong {
            assert!(parsed(words).is_err(), "{words:?}");
        }
    }
}
