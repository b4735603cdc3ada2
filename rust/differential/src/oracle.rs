//! The crate, as a program beside this one: ledgers go to its standard input, answers come from its standard output.

use std::io::{self, BufRead, BufReader, BufWriter, Write};
use std::path::Path;
use std::process::{Child, ChildStdin, ChildStdout, Command, Stdio};
use std::sync::{mpsc, Arc};
use std::thread;

/// How one of the two crates ended.
#[derive(Clone, Debug, PartialEq, Eq)]
pub enum End {
    /// It read the ledger.
    Read,
    /// It gave an error.
    Error,
    /// It panicked, with this message.
    Panic(String),
    /// The ledger was no text for it.
    NotText,
}

/// The oracle's answer to a ledger.
#[derive(Clone, Debug)]
pub struct Answer {
    /// How the crate ended.
    pub unchanged: End,
    /// How its copy ended in which rule 3 decides on dates; asked only where the crate gave an error.
    pub rule_3: Option<End>,
    /// The entries, where one of them read the ledger.
    pub entries: String,
}

/// Where ledgers are asked.
struct Questions(BufWriter<ChildStdin>);

/// Where answers are read, in the order of the ledgers.
struct Answers {
    output: BufReader<ChildStdout>,
    line: String,
}

/// Starts the program of an oracle's folder.
fn start(folder: &Path) -> io::Result<(Child, Questions, Answers)> {
    let program = folder.join("target/release/both");
    let mut child = Command::new(&program)
        .stdin(Stdio::piped())
        .stdout(Stdio::piped())
        .spawn()
        .map_err(|error| io::Error::other(format!("{}: {error}", program.display())))?;
    let input = child.stdin.take().ok_or_else(closed)?;
    let output = child.stdout.take().ok_or_else(closed)?;
    let answers = Answers {
        output: BufReader::with_capacity(1 << 16, output),
        line: String::new(),
    };
    let questions = Questions(BufWriter::with_capacity(1 << 16, input));
    Ok((child, questions, answers))
}

fn closed() -> io::Error {
    io::Error::other("the oracle closed its end")
}

impl Questions {
    /// Asks about a ledger.
    fn ask(&mut self, ledger: &[u8]) -> io::Result<()> {
        writeln!(self.0, "{}", ledger.len())?;
        self.0.write_all(ledger)
    }

    /// Hands over what was asked so far.
    fn flush(&mut self) -> io::Result<()> {
        self.0.flush()
    }
}

impl Answers {
    fn next_line(&mut self) -> io::Result<&str> {
        self.line.clear();
        match self.output.read_line(&mut self.line)? {
            0 => Err(closed()),
            _ => Ok(self.line.strip_suffix('\n').unwrap_or(&self.line)),
        }
    }

    fn end(&mut self) -> io::Result<End> {
        let line = self.next_line()?;
        match line.split_once(' ').unwrap_or((line, "")) {
            ("read", "") => Ok(End::Read),
            ("error", "") => Ok(End::Error),
            ("panic", message) => Ok(End::Panic(message.to_owned())),
            ("not", "utf-8") => Ok(End::NotText),
            _ => Err(io::Error::other(format!("the oracle said: {line}"))),
        }
    }

    /// The answer to the next ledger.
    fn next(&mut self) -> io::Result<Answer> {
        let unchanged = self.end()?;
        let rule_3 = match unchanged {
            End::Error => Some(self.end()?),
            _ => None,
        };
        let mut entries = String::new();
        loop {
            match self.next_line()? {
                "=" => break,
                line => {
                    entries.push_str(line);
                    entries.push('\n');
                }
            }
        }
        Ok(Answer {
            unchanged,
            rule_3,
            entries,
        })
    }
}

/// Has the ledgers of each thing that is made answered, and hands it on with the answers. The oracle works beside this
/// program, and so does the making.
pub fn answered<T: Send + Sync + 'static>(
    folder: &Path,
    made: impl Iterator<Item = T> + Send + 'static,
    ledgers: fn(&T) -> Vec<&[u8]>,
    mut add: impl FnMut(&T, &[Answer]),
) -> io::Result<()> {
    let (mut child, mut questions, mut answers) = start(folder)?;
    let (sender, asked) = mpsc::channel();
    let asking = thread::spawn(move || -> io::Result<()> {
        for one in made.map(Arc::new) {
            // Answers are waited for from here on: the oracle may have to hand over a long one before it takes the next
            // question.
            if sender.send(Arc::clone(&one)).is_err() {
                return Ok(());
            }
            for ledger in ledgers(&one) {
                questions.ask(ledger)?;
            }
        }
        questions.flush()
    });
    for one in asked {
        let count = ledgers(&one).len();
        let found: Vec<Answer> = (0..count)
            .map(|_| answers.next())
            .collect::<io::Result<_>>()?;
        add(&one, &found);
    }
    asking
        .join()
        .map_err(|_| io::Error::other("the asking thread ended early"))??;
    child.wait().map(|_| ())
}

/// An oracle that is asked about one ledger at a time.
pub struct Single {
    child: Child,
    questions: Questions,
    answers: Answers,
}

impl Single {
    /// Starts one.
    pub fn start(folder: &Path) -> io::Result<Single> {
        let (child, questions, answers) = start(folder)?;
        Ok(Single {
            child,
            questions,
            answers,
        })
    }

    /// The answer to this ledger.
    pub fn answer(&mut self, ledger: &[u8]) -> io::Result<Answer> {
        self.questions.ask(ledger)?;
        self.questions.flush()?;
        self.answers.next()
    }

    /// Ends the program and waits for it.
    pub fn stop(mut self) -> io::Result<()> {
        drop(self.questions);
        self.child.wait().map(|_| ())
    }
}
