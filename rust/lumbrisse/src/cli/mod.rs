//! The command line: what is asked for, the call that answers it, and how the answer is written.

mod args;
mod asked;
mod change;
mod csv;
mod decimal;
mod destination;
mod dropped;
mod edit;
mod exact;
mod figures;
mod folded;
mod format;
mod formatting;
mod fraction;
mod help;
mod hint;
mod human;
mod json;
mod lines;
mod listing;
mod lost;
mod packet;
mod paint;
mod place;
mod remark;
mod rows;
mod shown;
mod source;
mod statement;
mod store;
mod sum;
mod summary;
mod totals;
mod words;

use std::ffi::OsString;
use std::io::{self, BufWriter, ErrorKind, IsTerminal, Write};
use std::process::ExitCode;

use args::{Form, Job, Request, Task};
use lumbrisse::Rows;
use paint::Paint;
use place::Known;
use source::Source;

/// How a run ends. A person reads it in words; another program by the exit status.
#[derive(Clone, Copy, PartialEq, Eq, PartialOrd, Ord)]
enum Status {
    /// All was accepted.
    Accepted = 0,
    /// The call, or a block of the ledger, was refused; or a file is not as it would be written afresh.
    Refused = 1,
    /// The words were wrong, or a file could not be read or written.
    Trouble = 2,
}

/// Runs the command that the words after the program's name ask for.
pub fn run(words: impl Iterator<Item = OsString>) -> ExitCode {
    let status = match args::parse(words) {
        Ok(Request::Run(job)) => run_job(&job),
        Ok(Request::Totals(asked)) => totals::totals(&asked),
        Ok(Request::Format(formatting)) => format::format(&formatting),
        Ok(Request::Help(topic)) => said(help::of(topic)),
        Ok(Request::Version) => said(help::VERSION),
        Err(usage) => {
            complain(&usage.0);
            complain("`lumbrisse --help` says what it takes.");
            Status::Trouble
        }
    };
    ExitCode::from(status as u8)
}

fn said(text: &str) -> Status {
    let mut out = io::stdout();
    let written = out.write_all(text.as_bytes()).and_then(|()| out.flush());
    ended(written, Status::Accepted)
}

/// A line to standard error. There is nobody left to tell where that fails.
fn complain(text: &str) {
    let _ = writeln!(io::stderr(), "lumbrisse: {text}");
}

/// A line about a file, or a line of it, to standard error.
fn tell(name: &str, said: &str) {
    let _ = writeln!(io::stderr(), "{}: {said}", Paint::stderr().bold(name));
}

/// The status of a run whose answer was, or could not be, written. A reader that went away has seen enough.
fn ended(written: io::Result<()>, status: Status) -> Status {
    match written {
        Err(error) if error.kind() != ErrorKind::BrokenPipe => {
            complain(&format!("cannot write the answer: {error}"));
            Status::Trouble
        }
        _ => status,
    }
}

fn run_job(job: &Job) -> Status {
    if matches!(job.task, Task::WritePacket { .. }) && io::stdout().is_terminal() {
        complain("a packet is not for a terminal: send it to a file, as `lumbrisse packet FILE > OUT` does");
        return Status::Trouble;
    }
    let loaded = match job.task {
        Task::ReadPacket => source::packet(&job.input),
        _ => source::text(&job.input),
    };
    let source = match loaded {
        Ok(source) => source,
        Err(message) => {
            complain(&message);
            return Status::Trouble;
        }
    };
    let mut out = BufWriter::new(io::stdout().lock());
    let (written, status) = match &job.task {
        Task::Read { strict } => read(&mut out, job.form, *strict, &source),
        Task::Recover { strict } => recover(&mut out, job.form, *strict, &source),
        Task::Eval { exact } => eval(&mut out, job.form, *exact, &source),
        Task::WritePacket { recovering } => packet::write(&mut out, *recovering, &source),
        Task::ReadPacket => packet::read(&mut out, job.form, &source),
        Task::Edit(change) => edit::edit(&mut out, job.form, change, &source),
    };
    ended(written.and_then(|()| out.flush()), status)
}

/// What was written, and how the run ends.
type Outcome = (io::Result<()>, Status);

fn read(out: &mut impl Write, form: Form, strict: bool, source: &Source) -> Outcome {
    let answer = match strict {
        true => lumbrisse::read_strict_to_vec(&source.bytes),
        false => lumbrisse::read_to_vec(&source.bytes),
    };
    match answer {
        Ok(table) => {
            let written = match form {
                Form::Person => human::accepted(out, Paint::stdout(), source, &table),
                Form::Rows => rows::list(out, Rows::new(&table)),
                Form::Json => json::accepted(out, source, &table),
            };
            // The answer stands above what is said of it.
            let written = written.and_then(|()| out.flush());
            remark::lenient(source, &table, "read");
            remark::folded(source, &table);
            (written, Status::Accepted)
        }
        Err(refusal) => {
            let outcome = refused(out, form, source, refusal);
            // What strict reading alone refuses has rows, and an open quote further up may be why.
            if let Some(Ok(table)) = strict.then(|| lumbrisse::read_to_vec(&source.bytes)) {
                remark::folded(source, &table);
            }
            outcome
        }
    }
}

fn recover(out: &mut impl Write, form: Form, strict: bool, source: &Source) -> Outcome {
    let answer = match strict {
        true => lumbrisse::recover_strict_to_vec(&source.bytes),
        false => lumbrisse::recover_to_vec(&source.bytes),
    };
    match answer {
        Ok(table) => told(out, form, source, &table),
        Err(refusal) => refused(out, form, source, refusal),
    }
}

/// What recovering reading says of a ledger that it has given rows for.
fn told(out: &mut impl Write, form: Form, source: &Source, table: &[u8]) -> Outcome {
    let written = match form {
        Form::Person => human::recovered(out, Paint::stdout(), source, table),
        Form::Rows => rows::list(out, Rows::new(table)),
        Form::Json => json::recovered(out, source, table),
    };
    let written = written.and_then(|()| out.flush());
    remark::lenient(source, table, "recover");
    // A line that starts with a digit starts a block, but a posting may lie within a string of a kept one.
    remark::folded(source, table);
    (written, recovered(table))
}

/// How a run ends that recovering reading has given rows for.
fn recovered(table: &[u8]) -> Status {
    match summary::refused_blocks(table).next() {
        None => Status::Accepted,
        Some(_) => Status::Refused,
    }
}

fn eval(out: &mut impl Write, form: Form, exact: bool, source: &Source) -> Outcome {
    let exactly = lumbrisse::expression_exact(&source.bytes);
    let answer = match exact {
        true => exactly,
        false => lumbrisse::expression(&source.bytes),
    };
    match answer {
        Ok(found) => {
            // What has another answer without rounding was rounded.
            let rounded = answer != exactly;
            let written = match form {
                Form::Json => json::evaluated(out, source, found, rounded),
                Form::Person | Form::Rows => {
                    human::unread(&mut io::stderr(), source, found.stop);
                    human::evaluated(out, source, found, rounded)
                }
            };
            (written, Status::Accepted)
        }
        Err(refusal) => refused(out, form, source, refusal),
    }
}

/// A call that was refused as a whole: for a program on standard output, for a person on standard error.
fn refused(
    out: &mut impl Write,
    form: Form,
    source: &Source,
    refusal: lumbrisse::Refusal,
) -> Outcome {
    let written = match form {
        Form::Json => json::refused(out, source, refusal),
        Form::Person | Form::Rows => {
            let err = &mut io::stderr();
            let _ = human::refused(err, Paint::stderr(), source, Known::START, refusal);
            Ok(())
        }
    };
    (written, Status::Refused)
}
