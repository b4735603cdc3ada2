//! Counts the instructions of a program's run.

use std::ffi::OsStr;
use std::io;
use std::path::PathBuf;
use std::process::{Command, Output, Stdio};

/// What counts.
pub enum Counter {
    /// The machine itself, by `perf stat`.
    Perf,
    /// valgrind's callgrind.
    Callgrind,
    /// A counting plugin of qemu.
    Qemu(PathBuf),
}

impl Counter {
    /// The given plugin, or what this machine permits.
    pub fn found(plugin: Option<PathBuf>) -> Counter {
        match plugin {
            Some(file) => Counter::Qemu(file),
            None if Counter::Perf.count(OsStr::new("true"), &[]).is_ok() => Counter::Perf,
            None => Counter::Callgrind,
        }
    }

    /// The counter in words.
    pub fn name(&self) -> &'static str {
        match self {
            Counter::Perf => "perf stat (instructions:u)",
            Counter::Callgrind => "valgrind's callgrind",
            Counter::Qemu(_) => "qemu with a counting plugin",
        }
    }

    /// The instructions that the program takes with these words.
    pub fn count(&self, program: &OsStr, words: &[&OsStr]) -> io::Result<u64> {
        let mut command = match self {
            Counter::Perf => {
                let mut command = Command::new("perf");
                command.args(["stat", "-x", " ", "-e", "instructions:u", "--"]);
                command
            }
            Counter::Callgrind => {
                let mut command = Command::new("valgrind");
                command.args(["--tool=callgrind", "--callgrind-out-file=/dev/null"]);
                command
            }
            Counter::Qemu(plugin) => {
                let mut command = Command::new("qemu-x86_64");
                command.arg("-plugin").arg(plugin).args(["-d", "plugin"]);
                command
            }
        };
        let output = command
            .arg(program)
            .args(words)
            .stdin(Stdio::null())
            .output()?;
        self.read(&output).ok_or_else(|| {
            let said = String::from_utf8_lossy(&output.stderr).into_owned();
            io::Error::other(format!("{} gives no count: {said}", self.name()))
        })
    }

    /// The instructions of one call: those of a run with the words and one, less those of a run with none.
    pub fn one(&self, program: &OsStr, words: &[&OsStr]) -> io::Result<u64> {
        let counted = |count| self.count(program, &[words, &[OsStr::new(count)]].concat());
        Ok(counted("1")?.saturating_sub(counted("0")?))
    }

    /// The count in what a counter wrote.
    fn read(&self, output: &Output) -> Option<u64> {
        let text = String::from_utf8_lossy(&output.stderr);
        let mut lines = text.lines();
        let found = match self {
            Counter::Perf => lines.next_back()?.split(' ').next(),
            Counter::Callgrind => lines
                .find_map(|line| line.split_once("Collected :"))
                .map(|(_, rest)| rest),
            Counter::Qemu(_) => lines.find_map(|line| line.strip_prefix("insns:")),
        };
        found?.trim().parse().ok()
    }
}
