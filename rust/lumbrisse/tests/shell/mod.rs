//! Runs the command `lumbrisse` as a shell does.

use std::io::Write;
use std::path::Path;
use std::process::{Command, Output, Stdio};

/// What cargo runs this test by, where it was built for another processor.
const RUNNER: &str = "CARGO_TARGET_X86_64_UNKNOWN_LINUX_GNU_RUNNER";

/// The command, run at the repository's root.
pub fn command(words: &[&str]) -> Command {
    let program = env!("CARGO_BIN_EXE_lumbrisse");
    let mut command = match std::env::var_os(RUNNER) {
        None => Command::new(program),
        Some(emulator) => {
            let mut command = Command::new(emulator);
            command.arg(program);
            command
        }
    };
    let root = Path::new(env!("CARGO_MANIFEST_DIR")).join("../..");
    command.current_dir(root).args(words);
    command
}

/// How a run ended, and what it wrote.
pub struct Ran {
    pub status: i32,
    pub out: String,
    pub err: String,
}

pub fn ran(output: Output) -> Ran {
    Ran {
        status: output.status.code().unwrap(),
        out: String::from_utf8(output.stdout).unwrap(),
        err: String::from_utf8(output.stderr).unwrap(),
    }
}

pub fn run(words: &[&str]) -> Ran {
    ran(command(words).stdin(Stdio::null()).output().unwrap())
}

pub fn run_on(input: &[u8], words: &[&str]) -> Ran {
    ran(output_on(input, words))
}

pub fn output_on(input: &[u8], words: &[&str]) -> Output {
    let mut child = command(words)
        .stdin(Stdio::piped())
        .stdout(Stdio::piped())
        .stderr(Stdio::piped())
        .spawn()
        .unwrap();
    child.stdin.take().unwrap().write_all(input).unwrap();
    child.wait_with_output().unwrap()
}
