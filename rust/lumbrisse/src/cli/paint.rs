//! Colour, for terminals only.

use std::env;
use std::io::{self, IsTerminal};

/// Whether what is written may hold colour.
#[derive(Clone, Copy)]
pub struct Paint {
    on: bool,
}

impl Paint {
    /// Colour for standard output.
    pub fn stdout() -> Paint {
        Paint::on(&io::stdout())
    }

    /// Colour for standard error.
    pub fn stderr() -> Paint {
        Paint::on(&io::stderr())
    }

    /// Only where a person looks, who has not asked for none by `NO_COLOR`.
    fn on(to: &impl IsTerminal) -> Paint {
        let declined = env::var_os("NO_COLOR").is_some_and(|value| !value.is_empty());
        Paint {
            on: to.is_terminal() && !declined,
        }
    }

    /// A refusal.
    pub fn red(self, text: &str) -> String {
        self.coded("31;1", text)
    }

    /// An acceptance.
    pub fn green(self, text: &str) -> String {
        self.coded("32;1", text)
    }

    /// Where something stands.
    pub fn bold(self, text: &str) -> String {
        self.coded("1", text)
    }

    fn coded(self, code: &str, text: &str) -> String {
        if self.on {
            format!("\x1b[{code}m{text}\x1b[0m")
        } else {
            text.to_string()
        }
    }
}
