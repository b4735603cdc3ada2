//! The calls that evaluate a single expression, and the words that name them.

use lumbrisse::{Evaluated, Refusal};

/// An engine in a form.
#[derive(Clone, Copy, Debug)]
pub enum Evaluator {
    /// The first engine, rounding.
    Rounding,
    /// The first engine, exact.
    Exact,
    /// The second engine, rounding.
    Stacked,
    /// The second engine, exact.
    StackedExact,
}

/// Each of them.
pub const ALL: [Evaluator; 4] = [
    Evaluator::Rounding,
    Evaluator::Exact,
    Evaluator::Stacked,
    Evaluator::StackedExact,
];

impl Evaluator {
    /// The one that a word names.
    pub fn named(word: &str) -> Option<Evaluator> {
        ALL.into_iter().find(|evaluator| evaluator.word() == word)
    }

    /// Its name among this program's words.
    pub fn word(self) -> &'static str {
        match self {
            Evaluator::Rounding => "expression",
            Evaluator::Exact => "exact",
            Evaluator::Stacked => "stacked",
            Evaluator::StackedExact => "stacked-exact",
        }
    }

    /// The call.
    pub fn call(self) -> fn(&[u8]) -> Result<Evaluated, Refusal> {
        match self {
            Evaluator::Rounding => lumbrisse::expression,
            Evaluator::Exact => lumbrisse::expression_exact,
            Evaluator::Stacked => lumbrisse::expression_stacked,
            Evaluator::StackedExact => lumbrisse::expression_stacked_exact,
        }
    }
}
