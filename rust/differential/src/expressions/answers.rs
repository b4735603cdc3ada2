//! What is answered to a text: by both engines and by the model, in both forms.

use std::fmt;

use lumbrisse::{expression, expression_exact, expression_stacked, expression_stacked_exact};

use crate::model::{self, Answer};

/// The answers in one form.
#[derive(Clone, Copy, Debug, PartialEq, Eq)]
pub struct Answers {
    /// The first engine's.
    pub first: Answer,
    /// The second engine's.
    pub stacked: Answer,
    /// The model's, where it has one.
    pub model: Option<Answer>,
}

impl Answers {
    fn differ(&self) -> bool {
        self.first != self.stacked || self.model.is_some_and(|model| model != self.first)
    }

    /// The first engine's number: that of the refusal, or 0.
    pub fn number(&self) -> usize {
        self.first.map_or_else(|refusal| refusal.number, |_| 0)
    }
}

/// The answers in both forms.
#[derive(Clone, Copy, Debug, PartialEq, Eq)]
pub struct InBothForms {
    /// In the rounding form.
    pub rounding: Answers,
    /// In the exact form.
    pub exact: Answers,
    /// Whether the exact form's value, if it gives one, is what fractions give that never round.
    pub is_exact: bool,
}

impl InBothForms {
    /// Asks all of them.
    pub fn to(text: &[u8]) -> InBothForms {
        let exact = expression_exact(text);
        InBothForms {
            rounding: Answers {
                first: expression(text),
                stacked: expression_stacked(text),
                model: model::rounding_form(text),
            },
            exact: Answers {
                first: exact,
                stacked: expression_stacked_exact(text),
                model: model::exact_form(text),
            },
            is_exact: exact.map_or(true, |found| model::is_exact(text, found)),
        }
    }

    /// Whether any two of them differ.
    pub fn differ(&self) -> bool {
        self.rounding.differ() || self.exact.differ() || !self.is_exact
    }

    /// Whether the model has an answer in both forms.
    pub fn modelled(&self) -> bool {
        self.rounding.model.is_some() && self.exact.model.is_some()
    }
}

impl fmt::Display for InBothForms {
    fn fmt(&self, f: &mut fmt::Formatter<'_>) -> fmt::Result {
        for (form, answers) in [("rounding", self.rounding), ("exact", self.exact)] {
            let model = answers.model.map_or("none".to_owned(), shown);
            writeln!(
                f,
                "  {form}: first {}; stacked {}; model {model}",
                shown(answers.first),
                shown(answers.stacked)
            )?;
        }
        match self.is_exact {
            true => Ok(()),
            false => writeln!(f, "  the exact form's value is not exact"),
        }
    }
}

fn shown(answer: Answer) -> String {
    match answer {
        Ok(found) => format!("{} up to {}", found.value, found.stop),
        Err(refusal) => format!("refusal {} at {}", refusal.number, refusal.place),
    }
}

#[cfg(test)]
mod tests {
    use lumbrisse::{Evaluated, Refusal};

    use super::{Answer, InBothForms};

    /// One of the engines' answers.
    type Of = fn(&mut InBothForms) -> &mut Answer;

    const ENGINES: [Of; 4] = [
        |answers| &mut answers.rounding.first,
        |answers| &mut answers.rounding.stacked,
        |answers| &mut answers.exact.first,
        |answers| &mut answers.exact.stacked,
    ];

    #[test]
    fn any_other_answer_differs() {
        for text in [&b"3*(1-2)+x"[..], b"((1", b"1/0", b"\0"] {
            let same = InBothForms::to(text);
            assert!(!same.differ() && same.modelled());
            let answer = same.rounding.first;
            let others = [
                answer.map(|found| Evaluated {
                    value: found.value + 1,
                    ..found
                }),
                answer.map(|found| Evaluated {
                    stop: found.stop + 1,
                    ..found
                }),
                answer.map_err(|refusal| Refusal {
                    number: refusal.number + 1,
                    ..refusal
                }),
                answer.map_err(|refusal| Refusal {
                    place: refusal.place + 1,
                    ..refusal
                }),
            ];
            for other in others.into_iter().filter(|other| *other != answer) {
                for engine in ENGINES {
                    let mut answers = same;
                    *engine(&mut answers) = other;
                    assert!(answers.differ(), "{answers}");
                }
            }
        }
    }
}
