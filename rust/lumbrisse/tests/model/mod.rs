//! A model of single expressions that has nothing of the archive: the command's own walk over an expression, with
//! numbers that round or are refused at each operation as the rules say.

#[path = "../../src/cli/exact.rs"]
mod exact;
#[path = "../../src/cli/fraction.rs"]
mod fraction;

use exact::Number;
use fraction::Fraction;
use lumbrisse::{Evaluated, Refusal, SIZE_LIMIT};

/// What a call on a single expression answers.
pub type Answer = Result<Evaluated, Refusal>;

/// So many groups may be open around a place.
const GROUPS: usize = 32;

const MILLION: i128 = 1_000_000;

/// The largest value, in millionths.
const LIMIT: i128 = 999_999_999_999_999;

/// What the rounding form must answer; none where a number has more digits than the model's fractions hold.
pub fn rounding_form(text: &[u8]) -> Option<Answer> {
    answer::<true>(text)
}

/// What the exact form must answer, as [`rounding_form`].
pub fn exact_form(text: &[u8]) -> Option<Answer> {
    answer::<false>(text)
}

/// Whether the value that the exact form found is what fractions give that need not be whole millionths.
pub fn is_exact(text: &[u8], found: Evaluated) -> bool {
    let value = Fraction::new(found.value.into(), MILLION);
    text.get(..found.stop).and_then(exact::value) == value
}

fn answer<const ROUNDS: bool>(text: &[u8]) -> Option<Answer> {
    let refused = |number, place| {
        Some(Err(Refusal {
            number,
            place,
            count: 0,
        }))
    };
    if text.len() > SIZE_LIMIT {
        return refused(1, 0);
    }
    if let Some(place) = not_permitted(text) {
        return refused(2, place);
    }
    if let Some(place) = too_deep(text) {
        return refused(3, place);
    }
    let Some((Value(value), rest)) = exact::expression::<Value<ROUNDS>>(text) else {
        return refused(11, 0);
    };
    match value? {
        Err(number) => refused(number, 0),
        Ok(value) => Some(Ok(Evaluated {
            value: i64::try_from(value).ok()?,
            stop: text.len() - rest.len(),
        })),
    }
}

/// The first byte that is not permitted.
fn not_permitted(text: &[u8]) -> Option<usize> {
    let mut places = text.iter().enumerate();
    let found = places.find(|(place, byte)| match byte {
        b'\t' | b'\n' | b' '..=b'~' => false,
        b'\r' => text.get(place + 1) != Some(&b'\n'),
        _ => true,
    });
    found.map(|(place, _)| place)
}

/// Where a group opens inside 32 open ones. The walk knows no limit: it says whether a group may stand there by reading
/// all of the text before it with one, and with the 32 closed.
fn too_deep(text: &[u8]) -> Option<usize> {
    let mut open = 0usize;
    for (place, byte) in text.iter().enumerate() {
        match byte {
            b'(' if open == GROUPS => {
                let whole = [text.get(..place)?, b"(1)", &b")".repeat(GROUPS)].concat();
                let (_, rest) = exact::expression::<Option<Fraction>>(&whole)?;
                return rest.is_empty().then_some(place);
            }
            b'(' => open += 1,
            b')' => open = open.checked_sub(1)?,
            _ => {}
        }
    }
    None
}

/// A value in millionths, or a refusal's number; none where the fractions hold no more. Where `ROUNDS`, products and
/// quotients do.
#[derive(Clone, Copy)]
struct Value<const ROUNDS: bool>(Option<Result<i128, usize>>);

impl<const ROUNDS: bool> Number for Value<ROUNDS> {
    fn literal(text: &[u8]) -> Self {
        Value(Fraction::literal(text).and_then(exactly))
    }

    fn negated(self) -> Self {
        Value(self.0.map(|known| known.map(|value| -value)))
    }

    /// The left operand's refusal goes first, then the right one's, then the operation's own.
    fn operated(self, operator: u8, right: Self) -> Self {
        Value(match (self.0, right.0) {
            (Some(Ok(_)), Some(Ok(0))) if operator == b'/' => Some(Err(8)),
            (Some(Ok(left)), Some(Ok(right))) => {
                result(left, operator, right).and_then(|result| match ROUNDS {
                    true => Some(sized(nearest(result))),
                    false => exactly(result),
                })
            }
            (Some(Ok(_)), first) | (first, _) => first,
        })
    }
}

/// What an operator makes of two numbers of millionths.
fn result(left: i128, operator: u8, right: i128) -> Option<Fraction> {
    Fraction::new(left, MILLION)?.operated(operator, Fraction::new(right, MILLION)?)
}

/// Too large, then too fine.
fn exactly(number: Fraction) -> Option<Result<i128, usize>> {
    let Fraction { top, bottom } = number;
    let top = top.checked_mul(MILLION)?;
    Some(match top % bottom {
        _ if top.abs() > LIMIT.checked_mul(bottom)? => Err(6),
        0 => Ok(top / bottom),
        _ => Err(7),
    })
}

fn sized(value: i128) -> Result<i128, usize> {
    match value.abs() <= LIMIT {
        true => Ok(value),
        false => Err(6),
    }
}

/// The nearest millionth, and of two that are as near the even one.
fn nearest(number: Fraction) -> i128 {
    let Fraction { top, bottom } = number;
    let below = (top * MILLION).div_euclid(bottom);
    let twice = 2 * (top * MILLION).rem_euclid(bottom);
    let up = twice > bottom || twice == bottom && below % 2 != 0;
    below + i128::from(up)
}
