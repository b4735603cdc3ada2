//! The exact value of an expression that the reader has read.

use super::fraction::Fraction;

/// What the numbers of an expression are, and what is made of them. The command works with exact fractions; the tests
/// work as each of the reader's two forms must, and hold the reader against that.
pub trait Number: Sized {
    /// The number of a literal.
    fn literal(text: &[u8]) -> Self;
    /// The number with the other sign.
    fn negated(self) -> Self;
    /// What an operator makes of this number and the one to its right.
    fn operated(self, operator: u8, right: Self) -> Self;
}

/// None where a fraction is too large, or a divisor is zero: rounding can make another number of that divisor.
impl Number for Option<Fraction> {
    fn literal(text: &[u8]) -> Self {
        Fraction::literal(text)
    }

    fn negated(self) -> Self {
        self?.negated()
    }

    fn operated(self, operator: u8, right: Self) -> Self {
        self?.operated(operator, right?)
    }
}

/// The exact value of a text that is one expression.
pub fn value(text: &[u8]) -> Option<Fraction> {
    let (number, rest) = expression::<Option<Fraction>>(text)?;
    number.filter(|_| rest.is_empty())
}

/// What was read and what is left of the text, or none where nothing of the kind stands there.
type Read<'a, N> = Option<(N, &'a [u8])>;

/// An expression (rule 8). It nests as deep as the text does: the caller keeps the reader's limit.
pub fn expression<N: Number>(text: &[u8]) -> Read<'_, N> {
    negation(text).or_else(|| sum(text))
}

fn negation<N: Number>(text: &[u8]) -> Read<'_, N> {
    let (number, rest) = group::<N>(after_blanks(text.strip_prefix(b"-")?))?;
    Some((number.negated(), rest))
}

fn sum<N: Number>(text: &[u8]) -> Read<'_, N> {
    chain(text, b"+-", product)
}

fn product<N: Number>(text: &[u8]) -> Read<'_, N> {
    chain(text, b"*/", atom)
}

/// Operands with operators between them, from left to right. An operator without an operand is left.
fn chain<'a, N: Number>(
    text: &'a [u8],
    operators: &[u8],
    operand: fn(&'a [u8]) -> Read<'a, N>,
) -> Read<'a, N> {
    let (mut number, mut rest) = operand(text)?;
    while let Some((operator, behind)) = after_blanks(rest).split_first() {
        if !operators.contains(operator) {
            break;
        }
        let Some((right, left)) = operand(after_blanks(behind)) else {
            break;
        };
        number = number.operated(*operator, right);
        rest = left;
    }
    Some((number, rest))
}

fn atom<N: Number>(text: &[u8]) -> Read<'_, N> {
    literal(text).or_else(|| group(text))
}

fn group<N: Number>(text: &[u8]) -> Read<'_, N> {
    let (number, rest) = expression(after_blanks(text.strip_prefix(b"(")?))?;
    Some((number, after_blanks(rest).strip_prefix(b")")?))
}

/// A literal (rule 9).
fn literal<N: Number>(text: &[u8]) -> Read<'_, N> {
    let digits = after_blanks(text.strip_prefix(b"-").unwrap_or(text));
    let rest = after(digits, |byte| matches!(byte, b'0'..=b'9' | b'.' | b','));
    let read = text.get(..text.len().saturating_sub(rest.len()))?;
    let points = read.iter().filter(|byte| **byte == b'.').count();
    let reads = points <= 1 && read.iter().any(u8::is_ascii_digit) && !read.contains(&b'\t');
    reads.then(|| (N::literal(read), rest))
}

fn after_blanks(text: &[u8]) -> &[u8] {
    after(text, |byte| matches!(byte, b' ' | b'\t'))
}

/// What stands behind the bytes of a kind in front.
fn after(text: &[u8], of_kind: fn(u8) -> bool) -> &[u8] {
    let end = text.iter().position(|byte| !of_kind(*byte));
    text.get(end.unwrap_or(text.len())..).unwrap_or_default()
}
