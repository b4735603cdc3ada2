//! Fractions: exact numbers of any fineness.

/// A fraction in lowest terms, with a bottom above 0.
#[derive(Clone, Copy, Debug, PartialEq, Eq)]
pub struct Fraction {
    pub top: i128,
    pub bottom: i128,
}

impl Fraction {
    /// The fraction in lowest terms; none where the bottom is 0 or the numbers are too large.
    pub fn new(top: i128, bottom: i128) -> Option<Fraction> {
        let common = common(top.checked_abs()?, bottom.checked_abs()?);
        let signed = common.checked_mul(bottom.signum())?;
        Some(Fraction {
            top: top.checked_div(signed)?,
            bottom: bottom.checked_div(signed)?,
        })
    }

    /// The number of a literal: an optional minus, digits, at most one point. Blanks and commas in it are passed over.
    pub fn literal(text: &[u8]) -> Option<Fraction> {
        let point = text.iter().position(|byte| *byte == b'.');
        let point = point.unwrap_or(text.len());
        // Any number of zeros may stand at the end of the decimals, and they must not make the bottom larger.
        let last = text.iter().rposition(|byte| matches!(byte, b'1'..=b'9'));
        let end = last.unwrap_or(0).max(point);
        let (mut top, mut bottom) = (0i128, 1i128);
        for (place, byte) in text.iter().enumerate() {
            if byte.is_ascii_digit() && place <= end {
                top = top.checked_mul(10)?.checked_add(i128::from(byte & 15))?;
                bottom = bottom.checked_mul(if place > point { 10 } else { 1 })?;
            }
        }
        let sign = if text.starts_with(b"-") { -1 } else { 1 };
        Fraction::new(top.checked_mul(sign)?, bottom)
    }

    /// The fraction with the other sign.
    pub fn negated(self) -> Option<Fraction> {
        Fraction::new(self.top.checked_neg()?, self.bottom)
    }

    /// What `+`, `-`, `*` or `/` makes of two; none for a zero divisor, or where the numbers are too large.
    pub fn operated(self, operator: u8, right: Fraction) -> Option<Fraction> {
        let bottoms = self.bottom.checked_mul(right.bottom)?;
        let one = self.top.checked_mul(right.bottom)?;
        let two = right.top.checked_mul(self.bottom)?;
        match operator {
            b'+' => Fraction::new(one.checked_add(two)?, bottoms),
            b'-' => Fraction::new(one.checked_sub(two)?, bottoms),
            b'*' => Fraction::new(self.top.checked_mul(right.top)?, bottoms),
            _ => Fraction::new(one, two),
        }
    }
}

/// The greatest number that divides both.
fn common(mut one: i128, mut two: i128) -> i128 {
    while let Some(rest) = one.checked_rem(two) {
        (one, two) = (two, rest);
    }
    one
}
