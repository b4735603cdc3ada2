//! A fraction as a decimal, for a person.

use super::fraction::Fraction;

/// The decimals that a value has: what stands behind them is rounded away.
const KEPT: usize = 6;

/// How many digits of what is rounded away are shown, where it has no end.
const SHOWN: usize = 3;

/// So many decimals are looked at for an end.
const LOOKED_AT: usize = 40;

/// All of the decimal where it ends, else as much as tells what is rounded away, and `..`.
///
/// None where a number is too large.
pub fn of(number: Fraction) -> Option<String> {
    let sign = if number.top < 0 { "-" } else { "" };
    let bottom = number.bottom.unsigned_abs();
    let (whole, mut rest) = divided(number.top.unsigned_abs(), bottom)?;
    let mut decimals = String::new();
    while rest != 0 && decimals.len() < LOOKED_AT {
        let digit;
        (digit, rest) = divided(rest.checked_mul(10)?, bottom)?;
        decimals.push_str(&digit.to_string());
    }
    if rest != 0 {
        decimals = cut(&decimals);
    }
    let point = if decimals.is_empty() { "" } else { "." };
    Some(format!("{sign}{whole}{point}{decimals}"))
}

/// The quotient and the rest.
fn divided(size: u128, by: u128) -> Option<(u128, u128)> {
    Some((size.checked_div(by)?, size.checked_rem(by)?))
}

/// Decimals without end, cut behind the first digits that are rounded away and are not 0.
fn cut(decimals: &str) -> String {
    let away = decimals.bytes().skip(KEPT);
    let zeros = away.take_while(|digit| *digit == b'0').count();
    let length = KEPT.saturating_add(zeros).saturating_add(SHOWN);
    let front: String = decimals.chars().take(length).collect();
    front + ".."
}

#[cfg(test)]
mod tests {
    use super::of;
    use crate::cli::fraction::Fraction;

    fn shown(top: i128, bottom: i128) -> Option<String> {
        Fraction::new(top, bottom).and_then(of)
    }

    fn is(text: &str) -> Option<String> {
        Some(text.to_string())
    }

    #[test]
    fn a_decimal_that_ends_is_whole() {
        assert_eq!(shown(7, 1), is("7"));
        assert_eq!(shown(-1, 2_000_000), is("-0.0000005"));
        assert_eq!(shown(1, 1 << 20), is("0.00000095367431640625"));
    }

    #[test]
    fn a_decimal_without_end_is_cut() {
        assert_eq!(shown(-100, 3), is("-33.333333333.."));
        assert_eq!(shown(1, 3_000_000_000), is("0.000000000333.."));
        assert_eq!(
            shown(3_000_000_000_001, 3_000_000_000_000),
            is("1.000000000000333..")
        );
        // It ends at the 60th decimal, and nobody looks so far.
        assert_eq!(shown(1, 1 << 60), is("0.000000000000000000867.."));
    }

    #[test]
    fn a_number_may_be_too_large() {
        assert_eq!(shown(1, i128::MAX), None);
        assert_eq!(shown(1, 0), None);
    }
}
