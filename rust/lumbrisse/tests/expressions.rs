//! Made-up expressions through both engines of the real archive, each in both forms, beside the model.

mod dice;
mod edges;
mod model;

use std::collections::BTreeMap;

use dice::Dice;
use lumbrisse::{expression, expression_exact, expression_stacked, expression_stacked_exact};
use model::Answer;

const MADE: usize = 30_000;

fn blanks(dice: &mut Dice, text: &mut Vec<u8>) {
    text.extend_from_slice(dice.pick(&[b"", b"", b"", b" ", b"\t", b"  "]));
}

fn put_digits(dice: &mut Dice, count: usize, text: &mut Vec<u8>) {
    text.extend((0..count).map(|_| b'0' + dice.below(10) as u8));
}

fn put_literal(dice: &mut Dice, text: &mut Vec<u8>) {
    text.extend_from_slice(dice.pick(&[b"", b"", b"", b"", b"-", b"- "]));
    if dice.below(3) == 0 {
        return text.extend_from_slice(dice.pick(&edges::NUMBERS));
    }
    let whole = 1 + dice.below(9).min(dice.below(9));
    put_digits(dice, whole, text);
    text.push(b'.');
    let decimals = [0, 1, 2, 3, 4, 5, 6, 6, 6, 6, 6, 8][dice.below(12)];
    put_digits(dice, decimals, text);
}

/// An expression with groups at most so deep.
fn put_expression(dice: &mut Dice, depth: usize, text: &mut Vec<u8>) {
    if depth > 0 && dice.below(6) == 0 {
        text.push(b'-');
        blanks(dice, text);
        return put_group(dice, depth, text);
    }
    put_atom(dice, depth, text);
    while dice.below(2) == 0 {
        blanks(dice, text);
        text.extend_from_slice(dice.pick(&[b"+", b"-", b"*", b"*", b"/", b"/"]));
        blanks(dice, text);
        put_atom(dice, depth, text);
    }
}

fn put_atom(dice: &mut Dice, depth: usize, text: &mut Vec<u8>) {
    if depth > 0 && dice.below(5) == 0 {
        put_group(dice, depth, text);
    } else {
        put_literal(dice, text);
    }
}

fn put_group(dice: &mut Dice, depth: usize, text: &mut Vec<u8>) {
    text.push(b'(');
    blanks(dice, text);
    put_expression(dice, depth - 1, text);
    blanks(dice, text);
    text.push(b')');
}

/// Groups nested 30 to 40 deep: each stands first, behind operators, or negated.
fn put_deep_groups(dice: &mut Dice, text: &mut Vec<u8>) {
    let depth = 30 + dice.below(11);
    for _ in 0..depth {
        text.extend_from_slice(dice.pick(&[b"", b"", b"-", b"- ", b"3+", b"2 *\t", b"1-8/"]));
        text.push(b'(');
        blanks(dice, text);
    }
    put_literal(dice, text);
    for _ in 0..depth {
        blanks(dice, text);
        text.push(b')');
    }
}

/// An expression, with deep groups or a changed byte now and then.
fn made(dice: &mut Dice) -> Vec<u8> {
    let mut text = Vec::new();
    match dice.below(20) {
        0 => put_deep_groups(dice, &mut text),
        _ => put_expression(dice, 3, &mut text),
    }
    if dice.below(8) == 0 {
        let place = dice.below(text.len());
        text[place] = dice.pick(&[b" -+*/().,09\tE\0"])[dice.below(14)];
    }
    text
}

/// The refusal's number, or 0.
fn number(answer: Answer) -> usize {
    answer.map_or_else(|refusal| refusal.number, |_| 0)
}

#[test]
fn both_engines_answer_as_the_model_does_in_both_forms() {
    let mut dice = Dice(0xD1B5_4A32_D192_ED03);
    let mut seen = BTreeMap::new();
    for _ in 0..MADE {
        let text = made(&mut dice);
        let shown = String::from_utf8_lossy(&text);
        let rounding = model::rounding_form(&text).unwrap();
        assert_eq!(expression(&text), rounding, "{shown:?}");
        assert_eq!(expression_stacked(&text), rounding, "{shown:?} stacked");
        let exact = model::exact_form(&text).unwrap();
        assert_eq!(expression_exact(&text), exact, "{shown:?} exact");
        let stacked = expression_stacked_exact(&text);
        assert_eq!(stacked, exact, "{shown:?} stacked, exact");
        assert!(!exact.is_ok_and(|found| !model::is_exact(&text, found)));
        *seen.entry((number(rounding), number(exact))).or_insert(0) += 1;
    }
    println!("numbers of both forms: {seen:?}");
    for numbers in [
        (0, 0),
        (0, 6),
        (0, 7),
        (2, 2),
        (3, 3),
        (6, 6),
        (6, 7),
        (7, 7),
        (8, 7),
        (8, 8),
        (11, 11),
    ] {
        assert!(seen.contains_key(&numbers), "never met: {numbers:?}");
    }
}
